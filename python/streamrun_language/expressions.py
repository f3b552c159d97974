"""Expressions of lambdas, as the grammar gives them: their operands, their types, and their text in Python.

`at` is the place of a node in the job's text: its operator, or its first token.
"""
from __future__ import annotations

from dataclasses import dataclass
from typing import Iterator, List, Mapping, Optional, Sequence

from .tokens import key_of
from .values import BINARY, CALLS, CONSTANTS, MAX, UNARY, Form

# What stands before the name of a parameter in Python, where it might be a reserved word.
VARIABLE = 'of_'
# The names of an item's place and of the table in Python.
PLACE, COLUMNS = 'place', 'columns'


@dataclass
class Node:
    """A node. Without a method of its own it is an integer without operands."""

    at: int

    def parts(self) -> Sequence[Node]:
        """Its operands, from the left."""
        return ()

    def type_of(self, types: Sequence[Optional[str]]) -> Optional[str]:
        """'long', 'boolean' or 'stream' by the types of its operands, or None if one of them is wrong."""
        return 'long'

    def python(self, texts: Sequence[str], numbers: Mapping[str, int]) -> str:
        """Its text in Python by the texts of its operands; numbers: the value of each job that a lambda names. Beside the
        parameters it may use PLACE, and COLUMNS, the table."""
        raise NotImplementedError


@dataclass
class Number(Node):
    """A number; `after_minus` says whether a unary minus stands directly before it."""

    value: int
    after_minus: bool = False

    def is_too_large(self) -> bool:
        """Whether it is outside 64 bits: 2^63 has a place after a minus alone."""
        return self.value > MAX and not (self.value == MAX + 1 and self.after_minus)

    def python(self, texts, numbers):
        return str(self.value)


@dataclass
class Name(Node):
    """A name; only a parameter has a value."""

    text: str

    def python(self, texts, numbers):
        return VARIABLE + self.text


@dataclass
class Reference(Node):
    """The number of a job above."""

    text: str

    def python(self, texts, numbers):
        return f'({numbers[self.text]})'


@dataclass
class Cell(Node):
    """The cell of another column, in the row that the item came from; `at` is the place of the string that names it."""

    text: str
    places: int

    def python(self, texts, numbers):
        return f'{COLUMNS}[{key_of(self.text, self.places)!r}][{PLACE}]'


class Row(Node):
    """The place of the item."""

    def python(self, texts, numbers):
        return PLACE


@dataclass
class Truth(Node):
    """`true` or `false`."""

    text: str

    def type_of(self, types):
        return 'boolean'

    def python(self, texts, numbers):
        return self.text.title()


@dataclass
class Constant(Node):
    """A constant of Long, like `Long.MAX_VALUE`."""

    name: str

    def python(self, texts, numbers):
        return f'({CONSTANTS[self.name]})'


@dataclass
class Group(Node):
    """An expression in parentheses."""

    inner: Node

    def parts(self):
        return (self.inner,)

    def type_of(self, types):
        return types[0]

    def python(self, texts, numbers):
        return texts[0]


@dataclass
class Applied(Node):
    """An operator or a method with its operands."""

    name: str
    operands: List[Node]

    def parts(self):
        return self.operands

    def form(self) -> Form:
        """What it takes and gives."""
        raise NotImplementedError

    def type_of(self, types):
        form = self.form()
        fits = len(types) == form.count and all(it == form.takes for it in types)
        return form.gives if fits else None

    def python(self, texts, numbers):
        return self.form().python.format(*texts)


class Unary(Applied):
    """An operator before its operand."""

    def form(self):
        return UNARY[self.name]


class Binary(Applied):
    """An operator between its operands."""

    def form(self):
        return BINARY[self.name]


class Call(Applied):
    """A method, like `Math.abs`, with its operands."""

    def form(self):
        return CALLS[self.name]


@dataclass
class Choice(Node):
    """`condition ? first : second`."""

    condition: Node
    first: Node
    second: Node

    def parts(self):
        return (self.condition, self.first, self.second)

    def type_of(self, types):
        return types[1] if types[0] == 'boolean' and types[1] == types[2] else None

    def python(self, texts, numbers):
        return f'({texts[1]} if {texts[0]} else {texts[2]})'


@dataclass
class Stream(Node):
    """An inner stream, the body of a lambda of `flatMap`."""

    name: str
    operands: List[Node]

    def parts(self):
        return self.operands

    def type_of(self, types):
        return 'stream' if all(it == 'long' for it in types) else None

    def python(self, texts, numbers):
        if self.name in ('range', 'rangeClosed'):
            return 'inner_range({}, {}{})'.format(*texts, ' + 1' if self.name == 'rangeClosed' else '')
        return f'({"".join(text + ", " for text in texts)})'


def nodes_of(node: Node) -> Iterator[Node]:
    """A node and all below it, operands from the left."""
    waiting = [node]
    while waiting:
        node = waiting.pop()
        yield node
        waiting.extend(reversed(node.parts()))


def deeper_than(node: Node, most: int) -> Optional[Node]:
    """The first node that lies deeper, or None."""
    waiting = [(node, 1)]
    while waiting:
        node, depth = waiting.pop()
        if depth > most:
            return node
        waiting.extend((part, depth + 1) for part in reversed(node.parts()))
    return None


def type_of(node: Node) -> Optional[str]:
    """'long', 'boolean' or 'stream', or None if an operand is of the wrong type or there is a wrong number of them."""
    return node.type_of([type_of(part) for part in node.parts()])


def ill_typed(node: Node) -> Optional[Node]:
    """The first node whose operands are well typed and don't fit it, or None."""
    for part in node.parts():
        found = ill_typed(part)
        if found:
            return found
    return node if type_of(node) is None else None


def python_of(node: Node, numbers: Mapping[str, int]) -> str:
    """An expression as Python writes it."""
    return node.python([python_of(part, numbers) for part in node.parts()], numbers)


def without_groups(node: Node) -> Node:
    """What stands in a node's parentheses, however many there are."""
    while isinstance(node, Group):
        node = node.inner
    return node
