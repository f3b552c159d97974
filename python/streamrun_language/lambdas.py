"""Lambdas: which expression a text spells, or why it is refused.

    read_lambda(argument, want, version)     a Lambda, or Refused
    Lambda.function(numbers, columns)        a function of a place and its parameters, which may raise Fault
"""
from __future__ import annotations

import sys
from contextlib import contextmanager
from dataclasses import dataclass
from enum import Enum
from typing import Any, Callable, Iterator, List, Mapping, Sequence

from . import expressions as e
from .refusals import Cause, Refused, Wanted
from .tokens import Kind, Reader, Token, cut
from .values import BINDS, CALLS, CONSTANTS, FUNCTIONS

MOST_TOKENS, MOST_DEPTH, MOST_INNER_VALUES = 4096, 64, 64
RESERVED = {'Math', 'Long', 'LongStream', 'long', 'true', 'false'}
# The words that no parameter has from version 3 on, where they stand before parentheses.
WITH_ROWS, WORDS_OF_ROWS = 3, {'cell', 'row'}
STREAMS = ('range', 'rangeClosed', 'of', 'empty')
DEEP = 60000


class Want(Enum):
    """What a lambda has to give; a pair has two parameters and gives an integer."""

    LONG = 'long'
    BOOLEAN = 'boolean'
    STREAM = 'stream'
    PAIR = 'pair'


@dataclass
class Argument:
    """An argument of an operation: its bytes stand from start to end in the job's text, and are these tokens."""

    start: int
    end: int
    tokens: Sequence[Token]

    @staticmethod
    def of(text: bytes) -> Argument:
        """A text by itself."""
        return Argument(0, len(text), cut(text))


@contextmanager
def deep_recursion() -> Iterator[None]:
    """Lets the reader go down as deep as the parentheses of any lambda."""
    before = sys.getrecursionlimit()
    sys.setrecursionlimit(max(before, DEEP))
    try:
        yield
    finally:
        sys.setrecursionlimit(before)


class LambdaReader(Reader):
    """The grammar of lambdas."""

    def __init__(self, argument: Argument, version: int):
        super().__init__(argument.tokens, argument.end)
        self.start = argument.start
        self.of_rows = WORDS_OF_ROWS if version >= WITH_ROWS else set()

    def refusal(self, at, wanted):
        return Refused(Cause.EXPRESSION_SYNTAX, at, wanted, column=at - self.start + 1)

    def parameter(self, wanted: Wanted = Wanted.PARAMETER, other_than: str = '') -> str:
        """The name of a parameter."""
        if self.peek() in RESERVED | self.of_rows or self.peek() == other_than:
            self.refuse(wanted)
        return self.take(Kind.NAME, wanted).text

    def head(self) -> List[str]:
        """A parameter and the arrow."""
        if self.has('('):
            self.has('long')
            names = [self.parameter()]
            self.want(')', Wanted.CLOSE)
        else:
            names = [self.parameter()]
        self.want('->', Wanted.ARROW)
        return names

    def pair(self) -> List[str]:
        """Two parameters and the arrow."""
        self.want('(', Wanted.PAIR)
        is_typed = self.has('long')
        first = self.parameter()
        self.want(',', Wanted.COMMA)
        if is_typed:
            self.want('long', Wanted.PARAMETER)
        names = [first, self.parameter(other_than=first)]
        self.want(')', Wanted.CLOSE)
        self.want('->', Wanted.ARROW)
        return names

    def expression(self) -> e.Node:
        """An expression of any operators."""
        condition = self.binary(0)
        token = self.token()
        if not self.has('?'):
            return condition
        first = self.expression()
        self.want(':', Wanted.COLON)
        return e.Choice(token.start, condition, first, self.expression())

    def binary(self, least: int) -> e.Node:
        """An expression whose operators bind at least so tightly."""
        left = self.unary()
        while BINDS.get(self.peek(), -1) >= least:
            operator = self.take(Kind.SYMBOL, Wanted.OPERATOR_OR_END)
            left = e.Binary(operator.start, operator.text, [left, self.binary(BINDS[operator.text] + 1)])
        return left

    def unary(self) -> e.Node:
        """An operand with the operators before it."""
        if self.peek() not in ('-', '+', '~', '!'):
            return self.operand()
        operator = self.take(Kind.SYMBOL, Wanted.OPERAND)
        inner = self.unary()
        if operator.text == '-' and isinstance(inner, e.Number):
            inner.after_minus = True
        return e.Unary(operator.start, operator.text, [inner])

    def operand(self) -> e.Node:
        """What stands between operators."""
        token = self.token()
        if token is None:
            self.refuse(Wanted.OPERAND)
        if self.has('('):
            inner = self.expression()
            self.want(')', Wanted.OPERATOR_OR_CLOSE)
            return e.Group(token.start, inner)
        if token.kind is Kind.NUMBER:
            return e.Number(token.start, int(self.take(Kind.NUMBER, Wanted.OPERAND).text.rstrip('Ll')))
        if token.kind is Kind.REFERENCE:
            self.next += 1
            return e.Reference(token.start, token.text[1:])
        return self.named(self.take(Kind.NAME, Wanted.OPERAND))

    def named(self, token: Token) -> e.Node:
        """An operand that begins with a name."""
        if token.text in ('true', 'false'):
            return e.Truth(token.start, token.text)
        if token.text in ('Math', 'Long'):
            self.want('.', Wanted.MEMBER)
            name = f'{token.text}.{self.take(Kind.NAME, Wanted.MEMBER).text}'
            if token.text == 'Long' and self.peek() != '(':
                return e.Constant(token.start, name)
            self.want('(', Wanted.METHOD_OPEN)
            return e.Call(token.start, name, self.operands())
        if token.text in RESERVED:
            self.next -= 1
            self.refuse(Wanted.OPERAND)
        return self.of_row(token) if token.text in self.of_rows else e.Name(token.start, token.text)

    def of_row(self, token: Token) -> e.Node:
        """A cell or the place of the item."""
        if token.text == 'row':
            self.want('(', Wanted.ROW_OPEN)
            self.want(')', Wanted.ROW_OPEN)
            return e.Row(token.start)
        self.want('(', Wanted.CELL_OPEN)
        column = self.take(Kind.STRING, Wanted.STRING)
        places = self.places()
        self.want(')', Wanted.CLOSE)
        return e.Cell(column.start, column.text[1:-1], places)

    def operands(self) -> List[e.Node]:
        """One operand or more, and the parenthesis after them."""
        found = [self.expression()]
        while self.has(','):
            found.append(self.expression())
        self.want(')', Wanted.OPERATOR_OR_CLOSE)
        return found

    def stream(self) -> e.Stream:
        """An inner stream."""
        token = self.take(Kind.NAME, Wanted.STREAM)
        if token.text == 'LongStream':
            self.want('.', Wanted.STREAM)
            token = self.take(Kind.NAME, Wanted.STREAM)
        if token.text not in STREAMS:
            self.next -= 1
            self.refuse(Wanted.STREAM)
        self.want('(', Wanted.OPEN)
        if token.text in ('range', 'rangeClosed'):
            first = self.expression()
            self.want(',', Wanted.COMMA)
            operands = [first, self.expression()]
            self.want(')', Wanted.OPERATOR_OR_CLOSE)
        elif token.text == 'empty' or self.peek() == ')':
            operands = []
            self.want(')', Wanted.CLOSE)
        else:
            operands = self.operands()
        return e.Stream(token.start, token.text, operands)

    def body(self, want: Want) -> e.Node:
        """The body, which ends with the text."""
        body = self.stream() if want is Want.STREAM else self.expression()
        if self.next < len(self.tokens):
            self.refuse(Wanted.STREAM_END if want is Want.STREAM else Wanted.OPERATOR_OR_END)
        return body


@dataclass
class Lambda:
    """A lambda that is accepted."""

    parameters: List[str]
    body: e.Node

    def references(self) -> List[e.Reference]:
        """The jobs that it names, in order of writing."""
        return [node for node in e.nodes_of(self.body) if isinstance(node, e.Reference)]

    def cells(self) -> List[e.Cell]:
        """The cells that it names, in order of writing."""
        return [node for node in e.nodes_of(self.body) if isinstance(node, e.Cell)]

    def function(self, numbers: Mapping[str, int], columns: Mapping[str, Sequence[int]]) -> Callable[..., Any]:
        """Its value at the place of an item and an integer for each parameter; numbers has the value of each job that it
        names, columns the cells of each column."""
        parameters = ', '.join([e.PLACE, *(e.VARIABLE + name for name in self.parameters)])
        return eval(f'lambda {parameters}: {e.python_of(self.body, numbers)}', {**FUNCTIONS, e.COLUMNS: columns})


def demand_small(body: e.Node) -> None:
    """Refuses a number outside 64 bits, and then what is nested too deep."""
    for node in e.nodes_of(body):
        if isinstance(node, e.Number) and node.is_too_large():
            raise Refused(Cause.LITERAL_TOO_LARGE, node.at, about=node)
    deep = e.deeper_than(body, MOST_DEPTH)
    if deep:
        raise Refused(Cause.TOO_DEEP, deep.at, about=MOST_DEPTH)
    if isinstance(body, e.Stream) and body.name == 'of' and len(body.operands) > MOST_INNER_VALUES:
        raise Refused(Cause.TOO_DEEP, body.operands[MOST_INNER_VALUES].at, about=body)


def demand_known(body: e.Node, parameters: Sequence[str]) -> None:
    """Refuses a name that is no parameter, no method and no constant."""
    known = {e.Name: parameters, e.Call: CALLS, e.Constant: CONSTANTS}
    for node in e.nodes_of(body):
        if type(node) in known and (node.text if isinstance(node, e.Name) else node.name) not in known[type(node)]:
            raise Refused(Cause.UNKNOWN_NAME, node.at, about=node)


def demand_typed(body: e.Node, want: Want) -> None:
    """Refuses an operand, or a whole body, of the wrong type."""
    given = e.type_of(body)
    if given is None:
        node = e.ill_typed(body)
        raise Refused(Cause.WRONG_TYPE, node.at, about=node)
    if given != ('long' if want is Want.PAIR else want.value):
        raise Refused(Cause.WRONG_TYPE, min(node.at for node in e.nodes_of(body)), about=want)


def read_lambda(argument: Argument, want: Want, version: int = 2) -> Lambda:
    """The lambda that an argument spells in a file of this version."""
    if len(argument.tokens) > MOST_TOKENS:
        raise Refused(Cause.TOO_DEEP, argument.tokens[MOST_TOKENS].start, about=MOST_TOKENS)
    reader = LambdaReader(argument, version)
    with deep_recursion():
        parameters = reader.pair() if want is Want.PAIR else reader.head()
        body = reader.body(want)
    demand_small(body)
    demand_known(body, parameters)
    demand_typed(body, want)
    return Lambda(parameters, body)
