"""Operators of `reduce` and `prefix`: their values, identities and spellings."""
from __future__ import annotations

from dataclasses import dataclass
from typing import Callable, Optional, Tuple

from . import expressions as e
from .lambdas import Argument, Want, read_lambda
from .refusals import Cause, Refused
from .tokens import Kind
from .values import MAX, MIN, wrap


@dataclass(frozen=True)
class Operator:
    """An operator: its value of two integers, and its identity, if it has one."""

    name: str
    function: Optional[Callable[[int, int], int]]
    identity: Optional[int]


def affine(f: int, g: int) -> int:
    """Two maps, one after the other: a value of 64 bits is the map from y to a * y + b modulo 2^32."""
    (a, b), (c, d) = divmod(f % 2 ** 64, 2 ** 32), divmod(g % 2 ** 64, 2 ** 32)
    return wrap(a * c % 2 ** 32 * 2 ** 32 + (b * c + d) % 2 ** 32)


OPERATORS = {it.name: it for it in [
    Operator('sum', lambda f, g: wrap(f + g), 0), Operator('product', lambda f, g: wrap(f * g), 1),
    Operator('min', min, MAX), Operator('max', max, MIN), Operator('and', lambda f, g: f & g, -1),
    Operator('or', lambda f, g: f | g, 0), Operator('xor', lambda f, g: f ^ g, 0), Operator('affine', affine, 2 ** 32),
    Operator('first', lambda f, g: f, None), Operator('last', lambda f, g: g, None)]}
# The addition of exact sums is none of the operators: it stands in reduce(0, ..) alone.
EXACT = Operator('Math::addExact', None, 0)
METHODS = {'Math::addExact': EXACT.name, 'Long::sum': 'sum', 'Long::min': 'min', 'Math::min': 'min', 'Long::max': 'max',
           'Math::max': 'max'}
# What the body of a lambda may be, 0 and 1 being its first and its second parameter.
BODIES = {'0 + 1': 'sum', '0 * 1': 'product', '0 & 1': 'and', '0 | 1': 'or', '0 ^ 1': 'xor', '0': 'first', '1': 'last',
          'Long.sum(0, 1)': 'sum', 'Math.min(0, 1)': 'min', 'Long.min(0, 1)': 'min', 'Math.max(0, 1)': 'max',
          'Long.max(0, 1)': 'max', 'Math.addExact(0, 1)': EXACT.name}


def shape_of(node: e.Node, parameters: Tuple[str, ...]) -> Optional[str]:
    """A body as BODIES writes it, or None for what can't stand there."""
    node = e.without_groups(node)
    if isinstance(node, e.Name):
        return str(parameters.index(node.text))
    operands = [e.without_groups(it) for it in node.parts()]
    if len(operands) != 2 or not all(isinstance(it, e.Name) for it in operands):
        return None
    first, second = [parameters.index(it.text) for it in operands]
    return f'{node.name}({first}, {second})' if isinstance(node, e.Call) else f'{first} {node.name} {second}'


def read_operator(argument: Argument, version: int = 2) -> Operator:
    """The operator that an argument spells in a file of this version."""
    kinds = [token.kind for token in argument.tokens]
    words = [token.text for token in argument.tokens]
    about = None
    if kinds == [Kind.NAME]:
        name = words[0]
    elif kinds == [Kind.NAME, Kind.SYMBOL, Kind.NAME] and words[1] == '::':
        name = METHODS.get(''.join(words))
    else:
        about = read_lambda(argument, Want.PAIR, version)
        name = BODIES.get(shape_of(about.body, about.parameters))
    if name == EXACT.name:
        return EXACT
    if name not in OPERATORS:
        raise Refused(Cause.OPERATOR_NOT_LISTED, argument.tokens[0].start, about=about)
    return OPERATORS[name]
