"""Integers of 64 bits: what operators, methods and constants of the language give."""
from __future__ import annotations

from typing import Dict, NamedTuple

MIN, MAX = -2 ** 63, 2 ** 63 - 1
LONGEST_SOURCE = 2 ** 62


class Fault(Exception):
    """A value that isn't there. The argument is the kind of the fault."""


def wrap(value: int) -> int:
    """The integer of 64 bits that differs by a multiple of 2^64."""
    return (value + 2 ** 63) % 2 ** 64 - 2 ** 63


def divide(a: int, b: int) -> int:
    """The quotient, rounded toward zero."""
    if b == 0:
        raise Fault('divide-by-zero')
    quotient = abs(a) // abs(b)
    return wrap(quotient if (a < 0) == (b < 0) else -quotient)


def remainder(a: int, b: int) -> int:
    """What `divide` leaves, with the sign of the dividend."""
    return wrap(a - divide(a, b) * b)


def floor_divide(a: int, b: int) -> int:
    """The quotient, rounded down."""
    if b == 0:
        raise Fault('divide-by-zero')
    return wrap(a // b)


def floor_mod(a: int, b: int) -> int:
    """What `floor_divide` leaves."""
    return wrap(a - floor_divide(a, b) * b)


def exact(value: int) -> int:
    """The value, if it fits into 64 bits."""
    if not MIN <= value <= MAX:
        raise Fault('overflow')
    return value


def inner_range(start: int, end: int) -> range:
    """The values of an inner stream from start up to, but not including, end."""
    if end - start > LONGEST_SOURCE:
        raise Fault('source-too-long')
    return range(start, end)


def unsigned_shift(a: int, count: int) -> int:
    """A shift to the right that fills with zeros."""
    return wrap((a % 2 ** 64) >> (count & 63))


# What the text of a lambda in Python may call.
FUNCTIONS = {it.__name__: it for it in
             (wrap, divide, remainder, floor_divide, floor_mod, exact, inner_range, unsigned_shift)}


class Form(NamedTuple):
    """An operator or a method: the types of its operands and of its value, and the value as Python writes it."""

    takes: str
    gives: str
    python: str
    count: int = 2


# Binary operators, weakest binding first.
LEVELS = ['||', '&&', '|', '^', '&', '== !=', '< <= > >=', '<< >> >>>', '+ -', '* / %']
BINDS = {operator: level for level, operators in enumerate(LEVELS) for operator in operators.split()}
BINARY: Dict[str, Form] = {
    '||': Form('boolean', 'boolean', '({} or {})'), '&&': Form('boolean', 'boolean', '({} and {})'),
    **{it: Form('long', 'boolean', '({} %s {})' % it) for it in '== != < <= > >='.split()},
    **{it: Form('long', 'long', '({} %s {})' % it) for it in '| ^ &'.split()},
    **{it: Form('long', 'long', 'wrap({} %s {})' % it) for it in '+ - *'.split()},
    '<<': Form('long', 'long', 'wrap({} << ({} & 63))'), '>>': Form('long', 'long', '({} >> ({} & 63))'),
    '>>>': Form('long', 'long', 'unsigned_shift({}, {})'), '/': Form('long', 'long', 'divide({}, {})'),
    '%': Form('long', 'long', 'remainder({}, {})'),
}
UNARY = {'-': Form('long', 'long', 'wrap(-{})', 1), '+': Form('long', 'long', '({})', 1),
         '~': Form('long', 'long', '(~{})', 1), '!': Form('boolean', 'boolean', '(not {})', 1)}
CALLS = {
    'Math.abs': Form('long', 'long', 'wrap(abs({}))', 1), 'Math.negateExact': Form('long', 'long', 'exact(-{})', 1),
    'Math.min': Form('long', 'long', 'min({}, {})'), 'Math.max': Form('long', 'long', 'max({}, {})'),
    'Long.min': Form('long', 'long', 'min({}, {})'), 'Long.max': Form('long', 'long', 'max({}, {})'),
    'Long.sum': Form('long', 'long', 'wrap({} + {})'),
    'Math.floorDiv': Form('long', 'long', 'floor_divide({}, {})'), 'Math.floorMod': Form('long', 'long', 'floor_mod({}, {})'),
    'Math.addExact': Form('long', 'long', 'exact({} + {})'), 'Math.subtractExact': Form('long', 'long', 'exact({} - {})'),
    'Math.multiplyExact': Form('long', 'long', 'exact({} * {})'),
}
CONSTANTS = {'Long.MAX_VALUE': MAX, 'Long.MIN_VALUE': MIN}
