"""Hints on texts that aren't in the grammar of lambdas."""
from __future__ import annotations

import re
from typing import Collection, Tuple

from . import java_words
from .choice_hints import bare_lambda, bare_text, half_side, number_or_other
from .lambdas import RESERVED, STREAMS
from .operands import TERMS, asked_for, call_at, closing, instead, opening, operand_end, start_of, text, without
from .refusals import Wanted
from .row_hints import OTHER_CELL
from .site import Rule, Site
from .syntax import OPERATIONS
from .tokens import SYMBOLS, Kind
from .values import BINDS, CALLS

NO_GAPS = 'Each item is a number, and a blank cell is what --blank says'
OPERATES = {*BINDS, '!', '~', '?', ':'}


def method_of(name: str) -> str:
    """The method of Math or Long that has this name, or nothing."""
    known = {**dict.fromkeys(CALLS), **java_words.METHODS}
    return next((it for it in known if it.split('.')[1].lower() == name.lower()), '')


def parted_symbol(site: Site) -> str:
    """A symbol of two parts with a blank between them, or nothing."""
    both = site.word(-1) + site.word()
    return both if both in SYMBOLS and both not in ('++', '--') and not site.touches() and len(both) > 1 else ''


def is_cast(site: Site) -> bool:
    """Whether a type in parentheses stands before the place."""
    return site.word(-1) == ')' and site.word(-2) in java_words.TYPES and site.word(-3) == '('


def value_before(site: Site) -> str:
    """The operand that ends before the place."""
    return site.word(-1) if site.kind(-1) in (Kind.NAME, Kind.REFERENCE) else text(site, opening(site, site.index - 1) + 1, site.index - 2) or 'x'


def method_hint(site: Site) -> str:
    """What to write for a method of a value."""
    value, name = value_before(site), site.word(1)
    if value in ('Integer', 'Double', 'Short', 'Byte', 'Float', 'BigInteger'):
        known = java_words.CONSTANTS.get(f'{value}.{name}')
        return (f'There is no {value}: {instead(known, f"{value}.{name}")}.' if known else
                f'There is no {value}: the classes are Math and Long.')
    method, end = method_of(name), closing(site, site.index + 2) if site.word(2) == '(' else site.index + 1
    if method not in CALLS:
        return 'A value has no methods: those of Math and Long are called as Math.abs(x).'
    operands = ', '.join([value, *(call_at(site, site.index + 2)[1] if site.word(2) == '(' else [])])
    first = opening(site, site.index - 1) if site.word(-1) == ')' else site.index - 1
    return f'A value has no methods: {instead(f"{method}({operands})", text(site, first, end))}.'


def call_hint(site: Site) -> str:
    """What to write for a call without a class."""
    name = site.word(-1)
    old, parts = call_at(site, site.index)
    if name.lower() in ('nvl', 'coalesce', 'ifnull') and parts:
        return f'{NO_GAPS}: {instead(parts[0], old)}.'
    if name in STREAMS:
        return f'`{name}` is an inner stream, which stands in flatMap: .flatMap(x -> {name}(..)).'
    if name in ('result', 'concat'):
        return 'A lambda has the items of its own source alone: end another job with a number, which is $NAME.'
    if name in OPERATIONS and not method_of(name):
        return f'No operation stands in a lambda: write .{name}(..) as a stage or a terminal of the job.'
    method = method_of(name)
    known = instead(method, name) if method in CALLS else 'methods are those of Math and Long, such as Math.abs(x)'
    return f'A method has its class: {known}.'


def head_hint(site: Site) -> str:
    """What to write for a lambda that doesn't begin with a parameter and an arrow."""
    if site.word() == '=' and site.word(1) == '>':
        return f'The arrow of a lambda is written ->: {instead("->", "=>")}.'
    if site.kind() is Kind.STRING:
        return f'A lambda stands without quotes: {instead(site.word()[1:-1], site.word())}.'
    made, argument = bare_lambda(site), bare_text(site)
    made = f'x -> {method_of(argument)}(x)' if CALLS.get(method_of(argument)) and CALLS[method_of(argument)].count == 1 else made
    if made:
        asked = asked_for(site) if 'cell(' in made and 'cell(' not in argument else ''
        return f'A lambda is a parameter, -> and an expression: {instead(made, argument)}{asked}.'
    return 'A lambda is a parameter, -> and an expression: x -> x * 2.'


def is_head(site: Site) -> bool:
    """Whether the parameter of a lambda or its arrow is missing."""
    return site.wanted in (Wanted.PARAMETER, Wanted.ARROW) or site.wanted is Wanted.CLOSE and '->' not in [
        token.text for token in site.tokens[(site.open_at() or 0):site.index]]


def parameter_hint(site: Site) -> str:
    """What to write in the parentheses before an arrow."""
    if site.word(-1) in java_words.TYPES and site.kind() is Kind.NAME:
        return f'All numbers are long: {instead(f"long {site.word()}", f"{site.word(-1)} {site.word()}")}.'
    if site.word() == ',':
        return f'A lambda has one parameter, an item of one column: {OTHER_CELL}.'
    return 'A lambda begins with a parameter: write x ->, (x) -> or (long x) ->.'


def has_parentheses(site: Site) -> bool:
    """Whether the place is in the parentheses before an arrow."""
    at = site.open_at()
    return bool(at) and site.tokens[at - 1].text in '(,' and is_head(site)


def pair_hint(site: Site) -> str:
    """What to write for an operator."""
    if site.kind() is Kind.NUMBER and site.word(1) == ')':
        return f'An operator is missing: {site.inside()}({site.word()}, sum).'
    return 'An operator has two parameters in parentheses, (a, b) -> a + b, or is a name such as sum.'


HEADS = [
    Rule('operator', lambda s: s.wanted is Wanted.PAIR, pair_hint),
    Rule('two parameters', lambda s: s.wanted is Wanted.PARAMETER and s.inside() in ('reduce', 'prefix', '(', ',')
             and s.word() != ')' and s.word(-1) in (',', 'long') and s.kind() is Kind.NAME,
         'An operator has two different parameters, with long before both or none.'),
    Rule('types of parameters', lambda s: s.wanted is Wanted.COMMA and s.word(-2) == '(' and s.kind() is Kind.NAME,
         'All numbers are long: write (a, b) -> or (long a, long b) ->.'),
    Rule('parameter', has_parentheses, parameter_hint),
    Rule('head', is_head, head_hint),
]

STREAM_RULES = [
    Rule('stages of an inner stream', lambda s: s.wanted is Wanted.STREAM_END and s.word() == '.',
         'An inner stream has no stages: put them after the flatMap, where an item is an inner value, or calculate '
         'its operands before.'),
    Rule('after an inner stream', lambda s: s.wanted is Wanted.STREAM_END,
         'Nothing stands after an inner stream: filter items before the flatMap, and calculate after it.'),
    Rule('concat in a lambda', lambda s: s.wanted is Wanted.STREAM and s.word() in ('concat', 'column', 'result'),
         lambda s: f'An inner stream is no {s.word()}: of(x, x + 1) lists values, and range(0, x) counts.'),
    Rule('inner stream', lambda s: s.wanted is Wanted.STREAM,
         'flatMap takes an inner stream, such as of(x, -x) or range(0, x): for one number of each item there is '
         'map.'),
]

def equality(site: Site) -> Tuple[str, str]:
    """An equality as it is written, and as it stands at the place."""
    before = site.word(-1) if site.touches() and site.word(-1) in ('==', '!=') else ''
    return before or '==', before + '='


def pair_around(site: Site, bounds: Collection[str]) -> Tuple[int, int]:
    """The first and the last token around an operator of two signs, the second one at the place, back to one of the bounds."""
    return start_of(site, site.index - 1, bounds), operand_end(site, min(site.index + 1, len(site.tokens) - 1))


def power_hint(site: Site) -> str:
    """What to write for a power."""
    first, last = pair_around(site, (*TERMS, '*', '/', '%'))
    base, exponent = text(site, first, site.index - 2), text(site, site.index + 1, last)
    if not re.fullmatch('[2-5]', exponent) or text(site, last + 1, last + 2) == '**':
        return 'There is no power: a product is written out, x * x.'
    product = ' * '.join([base] * int(exponent))
    product = f'({product})' if site.tokens[first - 1].text in ('/', '%') else product
    return f'There is no power: {instead(product, text(site, first, last))}.'


def floor_hint(site: Site) -> str:
    """What to write for a quotient that is rounded down."""
    first, last = pair_around(site, TERMS)
    first -= first > 1 and site.tokens[first - 1].text == '-' and site.tokens[first - 2].text in (*TERMS, '(')
    made = f'Math.floorDiv({text(site, first, site.index - 2)}, {text(site, site.index + 1, last)})'
    return f'The quotient that is rounded down is a method: {instead(made, text(site, first, last))}.'


EXPRESSIONS = [
    Rule('product', lambda s: s.kind(-1) is Kind.NUMBER and s.touches() and s.kind() is Kind.NAME,
         lambda s: f'A product is written with *: {instead(f"{s.word(-1)} * {s.word()}", s.word(-1) + s.word())}.'),
    Rule('parted symbol', parted_symbol, lambda s: f'No blank stands inside: {instead(parted_symbol(s), text(s, s.index - 1, s.index))}.'),
    Rule('unequal', lambda s: s.word(-1) + s.word() == '<>', f'Unequal is written !=: {instead("!=", "<>")}.'),
    Rule('order', lambda s: s.word() == '=' and s.word(1) in ('<', '>'),
         lambda s: f'A comparison ends with =: {instead(s.word(1) + "=", "=" + s.word(1))}.'),
    Rule('equality', lambda s: s.word() == '=', lambda s: f'Equality is written ==: {instead(*equality(s))}.'),
    Rule('power', lambda s: s.word() == '*' and s.word(-1) == '*', power_hint),
    Rule('floor division', lambda s: s.word() == '/' and s.word(-1) == '/', floor_hint),
    Rule('cast', is_cast, lambda s: f'There are no casts, since all numbers are 64-bit integers: {without(f"({s.word(-2)})")}.'),
    Rule('method of a value', lambda s: s.word() == '.' and s.wanted is not Wanted.MEMBER, method_hint),
    Rule('method without class', lambda s: s.word() == '(' and s.kind(-1) is Kind.NAME
             and s.wanted is not Wanted.OPEN,
         call_hint),
    Rule('method as a value', lambda s: s.wanted is Wanted.METHOD_OPEN,
         lambda s: 'There are no fractions, so no {}.'.format(s.word(-1)) if s.word(-1) in ('PI', 'E') else
                   f'A method has operands: write Math.{s.word(-1)}(x).'),
    Rule('class', lambda s: s.wanted is Wanted.MEMBER,
         'A class stands with a method or a constant: Math.abs(x), Long.MAX_VALUE.'),
    Rule('text in a lambda', lambda s: s.kind() is Kind.STRING,
         'Lambdas know integers and booleans: make a column of codes of a text before, and compare with the code, docs/tables.md.'),
    Rule('reserved word', lambda s: s.word() in RESERVED,
         lambda s: f'`{s.word()}` has another meaning: name the parameter otherwise, such as x.'),
    Rule('lambda in a lambda', lambda s: s.word() == '->',
         'A lambda has one arrow, and no lambda stands inside another.'),
    Rule('colon', lambda s: s.wanted is Wanted.COLON, 'A choice has both values: CONDITION ? A : B.'),
    Rule('operands of a method', lambda s: s.wanted is Wanted.OPERAND and s.word() == ')' and s.kind(-2) is Kind.NAME
             and s.word(-1) == '(',
         lambda s: f'A method has operands: write {s.word(-4)}.{s.word(-2)}(x).'),
    Rule('missing operand', lambda s: s.wanted is Wanted.OPERAND and s.word() == ')' and s.word(-1) in {*OPERATES,
             '->', ','},
         lambda s: f'Something is missing after {s.word(-1)}: a number, the parameter or an expression in '
                   'parentheses.'),
    Rule('second operator', lambda s: s.wanted is Wanted.OPERAND and s.word() in OPERATES,
         lambda s: f'Something is missing between {s.word(-1)} and {s.word()}: a number or the parameter.'),
    Rule('comma in parentheses', lambda s: s.word() == ',',
         'A comma stands between operands of a method alone: Math.max(x, 0).'),
    Rule('choice between numbers', number_or_other, lambda s: f'A number is no condition: {number_or_other(s)}; bits are joined by | and &.'),
    Rule('number beside a comparison', half_side, lambda s: f'Both sides are conditions: {half_side(s)}.'),
    Rule('missing operator', lambda s: s.wanted in (Wanted.OPERATOR_OR_END, Wanted.OPERATOR_OR_CLOSE),
         lambda s: f'An operator is missing before {s.word()}, such as + or *.'),
]
