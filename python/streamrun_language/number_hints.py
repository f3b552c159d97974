"""Hints on numbers as others write them: fractions, exponents, separators, dates."""
from __future__ import annotations

import re
from datetime import date
from fractions import Fraction
from typing import NamedTuple, Optional

from .operands import RELATIONS, SIDES, TERMS, closing, end_of, grouped, instead, is_in_lambda, operand_end, start_of, text
from .refusals import Cause
from .site import Rule, Site
from .tokens import Kind

LITERAL = re.compile(rb'(\d+[.]\d+|\d+[.](?![A-Za-z_])|\d+|[.]\d+)([eE][+-]?\d+)?[dDfF]?')
DATE = re.compile(rb'["\']?(\d{4})([-/.])(\d?\d)\2(\d?\d)["\']?')
FIRST_DAY = date(1970, 1, 1)
SCALES = {'k': 10 ** 3, 'K': 10 ** 3, 'm': 10 ** 6, 'M': 10 ** 6, 'G': 10 ** 9}
SMALLER = 'keep the values in a smaller unit, such as cents, docs/tables.md.'


class Literal(NamedTuple):
    """A number with a fraction, an exponent or a letter after it: its text, its value, its first and last token."""

    text: str
    value: Fraction
    first: int
    last: int


def literal(site: Site) -> Optional[Literal]:
    """The number around the place, if it is written so."""
    for first in range(max(site.index - 2, 0), min(site.index + 1, len(site.tokens))):
        start = site.tokens[first].start
        found = LITERAL.match(site.job.text, start)
        last = next((at for at, token in enumerate(site.tokens) if found and token.end == found.end()), -1)
        if last >= 0 and start <= site.refused.at <= found.end() and not re.fullmatch(rb'\d+', found[0]):
            digits = found[0].decode().rstrip('dDfF')
            return Literal(found[0].decode(), Fraction(digits + '0' if digits.endswith('.') else digits), first, last)
    return None


def in_comparison(site: Site, it: Literal) -> str:
    """A comparison with a fraction, with both sides multiplied."""
    before, after = site.tokens[it.first - 1].text, site.tokens[it.last + 1].text if it.last + 1 < len(site.tokens) else ''
    times, number = it.value.denominator, it.value.numerator
    if before in RELATIONS and (after in (*SIDES, ')', '')):
        start = start_of(site, it.first - 1)
        left = grouped(text(site, start, it.first - 2))
        return instead(f'{left} * {times} {before} {number}', text(site, start, it.last))
    if after in RELATIONS and before in (*SIDES, '('):
        end = end_of(site, it.last + 1)
        right = grouped(text(site, it.last + 2, end))
        return instead(f'{number} {after} {right} * {times}', text(site, it.first, end))
    return ''


def in_product(site: Site, it: Literal) -> str:
    """A product or a quotient with a fraction, in integers."""
    before, after = site.tokens[it.first - 1].text, site.tokens[it.last + 1].text if it.last + 1 < len(site.tokens) else ''
    up, down = it.value.numerator, it.value.denominator
    if before in ('*', '/'):
        up, down = (up, down) if before == '*' else (down, up)
        first, last = start_of(site, it.first - 1, TERMS), it.last
        factor = text(site, first, it.first - 2)
    elif after == '*':
        first, last = it.first, operand_end(site, it.last + 2)
        factor = text(site, it.last + 2, last)
    else:
        return ''
    product = f'{factor} * {up}' if up != 1 else factor
    return compared_product(site, first, last, product, down) if is_compared(site, first, last) else instead(
        f'{product} / {down}', text(site, first, last))


def is_compared(site: Site, first: int, last: int) -> bool:
    """Whether the texts from one token to another are in a side of a comparison, perhaps in parentheses there."""
    begin, end = start_of(site, first), end_of(site, last)
    if any(site.tokens[at].text in RELATIONS for at in [*range(begin, first), *range(last + 1, end + 1)]):
        return True
    depth, at = 0, first - 1
    while at > 0 and site.tokens[at].text != '->' and not (depth == 0 and site.tokens[at].text == '('):
        depth += (site.tokens[at].text == ')') - (site.tokens[at].text == '(')
        at -= 1
    return at > 0 and site.tokens[at].text == '(' and is_compared(site, at, closing(site, at))


def compared_product(site: Site, first: int, last: int, product: str, down: int) -> str:
    """What to write for a comparison of which one side is a product, to be divided: the other side is multiplied, since a quotient
    is rounded. Nothing if the side has more than the product."""
    begin, end = start_of(site, first), end_of(site, last)
    after = site.tokens[last + 1].text if last < end else ''
    if first == begin and after in RELATIONS:
        return instead(f'{product} {after} {times(text(site, last + 2, end), down)}', text(site, first, end))
    if last == end and site.tokens[first - 1].text in RELATIONS:
        return instead(f'{times(text(site, begin, first - 2), down)} {site.tokens[first - 1].text} {product}', text(site, begin, last))
    return ''


def times(part: str, factor: int) -> str:
    """A product with a number, for which nothing is written if it is 1."""
    return f'{grouped(part)} * {factor}' if factor != 1 else part


def literal_hint(site: Site) -> str:
    """What to write for a number that is written otherwise."""
    it = literal(site)
    if it.value.denominator == 1:
        return f'A number has digits alone: {instead(str(it.value), it.text)}.'
    if site.refused.cause is not Cause.EXPRESSION_SYNTAX:
        return f'Numbers are integers: {SMALLER}'
    cure = in_comparison(site, it) or in_product(site, it)
    rounds = ', where / rounds toward zero' if ' / ' in cure else ''
    equal = f'{it.text} is {it.value.numerator} / {it.value.denominator}, so {cure}{rounds}, or ' if cure else ''
    return f'Numbers are integers: {equal}{SMALLER}'


def date_at(site: Site) -> Optional[re.Match]:
    """A date that is written as one, around the place."""
    found = DATE.finditer(site.job.text) if is_in_lambda(site) else ()
    return next((it for it in found if it.start() <= site.refused.at < it.end()
                 and 1 <= int(it[3]) <= 12 and 1 <= int(it[4]) <= 31), None)


def date_hint(site: Site) -> str:
    """What to write for a date."""
    found = date_at(site)
    year, month, day = int(found[1]), int(found[3]), int(found[4])
    days = (date(year, month, min(day, 28)) - FIRST_DAY).days + max(day - 28, 0)
    return (f'A date is a number, as its column has it: {instead(f"{year}{month:02}{day:02}", found[0].decode())}, or the day '
            f'since 1970, {days}.')


def separated(site: Site) -> str:
    """A number whose thousands are parted by commas or blanks, around the place, or nothing."""
    found = next((it for it in re.finditer(rb'(?<![\w.])\d{1,3}([, ])\d{3}(\1\d{3})*(?![\w.])', site.job.text)
                  if it.start() <= site.refused.at < it.end()), None)
    is_one = is_in_lambda(site) or site.inside() in ('limit', 'skip')
    return found[0].decode() if found and is_one else ''


def is_scaled(site: Site) -> bool:
    """Whether a letter for thousands or millions stands directly after a number."""
    return site.kind(-1) is Kind.NUMBER and site.touches() and site.word() in SCALES


def is_percent(site: Site) -> bool:
    """Whether a number with % stands as an operand."""
    return site.word(-1) == '%' and site.kind(-2) is Kind.NUMBER and site.word(-3) == '*' and site.word() in (')', '')


def percent_hint(site: Site) -> str:
    """What to write for a percentage."""
    start = start_of(site, site.index - 3, TERMS)
    value = text(site, start, site.index - 4)
    return f'`%` is the remainder: {instead(f"{value} * {site.word(-2)} / 100", text(site, start, site.index - 1))}.'


def after_number(site: Site, pattern: str) -> bool:
    """Whether a word of this form stands directly after a number."""
    return site.kind(-1) is Kind.NUMBER and site.touches() and re.fullmatch(pattern, site.word()) is not None


def whole(site: Site) -> str:
    """A number and the word directly after it."""
    return site.word(-1) + site.word()


NUMBERS = [
    Rule('date', date_at, date_hint),
    Rule('hexadecimal', lambda s: s.word(-1) == '0' and after_number(s, '[xX][0-9a-fA-F]+'),
         lambda s: f'Numbers are decimal: {instead(str(int(s.word()[1:], 16)), whole(s))}.'),
    Rule('binary', lambda s: s.word(-1) == '0' and after_number(s, '[bB][01]+'),
         lambda s: f'Numbers are decimal: {instead(str(int(s.word()[1:], 2)), whole(s))}.'),
    Rule('underscores', lambda s: after_number(s, '_[0-9_]*[lL]?'),
         lambda s: f'A number has digits alone: {instead(whole(s).replace("_", ""), whole(s))}.'),
    Rule('letter for thousands', is_scaled,
         lambda s: f'A number has digits alone: {instead(str(int(s.word(-1)) * SCALES[s.word()]), whole(s))}.'),
    Rule('fraction', literal, literal_hint),
]
# Those of jobs and of lambdas alone.
OF_JOBS = [
    Rule('thousands', separated,
         lambda s: f'A number has digits alone: {instead(re.sub("[, ]", "", separated(s)), separated(s))}.'),
]
OF_LAMBDAS = [
    Rule('percentage', is_percent, percent_hint),
]
