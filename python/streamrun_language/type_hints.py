"""Hints on expressions whose operands have other types than their operators want."""
from __future__ import annotations

import re
from typing import List, Optional

from . import expressions as e
from .choice_hints import like_before, number_or_other
from .lambdas import Want
from .operands import RELATIONS, SIDES, TERMS, closing, end_of, instead, opening, operand_end, start_of, text, without
from .site import Rule, Site
from .values import CALLS

OF_CONDITIONS = {'&': '&&', '|': '||'}

def types(site: Site) -> List[Optional[str]]:
    """The types of the operands of an ill typed node."""
    return [e.type_of(part) for part in site.about.parts()] if isinstance(site.about, e.Node) else []


def operands(site: Site) -> List[e.Node]:
    """The operands of an ill typed node, without their parentheses."""
    return [e.without_groups(part) for part in site.about.parts()]


def is_binary(site: Site, *names: str) -> bool:
    """Whether an ill typed node is one of these operators."""
    return isinstance(site.about, e.Binary) and site.about.name in names


def equality_hint(site: Site) -> str:
    """What to write for a comparison of booleans."""
    truth = next((it for it in operands(site) if isinstance(it, e.Truth)), None)
    if truth is None:
        return 'Conditions are not compared: c ? d : !d is c == d, and c ? !d : d is c != d.'
    is_plain = (truth.text == 'true') == (site.about.name == '==')
    old = text(site, site.index, site.index + 1)
    if is_plain:
        return f'A condition is not compared with {truth.text}: {without(" " + old)}.'
    start = start_of(site, site.index)
    left = text(site, start, site.index - 1)
    cure = f'!{left}' if left.startswith('(') else f'!({left})'
    return f'A condition is not compared with {truth.text}: {instead(cure, text(site, start, site.index + 1))}.'


def power_hint(site: Site) -> str:
    """What to write for a power by the sign of other languages."""
    start = start_of(site, site.index, (*TERMS, '*', '/', '%'))
    product = ' * '.join([text(site, start, site.index - 1)] * int(site.tokens[site.index + 1].text))
    return f'The sign ^ changes bits, and there is no power: {instead(product, text(site, start, site.index + 1))}.'


def chain_hint(site: Site) -> str:
    """What to write for a chain of comparisons."""
    start, end = start_of(site, site.index), end_of(site, site.index)
    first = next((at for at in range(start, site.index) if site.tokens[at].text in RELATIONS), site.index)
    middle = text(site, first + 1, site.index - 1)
    cure = f'{text(site, start, site.index - 1)} && {middle} {text(site, site.index, end)}'
    return f'A comparison has two sides: {instead(cure, text(site, start, end))}.'


def side_hint(site: Site) -> str:
    """What to write for a side of && or || that is a number."""
    end = end_of(site, site.index)
    made = like_before(site, text(site, site.index + 1, end))
    if not made or any(site.tokens[at].text in RELATIONS for at in range(site.index + 1, end + 1)):
        return f'Each side of {site.about.name} is a condition, such as x != 0.'
    cure = f'{text(site, site.index, site.index)} {made}'
    return f'Each side of {site.about.name} is a condition: {instead(cure, text(site, site.index, end))}.'


def number_of_hint(site: Site) -> str:
    """What to write for a condition in a calculation."""
    for at in (site.index - 1, site.index + 1):
        first = opening(site, at) if site.word(at - site.index) == ')' else at
        last = closing(site, at) if site.word(at - site.index) == '(' else at
        inside = [site.tokens[it].text for it in range(first, last + 1)]
        if last > first and any(word in RELATIONS for word in inside):
            old = text(site, first, last)
            return f'A condition is no number: {instead(old[:-1] + " ? 1 : 0)", old)}.'
    return 'A condition is no number, and (c ? 1 : 0) is one.'


def not_hint(site: Site) -> str:
    """What to write for ! before a number."""
    end = operand_end(site, site.index + 1)
    inner = text(site, site.index + 1, end)
    tail = site.tokens[end + 1].text if end + 1 < len(site.tokens) else ''
    if tail in RELATIONS:
        whole = text(site, site.index + 1, end_of(site, site.index))
        return f'! stands before a condition: {instead(f"!({whole})", "!" + whole)}.'
    if tail in (*TERMS, '*', '/', '%') and tail not in SIDES:
        end = end_of(site, site.index)
        inner = text(site, site.index + 1, end)
    elif inner.startswith('('):
        inner = inner[1:-1]
    return f'! stands before a condition: {instead(f"{bits(inner)} == 0", text(site, site.index, end))}.'


def bits(part: str) -> str:
    """A number beside a comparison: in parentheses, if an operator outside them binds more weakly."""
    return f'({part})' if re.search(r'[&|^?]', part) else part


def condition_hint(site: Site) -> str:
    """What to write for a number where a condition is wanted."""
    body = text(site, site.index, end_of(site, site.index - 1, (';',)))
    return f'A condition is wanted, and a number is none: {instead(f"{bits(body)} != 0", body)}.'


def long_hint(site: Site) -> str:
    """What to write for a condition where a number is wanted."""
    body = text(site, site.index, end_of(site, site.index - 1, (';',)))
    return f'map wants a number, and filter keeps items: {instead(f"{body} ? 1 : 0", body)}.'


def choice_condition(site: Site) -> str:
    """What to write for a number before ?."""
    start = start_of(site, site.index)
    old = text(site, start, site.index - 1)
    return f'A choice begins with a condition: {instead(f"{bits(old)} != 0 ?", text(site, start, site.index))}.'


TYPES = [
    Rule('bits of conditions', lambda s: is_binary(s, '&', '|') and 'boolean' in types(s),
         lambda s: f'Between conditions stand two signs: {instead(OF_CONDITIONS[s.about.name], s.about.name)}.'),
    Rule('power before a comparison', lambda s: is_binary(s, '^') and types(s) == ['long', 'boolean'] and
         s.tokens[s.index + 1].text in ('2', '3', '4', '5') and s.tokens[s.index + 2].text in RELATIONS, power_hint),
    Rule('either of conditions', lambda s: is_binary(s, '^') and 'boolean' in types(s),
         'Between conditions stands c ? !d : d, which is true if just one of them is.'),
    Rule('compared conditions', lambda s: is_binary(s, '==', '!=') and 'boolean' in types(s), equality_hint),
    Rule('chain', lambda s: is_binary(s, *RELATIONS) and types(s)[0] == 'boolean',
         chain_hint),
    Rule('choice between numbers', lambda s: is_binary(s, '&&', '||') and types(s) == ['long', 'long'],
         lambda s: f'A number is no condition: {number_or_other(s)}; bits are joined by | and &.'),
    Rule('side that is no condition', lambda s: is_binary(s, '&&', '||') and 'long' in types(s),
         side_hint),
    Rule('numbers of conditions', lambda s: isinstance(s.about, e.Applied) and not is_binary(s, '&&', '||') and
             'boolean' in types(s),
         number_of_hint),
    Rule('not of a number', lambda s: isinstance(s.about, e.Unary) and s.about.name == '!',
         not_hint),
    Rule('condition of a choice', lambda s: isinstance(s.about, e.Choice) and types(s)[0] == 'long',
         choice_condition),
    Rule('values of a choice', lambda s: isinstance(s.about, e.Choice),
         'Both values of a choice are numbers, or both are conditions.'),
    Rule('number of operands', lambda s: isinstance(s.about, e.Call),
         lambda s: f'{s.about.name} takes {CALLS[s.about.name].count} operand(s): '
                   f'{s.about.name}({", ".join("xy"[:CALLS[s.about.name].count])}).'),
    Rule('values of an inner stream', lambda s: isinstance(s.about, e.Stream),
         'The values of an inner stream are numbers, such as (c ? 1 : 0).'),
    Rule('condition wanted', lambda s: s.about is Want.BOOLEAN,
         condition_hint),
    Rule('number wanted', lambda s: s.about is Want.LONG,
         long_hint),
    Rule('operator of numbers', lambda s: s.about is Want.PAIR, 'An operator gives a number: (a, b) -> a + b.'),
]
