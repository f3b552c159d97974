"""Hints on conditions and choices as other languages write them, and on lambdas of theirs."""
from __future__ import annotations

import re
from typing import Collection, List, Tuple

from . import java_words
from .operands import RELATIONS, SIDES, call_at, closing, end_of, in_place_of, instead, operand_end, source_name, start_of, text, without
from .refusals import Wanted
from .site import Rule, Site
from .tokens import Kind

# Operators that other languages join with =, and after which a comparison may lack its left side.
ASSIGNED, BEFORE_SIDES = ('+', '-', '*', '/', '%', '&', '|', '^', '<<', '>>', '>>>'), ('&&', '||', '->')
WORDS_OF_SIDES = {'or': '||', 'and': '&&'}
CHOICES = ('if', 'then', 'else', 'elif', 'when', 'case')
FORMS = [r'(?:case\s+when|if)\s+(?P<c>.+?)\s+then\s+(?P<a>.+?)\s+else\s+(?P<b>.+?)(\s+end)?',
         r'if\s*\((?P<c>.+?)\)\s*(?P<a>.+?)\s*;?\s+else\s+(?P<b>.+)', r'(?P<a>.+?)\s+if\s+(?P<c>.+?)\s+else\s+(?P<b>.+)']
# Conditions on a value and what it is compared with.
METHODS = {'equals': '{0} == {1}', 'eq': '{0} == {1}', 'ne': '{0} != {1}', 'gt': '{0} > {1}', 'lt': '{0} < {1}', 'ge': '{0} >= {1}',
           'le': '{0} <= {1}', 'compareTo': '({0} > {1} ? 1 : {0} < {1} ? -1 : 0)'}
DATES = {'year': '{0} / 10000', 'month': '{0} / 100 % 100', 'day': '{0} % 100'}


def body_of(site: Site) -> str:
    """The expression of the lambda around the place."""
    first = start_of(site, site.index, ('->',)) if site.index else 0
    while first and site.tokens[first - 1].text == '(' and '->' in [it.text for it in site.tokens[:first]]:
        if site.tokens[first - 2].text == '.':
            break
        first = start_of(site, first - 1, ('->',))
        if site.tokens[first - 1].text == '->':
            break
    return text(site, first, end_of(site, first - 1, (';',)))


def choice_in(site: Site) -> str:
    """The choice of another language in the lambda, as it is written here, or nothing."""
    body = body_of(site)
    found = next(filter(None, (re.fullmatch(form, body.strip(), re.I) for form in FORMS)), None)
    return f'{found["c"]} ? {found["a"]} : {found["b"]}' if found else ''


def choice_hint(site: Site) -> str:
    """What to write for a choice."""
    cure = choice_in(site)
    return f'A choice is CONDITION ? A : B: {instead(cure, body_of(site))}.' if cure else 'A choice is written CONDITION ? A : B.'


def is_in(site: Site) -> bool:
    """Whether a list of values follows a value."""
    at = 1 if site.word() == 'not' else 0
    return site.word(at).lower() == 'in' and site.word(at + 1) == '('


def in_hint(site: Site) -> str:
    """What to write for a list of values."""
    negated = site.word() == 'not'
    start, at = start_of(site, site.index, SIDES), site.index + 1 + negated
    value, parts = text(site, start, site.index - 1), call_at(site, at)[1]
    sign, join = ('!=', ' && ') if negated else ('==', ' || ')
    cure = in_place_of(site, start, closing(site, at), join.join(f'{value} {sign} {part}' for part in parts))
    return f'Values are compared one by one: {instead(cure, text(site, start, closing(site, at)))}.'


def between_hint(site: Site) -> str:
    """What to write for a value between two others."""
    start, words = start_of(site, site.index), [it.text.lower() for it in site.tokens]
    middle = words.index('and', site.index) if 'and' in words[site.index:] else 0
    if not middle:
        return 'A range is two comparisons: x >= 1 && x <= 9.'
    end = end_of(site, middle)
    value = text(site, start, site.index - 1)
    cure = f'{value} >= {text(site, site.index + 1, middle - 1)} && {value} <= {text(site, middle + 1, end)}'
    return f'A range is two comparisons: {instead(cure, text(site, start, end))}.'


def not_hint(site: Site) -> str:
    """What to write for `not` before a condition."""
    end = end_of(site, site.index - 1, (*SIDES, 'and', 'or'))
    condition = text(site, site.index, end)
    inner = condition if re.fullmatch(r'\(.*\)', condition) else f'({condition})'
    return f'The opposite is written with !: {instead("!" + inner, text(site, site.index - 1, end))}.'


def method_call(site: Site) -> Tuple[str, str, List[str]]:
    """A method of a value: the whole text, the value and the operands of the method; nothing if it is none."""
    if site.word() != '.' or site.kind(1) is not Kind.NAME:
        return '', '', []
    value = site.word(-1)
    if site.word(2) != '(':
        return text(site, site.index - 1, site.index + 1), value, []
    return text(site, site.index - 1, closing(site, site.index + 2)), value, call_at(site, site.index + 2)[1]


def value_method(site: Site) -> str:
    """What to write for a comparison or a part of a date that is written as a method, or nothing."""
    old, value, parts = method_call(site)
    name = site.word(1)
    form = METHODS.get(name) if len(parts) == 1 else DATES.get(name.replace('get', '').replace('Value', '').lower()) if not parts else None
    return instead(form.format(value, *parts), old) if old and form else ''


def other_columns(site: Site, names: Collection[str]) -> List[str]:
    """Those of some names that are columns of the table, and not the one that the job reads."""
    return [it for it in names if it in (site.columns or ()) and it != source_name(site)] if source_name(site) else []


def bare_text(site: Site) -> str:
    """The argument around the place, or before it if it ends there."""
    at = site.open_at()
    return text(site, at + 1, site.index - 1) if at and site.word() == ')' else site.argument()


def bare_lambda(site: Site) -> str:
    """A lambda with its head, for one that has an expression alone, or has another head; nothing if it can't be made."""
    argument = bare_text(site)
    bars = re.fullmatch(r'\|\s*(\w+)\s*\|\s*(.+)', argument) or re.fullmatch(r'lambda\s+(\w+)\s*:\s*(.+)', argument)
    if bars:
        return f'{bars[1]} -> {bars[2]}'
    if re.fullmatch(r'-?\d+', argument) and site.inside() in ('anyMatch', 'allMatch', 'noneMatch', 'filter'):
        return f'x -> x == {argument}'
    if re.match(r'(==|!=|<=?|>=?|[%*/]|[+] ?[\w(]|[-&|^] )', argument):
        return f'x -> x {argument}'
    if re.fullmatch(r'\w+|-\d+', argument):
        return ''
    method = re.fullmatch(r'(Math|Long)(?:::|\.)(\w+)', argument)
    if method:
        return f'x -> {method[1]}.{method[2]}(x)'
    if '::' in argument or '->' in argument or '=>' in argument or '"' in argument:
        return ''
    names = set(re.findall(r'(?<![\w.$])[A-Za-z_]\w*(?!\w*\s*[(.])', argument)) - {'Math', 'Long', 'true', 'false'}
    if names == {'_'}:
        return 'x -> ' + re.sub(r'(?<!\w)_(?!\w)', 'x', argument)
    others = other_columns(site, names)
    if others:
        cells = re.sub(r'(?<![\w.$"])(' + '|'.join(others) + r')(?![\w"])', r'cell("\1")', argument)
        return f'{source_name(site) if source_name(site) in names else "x"} -> {cells}' if names <= {source_name(site), *others} else ''
    return f'{names.pop() if len(names) == 1 else "x"} -> {argument}' if len(names) <= 1 else ''


def stage_of(site: Site) -> str:
    """The whole stage around the place, with its point."""
    at = site.open_at()
    return text(site, at - 2, closing(site, at)) if at else ''


def is_needless(site: Site) -> bool:
    """Whether the stage changes nothing here: every item is an integer."""
    return re.search(r'::(nonNull|valueOf|longValue|intValue|identity|parseLong|toString)\b', site.argument()) is not None


def assignment_hint(site: Site) -> str:
    """What to write for an operator that is joined with =."""
    end, sign = end_of(site, site.index), site.word(-1)
    value = text(site, site.index + 1, end)
    value = value if operand_end(site, min(site.index + 1, end)) == end else f'({value})'
    return f'A lambda is a value, and stores none: {instead(f"{sign} {value}", text(site, site.index - 1, end))}.'


def comparison_before(site: Site, end: int) -> Tuple[str, str, str]:
    """The sides of the comparison that ends before the token of an index, with the sign between them; empty texts if there is none,
    or more than one."""
    start = start_of(site, end)
    signs = [at for at in range(start, end) if site.tokens[at].text in RELATIONS]
    return (text(site, start, signs[0] - 1), site.tokens[signs[0]].text, text(site, signs[0] + 1, end - 1)) if len(signs) == 1 else ('', '', '')


def is_number(part: str) -> bool:
    """Whether an operand is a number."""
    return re.fullmatch(r'-?\d+[lL]?', part) is not None


def like_before(site: Site, value: str) -> str:
    """A comparison of another value, by the sign and a side of the comparison before the place; nothing if there is none."""
    left, sign, right = comparison_before(site, site.index)
    is_meant = (sign, WORDS_OF_SIDES.get(site.word().lower(), site.word())) not in (('!=', '||'), ('==', '&&'))
    is_other = sign and is_meant and value not in (left, right)
    return is_other and (f'{value} {sign} {right}' if is_number(left) else f'{left} {sign} {value}') or ''


def compared_before(site: Site) -> str:
    """What is compared before the operator before the place, or the parameter; nothing if it can't be seen."""
    if site.word(-1) == '->':
        at = -3 if site.word(-2) == ')' else -2
        return site.word(at) if site.kind(at) is Kind.NAME else ''
    left, _, right = comparison_before(site, site.index - 1)
    return right if is_number(left) else left


def half_comparison(site: Site) -> str:
    """What to write for a comparison whose left side is left out, or nothing."""
    value = compared_before(site) if site.word() in RELATIONS and site.word(-1) in BEFORE_SIDES else ''
    right = text(site, site.index, end_of(site, site.index))
    return instead(f'{site.word(-1)} {value} {right}', text(site, site.index - 1, end_of(site, site.index))) if value else ''


def half_side(site: Site) -> str:
    """What to write for a number beside `or` or `and`, after a comparison; nothing for others."""
    sign, end = WORDS_OF_SIDES.get(site.word().lower(), ''), end_of(site, site.index)
    made = like_before(site, text(site, site.index + 1, end)) if sign else ''
    return made and instead(f'{sign} {made}', text(site, site.index, end))


def typed_parameter(site: Site) -> str:
    """What to write for a parameter with its type, or nothing."""
    at = 0 if site.word() in java_words.TYPES else -1
    is_typed = site.word(at) in java_words.TYPES and site.kind(at + 1) is Kind.NAME and site.word(at + 2) == '->'
    return instead(site.word(at + 1), f'{site.word(at)} {site.word(at + 1)}') if is_typed else ''


def number_or_other(site: Site) -> str:
    """What to write for `or` and `and` between numbers, which choose one of both in other languages; nothing for other words."""
    sign = {'||': 'or', '&&': 'and'}.get(site.word(), site.word().lower())
    if sign not in ('or', 'and'):
        return ''
    start, end = start_of(site, site.index), end_of(site, site.index)
    value, other = text(site, start, site.index - 1), text(site, site.index + 1, end)
    return instead(f'{value} != 0 ? {f"{value} : {other}" if sign == "or" else f"{other} : 0"}', text(site, start, end))


CHOICE_RULES = [
    Rule('assignment', lambda s: s.word() == '=' and s.touches() and s.word(-1) in ASSIGNED, assignment_hint),
    Rule('half of a comparison', half_comparison, lambda s: f'A comparison has two sides: {half_comparison(s)}.'),
    Rule('type of a parameter', typed_parameter, lambda s: f'All numbers are long: {typed_parameter(s)}.'),
    Rule('value for nothing', lambda s: s.word(-1) == '?' and s.touches() and s.word() in ('?', ':'),
         lambda s: f'Each item is a number, and a blank cell is what --blank says: {without(text(s, s.index - 1, end_of(s, s.index)))}.'),
    Rule('list of values', is_in, in_hint),
    Rule('between', lambda s: s.word().lower() == 'between', between_hint),
    Rule('not', lambda s: s.word(-1) == 'not' and s.wanted is not Wanted.ARROW, not_hint),
    Rule('choice', lambda s: s.word() in CHOICES or s.word(-1) in CHOICES, choice_hint),
    Rule('return', lambda s: s.word(-1) == 'return', f'A lambda is one expression: {without("return ")}.'),
    Rule('comparison as a method', value_method, lambda s: f'A value has no methods: {value_method(s)}.'),
    Rule('stage that changes nothing', lambda s: s.wanted is not Wanted.OPERAND and is_needless(s),
         lambda s: f'Every item is an integer: {without(stage_of(s))}.'),
]
