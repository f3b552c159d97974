"""Hints on operations that the language doesn't have, and on values that are taken out by their places."""
from __future__ import annotations

import re
from fractions import Fraction
from typing import List, Optional

from .jobs import Column, read_job
from .model import answers_of
from .operands import asked_for, call_at, closing, instead, opening, source_name, text, without
from .refusals import Refused
from .site import Site
from .stage_words import BY_MILLER, DOWN, FIRST, GROUPS, ORDERS, PAGES, RANKS, STAGES, UP
from .syntax import LATER_STAGES
from .tokens import Kind
from .walks import length_of, parts_of

PLACE = ('get', 'nth', 'elementAt', 'at', 'item', 'iloc', 'element')
LAST, WITHOUT_LAST, SLICE = ('tail', 'takeLast', 'last', 'takeRight'), ('dropLast', 'skipLast', 'init', 'dropRight'), ('slice', 'subList', 'sublist')

MOST_COUNTED = 10 ** 6
# How others say an order of items: from the least one up, and from the greatest one down.
RISING = re.compile(r'(Comparator\.)?naturalOrder\(\)|Long::compare(To)?|\((\w+), ?(\w+)\) -> (\3 - \4|Long\.compare\(\3, \4\))'
                    r'|(\w+) -> \6|ascending ?= ?True|reverse ?= ?False')
FALLING = re.compile(r'(Comparator|Collections)\.reverseOrder\(\)|\((\w+), ?(\w+)\) -> (\3 - \2|Long\.compare\(\3, \2\))'
                     r'|(\w+) -> -\5|ascending ?= ?False|reverse ?= ?True|"?(desc|DESC|descending)"?')


def items_before(site: Site, at: int) -> Optional[int]:
    """How many items there are at the token of an index, which is a point; None if it can't be said."""
    begun = site.job.text[:site.tokens[at].start]
    try:
        job = read_job(begun + b'.count()', site.lines.version, site.columns or (), dict(site.earlier))
    except Refused:
        return None
    has_cells = all((site.columns or {}).get(source.name) is not None for source in job.sources if isinstance(source, Column))
    if list(job.names()) or not has_cells or sum(map(length_of, parts_of(job, dict(site.columns or {}), {}))) > MOST_COUNTED:
        return None
    answer = answers_of([job], dict(site.columns or {}))[job.name]
    return answer.value if isinstance(answer.value, int) else None


def parts_of_lambda(operand: str) -> List[str]:
    """The parameter of a lambda and its expression."""
    found = re.fullmatch(r'\(?\s*(\w+)\s*\)?\s*->\s*(.+)', operand)
    return [found[1], found[2]] if found else ['x', operand]


def by_place(site: Site, at: int, operands: List[str]) -> Optional[str]:
    """What to write for an operation that takes items by their places."""
    word = site.tokens[at].text
    if not all(re.fullmatch(r'-?\d+', it) for it in operands):
        return None
    numbers = list(map(int, operands))
    if word in PLACE and len(numbers) == 1 and numbers[0] < -1:
        rows = items_before(site, at - 1)
        return None if rows is None or rows + numbers[0] < 0 else f'.skip({rows + numbers[0]}){FIRST}'
    if word in PLACE and len(numbers) == 1:
        return FIRST if numbers == [0] else '.reduce(last)' if numbers == [-1] else f'.skip({numbers[0]}){FIRST}'
    if word in ('first', 'last') and not numbers:
        return FIRST if word == 'first' else '.reduce(last)'
    if word == 'first' and len(numbers) == 1:
        return f'.limit({numbers[0]})'
    if word in SLICE and len(numbers) == 2:
        return f'.skip({numbers[0]}).limit({numbers[1] - numbers[0]})'
    rows = items_before(site, at - 1) if word in (*LAST, *WITHOUT_LAST) else None
    if rows is None or len(numbers) > 1 or not numbers and word != 'init':
        return None
    count = max(rows - (numbers or [1])[0], 0)
    return f'.skip({count})' if word in LAST else f'.limit({count})'


def column_of(operand: str) -> str:
    """The column that an operand of an order names, if it names one."""
    return re.sub(r'^(by|key) ?= ?', '', operand).strip('"\'')


def by_order(site: Site, at: int, operands: List[str]) -> Optional[str]:
    """What to write for an operation that puts items in an order."""
    said = [it for it in operands if column_of(it) != source_name(site)]
    if not said or len(said) == 1 and RISING.fullmatch(said[0]):
        return UP
    return DOWN if len(said) == 1 and FALLING.fullmatch(said[0]) else None


def by_rank(site: Site, at: int, operands: List[str]) -> Optional[str]:
    """What to write for an operation that takes an item by its place in the order of values."""
    word = site.tokens[at].text
    said, rows = RANKS[word] or ''.join(operands), items_before(site, at - 1)
    if rows is None or not re.fullmatch(r'\d*\.?\d+', said):
        return None
    share = Fraction(said) / (100 if word == 'percentile' or Fraction(said) > 1 else 1)
    return f'{UP}.skip({max(min(int(share * rows), rows - 1), 0)}){FIRST}'


def written(site: Site, at: int) -> Optional[str]:
    """What to write for the operation whose name stands at an index, or None."""
    word, operands = site.tokens[at].text, call_at(site, at + 1)[1] if site.kind(at + 1 - site.index) else []
    placed = (by_order if word in ORDERS else by_rank if word in RANKS else by_place)(site, at, operands)
    if placed is not None or word not in STAGES or STAGES[word] == '.distinct()' and operands:
        return placed
    if word in ('clip', 'clamp') and len(operands) == 1 and re.fullmatch(r'-?\d+', operands[0]):
        return f'.map(x -> Math.max(x, {operands[0]}))'
    if word == 'isin' or re.search(r'\{1\}', STAGES[word]) and len(operands) < 2 or '{0}' in STAGES[word] and not operands:
        return None
    name, body = parts_of_lambda(operands[0] if operands else '')
    stage = STAGES['where'] if word == 'select' and re.search('[<>=]', body) else STAGES[word]
    return (stage.replace('{all}', ', '.join(operands)).replace('{not}', f'{name} -> !({body})')
            .replace('{0}', (operands or [''])[0]).replace('{1}', (operands + ['', ''])[1]))


def end_at(site: Site, at: int) -> int:
    """The last token of the operation whose name stands at an index."""
    return closing(site, at + 1) if at + 1 < len(site.tokens) and site.tokens[at + 1].text == '(' else at


def by_miller(site: Site, word: str, operands: List[str]) -> str:
    """The command of Miller for an operation, or the page that has others."""
    column, first = source_name(site), (operands or ['3'])[0]
    if word in GROUPS and column and column_of(first) in (site.columns or ()):
        after = site.tokens[closing(site, site.index + 1) + 2:][:1]
        what = after[0].text if after and after[0].text in ('count', 'min', 'max', 'mean') else 'sum'
        return f'Miller has it, `mlr --icsv --opprint stats1 -a {what} -f {column} -g {column_of(first)} FILE`, docs/tables.md'
    column = column_of(first) if word in ORDERS else column
    if not column or not re.fullmatch(r'\d*\.?\d+', first):
        first = first if re.fullmatch(r'\d*\.?\d+', first) else '3'
    if not column:
        return 'Miller has it for tables, docs/tables.md'
    form, what = BY_MILLER[word]
    name = column if re.fullmatch(r'\w+', column) else f"'{column}'"
    value = Fraction(first)
    what = what.replace('{percent}', str(int(value * 100 if value <= 1 else value))).replace('{0}', first)
    what = what.replace('{way}', 'r' if any(map(FALLING.fullmatch, operands)) else 'f')
    what = what.replace('{less}', str(max(int(value) - 1, 0))).replace('{column}', name)
    made = {'shift': '_shift', 'shift_lead': '_shift_lead', 'delta': '_delta'}.get(what.split(' ')[2] if what.startswith('step') else '',
                                                                             f'_{max(int(value) - 1, 0)}_0')
    over = f'use its column {column}{made}' if what.startswith('step') else 'run the job over its table'
    more = f': {over}' if form.startswith('mlr --csv') else ''
    return f'Miller has it, `{form.format(what=what, column=name)}`{more}, docs/tables.md'


def stage_hint(site: Site, at: int) -> str:
    """What to write for the operation at an index, which the language doesn't have; nothing if that isn't known."""
    word, end = site.tokens[at].text, end_at(site, at)
    operands = call_at(site, at + 1)[1] if end > at else []
    cure, old = written(site, at), text(site, at - 1, end)
    if word in ('reversed', 'reverse') and text(site, max(at - 5, 0), at - 1) == '.sorted().':
        cure, old = DOWN, text(site, at - 5, end)
    head = f'{word} takes nothing' if word in LATER_STAGES else f'There is no .{word}()'
    if word in LATER_STAGES and not operands:
        return f'{word} is of version 3: write{asked_for(site)[1:]}.' if asked_for(site) else ''
    if cure is not None and any(f'.{it}()' in cure for it in LATER_STAGES):
        is_last = end + 1 >= len(site.tokens) or site.tokens[end + 1].text != '.'
        cure += '.toArray()' if is_last and not cure.endswith((FIRST, '.count()')) else ''
        now = f': there are {items_before(site, at - 1)} items now' if word in RANKS else ''
        return f'{head}: {instead(cure, old)}{asked_for(site)}{now}.'
    if cure == '':
        return f'All items are integers, and a job only answers: {without(old)}.'
    if cure is not None and word in (*LAST, *WITHOUT_LAST) and cure != '.reduce(last)':
        return f'There is no .{word}(): {instead(cure, old)}, of the {items_before(site, at - 1)} items that there are now.'
    if cure is not None:
        return f'There is no .{word}(): {instead(cure, old)}.'
    if word in BY_MILLER and (word not in ORDERS or column_of((operands or [''])[0]) in (site.columns or ())):
        return f'{head}: {by_miller(site, word, operands)}.'
    return f'{head}: see {PAGES[word]}.' if word in PAGES else ''


def isin_hint(site: Site, at: int) -> str:
    """What to write for a filter by a list of values."""
    operands = [it.strip('[]{}() ') for it in call_at(site, at + 1)[1]]
    cure = '.filter(x -> {})'.format(' || '.join(f'x == {it}' for it in operands))
    return f'There is no .{site.tokens[at].text}(): {instead(cure, text(site, at - 1, end_at(site, at)))}.'


def brackets(site: Site) -> str:
    """What to write for a text in brackets, or nothing."""
    end = next((at for at in range(site.index, len(site.tokens)) if site.tokens[at].text in (']', '}')), -1)
    inner = text(site, site.index + 1, end - 1)
    whole = text(site, site.index, end)
    if site.word(-1) != ')':
        source = f'({inner})' if site.kind(-1) is Kind.NAME else inner if site.word(-1) == '(' else f'of({inner})'
        return instead(source, whole) if end > 0 and re.fullmatch(r'[-\d,\s]*', inner) else ''
    start = site.index
    if site.tokens[opening(site, site.index - 1) - 1].text == 'toArray':
        start = opening(site, site.index - 1) - 2
    old = text(site, start, end)
    one, many = re.fullmatch(r'-?\d+', inner), re.fullmatch(r'(\d*)\s*:\s*(\d*)', inner)
    if one and int(inner) < -1:
        return ''
    if one:
        return instead(FIRST if inner == '0' else '.reduce(last)' if inner == '-1' else f'.skip({inner}){FIRST}', old)
    if many and start == site.index:
        low, high = int(many[1] or 0), many[2]
        return instead((f'.skip({low})' if low else '') + (f'.limit({int(high) - low})' if high else ''), old)
    return ''
