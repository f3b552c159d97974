"""Hints on texts that aren't in the grammar of jobs."""
from __future__ import annotations

import re
from typing import Tuple

from . import java_words
from .lambdas import Argument, Want, read_lambda
from .operands import as_jobs, asked_for, call_at, closing, instead, source_name, text, without
from .refusals import Wanted
from .site import Rule, Site, listed, nearest
from .row_hints import OTHER_CELL
from .stage_hints import end_at, isin_hint, stage_hint
from .stage_words import shape
from .syntax import LATER, LATER_STAGES, NUMBERS, OPERATIONS, SOURCES, STAGES, TERMINALS
from .tokens import Kind
from .values import BINDS

OPERATORS = set(BINDS) | {'^', '?', '**'}


def value_of_argument(site: Site) -> str:
    """The value of an argument without names, or nothing."""
    try:
        return str(read_lambda(Argument.of(b'x -> ' + site.argument().encode()), Want.LONG).function({}, {})(0, 0))
    except Exception:  # Whatever isn't an expression, or has no value, has no hint of this kind.
        return ''


def opened(site: Site) -> str:
    """Where the parenthesis stands that is open."""
    line, column = site.job.position(site.tokens[site.open_at()].start)
    return f'The ( in column {column} of line {line}'


def is_continued(site: Site) -> bool:
    """Whether the line below begins no job, so that it was meant to go on with this one."""
    return bool(site.below) and not re.match(rb'[A-Za-z_]\w*[ \t]*=(?!=)', site.below)


def after_terminal(site: Site) -> str:
    """The name after a point that stands after the terminal, or nothing."""
    if site.wanted is Wanted.END and site.word() == '.' and site.kind(1) is Kind.NAME:
        return site.word(1)
    return site.word() if site.wanted is Wanted.FALLBACK else ''


def number_after(site: Site) -> Tuple[str, str]:
    """A call with its number before its operator, if the operator stands first, and the call as it stands; or empty texts."""
    found = re.match(r',\s*(-?\w+(?:\s*,\s*-?\w+)*)\s*\)', site.rest.decode('latin-1'))
    argument = site.bytes_between(site.tokens[site.open_at() + 1], site.tokens[site.index - 1])
    old = text(site, site.open_at() - 1, site.index - 1) + (found[0] if found else '')
    return (f'{site.inside()}({found[1]}, {argument})', old) if found and site.inside() in ('reduce', 'prefix') else ('', '')


def range_of_others(site: Site) -> Tuple[str, str]:
    """A range with one number or with a step, as it is written, and as it stands; or empty texts."""
    at = site.open_at()
    numbers = call_at(site, at)[1] if at and site.inside() in ('range', 'rangeClosed') else []
    if not all(re.fullmatch(r'-?\d+', it) for it in numbers) or len(numbers) not in (1, 3):
        return '', ''
    low, high, step = map(int, numbers if len(numbers) == 3 else (0, numbers[0], 1))
    count = max(-(-(high + (site.inside() == 'rangeClosed') - low) // step), 0) if step else 0
    times = f'x * {step}' if not low else f'{low} + x * {step}'
    cure = f'range(0, {count})' + (f'.map(x -> {times})' if len(numbers) == 3 else '')
    return cure, text(site, at - 1, closing(site, at))


def reference_hint(site: Site) -> str:
    """What to write for the number of a job where a plain number has to stand."""
    inside, call = site.inside(), site.open_at()
    if inside in ('limit', 'skip'):
        sign = '<' if inside == 'limit' else '>='
        return (f'{inside} takes a plain number: {site.word()} stands in lambdas alone, such as '
                f'.filter(x -> x {sign} {site.word()}) over a range from 0, docs/tutorial.md.')
    if inside in ('range', 'rangeClosed', 'of') and site.rest.find(b')') >= 0:
        old = site.job.text[site.tokens[call - 1].start:].decode('utf-8', 'replace').split(')')[0] + ')'
        return f'A source takes plain numbers, and {site.word()} stands in lambdas: {instead(f"of(0).flatMap(x -> {old})", old)}.'
    return f'Plain numbers alone stand here: {site.word()} stands in lambdas.'


def operation_hint(site: Site) -> str:
    """What to write for a name that is no operation."""
    later = [it for it, first in LATER.items() if site.lines.version >= first]
    word, near = site.word(), nearest(site.word(), [*OPERATIONS, *later])
    if word in ('isin', 'isIn'):
        return isin_hint(site, site.index)
    known = stage_hint(site, site.index) if word != near else ''
    if known:
        return known
    if word in java_words.OF_OPTIONALS:
        return f'There is no .{word}(): {java_words.OF_OPTIONALS[word]}.'
    if word in SOURCES:
        return f'`{word}` is a source, which begins a job: concat(A, B) joins two.'
    if near:
        return f'There is no .{word}(): did you mean .{near}? Then {instead(near, word)}.'
    stages = [*STAGES, *(it for it in later if it in LATER_STAGES)]
    return f'There is no .{word}(): stages are {listed(stages)}, and terminals {listed(TERMINALS)}.'


def later_hint(site: Site) -> str:
    """What to write for an operation after the terminal."""
    word, before = after_terminal(site), [token.text for token in site.tokens[:site.index]]
    terminal = next(it for it in reversed(before) if it in TERMINALS or it in LATER and it not in LATER_STAGES)
    at = site.index + (site.word() == '.')
    known = stage_hint(site, at)
    if word in java_words.OF_OPTIONALS:
        old = text(site, at - 1, end_at(site, at))
        return f'There is no .{word}(): {java_words.OF_OPTIONALS[word] or without(old) + ", since $NAME in a job below is the number"}.'
    if word == 'onFault':
        if site.lines.version == 1:
            return 'onFault belongs to version 2: put the line `version 2` before all jobs.'
        return f'A job has one .onFault(NUM), at its end: {without(text(site, at - 1, end_at(site, at)))}.'
    if known and (terminal == 'toArray' or known.startswith('All items')):
        return known
    if terminal == 'toArray':
        name = site.name()
        head = site.job.text[:site.tokens[at - 1].start].decode('utf-8', 'replace').strip()
        rest = site.job.text[site.tokens[at - 1].start:].decode('utf-8', 'replace').strip(' ;')
        first = head.replace(name, f'{name}_1', 1)
        return f'.toArray() ends the job, and another one goes on: {as_jobs(first, f"{name} = result({name}_1){rest}")}.'
    return f'.{terminal}() ends the job: its number is ${site.name()} in the lambdas of jobs below.'


def without_argument_hint(site: Site) -> str:
    """What to write for an argument that an operation doesn't take."""
    inside = site.inside()
    before = {'count': 'filter', 'findFirst': 'filter', 'sum': 'map', 'min': 'map', 'max': 'map'}.get(inside)
    if before and '->' in [token.text for token in site.tokens[site.index:]]:
        old = text(site, site.open_at() - 1, closing(site, site.open_at()))
        return f'{inside}() takes nothing: {instead(f"{before}({old[len(inside) + 1:-1]}).{inside}()", old)}.'
    known = stage_hint(site, site.open_at() - 1) if inside in LATER_STAGES else ''
    if known:
        return known
    if range_of_others(site)[1]:
        return f'A range has no step: {instead(*range_of_others(site))}.'
    if inside == 'column':
        return f'A source has one column: in a lambda {OTHER_CELL}; concat has one after the other.'
    return f'{inside} is called as {shape(inside)}.'


def with_parentheses(site: Site) -> str:
    """An operation with its parentheses, and as it stands."""
    word, called = site.word(-1), shape(site.word(-1))
    end = site.word() == '[' and next((at for at in range(site.index, len(site.tokens)) if site.tokens[at].text == ']'), 0)
    if end:
        return instead(f'{word}({text(site, site.index + 1, end - 1)})', text(site, site.index - 1, end))
    return instead(called, word) if called.endswith('()') else f'write {called}'


def calculated_source(site: Site) -> str:
    """What to write for a calculation with columns."""
    source, rest = source_name(site), site.rest_of_job()
    number = re.fullmatch(r'([-+*/%])\s*(\d+)', rest)
    if number and site.wanted is Wanted.POINT:
        cure = f'.map(x -> x {number[1]} {number[2]}).toArray()'
        return f'Calculations stand in a lambda: {instead(cure, text(site, site.index - 1, len(site.tokens) - 1)[1:])}.'
    column = re.fullmatch(r'([-+*/%])\s*column\(\s*"([^"]*)"\s*\)', rest)
    if source and column and site.wanted is Wanted.POINT:
        cure = f'.map(x -> x {column[1]} cell("{column[2]}")).toArray()'
        old = text(site, site.index - 1, len(site.tokens) - 1)[1:]
        return f'Calculations stand in a lambda: {instead(cure, old)}{asked_for(site)}.'
    if source and 'column' in rest:
        return f'A job has one column: in a lambda {OTHER_CELL}.'
    return 'Calculations stand in a lambda, such as .map(x -> x * 2), and those with numbers of jobs in a job below, docs/tutorial.md.'


def two_parameters(site: Site) -> Tuple[str, str]:
    """Two parameters without parentheses, as they are written, and as they stand; or empty texts."""
    before = site.job.text[site.tokens[site.open_at() or 0].end:].decode('latin-1')
    found = re.search(r'(?:^|,)\s*((?:\w+ +)?([A-Za-z_]\w*)\s*,\s*(?:\w+ +)?([A-Za-z_]\w*)\s*->)', before)
    return (f'({found[2]}, {found[3]}) ->', found[1]) if found else ('', '')


PARTS = [
    Rule('parentheses', lambda s: s.wanted is Wanted.OPEN,
         lambda s: f'An operation has parentheses: {with_parentheses(s)}.'),
    Rule('not closed', lambda s: s.is_at_end() and s.open_at() is not None and s.wanted is not Wanted.OPEN,
         lambda s: opened(s) + ( ' is not closed, and only a line that begins with a point goes on with a job.'
                   if is_continued(s) else ' is not closed.')),
    Rule('reference', lambda s: s.kind() is Kind.REFERENCE and s.wanted in (Wanted.NUMBER, Wanted.NEXT_NUMBER),
         reference_hint),
    Rule('positions', lambda s: s.wanted is Wanted.NUMBER and s.inside() == 'prefix',
         'prefix takes two positions before its operator, or none: prefix(0, 10, sum).'),
    Rule('minus before Long', lambda s: s.wanted is Wanted.NUMBER and s.word() == 'Long' and s.word(-1) == '-',
         'No minus stands before a constant: write Long.MIN_VALUE, or the digits.'),
    Rule('constant', lambda s: s.wanted is Wanted.CONSTANT, 'The constants are Long.MAX_VALUE and Long.MIN_VALUE.'),
    Rule('plus', lambda s: s.wanted is Wanted.NUMBER and s.word() == '+', f'No + stands before a number: {without("+")}.'),
    Rule('calculated number', lambda s: s.inside() in {*SOURCES, *NUMBERS} and s.word() in OPERATORS
             and value_of_argument(s),
         lambda s: f'Plain numbers alone stand here: {instead(value_of_argument(s), s.argument())}.'),
    Rule('range of others', lambda s: range_of_others(s)[1], lambda s: f'A range has two numbers: {instead(*range_of_others(s))}.'),
    Rule('name for a number', lambda s: s.wanted is Wanted.NUMBER and s.kind() is Kind.NAME,
         lambda s: f'A plain number stands here, such as {shape(s.inside())}; up to the '
                   'number of a job n goes of(0).flatMap(x -> range(0, $n)).'),
    Rule('number', lambda s: s.wanted is Wanted.NUMBER or s.wanted is Wanted.COMMA or s.wanted is Wanted.NEXT_NUMBER,
         lambda s: f'Plain numbers with commas between them stand here: {shape(s.inside())}.'),
    Rule('column', lambda s: s.wanted is Wanted.STRING,
         lambda s: 'The name of a column stands in double quotes: '
                   + (instead(f'"{s.word()}"', s.word()) if s.kind() is Kind.NAME else 'column("a")') + '.'),
    Rule('result', lambda s: s.wanted is Wanted.ARRAY_NAME,
         lambda s: 'The name of a job stands here without quotes and without $: '
                   + (instead(s.word().strip('"$'), s.word()) if s.word().strip('"$').isidentifier() else 'result(NAME)') + '.'),
    Rule('stages in concat', lambda s: s.wanted is Wanted.NEXT_PART and s.word() == '.',
         'The sources of a concat have no stages: make an array of it in a job above, p = ...toArray(), and write '
         'result(p).'),
    Rule('parts of concat', lambda s: s.inside() == 'concat',
         'concat joins two sources or more: concat(of(1), of(2)).'),
    Rule('order of arguments', lambda s: s.wanted is Wanted.ARGUMENT_END and number_after(s)[1],
         lambda s: f'The number stands before the operator: {instead(*number_after(s))}.'),
    Rule('two parameters', lambda s: s.wanted is Wanted.ARGUMENT_END and s.inside() not in ('reduce', 'prefix')
             and re.match(r',\s*\w+\s*->', s.rest.decode('latin-1')),
         f'A lambda has one parameter, an item of one column: {OTHER_CELL}. No comma stands outside inner parentheses.'),
    Rule('parentheses of parameters', lambda s: s.wanted is Wanted.ARGUMENT_END and s.inside() in ('reduce', 'prefix') and two_parameters(s)[1],
         lambda s: f'Two parameters stand in parentheses: {instead(*two_parameters(s))}.'),
    Rule('one argument', lambda s: s.wanted is Wanted.ARGUMENT_END,
         lambda s: f'A comma stands in inner parentheses alone: {shape(s.inside())}.'),
    Rule('no argument', lambda s: s.wanted is Wanted.ARGUMENT,
         lambda s: f'{s.inside()} takes an argument: {shape(s.inside())}.'),
    Rule('an argument too many', lambda s: s.wanted is Wanted.CLOSE, without_argument_hint),
]

ENDS = [
    Rule('point at the end of a line', lambda s: s.wanted is Wanted.OPERATION and s.is_at_end(),
         'The point stands at the start of the next line: only a line that begins with a point goes on with a job.'),
    Rule('two points', lambda s: s.wanted is Wanted.OPERATION and s.word() == '.',
         f'One point is too many: {without(".")} here.'),
    Rule('operation', lambda s: s.wanted is Wanted.OPERATION and s.kind() is Kind.NAME, operation_hint),
    Rule('two jobs', lambda s: s.kind() is Kind.NAME and s.word(1) == '=', 'Each job begins on a line of its own.'),
    Rule('after the terminal', after_terminal, later_hint),
    Rule('no partner', lambda s: s.word() == ')' and s.open_at() is None, f'This one has no ( before it: {without(")")} here.'),
    Rule('calculation with a source', lambda s: s.wanted in (Wanted.POINT, Wanted.END) and s.word() in OPERATORS, calculated_source),
    Rule('no terminal', lambda s: s.wanted is Wanted.POINT and (s.is_at_end() or s.word() == ';'),
         lambda s: 'A job ends with a terminal: write .sum(), .count() or .toArray() at the end.'
                   if not is_continued(s) else 'A job ends with a terminal, such as .sum(), and only a line that '
                   'begins with a point goes on with a job.'),
    Rule('no point', lambda s: s.wanted is Wanted.POINT and s.kind() is Kind.NAME,
         lambda s: f'A point stands before an operation: {instead("." + s.word(), s.word())}.'),
    Rule('after the semicolon', lambda s: s.wanted is Wanted.END and ';' in (s.word(), s.word(-1)),
         lambda s: f'Nothing stands after the semicolon of a job: {without(s.rest_of_line())}.'),
    Rule('after the job', lambda s: s.wanted is Wanted.END,
         'The job ends before this: put what follows on a line of its own.'),
]
