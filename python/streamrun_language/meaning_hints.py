"""Hints on jobs that are in the grammar, and whose names, types, numbers or operators are refused."""
from __future__ import annotations

import functools
import re
from typing import Callable, Dict, Optional, Union

from . import expressions as e
from . import java_words
from .jobs import MOST_BYTES, MOST_JOBS, MOST_NAME, MOST_SOURCES, MOST_STAGES, MOST_VALUES
from .lambdas import MOST_INNER_VALUES, Lambda
from .operands import call_at, closing, grouped, in_place_of, index_at, instead, parameter_of, text, without
from .operators import EXACT, METHODS, OPERATORS
from .refusals import Cause
from .row_hints import OTHER_CELL, other_cell
from .site import Rule, Sentence, Site, listed, nearest
from .table_view import shown
from .values import CALLS, CONSTANTS, MAX, MIN, Fault, exact

SAMPLES = (MIN, -7, -1, 0, 1, 5, 12, 2 ** 40, MAX)
FOLDING = ('+', '*', '&', '|', '^')


# Names

def null_hint(site: Site) -> str:
    """What to write for a comparison with null."""
    at = site.open_at()
    stage = text(site, at - 2, closing(site, at)) if at else ''
    if re.fullmatch(r'\.filter\(\s*\(?\w+\)?\s*->\s*\w+\s*!=\s*\w+\s*\)', stage):
        return f'Every value is an integer: {without(stage)}.'
    return 'Every value is an integer, and a cell without one is filled in the table before, docs/tables.md.'


def name_hint(site: Site) -> str:
    """What to write for a name that is no parameter."""
    name, parameter = site.about.text, parameter_of(site) or 'x'
    near = nearest(name, [parameter]) if len(parameter) > 2 else None
    if name in site.earlier and site.earlier[name].terminal.name != 'toArray':
        return f'The number of an earlier job is written with a dollar: {instead("$" + name, name)}.'
    if name == site.name():
        return 'A job knows the jobs above it alone, and not itself.'
    if name.lower() in ('true', 'false'):
        return f'Booleans are written true and false: {instead(name.lower(), name)}.'
    if name in (site.columns or ()):
        return other_cell(site, name, name)
    if name.upper() in ('MAX_VALUE', 'MIN_VALUE', 'INT_MAX', 'LONG_MAX'):
        known = 'Long.MIN_VALUE' if 'MIN' in name.upper() else '2147483647' if name.upper() == 'INT_MAX' else 'Long.MAX_VALUE'
        return f'The constants are Long.MAX_VALUE and Long.MIN_VALUE: {instead(known, name)}.'
    if name.lower() in ('null', 'none', 'nil', 'nan'):
        return null_hint(site)
    if near:
        return f'A lambda knows its parameter: {instead(parameter, name)}.'
    return (f'A lambda knows its parameter, {parameter}, and the numbers of jobs above, as $NAME: {name} is neither, and '
            f'{OTHER_CELL}.')


def quotient_hint(operand: str, name: str) -> Optional[str]:
    """What to write for a quotient that is rounded."""
    found = re.fullmatch(r'(.+?)\s*/\s*(\d+)', operand)
    if not found or name not in ('Math.round', 'Math.ceil') or '(' in found[2]:
        return None
    if grouped(found[1]) != found[1]:
        return None
    value, by = found[1], int(found[2])
    return f'Math.floorDiv(2 * {value} + {by}, {2 * by})' if name == 'Math.round' else f'-Math.floorDiv(-{value}, {by})'


def call_hint(site: Site) -> str:
    """What to write for a method that isn't there."""
    name, at = site.about.name, index_at(site, site.about.at)
    old, operands = call_at(site, at + 3)
    last = closing(site, at + 3)
    if name in ('Math.round', 'Math.floor', 'Math.ceil') and len(operands) == 1:
        cure = in_place_of(site, at, last, quotient_hint(operands[0], name) or operands[0])
        more = f', and Math.floorDiv rounds down below zero too' if name == 'Math.floor' else ''
        return f'`/` rounds toward zero by itself: {instead(cure, old)}{more}.'
    if name == 'Math.pow' and len(operands) == 2 and re.fullmatch('[2-5]', operands[1]):
        return f'There is no {name}: {instead(in_place_of(site, at, last, " * ".join([grouped(operands[0])] * int(operands[1]))), old)}.'
    if name in java_words.WITHOUT_EXPRESSION:
        return f'There is no {name}: {java_words.WITHOUT_EXPRESSION[name]}.'
    if name in java_words.METHODS:
        parts = [*(grouped(it) for it in operands), 'y', 'z', 'z']
        cure = in_place_of(site, at, last, java_words.METHODS[name].format(*parts))
        return f'There is no {name}: {instead(cure, old)}.'
    members = {it.split('.')[1]: it for it in reversed(list(CALLS))}
    other = members.get(nearest(name.split('.')[1], list(members)))
    return f'There is no {name}: ' + (f'did you mean {other}? Then {instead(other, name)}.' if other else f'there are {listed(CALLS)}.')


def constant_hint(site: Site) -> str:
    """What to write for a constant that isn't there."""
    name = site.about.name
    if name in CALLS:
        return f'A method has operands: {name}({", ".join("xy"[:CALLS[name].count])}).'
    known = java_words.CONSTANTS.get(name)
    return f'There is no {name}: {instead(known, name)}.' if known else f'There is no {name}: the constants are {listed(CONSTANTS)}.'


NAMES = [
    Rule('unknown name', lambda s: isinstance(s.about, e.Name), name_hint),
    Rule('unknown method', lambda s: isinstance(s.about, e.Call), call_hint),
    Rule('unknown constant', lambda s: isinstance(s.about, e.Constant), constant_hint),
]


# Operators

def value_at(function: Callable[[int, int], int], f: int, g: int) -> Union[int, str]:
    """The value of a function of two integers, or the kind of its fault."""
    try:
        return function(f, g)
    except Fault as fault:
        return fault.args[0]


def like_listed(read: Lambda) -> str:
    """The operator that has the same values at all samples, or nothing. A lambda with numbers may differ elsewhere."""
    if any(isinstance(node, (e.Number, e.Constant)) for node in e.nodes_of(read.body)):
        return ''
    function = functools.partial(read.function({}, {}), 0)
    listed_functions = {**{name: it.function for name, it in OPERATORS.items()}, EXACT.name: lambda f, g: exact(f + g)}
    pairs = [(f, g) for f in SAMPLES for g in SAMPLES]
    return next((name for name, other in listed_functions.items()
                 if all(value_at(function, *pair) == value_at(other, *pair) for pair in pairs)), '')


def argument_of(site: Site) -> str:
    """The text from the place to the end of the operation's argument."""
    at = site.open_at()
    return text(site, site.index, closing(site, at) - 1) if at else ''


def lambda_hint(site: Site) -> str:
    """What to write for a lambda that is no listed operator."""
    read: Lambda = site.about
    if read.references():
        return 'An operator names no job: put the number into a map before it.'
    name, (first, second) = like_listed(read), read.parameters
    body = e.without_groups(read.body)
    if name:
        return f'This is an operator in another spelling: {instead(name, argument_of(site))}.'
    if isinstance(body, e.Binary) and body.name == '-':
        return f'A difference depends on the order of its parts: .map(x -> -x) turns the signs, and sum adds.'
    if isinstance(body, e.Binary) and body.name in FOLDING and getattr(body.operands[0], 'text', '') == first:
        return f'Calculate with each item in .map({second} -> ..) before, so that {first} {body.name} {second} is left here.'
    return f'The operators are {listed(OPERATORS)}: calculate with single items in a map before.'


def word_hint(site: Site) -> str:
    """What to write for a name that is no listed operator."""
    word = ''.join(token.text for token in site.tokens[site.index:site.index + (3 if site.word(1) == '::' else 1)])
    known = java_words.OPERATORS.get(word)
    near = known or nearest(word, [*OPERATORS, *METHODS])
    if word in ('avg', 'mean', 'average', 'count'):
        return f'There is no operator {word}: .sum() and .count() are two jobs, and a third divides, docs/recipes.md.'
    if word in ('minus', 'sub', 'subtract', 'Math::subtractExact'):
        return f'There is no operator {word}: .map(x -> -x) turns the signs, and sum adds.'
    return f'There is no operator {word}: ' + (f'{instead(near, word)}.' if near else f'there are {listed(OPERATORS)}.')


LISTED = [
    Rule('exact sum', lambda s: s.about is EXACT,
         lambda s: 'Math::addExact stands in reduce(0, Math::addExact) alone: ' + (instead('0, Math::addExact', 'Math::addExact')
                   if s.inside() == 'reduce' else instead('sum', 'Math::addExact') + ', which wraps') + '.'),
    Rule('unlisted lambda', lambda s: isinstance(s.about, Lambda), lambda_hint),
    Rule('unlisted name', lambda s: s.about is None, word_hint),
]


# Names of jobs and columns, numbers and sizes

def line_of_job(site: Site, name: str) -> int:
    """The first line of the job of this name, or 0."""
    head = name.encode()
    return next((it.line for it in site.lines.jobs if it.text.split(b'=')[0].strip() == head), 0)


def quoted(near: str, name: str) -> str:
    """What to write for the name of a column."""
    cure = instead(f'"{near}"', f'"{name}"')
    return f'did you mean "{near}"? Then {cure}.'


def column_hint(site: Site) -> str:
    """What to write for a column that isn't there."""
    if site.columns is None:
        return 'No table is given: name it by --columns FILE.'
    if site.header:
        return site.header
    name, columns = shown(site.about), list(map(shown, site.columns))
    near = nearest(name, columns)
    names = ', '.join(f'"{it}"' for it in columns[:8]) + (', ..' if len(columns) > 8 else '')
    return f'The table has no such column: {quoted(near, name)}' if near else f'The columns of the table are {names}.'


def job_hint(site: Site) -> str:
    """What to write for a job that isn't above."""
    line, near = line_of_job(site, site.about), nearest(site.about, list(site.earlier))
    if site.about == site.name():
        return 'A job knows the jobs above it alone, and not itself.'
    if line:
        return f'Line {line} has that job, and a job knows those above it alone: move line {line} up.'
    old = site.word() if site.word() in (site.about, '$' + site.about) else ''
    return (f'No job above has that name: did you mean {near}? Then {instead(old.replace(site.about, near), old)}.' if near and old
            else 'No job above has that name: it has to be there first.')


def length_hint(site: Site) -> str:
    """What to do about a text past a limit."""
    return {'jobs': f'A file has at most {MOST_JOBS} jobs: put the rest into another file.',
            'text': f'A job has at most {MOST_BYTES} bytes: cut it in two, with toArray() and result(NAME).',
            'name': f'A name has at most {MOST_NAME} bytes: shorten it.',
            'of': f'of has at most {MOST_VALUES} values: put them into a table, and name it by --columns.',
            'concat': f'concat has at most {MOST_SOURCES} sources: join them in two jobs with toArray().',
            'stages': f'A job has at most {MOST_STAGES} stages: end it with toArray(), and go on with result(NAME).',
            }[site.about]


def depth_hint(site: Site) -> str:
    """What to do about an expression past a limit."""
    if isinstance(site.about, e.Stream):
        return f'An inner of has at most {MOST_INNER_VALUES} values: write two flatMaps, or a range.'
    return 'The expression is too large: cut it in two maps, or a long sum in two halves in parentheses.'


def identity_hint(site: Site) -> str:
    """What to write for a number that is no identity."""
    operator, number = site.about
    return (f'The number before {operator.name} is {operator.identity}, which changes nothing: to begin with {number}, '
            f'take concat(of({number}), SOURCE) for the source.')


def scalar_hint(site: Site) -> str:
    """What to write for a job that gives no number."""
    if site.about.terminal.name == 'toArray':
        return f'That job gives an array, which is a source: result({site.about.name}).'
    return 'That job gives a boolean: end it with .filter(..).count() for a number.'


def range_hint(site: Site) -> str:
    """What to write for positions that are no range."""
    start, end = max(0, min(site.about)), max(0, *site.about)
    return f'The positions of prefix are from and to, 0 or more, and to is not below from: prefix({start}, {end}, ..).'


# The sentence of each cause that has one alone.
SENTENCES: Dict[Cause, Sentence] = {
    Cause.SAME_NAME: lambda s: f'Line {line_of_job(s, s.about)} has a job of that name: rename one of them.',
    Cause.UNKNOWN_COLUMN: column_hint, Cause.UNKNOWN_JOB: job_hint, Cause.NOT_A_NUMBER: scalar_hint,
    Cause.NOT_AN_ARRAY: lambda s:
        f'result takes a job that ends in toArray(): the number of this one is ${s.about} in a lambda.',
    Cause.LITERAL_TOO_LARGE: f'Numbers go from {MIN} to {MAX}: keep the values in a larger unit.',
    Cause.NEGATIVE_COUNT: lambda s: f'{s.about.name} takes 0 or more: delete the minus.',
    Cause.BAD_RANGE: range_hint, Cause.TOO_DEEP: depth_hint, Cause.TOO_LONG: length_hint, Cause.NOT_IDENTITY: identity_hint,
    Cause.NO_IDENTITY: lambda s: f'{s.about.name} has no identity: {instead(s.about.name, text(s, s.index, s.index + 2))}.',
    Cause.NOT_SCALAR: lambda s: f'.{s.about.name}(..) gives no number: leave onFault out.',
}
OTHERS = {cause: [Rule(cause.value, lambda s: True, sentence)] for cause, sentence in SENTENCES.items()}
