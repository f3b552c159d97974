"""Hints on the names and the sources of jobs."""
from __future__ import annotations

import re
from typing import Tuple

from . import java_words
from .operands import instead, text, without
from .refusals import Wanted
from .site import Rule, Site, listed, nearest
from .stage_words import shape
from .syntax import OPERATIONS, SOURCES
from .tokens import Kind


def dashed_name(site: Site) -> str:
    """The name of a job as it might be written, if something else than a name stands before the `=`."""
    words = [token.text for token in site.tokens]
    before = words[:words.index('=')] if '=' in words else []
    fits = before and site.tokens[0].text != '_' and (len(before) > 1 or before[0][0].isdigit()) and all(re.fullmatch(r'[\w.-]+', it) for it in before) and before[0] not in java_words.TYPES
    fixed = re.sub(r'\W+', '_', site.bytes_between(site.tokens[0], site.tokens[len(before) - 1])) if fits else ''
    return '_' + fixed if fixed[:1].isdigit() else fixed


def begins_name(site: Site) -> bool:
    """Whether the place is at the name of a job or at its `=`."""
    return site.wanted in (Wanted.NAME, Wanted.EQUALS)


def dotted_range(site: Site) -> Tuple[str, str]:
    """A range such as 1..10, as it is written, and as it stands; or empty texts."""
    found = re.match(r'\(?(\d+)\s*\.\.(=|\.|<)?\s*(\d+)\)?', site.rest.decode('latin-1'))
    if not found:
        return '', ''
    return f'{"range" if found[2] in (".", "<") else "rangeClosed"}({found[1]}, {found[3]})', found[0]


def source_word_hint(site: Site) -> str:
    """What to write for a name that is no source."""
    word, near = site.word(), nearest(site.word(), list(SOURCES))
    if word in site.earlier:
        is_array = site.earlier[word].terminal.name == 'toArray'
        cure = instead(f'result({word})' if is_array else f'of(0).map(x -> ${word})', word)
        return f'An earlier job is a source in another form: {cure}.'
    if word in (site.columns or ()):
        return f'A column is a source in another form: {instead(f"column({chr(34)}{word}{chr(34)})", word)}.'
    both = f'{word}.{site.word(2)}' if site.word(1) == '.' else word
    for known in (both, word):
        if known in java_words.SOURCE_NAMES:
            return f'There is no source {known}: {instead(java_words.SOURCE_NAMES[known], known)}.'
    if word in java_words.SOURCES:
        return f'There is no source {word}: {java_words.SOURCES[word]}.'
    if word in OPERATIONS:
        return f'A job begins with a source, and `{word}` comes after it: of(1, 2, 3).{shape(word)}.'
    return f'There is no source {word}: ' + (f'did you mean {near}? Then {instead(near, word)}.' if near else f'there are {listed(SOURCES)}.')


def equals(site: Site) -> Tuple[str, str]:
    """The sign after the name of a job, and as it stands."""
    found = re.match(r':=|<-|->|===?|<=|::?', site.rest.decode('latin-1'))
    old = found[0] if found else site.word()
    return (' =' if old == ':' else '='), old


def name_as_it_stands(site: Site) -> str:
    """What stands before the first `=`."""
    words = [token.text for token in site.tokens]
    return text(site, 0, words.index('=') - 1)


def looks_like_rows(site: Site) -> bool:
    """Whether the line and the one below have cells instead of jobs."""
    lines = [site.job.text, site.below]
    return all(b',' in line and b'=' not in line and b'(' not in line for line in lines)


STRUCTURE = [
    Rule('orphan', lambda s: s.wanted is Wanted.JOB_ABOVE,
         'A line that begins with a point goes on with the job above it, and there is none: begin with NAME = '
         'SOURCE.'),
    Rule('version', lambda s: begins_name(s) and s.tokens and s.tokens[0].text == 'version',
         'The line `version 2`, with nothing after it, stands before all jobs; without it the file is of version 1.'),
    Rule('table', lambda s: begins_name(s) and looks_like_rows(s),
         'This looks like a table: it is the file after --columns, and the job file the other one.'),
    Rule('type of a job', lambda s: begins_name(s) and s.index and s.word(-1) in java_words.TYPES
             and s.kind() is Kind.NAME,
         lambda s: f'A job has a name and no type: {without(text(s, 0, s.index - 1) + " ")}.'),
    Rule('name', lambda s: begins_name(s) and dashed_name(s),
         lambda s: f'A name has letters, digits and _, and begins with no digit: {instead(dashed_name(s), name_as_it_stands(s))}.'),
    Rule('comment of SQL', lambda s: s.wanted is Wanted.NAME and s.word() == '--',
         lambda s: f'A comment begins with # or //: {instead("#", "--")}.'),
    Rule('name in quotes', lambda s: s.wanted is Wanted.NAME and s.kind() is Kind.STRING,
         lambda s: f'A name stands without quotes: {instead(re.sub("[^A-Za-z0-9_]", "_", s.word()[1:-1]), s.word())}.'),
    Rule('sum of a job', lambda s: s.wanted is Wanted.EQUALS and s.word() in ('+', '-', '*') and s.word(1) == '=',
         lambda s: f'A job is written once: {instead("=", s.word() + "=")}.'),
    Rule('no name', lambda s: s.wanted is Wanted.EQUALS and s.word() in ('(', '.') and s.word(-1) in {*SOURCES,
             'LongStream'},
         lambda s: f'A job begins with its name: {instead("total = " + text(s, 0, len(s.tokens) - 1), text(s, 0, len(s.tokens) - 1))}.'),
    Rule('sign of equality', lambda s: s.wanted is Wanted.EQUALS and s.word() in ('==', ':', '::', '->', '<', '<='),
         lambda s: f'One = parts the name of a job from its source: {instead(*equals(s))}.'),
    Rule('name with dollar', lambda s: s.wanted is Wanted.NAME and s.kind() is Kind.REFERENCE,
         lambda s: f'A job is named without $: {instead(s.word()[1:], s.word())}; in lambdas of jobs below it is {s.word()}.'),
    Rule('end after the name', lambda s: s.wanted in (Wanted.EQUALS, Wanted.SOURCE) and s.is_at_end(),
         'The source stands on the line of the name: only a line that begins with a point goes on with a job.'),
    Rule('no job', begins_name, 'A job is NAME = SOURCE.TERMINAL(), such as total = range(0, 10).sum().'),
    Rule('range with points', lambda s: s.wanted is Wanted.SOURCE and dotted_range(s)[1],
         lambda s: f'A range is a source: {instead(*dotted_range(s))}.'),
    Rule('number for a source', lambda s: s.wanted is Wanted.SOURCE and s.word() and s.kind() is not Kind.NAME
             and s.kind() is not Kind.STRING and s.word() != ')',
         'A job begins with a source: a calculation is the job of(0).map(x -> ..).sum(), docs/tutorial.md.'),
    Rule('column as a text', lambda s: s.wanted in (Wanted.SOURCE, Wanted.SOURCE_NAME) and s.kind() is Kind.STRING,
         lambda s: f'A column is a source in another form: {instead(f"column({s.word()})", s.word())}.'),
    Rule('source', lambda s: s.wanted in (Wanted.SOURCE, Wanted.SOURCE_NAME) and s.kind() is Kind.NAME,
         source_word_hint),
]
