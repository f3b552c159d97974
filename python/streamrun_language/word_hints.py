"""Hints on bytes and words that neither jobs nor lambdas have a place for."""
from __future__ import annotations

import re
from typing import Tuple

from .operands import in_place_of, instead, is_in_lambda, start_of, text, without
from .refusals import Wanted
from .site import Rule, Site
from .stage_hints import brackets
from .tokens import Kind, has_zeros

QUOTES = (*(it.encode() for it in '\u2018\u2019\u201a\u201c\u201d\u201e\u00ab\u00bb'), b'\x91', b'\x92', b'\x93', b'\x94')
SPACES = tuple(chr(it).encode() for it in (0xa0, *range(0x2000, 0x200c), 0x202f, 0x3000))
SIGNS = {'\u00d7': '*', '\u00b7': '*', '\u00f7': '/', '\u2212': '-', '\u2013': '-', '\u2014': '-', '\u2264': '<=',
         '\u2265': '>=', '\u2260': '!=', '\u2192': '->', '\u21d2': '->', '\u2227': '&&', '\u2228': '||', '\u00ac': '!'}
WORDS = {'and': '&&', 'or': '||', 'not': '!', 'mod': '%', 'div': '/', 'is': '==', 'eq': '==', 'ne': '!=', 'xor': '^'}
OWN_LINE = 'A comment has a line of its own, which begins with # or //'
BLOCK = re.compile(r'(?:function\s*)?(?:\(\s*(\w+)\s*\)|\b(\w+))\s*(?:->|=>)?\s*\{\s*(?:return\s+)?([^{};]*?)\s*;?\s*\}')


def sign_at(site: Site) -> str:
    """The sign beyond ASCII that stands here, if it is one of those that have a spelling."""
    return next((it for it in SIGNS if site.rest.startswith(it.encode())), '')


def word_at(site: Site) -> str:
    """A word for an operator that stands here or directly before."""
    return next((it for it in (site.word(), site.word(-1)) if it.lower() in WORDS), '')


def comment_hint(site: Site) -> str:
    """What to write for a comment after a part of a job."""
    return f'{OWN_LINE}: {without(site.rest_of_line())} here.'


def in_single_quotes(site: Site) -> Tuple[str, str]:
    """The text in single quotes that begins here, as it is written, and as it stands."""
    found = re.match(rb"'([^']*)'", site.rest)
    inner = found[1].decode('utf-8', 'replace') if found else ''
    return (f'"{inner}"', f"'{inner}'") if found else ('', '')


def typographic(site: Site) -> str:
    """What to write for a text in typographic quotes."""
    found = re.match('[\u2018-\u201e\u00ab\u00bb]([^\u2018-\u201e\u00ab\u00bb"]*)[\u2018-\u201e\u00ab\u00bb]', site.rest.decode('utf-8', 'replace'))
    return instead(f'"{found[1]}"', found[0]) if found else 'write the plain double quote of the keyboard'


def block_at(site: Site) -> Tuple[str, str]:
    """The lambda around the place that has a block, as it is written, and as it stands; empty texts without one."""
    whole = site.job.text.decode('latin-1')
    found = next((it for it in BLOCK.finditer(whole) if it.start() <= site.refused.at < it.end()), None)
    return (f'{found[1] or found[2]} -> {found[3]}', found[0]) if found and site.word() == '{' else ('', '')


def list_hint(site: Site) -> str:
    """What to write for a list of values in brackets."""
    negated = site.word(-2) == 'not'
    start = start_of(site, site.index - 1 - negated)
    end = next((at for at in range(site.index, len(site.tokens)) if site.tokens[at].text == ']'), site.index)
    value, parts = text(site, start, site.index - 2 - negated), text(site, site.index + 1, end - 1).split(',')
    sign, join = ('!=', ' && ') if negated else ('==', ' || ')
    cure = in_place_of(site, start, end, join.join(f'{value} {sign} {part.strip()}' for part in parts))
    return f'Values are compared one by one: {instead(cure, text(site, start, end))}.'


def increment(site: Site) -> str:
    """What to write for ++ or --."""
    value, sign = site.word(-1), site.word()
    if site.touches() and site.kind(-1) is Kind.NAME:
        return instead(f'{value} {sign[0]} 1', value + sign)
    return instead(sign[0], sign)


BYTES = [
    Rule('UTF-16', lambda s: s.rest.startswith(b'\0') or s.job.text.startswith((b'\xff\xfe', b'\xfe\xff')),
         'The file is UTF-16: save it as UTF-8, or convert it by iconv -f UTF-16 -t UTF-8.'),
    Rule('compressed', lambda s: s.job.text.startswith(b'\x1f\x8b'),
         'The file is compressed by gzip: unpack it, or name <(zcat FILE) in its place.'),
    Rule('list of values', lambda s: s.word() == '[' and s.word(-1) == 'in', list_hint),
    Rule('block of a lambda', lambda s: block_at(s)[1],
         lambda s: f'A lambda is one expression, without braces and return: {instead(*block_at(s))}.'),
    Rule('single quotes', lambda s: in_single_quotes(s)[1],
         lambda s: f'A text stands in double quotes: {instead(*in_single_quotes(s))}.'),
    Rule('typographic quotes', lambda s: s.rest.startswith(QUOTES), lambda s: f'This is a typographic quote: {typographic(s)}.'),
    Rule('open quote', lambda s: s.rest.startswith((b'"', b"'")) and s.kind() is Kind.BAD,
         'The text that begins here needs a closing " on the same line, and has no backslash.'),
    Rule('block comment', lambda s: s.rest.startswith(b'/*'), lambda s: f'There are no comments in /* */. {comment_hint(s)}'),
    Rule('comment after a job', lambda s: s.rest.startswith((b'#', b'//')) and not is_in_lambda(s), comment_hint),
    Rule('comment of SQL', lambda s: s.word() == '--' and s.wanted in (Wanted.END, Wanted.POINT), comment_hint),
    Rule('second mark', lambda s: s.rest.startswith(b'\xef\xbb\xbf'), 'Delete the byte order mark that stands here.'),
    Rule('no-break space', lambda s: s.rest.startswith(SPACES),
         'This is not the plain space: delete it and type a space.'),
    Rule('sign', sign_at, lambda s: f'The language has another sign: {instead(SIGNS[sign_at(s)], sign_at(s))}.'),
    Rule('brackets', lambda s: s.word() in ('[', '{') and brackets(s), lambda s: f'There are no brackets: {brackets(s)}.'),
    Rule('braces', lambda s: s.word() in ('{', '}'),
         'A lambda is one expression, without braces and return: x -> x * 2.'),
    Rule('other brackets', lambda s: s.word() in ('[', ']'), 'There are no brackets: of(1, 2, 3) lists values.'),
    Rule('backslash', lambda s: s.word() == '\\',
         lambda s: f'A job goes on in a line that begins with a point: {without(s.word())}, since it needs no backslash.'),
    Rule('amount', lambda s: s.word() == '$' and s.kind(1) is Kind.NUMBER,
         lambda s: f'A number has no unit: {instead(s.word(1), "$" + s.word(1))}.'),
    Rule('lone dollar', lambda s: s.word() == '$', 'A dollar stands directly before the name of a job: $total.'),
    Rule('carriage return', lambda s: s.word() == '\r', 'Lines end with LF or CR LF: write a line feed here.'),
    Rule('other letters', lambda s: s.kind() is Kind.BAD and s.rest[0] > 127,
         'Names have the letters A to Z and a to z, digits and _.'),
    Rule('increment', lambda s: s.word() in ('++', '--'), lambda s: f'There is no {s.word()}: {increment(s)}.'),
    Rule('leading zero', lambda s: s.token() and has_zeros(s.token()),
         lambda s: f'A number doesn\'t begin with 0: {instead(str(int(s.word().rstrip("Ll"))), s.word())}.'),
    Rule('bad byte', lambda s: s.kind() is Kind.BAD, lambda s: f'No job has a place for it: {without(s.word())}.'),
]

WORD_RULES = [
    Rule('is not', lambda s: s.word() == 'is' and s.word(1) == 'not', lambda s: f'Operators are signs: {instead("!=", "is not")}.'),
    Rule('word for an operator', word_at, lambda s: f'Operators are signs: {instead(WORDS[word_at(s).lower()], word_at(s))}.'),
    Rule('semicolon', lambda s: s.word() == ';', f'A semicolon stands at the end of a job alone: {without(";")} here.'),
]
