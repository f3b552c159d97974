"""Texts around the place of a refusal: operands, sides of comparisons, calls; and the words in which a hint proposes another one.

A hint that says what to write says it by `instead`, `without` or `as_jobs`: tests follow these words to the letter.
"""
from __future__ import annotations

import re
from typing import Collection, List, Optional, Tuple

from .lambdas import WITH_ROWS
from .site import Site
from .syntax import OPERATIONS
from .tokens import Kind, cut

SIDES = ('->', ',', '?', ':', '&&', '||', ';')
RELATIONS = ('<', '<=', '>', '>=', '==', '!=')
TERMS = (*SIDES, *RELATIONS, '=', '+', '-', '&', '|', '^', '<<', '>>', '>>>', '!', '~')


def instead(new: str, old: str) -> str:
    """What to write for a text of the job."""
    return f'write `{new}` for `{old}`'


def without(old: str) -> str:
    """A text of the job to be deleted."""
    return f'leave `{old}` out'


def as_jobs(*jobs: str) -> str:
    """Jobs to be written for the present one."""
    return 'write ' + ', '.join(f'`{job}`' for job in jobs[:-1]) + f' and `{jobs[-1]}`'


def asked_for(site: Site) -> str:
    """What else is to be done for a term of version 3, after other things that are to be written."""
    return '' if site.lines.version >= WITH_ROWS else ', `version 3` as the first line, and run with --language 3'


def closing(site: Site, at: int) -> int:
    """The index of the parenthesis that closes the one at an index, or the last index."""
    depth = 0
    for index in range(at, len(site.tokens)):
        depth += (site.tokens[index].text in '([') - (site.tokens[index].text in ')]')
        if depth == 0:
            return index
    return len(site.tokens) - 1


def opening(site: Site, at: int) -> int:
    """The index of the parenthesis that the one at an index closes, or the first index."""
    depth = 0
    for index in range(at, -1, -1):
        depth += (site.tokens[index].text in ')]') - (site.tokens[index].text in '([')
        if depth == 0:
            return index
    return 0


def text(site: Site, first: int, last: int) -> str:
    """The text from the token of one index to the one of another, both included."""
    return site.bytes_between(site.tokens[first], site.tokens[last]) if 0 <= first <= last < len(site.tokens) else ''


def start_of(site: Site, at: int, bounds: Collection[str] = SIDES) -> int:
    """The index of the first token of what stands before an index, back to one of the bounds or an open parenthesis."""
    index = at - 1
    while index >= 0 and site.tokens[index].text not in bounds and site.tokens[index].text != '(':
        index = opening(site, index) - 1 if site.tokens[index].text in (')', ']') else index - 1
    return index + 1


def end_of(site: Site, at: int, bounds: Collection[str] = SIDES) -> int:
    """The index of the last token of what stands after an index, up to one of the bounds or a parenthesis without partner."""
    index = at + 1
    while index < len(site.tokens) and site.tokens[index].text not in bounds and site.tokens[index].text != ')':
        index = closing(site, index) + 1 if site.tokens[index].text in ('(', '[') else index + 1
    return index - 1


def operand_end(site: Site, at: int) -> int:
    """The index of the last token of the operand that begins at an index: a name or a number, a method, a text in parentheses."""
    if site.tokens[at].text in ('-', '+', '!', '~') and at + 1 < len(site.tokens):
        return operand_end(site, at + 1)
    while site.tokens[at].kind is Kind.NAME and at + 2 < len(site.tokens) and site.tokens[at + 1].text == '.':
        at += 2
    if site.tokens[at].kind is Kind.NAME and at + 1 < len(site.tokens) and site.tokens[at + 1].text == '(':
        return closing(site, at + 1)
    return closing(site, at) if site.tokens[at].text == '(' else at


def grouped(part: str) -> str:
    """A text as an operand of a product: in parentheses, if it has another operator outside them."""
    depth = 0
    for at, token in enumerate(cut(part.encode())):
        depth += (token.text == '(') - (token.text == ')')
        if depth == 0 and at and token.text in (*TERMS, '?'):
            return f'({part})'
    return part


def in_place_of(site: Site, first: int, last: int, cure: str) -> str:
    """What is written for the tokens from one to another: in parentheses, if it has an operator and one stands beside them."""
    before, after = (site.tokens[at].text if 0 <= at < len(site.tokens) else '' for at in (first - 1, last + 1))
    depth, has_operator, bounds = 0, False, SIDES
    for token in cut(cure.encode()):
        depth += (token.text == '(') - (token.text == ')')
        has_operator |= depth == 0 and token.text in (*TERMS, '*', '/', '%', '?')
        bounds = ('->', ',') if depth == 0 and token.text in ('||', '?') else bounds
    is_alone = before in (*bounds, '(') and after in (*bounds, ')', '')
    return f'({cure})' if has_operator and not is_alone else cure


def is_in_lambda(site: Site) -> bool:
    """Whether the place is in a lambda."""
    words = [token.text for token in site.tokens[:site.index]]
    arrow = len(words) - words[::-1].index('->') if '->' in words else 0
    stage = max((at for at, word in enumerate(words) if word in OPERATIONS and words[at - 1] == '.'), default=0)
    return site.open_at() is not None and arrow > stage


def call_at(site: Site, at: int) -> Tuple[str, List[str]]:
    """The call whose parenthesis opens at an index, and its operands."""
    end = closing(site, at)
    first = at - 1
    while first > 1 and site.tokens[first - 1].text == '.' and site.tokens[first - 2].kind is Kind.NAME:
        first -= 2
    parts, begun, depth = [], at + 1, 0
    for index in range(at + 1, end + 1):
        word = site.tokens[index].text
        depth += (word == '(') - (word == ')')
        if (word == ',' and depth == 0) or index == end:
            parts += [text(site, begun, index - 1)] if index > begun else []
            begun = index + 1
    return text(site, first, end), parts


def index_at(site: Site, byte: int) -> int:
    """The index of the token that stands at a place of the job's text."""
    return next((index for index, token in enumerate(site.tokens) if token.start >= byte), len(site.tokens))


def source_name(site: Site) -> str:
    """The column that the job reads, or nothing."""
    found = re.search(r'column\(\s*["\']?([^"\')]+)', site.job.text.decode('utf-8', 'replace'))
    return found[1] if found else ''


def parameter_of(site: Site) -> Optional[str]:
    """The parameter of the lambda around the place."""
    words = [token.text for token in site.tokens[:site.index]]
    at = len(words) - 1 - words[::-1].index('->') if '->' in words else 0
    return words[at - 1] if at and re.fullmatch(r'[A-Za-z_]\w*', words[at - 1]) else None
