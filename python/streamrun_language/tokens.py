"""Tokens of the job language: how a text is cut, and a reader that takes one token after another.

Everything in this package reads docs/job-language.md plainly, and was written without a look at the program.
"""
from __future__ import annotations

import re
from enum import Enum
from typing import List, NamedTuple, NoReturn, Optional, Sequence

from .refusals import Cause, Refused, Wanted

SYMBOLS = '-> :: << >> >>> <= >= == != && || ++ -- ( ) , . ; = < > + - * / % & | ^ ~ ! ? :'.split()
TOKEN = re.compile(
    rb'(?P<NAME>[A-Za-z_][A-Za-z_0-9]*)|(?P<NUMBER>[0-9]+[Ll]?)|(?P<STRING>"[^"\\\r\n]*")'
    rb'|(?P<REFERENCE>\$[A-Za-z_][A-Za-z_0-9]*)|(?P<SYMBOL>'
    + b'|'.join(re.escape(it.encode()) for it in sorted(SYMBOLS, key=len, reverse=True)) + rb')|(?P<BAD>.)', re.S)


# The most decimal places that a column is looked at with.
MOST_PLACES = 18


class Kind(Enum):
    """The kinds of tokens. A bad byte is a token, but no grammar has a place for it."""

    NAME = 'name'
    NUMBER = 'number'
    STRING = 'string'
    REFERENCE = 'reference'
    SYMBOL = 'symbol'
    BAD = 'bad byte'


KINDS = dict(Kind.__members__)


class Token(NamedTuple):
    """A token and where it stands in its text, from 0; `end` is one past its last byte."""

    kind: Kind
    text: str
    start: int
    end: int


def cut(text: bytes) -> List[Token]:
    """The tokens of a text, the longest token first; spaces and tabs are none."""
    tokens, position = [], 0
    while position < len(text):
        if text[position] in b' \t':
            position += 1
            continue
        found = TOKEN.match(text, position)
        tokens.append(Token(KINDS[found.lastgroup], found.group().decode('latin-1'), position, found.end()))
        position = found.end()
    return tokens


def has_zeros(token: Token) -> bool:
    """Whether a token is a number of several digits that begins with 0."""
    return token.kind is Kind.NUMBER and len(token.text.rstrip('Ll')) > 1 and token.text[0] == '0'


def stands_nowhere(token: Token) -> bool:
    """Whether no grammar has a place for a token."""
    return token.kind is Kind.BAD or has_zeros(token) or token.text in ('++', '--')


def places_of(text: str) -> Optional[int]:
    """The number of decimal places that a text spells, or None."""
    return int(text) if text in map(str, range(MOST_PLACES + 1)) else None


def key_of(name: str, places: int) -> str:
    """The name of a column as it is looked at with decimal places: its own without any. No job names a column with a quote."""
    return f'{name}"{places}' if places else name


class Reader:
    """Reads tokens from the left. Each step takes only tokens with which the text can still be completed, so the token
    that is refused is the first one with which it can't."""

    def __init__(self, tokens: Sequence[Token], end: int):
        """`end` is where the text ends: the place of a refusal that comes after the last token."""
        self.tokens, self.next, self.end = tokens, 0, end

    def refusal(self, at: int, wanted: Wanted) -> Refused:
        """Why the text is refused at a place."""
        return Refused(Cause.SYNTAX, at, wanted)

    def refuse(self, wanted: Wanted) -> NoReturn:
        """Refuses the next token."""
        at = self.tokens[self.next].start if self.next < len(self.tokens) else self.end
        raise self.refusal(at, wanted)

    def token(self) -> Optional[Token]:
        """The next token, or None at the end."""
        return self.tokens[self.next] if self.next < len(self.tokens) else None

    def peek(self) -> Optional[str]:
        """The text of the next token, or None at the end."""
        return self.tokens[self.next].text if self.next < len(self.tokens) else None

    def has(self, text: str) -> bool:
        """Whether the next token is this one, which is taken then."""
        found = self.peek() == text
        self.next += found
        return found

    def want(self, text: str, wanted: Wanted) -> None:
        """Takes this token, or refuses what stands there."""
        if not self.has(text):
            self.refuse(wanted)

    def take(self, kind: Kind, wanted: Wanted) -> Token:
        """Takes a token of a kind, or refuses what stands there."""
        token = self.token()
        if token is None or token.kind is not kind or has_zeros(token):
            self.refuse(wanted)
        self.next += 1
        return token

    def places(self) -> int:
        """The number of decimal places after the name of a column, if one stands there."""
        if not self.has(','):
            return 0
        found = places_of(self.peek() or '')
        if found is None:
            self.refuse(Wanted.PLACES)
        self.next += 1
        return found
