"""The place at which a job is refused, with what stands around it, and rules that make a hint of it."""
from __future__ import annotations

import difflib
from dataclasses import dataclass
from typing import Callable, Dict, Iterable, List, Mapping, NamedTuple, Optional, Sequence, Union

from .jobs import Job
from .lines import JobText, Lines
from .refusals import Refused, Wanted
from .tokens import Kind, Token, cut

CLOSE_ENOUGH = 0.6


@dataclass
class Site:
    """The place of a refusal. earlier: the jobs above; columns: the cells of the table, or None without one; below: the
    line after the job, without blanks before it; header: what is wrong with the header of the table, or nothing."""

    job: JobText
    refused: Refused
    lines: Lines
    earlier: Dict[str, Job]
    columns: Optional[Mapping[str, Sequence[int]]]
    below: bytes
    header: str = ''

    def __post_init__(self):
        self.tokens: List[Token] = cut(self.job.text)
        self.index = sum(token.start < self.refused.at for token in self.tokens)
        self.rest: bytes = self.job.text[self.refused.at:]
        self.wanted: Optional[Wanted] = self.refused.wanted
        self.about = self.refused.about

    def token(self, by: int = 0) -> Optional[Token]:
        """The token at the place, or the one `by` tokens after it."""
        return self.tokens[self.index + by] if 0 <= self.index + by < len(self.tokens) else None

    def word(self, by: int = 0) -> str:
        """The text of that token, or nothing."""
        token = self.token(by)
        return token.text if token else ''

    def kind(self, by: int = 0) -> Optional[Kind]:
        """The kind of that token."""
        token = self.token(by)
        return token.kind if token else None

    def is_at_end(self) -> bool:
        """Whether the text ends here."""
        return self.index >= len(self.tokens)

    def touches(self) -> bool:
        """Whether nothing stands between the token at the place and the one before it."""
        return 0 < self.index < len(self.tokens) and self.tokens[self.index - 1].end == self.tokens[self.index].start

    def name(self) -> str:
        """The name of the job, as far as it has one."""
        return self.tokens[0].text if self.tokens and self.tokens[0].kind is Kind.NAME else 'NAME'

    def open_at(self) -> Optional[int]:
        """The index of the parenthesis that is open at the place, or None."""
        depth = 0
        for at in range(min(self.index, len(self.tokens)) - 1, -1, -1):
            depth += (self.tokens[at].text == ')') - (self.tokens[at].text == '(')
            if depth < 0:
                return at
        return None

    def inside(self) -> str:
        """The operation whose parentheses hold the place, or nothing."""
        at = self.open_at()
        return self.tokens[at - 1].text if at else ''

    def bytes_between(self, first: Token, last: Token) -> str:
        """The text from one token to another, both included."""
        return self.job.text[first.start:last.end].decode('utf-8', 'replace')

    def argument(self) -> str:
        """What stands from the comma or parenthesis before the place up to the next comma or parenthesis."""
        first = last = self.index
        while first > 0 and self.tokens[first - 1].text not in '(,':
            first -= 1
        while last + 1 < len(self.tokens) and self.tokens[last + 1].text not in '),':
            last += 1
        return self.bytes_between(self.tokens[first], self.tokens[last])

    def rest_of_job(self) -> str:
        """The text from the place on, without a semicolon after it."""
        return self.rest.decode('utf-8', 'replace').strip(' \t;')

    def rest_of_line(self) -> str:
        """The text from the place to the end of its line."""
        following = [start for start, _ in self.job.starts if start > self.refused.at]
        return self.job.text[self.refused.at:following[0] - 1 if following else None].decode('utf-8', 'replace').rstrip()

    def line_of(self, at: int) -> int:
        """The line of the file that holds a place of the text."""
        return self.job.position(at)[0]


Sentence = Union[str, Callable[[Site], str]]


class Rule(NamedTuple):
    """A hint: its name, when it applies, and its sentence."""

    name: str
    applies: Callable[[Site], object]
    sentence: Sentence

    def hint(self, site: Site) -> str:
        """The sentence at a place."""
        return self.sentence if isinstance(self.sentence, str) else self.sentence(site)


def nearest(word: str, known: Sequence[str]) -> Optional[str]:
    """The known word that is spelled most alike, letter case aside, if one is near enough."""
    lower = {it.lower(): it for it in reversed(known)}
    found = difflib.get_close_matches(word.lower(), list(lower), 1, CLOSE_ENOUGH)
    return lower[found[0]] if found else None


def listed(names: Iterable[str], most: int = 12) -> str:
    """Names in a row, with points at the end if there are more."""
    names = list(names)
    return ', '.join(names[:most]) + (', ..' if len(names) > most else '')
