"""The grammar of jobs: the parts of a job with their places. Numbers, names and arguments are only checked for their form.

    JobReader(text, version).job()      a JobSyntax, or Refused
"""
from __future__ import annotations

from dataclasses import dataclass, field
from typing import List, Optional, Sequence

from .lambdas import WITH_ROWS, Argument, Want, deep_recursion
from .refusals import Cause, Refused, Wanted
from .tokens import Kind, Reader, Token, cut, stands_nowhere
from .values import MAX, MIN

# What the argument of an operation is: a lambda that gives what Want says, an operator, or none.
OPERATOR = 'operator'
STAGES = {'map': Want.LONG, 'filter': Want.BOOLEAN, 'flatMap': Want.STREAM, 'limit': None, 'skip': None,
          'takeWhile': Want.BOOLEAN, 'dropWhile': Want.BOOLEAN, 'prefix': OPERATOR}
TERMINALS = {'sum': None, 'count': None, 'min': None, 'max': None, 'findFirst': None, 'toArray': None,
             'reduce': OPERATOR, 'anyMatch': Want.BOOLEAN, 'allMatch': Want.BOOLEAN, 'noneMatch': Want.BOOLEAN}
OPERATIONS = {**STAGES, **TERMINALS}
# Stages and terminals of later versions: the word, and the first version that has it. None takes anything.
LATER_STAGES = {'sorted': 3, 'distinct': 3}
LATER = {'sumExact': 3, **LATER_STAGES}
# How many numbers stand in an operation that has no argument, and may stand before the argument of one.
NUMBERS = {'limit': 1, 'skip': 1, 'onFault': 1}
NUMBERS_BEFORE = {'prefix': 2, 'reduce': 1}
# What may stand after a terminal, by the version of a file.
FALLBACKS = {1: (), 2: ('onFault',), 3: ('onFault',)}


@dataclass
class Numeral:
    """A number outside lambdas: its digits, with a minus or none, or the value of a constant."""

    at: int
    size: int
    has_minus: bool = False

    def value(self) -> int:
        """Its value, if it fits into 64 bits."""
        value = -self.size if self.has_minus else self.size
        if not MIN <= value <= MAX:
            raise Refused(Cause.LITERAL_TOO_LARGE, self.at, about=self)
        return value


@dataclass
class Source:
    """A source: the bytes from start to end. `word` is the name of a column, which is looked at with so many decimal places, or of
    a job; `parts` are the sources of a `concat`."""

    name: str
    start: int
    end: int = 0
    numbers: List[Numeral] = field(default_factory=list)
    word: Optional[Token] = None
    places: int = 0
    parts: List['Source'] = field(default_factory=list)

    def word_text(self) -> str:
        """The name of a column without its quotes, or of a job."""
        return self.word.text[1:-1] if self.word.kind is Kind.STRING else self.word.text

    def plain(self) -> List['Source']:
        """The sources that aren't a `concat`, from the left."""
        waiting, found = [self], []
        while waiting:
            source = waiting.pop()
            if source.name == 'concat':
                waiting.extend(reversed(source.parts))
            else:
                found.append(source)
        return found


@dataclass
class Call:
    """A stage, a terminal or a fallback: the bytes from start to end."""

    name: str
    start: int
    end: int
    numbers: List[Numeral]
    argument: Optional[Argument]


@dataclass
class JobSyntax:
    """A job as the grammar gives it."""

    name: Token
    source: Source
    stages: List[Call]
    terminal: Call
    fallback: Optional[Call]
    tokens: Sequence[Token]


class JobReader(Reader):
    """The grammar of a job."""

    def __init__(self, text: bytes, version: int):
        super().__init__(cut(text), len(text))
        self.version = version

    def job(self) -> JobSyntax:
        """The whole text."""
        name = self.take(Kind.NAME, Wanted.NAME)
        self.want('=', Wanted.EQUALS)
        with deep_recursion():
            source = self.source(Wanted.SOURCE)
        calls = [self.call()]
        while calls[-1].name in STAGES or calls[-1].name in LATER_STAGES:
            calls.append(self.call())
        fallback = self.fallback()
        self.has(';')
        if self.next < len(self.tokens):
            self.refuse(Wanted.END)
        return JobSyntax(name, source, calls[:-1], calls[-1], fallback, self.tokens)

    def last_end(self) -> int:
        """Where the last token ends that was taken."""
        return self.tokens[self.next - 1].end

    def one_of(self, names: Sequence[str], wanted: Wanted) -> Token:
        """A name that is one of these."""
        if self.peek() not in names:
            self.refuse(wanted)
        return self.take(Kind.NAME, wanted)

    # Sources

    def source(self, wanted: Wanted) -> Source:
        """A source, with `LongStream.` before it or none."""
        start = self.take(Kind.NAME, wanted)
        if start.text == 'LongStream':
            self.want('.', Wanted.POINT)
            name = self.one_of(SOURCES, Wanted.SOURCE_NAME)
        else:
            self.next -= 1
            name = self.one_of(SOURCES, wanted)
        self.want('(', Wanted.OPEN)
        found = Source(name.text, start.start)
        SOURCES[name.text](self, found)
        found.end = self.last_end()
        return found

    def range_source(self, found: Source) -> None:
        """The two numbers of a range."""
        found.numbers.append(self.number())
        self.want(',', Wanted.COMMA)
        found.numbers.append(self.number())
        self.want(')', Wanted.CLOSE)

    def of_source(self, found: Source) -> None:
        """The values of `of`, if it has any."""
        if self.has(')'):
            return
        found.numbers.append(self.number())
        while self.has(','):
            found.numbers.append(self.number())
        self.want(')', Wanted.NEXT_NUMBER)

    def empty_source(self, found: Source) -> None:
        """Nothing stands in `empty`."""
        self.want(')', Wanted.CLOSE)

    def column_source(self, found: Source) -> None:
        """The name of a column, and decimal places from version 3 on."""
        found.word = self.take(Kind.STRING, Wanted.STRING)
        found.places = self.places() if self.version >= WITH_ROWS else 0
        self.want(')', Wanted.CLOSE)

    def result_source(self, found: Source) -> None:
        """The name of a job."""
        found.word = self.take(Kind.NAME, Wanted.ARRAY_NAME)
        self.want(')', Wanted.CLOSE)

    def concat_source(self, found: Source) -> None:
        """Two sources or more."""
        found.parts.append(self.source(Wanted.SOURCE))
        self.want(',', Wanted.NEXT_PART)
        found.parts.append(self.source(Wanted.SOURCE))
        while self.has(','):
            found.parts.append(self.source(Wanted.SOURCE))
        self.want(')', Wanted.NEXT_PART)

    # Numbers

    def number(self) -> Numeral:
        """A number, or a constant of Long."""
        at = self.token().start if self.token() else self.end
        if self.has('Long'):
            self.want('.', Wanted.CONSTANT)
            name = self.one_of(('MAX_VALUE', 'MIN_VALUE'), Wanted.CONSTANT).text
            return Numeral(at, MAX) if name == 'MAX_VALUE' else Numeral(at, -MIN, True)
        has_minus = self.has('-')
        return Numeral(at, int(self.take(Kind.NUMBER, Wanted.NUMBER).text.rstrip('Ll')), has_minus)

    def number_before_comma(self) -> Optional[Numeral]:
        """A number with a comma after it, or None if something else stands here."""
        before = self.next
        try:
            found = self.number()
            if self.has(','):
                return found
        except Refused:
            pass
        self.next = before
        return None

    # Operations

    def call(self) -> Call:
        """A point and a stage or a terminal."""
        self.want('.', Wanted.POINT)
        later = [it for it, first in LATER.items() if self.version >= first]
        return self.operation(self.one_of([*OPERATIONS, *later], Wanted.OPERATION))

    def fallback(self) -> Optional[Call]:
        """What may stand after the terminal."""
        if not FALLBACKS[self.version] or not self.has('.'):
            return None
        return self.operation(self.one_of(FALLBACKS[self.version], Wanted.FALLBACK))

    def operation(self, name: Token) -> Call:
        """What stands in the parentheses of an operation."""
        self.want('(', Wanted.OPEN)
        argument = None
        if OPERATIONS.get(name.text) is None:
            numbers = [self.number() for _ in range(NUMBERS.get(name.text, 0))]
        else:
            numbers = self.numbers_before(NUMBERS_BEFORE.get(name.text, 0))
            argument = self.argument()
        self.want(')', Wanted.CLOSE)
        return Call(name.text, name.start, self.last_end(), numbers, argument)

    def numbers_before(self, count: int) -> List[Numeral]:
        """`count` numbers before an argument, each with a comma after it, or none."""
        first = self.number_before_comma() if count else None
        found = [] if first is None else [first]
        while found and len(found) < count:
            found.append(self.number())
            self.want(',', Wanted.COMMA)
        return found

    def argument(self) -> Argument:
        """The tokens up to the parenthesis that has no partner among them. No comma stands outside inner parentheses."""
        start, first, depth = self.last_end(), self.next, 0
        while self.peek() is not None and (depth or self.peek() != ')'):
            if stands_nowhere(self.tokens[self.next]):
                self.refuse(Wanted.ARGUMENT)
            if depth == 0 and self.peek() == ',':
                self.refuse(Wanted.ARGUMENT_END)
            depth += (self.peek() == '(') - (self.peek() == ')')
            self.next += 1
        if self.peek() is None:
            self.refuse(Wanted.CLOSE)
        if self.next == first:
            self.refuse(Wanted.ARGUMENT)
        return Argument(start, self.tokens[self.next].start, self.tokens[first:self.next])


SOURCES = {'range': JobReader.range_source, 'rangeClosed': JobReader.range_source, 'of': JobReader.of_source,
           'empty': JobReader.empty_source, 'column': JobReader.column_source, 'result': JobReader.result_source,
           'concat': JobReader.concat_source}
