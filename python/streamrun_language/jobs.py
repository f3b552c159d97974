"""Job files: which jobs the bytes of a file spell, or why the file is refused.

    read_jobs(data, columns, newest)     the jobs, or RefusedFile
"""
from __future__ import annotations

from dataclasses import dataclass
from typing import Collection, Dict, Iterator, List, Optional, Union

from .lambdas import Lambda, read_lambda
from .lines import NEWEST, JobText, read_lines
from .operators import EXACT, Operator, read_operator
from .refusals import Cause, Refused, RefusedFile
from .syntax import LATER_STAGES, OPERATIONS, OPERATOR, Call, JobReader, JobSyntax, Source
from .tokens import Token, key_of

MOST_JOBS, MOST_BYTES, MOST_NAME, MOST_STAGES, MOST_SOURCES, MOST_VALUES = 256, 65536, 64, 32, 8, 1024
NOT_SCALAR = ('toArray', 'anyMatch', 'allMatch', 'noneMatch')


@dataclass
class Range:
    """The integers from start up to, but not including, end."""

    start: int
    end: int


@dataclass
class Values:
    """These integers."""

    values: List[int]


@dataclass
class Column:
    """The cells of a column; with decimal places it has the name of its key."""

    name: str


@dataclass
class Result:
    """The array of a job above."""

    name: str


@dataclass
class Operation:
    """A stage or a terminal: its numbers, and what its argument spells."""

    name: str
    numbers: List[int]
    of: Union[Lambda, Operator, None]


@dataclass
class Job:
    """A job that is accepted. `on_fault` is the integer that replaces a fault, or None."""

    name: str
    sources: List[Union[Range, Values, Column, Result]]
    stages: List[Operation]
    terminal: Operation
    on_fault: Optional[int]

    def names(self) -> Iterator[str]:
        """The jobs that it names, in order of writing."""
        yield from (source.name for source in self.sources if isinstance(source, Result))
        for operation in [*self.stages, self.terminal]:
            if isinstance(operation.of, Lambda):
                yield from (it.text for it in operation.of.references())


class JobChecker:
    """Checks the parts of a job in order of writing. version: of its file; columns: the names of columns; earlier: the jobs
    above; has_rows: whether its items are rows, since its source is one column."""

    def __init__(self, version: int, columns: Collection[str], earlier: Dict[str, Job]):
        self.version, self.columns, self.earlier = version, columns, earlier
        self.has_rows = False

    def job(self, syntax: JobSyntax) -> Job:
        """The job, or its first part with a fault."""
        self.name(syntax.name)
        self.has_rows = syntax.source.name == 'column'
        plain = syntax.source.plain()
        if len(plain) > MOST_SOURCES:
            raise Refused(Cause.TOO_LONG, plain[MOST_SOURCES].start, about='concat')
        sources = [self.source(it) for it in plain]
        stages = []
        for call in syntax.stages:
            if len(stages) == MOST_STAGES:
                raise Refused(Cause.TOO_LONG, call.start, about='stages')
            stages.append(self.operation(call))
        terminal = self.operation(syntax.terminal)
        return Job(syntax.name.text, sources, stages, terminal, self.fallback(syntax))

    def name(self, token: Token) -> None:
        """The name of the job."""
        if len(token.text) > MOST_NAME:
            raise Refused(Cause.TOO_LONG, token.start, about='name')
        if token.text in self.earlier:
            raise Refused(Cause.SAME_NAME, token.start, about=token.text)

    def source(self, source: Source) -> Union[Range, Values, Column, Result]:
        """A plain source."""
        if source.name == 'of' and len(source.numbers) > MOST_VALUES:
            raise Refused(Cause.TOO_LONG, source.numbers[MOST_VALUES].at, about='of')
        values = [number.value() for number in source.numbers]
        if source.name == 'range':
            return Range(*values)
        if source.name == 'rangeClosed':
            return Range(values[0], values[1] + 1)
        if source.name == 'column':
            return self.column(source)
        return self.result(source) if source.name == 'result' else Values(values)

    def column(self, source: Source) -> Column:
        """A column of the table."""
        key = key_of(source.word_text(), source.places)
        if key not in self.columns:
            raise Refused(Cause.UNKNOWN_COLUMN, source.word.start, about=source.word_text())
        return Column(key)

    def result(self, source: Source) -> Result:
        """The array of a job above."""
        name = source.word_text()
        if name not in self.earlier:
            raise Refused(Cause.UNKNOWN_JOB, source.word.start, about=name)
        if self.earlier[name].terminal.name != 'toArray':
            raise Refused(Cause.NOT_AN_ARRAY, source.word.start, about=name)
        return Result(name)

    def operation(self, call: Call) -> Operation:
        """A stage or a terminal."""
        numbers = [number.value() for number in call.numbers]
        if call.name == 'sumExact':
            return Operation('reduce', [EXACT.identity], EXACT)
        if call.name in LATER_STAGES:
            return Operation(call.name, [], None)
        want = OPERATIONS[call.name]
        if call.name in ('limit', 'skip') and numbers[0] < 0:
            raise Refused(Cause.NEGATIVE_COUNT, call.numbers[0].at, about=call)
        if call.name == 'prefix' and numbers and not 0 <= numbers[0] <= numbers[1]:
            raise Refused(Cause.BAD_RANGE, call.numbers[0].at, about=numbers)
        if want is None:
            return Operation(call.name, numbers, None)
        if want is OPERATOR:
            return Operation(call.name, numbers, self.operator(call, numbers))
        read = read_lambda(call.argument, want, self.version)
        self.references(read)
        self.cells(read)
        return Operation(call.name, numbers, read)

    def operator(self, call: Call, numbers: List[int]) -> Operator:
        """The operator of a `reduce` or a `prefix`."""
        operator = read_operator(call.argument, self.version)
        if operator is EXACT and (call.name != 'reduce' or not numbers):
            raise Refused(Cause.OPERATOR_NOT_LISTED, call.argument.tokens[0].start, about=EXACT)
        if call.name == 'reduce' and numbers:
            if operator.identity is None:
                raise Refused(Cause.NO_IDENTITY, call.numbers[0].at, about=operator)
            if operator.identity != numbers[0]:
                raise Refused(Cause.NOT_IDENTITY, call.numbers[0].at, about=(operator, numbers[0]))
        return operator

    def references(self, read: Lambda) -> None:
        """The jobs that a lambda names."""
        for node in read.references():
            if node.text not in self.earlier:
                raise Refused(Cause.UNKNOWN_JOB, node.at, about=node.text)
            if self.earlier[node.text].terminal.name in NOT_SCALAR:
                raise Refused(Cause.NOT_A_NUMBER, node.at, about=self.earlier[node.text])

    def cells(self, read: Lambda) -> None:
        """The cells that a lambda names."""
        for node in read.cells():
            if not self.has_rows:
                raise Refused(Cause.NO_ROW, node.at, about=node.text)
            if key_of(node.text, node.places) not in self.columns:
                raise Refused(Cause.UNKNOWN_COLUMN, node.at, about=node.text)

    def fallback(self, syntax: JobSyntax) -> Optional[int]:
        """The number of `onFault`, if there is one."""
        if syntax.fallback is None:
            return None
        number = syntax.fallback.numbers[0].value()
        if syntax.terminal.name in NOT_SCALAR:
            raise Refused(Cause.NOT_SCALAR, syntax.fallback.start, about=syntax.terminal)
        return number


def read_job(text: bytes, version: int, columns: Collection[str], earlier: Dict[str, Job]) -> Job:
    """The job that a text spells."""
    if len(earlier) >= MOST_JOBS:
        raise Refused(Cause.TOO_LONG, len(text) - len(text.lstrip(b' \t')), about='jobs')
    if len(text) > MOST_BYTES:
        raise Refused(Cause.TOO_LONG, MOST_BYTES, about='text')
    return JobChecker(version, columns, earlier).job(JobReader(text, version).job())


def read_each(data: bytes, columns: Collection[str], newest: int = NEWEST) -> Iterator[Job]:
    """The jobs of a file one after the other, up to one that is refused."""
    lines, earlier = read_lines(data, newest), {}
    for text in lines.jobs:
        try:
            job = read_job(text.text, lines.version, columns, earlier)
        except Refused as refused:
            raise RefusedFile(text, refused) from None
        earlier[job.name] = job
        yield job


def read_jobs(data: bytes, columns: Collection[str], newest: int = NEWEST) -> List[Job]:
    """All jobs of a file; columns: the names of columns; newest: the newest version that is read."""
    return list(read_each(data, columns, newest))
