"""Reports: a mapping from the names of jobs to their answers, in the order of the file."""
from __future__ import annotations

import json
from collections.abc import Iterator, Mapping
from dataclasses import dataclass, field
from typing import Any, NoReturn, Union

from .drawing import html_of
from .errors import JobFailed

try:
    import numpy
except ImportError:
    numpy = None  # type: ignore[assignment]


class NoValue(dict):  # type: ignore[type-arg]
    """A job without a value. Whatever takes it for one raises JobFailed with its line: arithmetic, order, truth, conversion, JSON.
    It is a dict since `json` asks those alone for what is in them."""
    job: str

    def __post_init__(self) -> None:
        # An empty dict isn't asked.
        super().__init__(answer=str(self))

    def failed(self, *_: object) -> NoReturn:
        """Raises the job's line."""
        raise JobFailed((f'{self.job} = {self}' if self.job else str(self),))

    __bool__ = __int__ = __float__ = __index__ = __len__ = __iter__ = __round__ = __abs__ = __neg__ = __pos__ = __invert__ = failed
    __add__ = __radd__ = __sub__ = __rsub__ = __mul__ = __rmul__ = __truediv__ = __rtruediv__ = __floordiv__ = failed
    __rfloordiv__ = __mod__ = __rmod__ = __pow__ = __rpow__ = __divmod__ = __rdivmod__ = __and__ = __rand__ = __or__ = failed
    __ror__ = __xor__ = __rxor__ = __lshift__ = __rlshift__ = __rshift__ = __rrshift__ = failed
    __ior__ = __lt__ = __le__ = __gt__ = __ge__ = __getitem__ = __contains__ = __reversed__ = __array__ = failed
    items = keys = values = get = failed  # type: ignore[assignment]


@dataclass(frozen=True)
class Fault(NoValue):
    """The first fault of a job: its kind, like 'divide-by-zero', the stage from 1 (0 is the source), and the place of the
    item in the source from 0, or None if it concerns no single item."""
    kind: str
    stage: int
    item: int | None
    job: str = field(default='', compare=False)

    def __reduce__(self) -> tuple[Any, ...]:
        return Fault, (self.kind, self.stage, self.item, self.job)

    def __str__(self) -> str:
        return f'fault {self.kind} stage {self.stage} item {"-" if self.item is None else self.item}'


@dataclass(frozen=True)
class Unusable(NoValue):
    """A job that couldn't be run, since the job of this name, which it names, has no value."""
    name: str
    job: str = field(default='', compare=False)

    def __reduce__(self) -> tuple[Any, ...]:
        return Unusable, (self.name, self.job)

    def __str__(self) -> str:
        return f'unusable {self.name}'


# What a job answers: a number, a boolean, an array (of numpy if numpy is there), None for an empty optional, or why not.
Answer = Union[int, bool, 'list[int]', 'numpy.ndarray[Any, Any]', None, Fault, Unusable]


def answer_of(job: Mapping[str, Any]) -> Answer:
    """The answer of a job, from its object of the JSON report."""
    if 'fault' in job:
        return Fault(job['fault'], job['stage'], job['item'], job['name'])
    if 'unusable' in job:
        return Unusable(job['unusable'], job['name'])
    if 'array' in job:
        return job['array'] if numpy is None else numpy.array(job['array'], dtype=numpy.int64)
    value: int | bool | None = next(job[kind] for kind in ('number', 'truth', 'optional') if kind in job)
    return value


class Report(Mapping[str, Answer]):
    """What a run answers: `report['total']` is the answer of the job `total`.

    `json` is the report as the program wrote it, also for `json.loads`. In a notebook a report is a table, with a small line for each array."""

    def __init__(self, text: bytes) -> None:
        self.json = text
        self._answers = {job['name']: answer_of(job) for job in json.loads(text)}

    @property
    def faults(self) -> dict[str, Fault | Unusable]:
        """The jobs that have a fault or couldn't be run."""
        return {name: answer for name, answer in self.items() if isinstance(answer, NoValue)}  # type: ignore[misc]

    def check(self) -> Report:
        """The report, if each job has a value; else JobFailed with the lines of those that have none."""
        if self.faults:
            raise JobFailed(tuple(f'{name} = {answer}' for name, answer in self.faults.items()))
        return self

    def __getitem__(self, name: str) -> Answer:
        return self._answers[name]

    def __iter__(self) -> Iterator[str]:
        return iter(self._answers)

    def __len__(self) -> int:
        return len(self._answers)

    def __eq__(self, other: object) -> bool:
        return isinstance(other, Report) and self.json == other.json

    def __hash__(self) -> int:
        return hash(self.json)

    def __repr__(self) -> str:
        """A line for each job; a long array is cut."""
        return '\n'.join(f'{name} = {words_of(answer)}' for name, answer in self.items())

    def _repr_html_(self) -> str:
        return html_of([(name, words_of(answer), numbers_of(answer)) for name, answer in self.items()])


def numbers_of(answer: Answer) -> list[int] | None:
    """The values of an array, or None if the answer is none."""
    if isinstance(answer, list):
        return answer
    return None if numpy is None or not isinstance(answer, numpy.ndarray) else answer.tolist()


def words_of(answer: Answer, most: int = 8) -> str:
    """An answer in few words."""
    values = numbers_of(answer)
    if values is not None:
        shown = ', '.join(map(str, values[:most]))
        return f'[{shown}]' if len(values) <= most else f'[{shown}, ..] ({len(values)} values)'
    return str(answer)
