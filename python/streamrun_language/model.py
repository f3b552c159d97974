"""What streamrun has to write: answers of jobs, and reports.

    outcome(jobs, columns, form, newest, table)     the bytes of standard output and of standard error, and the status

Nothing of it is taken from the program: it is slow, has no pieces, batches or threads, and so can't share a mistake with
them.
"""
from __future__ import annotations

from dataclasses import dataclass
from enum import Enum
from typing import Any, Callable, Dict, List, Optional, Tuple

from .jobs import Job, read_jobs
from .lines import NEWEST
from .operators import EXACT
from .refusals import RefusedFile, RefusedTable
from .tables import form_for, read_columns
from .values import MAX, MIN, wrap
from .walks import Items, Selection, WalkFault, lambda_at, parts_of, walk


# What standard error has beside a report of no jobs.
NO_JOBS = b'streamrun: the job file has no job\n'


class Form(Enum):
    """The forms of answers. The values are the keys of JSON."""

    NUMBER = 'number'
    TRUTH = 'truth'
    OPTIONAL = 'optional'
    ARRAY = 'array'
    FAULT = 'fault'
    UNUSABLE = 'unusable'


@dataclass
class Answer:
    """The answer of a job: an integer, a boolean, an integer or None, a list, (kind, stage, item), or a job's name."""

    form: Form
    value: Any

    def is_missing(self) -> bool:
        """Whether a job that names this one has no value to go on with."""
        return self.form in (Form.FAULT, Form.UNUSABLE) or self == Answer(Form.OPTIONAL, None)


def answer_of(job: Job, items: Items, numbers: Dict[str, int], columns: Dict[str, List[int]]) -> Answer:
    """The answer of a job whose walk meets no fault."""
    name, stage = job.terminal.name, len(job.stages) + 1
    if job.terminal.of is EXACT:
        return Answer(Form.NUMBER, exact_sum(items, stage))
    if name.endswith('Match'):
        return Answer(Form.TRUTH, match(job, items, stage, job.terminal.of.function(numbers, columns)))
    values = (value for _, value in items)
    if name == 'reduce':
        return fold(job, values)
    if name == 'sum':
        return Answer(Form.NUMBER, wrap(sum(values)))
    if name == 'count':
        return Answer(Form.NUMBER, sum(1 for _ in values))
    if name == 'toArray':
        return Answer(Form.ARRAY, list(values))
    if name == 'findFirst':
        return Answer(Form.OPTIONAL, next(values, None))
    return Answer(Form.OPTIONAL, {'min': min, 'max': max}[name](values, default=None))


def fold(job: Job, values) -> Answer:
    """The fold of a `reduce`: a number, if it begins with one."""
    folded = None
    for value in values:
        folded = value if folded is None else job.terminal.of.function(folded, value)
    if not job.terminal.numbers:
        return Answer(Form.OPTIONAL, folded)
    return Answer(Form.NUMBER, job.terminal.numbers[0] if folded is None else folded)


def match(job: Job, items: Items, stage: int, function: Callable) -> bool:
    """Whether a lambda is true of an item, of every item or of none. No item after the first that decides is asked for."""
    name = job.terminal.name
    for place, value in items:
        if lambda_at(function, stage, place, value) == (name != 'allMatch'):
            return name == 'anyMatch'
    return name != 'anyMatch'


def exact_sum(items: Items, stage: int) -> int:
    """The sum, if each sum from the left is within 64 bits."""
    total = 0
    for place, value in items:
        total += value
        if not MIN <= total <= MAX:
            raise WalkFault('overflow', stage, place)
    return total


def instead_of_fault(job: Job, fault: Tuple) -> Answer:
    """The answer of a job whose walk meets this fault."""
    if job.on_fault is None:
        return Answer(Form.FAULT, fault)
    is_number = job.terminal.name in ('sum', 'count') or job.terminal.numbers
    return Answer(Form.NUMBER if is_number else Form.OPTIONAL, job.on_fault)


def answer_over(job: Job, source: Selection, numbers: Dict[str, int], columns: Dict[str, List[int]]) -> Answer:
    """The answer of a job over its source."""
    try:
        return answer_of(job, walk(job, source, numbers, columns), numbers, columns)
    except WalkFault as fault:
        return instead_of_fault(job, fault.args)


def answer_after(job: Job, columns: Dict[str, List[int]], answers: Dict[str, Answer]) -> Answer:
    """The answer of a job; answers: of the jobs above it."""
    named = {name: answers[name] for name in job.names()}
    missing = [name for name, answer in named.items() if answer.is_missing()]
    if missing:
        return Answer(Form.UNUSABLE, missing[0])
    values = {name: answer.value for name, answer in named.items()}
    return answer_over(job, Selection(parts_of(job, columns, values)), values, columns)


def answers_of(jobs: List[Job], columns: Dict[str, List[int]]) -> Dict[str, Answer]:
    """The answer of each job, in the order of the file."""
    answers: Dict[str, Answer] = {}
    for job in jobs:
        answers[job.name] = answer_after(job, columns, answers)
    return answers


def text_of(answer: Answer) -> str:
    """An answer as the report has it."""
    form, value = answer.form, answer.value
    if form is Form.FAULT:
        return 'fault {} stage {} item {}'.format(*value)
    if form is Form.UNUSABLE:
        return f'unusable {value}'
    if form is Form.OPTIONAL:
        return 'OptionalLong.empty' if value is None else f'OptionalLong[{value}]'
    return str(value).lower()


def json_of(name: str, answer: Answer) -> str:
    """A job of the report as JSON; keys stand in the order of their bytes."""
    form, value = answer.form, answer.value
    if form is Form.FAULT:
        item = 'null' if value[2] == '-' else value[2]
        return f'{{"fault":"{value[0]}","item":{item},"name":"{name}","stage":{value[1]}}}'
    if form is Form.ARRAY:
        return '{"array":[%s],"name":"%s"}' % (','.join(map(str, value)), name)
    shown = 'null' if value is None else f'"{value}"' if form is Form.UNUSABLE else str(value).lower()
    return f'{{"name":"{name}","{form.value}":{shown}}}'


def report(answers: Dict[str, Answer], form: str) -> str:
    """The report of these answers, as 'text' or as 'json'."""
    if form == 'json':
        return '[%s]\n' % ','.join(json_of(name, answer) for name, answer in answers.items())
    return ''.join(f'{name} = {text_of(answer)}\n' for name, answer in answers.items())


def outcome(jobs: bytes, columns: Optional[bytes] = None, form: str = 'text', newest: int = NEWEST,
            table: Optional[Dict[str, Any]] = None) -> Tuple[bytes, bytes, int]:
    """Standard output, standard error and status of a run over these bytes; columns: None if no file is given; newest: the
    newest version of job files that is read; table: the options by which the column file is read, as form_for takes them."""
    try:
        cells = {} if columns is None else read_columns(columns, form_for(jobs, newest, **table or {}))
        answers = answers_of(read_jobs(jobs, cells, newest), cells)
    except (RefusedTable, RefusedFile) as refused:
        return b'', f'streamrun: {refused}\n'.encode(), 1
    return report(answers, form).encode(), b'' if answers else NO_JOBS, 0
