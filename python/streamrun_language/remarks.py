"""What an accepted job file says that may be meant otherwise.

    remarks(jobs, columns, newest)     sentences without a point at the end; columns: the names of the table
"""
from __future__ import annotations

from typing import Collection, Iterator, List

from . import expressions as e
from .jobs import Column, Job, read_each
from .lambdas import Lambda
from .lines import NEWEST
from .table_view import shown

# Numbers after ^ that are likely to be meant as a power.
EXPONENTS = (2, 3)


def remarks(jobs: bytes, columns: Collection[str], newest: int = NEWEST) -> List[str]:
    """What may be meant otherwise, each once."""
    found = [f'{job.name}: {said}' for job in read_each(jobs, dict.fromkeys(columns, ()), newest)
             for operation in [*job.stages, job.terminal] if isinstance(operation.of, Lambda)
             for said in remarks_on(job, operation.of, columns)]
    return list(dict.fromkeys(found))


def remarks_on(job: Job, read: Lambda, columns: Collection[str]) -> Iterator[str]:
    """What is said of a lambda of a job."""
    sources = [source.name for source in job.sources if isinstance(source, Column)]
    for name in read.parameters:
        if sources and name in columns and name not in sources:
            yield f'`{name}` is an item of "{shown(sources[0])}" there, and not the column of that name'
    if any(isinstance(node, e.Binary) and node.name == '^' and is_exponent(node.operands[1]) for node in e.nodes_of(read.body)):
        yield '^ is the exclusive or, and a power is a product, x * x'


def is_exponent(node: e.Node) -> bool:
    """Whether an operand is a number that may be meant as an exponent."""
    return isinstance(node, e.Number) and node.value in EXPONENTS
