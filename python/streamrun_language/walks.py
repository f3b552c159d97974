"""Walks of jobs, on one thread, item by item.

A walk is a chain of generators: an item is made when the stage after it asks for one, and none is made in advance, so a
walk over 2^62 values takes as long as the items that it asks for. An item is a pair of its place and its value.
"""
from __future__ import annotations

import itertools
import sys
from typing import Callable, Dict, Iterable, Iterator, List, Sequence, Tuple

from .jobs import Column, Job, Range, Values
from .values import LONGEST_SOURCE, Fault

Item = Tuple[int, int]
Items = Iterator[Item]


class WalkFault(Exception):
    """The first fault that a walk meets: its kind, stage and place."""


class Selection:
    """What a walk goes over: parts whose values can be had by position, and the positions at which a limit or a skip that
    has no other stage before it selects them."""

    def __init__(self, parts: Iterable[Sequence[int]]):
        self.parts = list(parts)
        self.length = sum(map(length_of, self.parts))
        self.first, self.end, self.is_asked = 0, self.length, True

    def skip(self, count: int) -> None:
        """Drops the first items."""
        self.first = min(self.first + count, self.end)

    def limit(self, most: int) -> None:
        """Keeps the first items."""
        self.end = min(self.end, self.first + most)
        self.is_asked = self.is_asked and most > 0

    def items(self) -> Items:
        """The items that are selected."""
        if not self.is_asked:
            return
        if self.length > LONGEST_SOURCE:
            raise WalkFault('source-too-long', 0, '-')
        before = 0
        for part in self.parts:
            after = before + length_of(part)
            for place in range(max(before, self.first), min(after, self.end)):
                yield place, part[place - before]
            before = after


def length_of(part: Sequence[int]) -> int:
    """How many values a part has; `len` has no room for the longest ranges."""
    return max(part.stop - part.start, 0) if isinstance(part, range) else len(part)


def lambda_at(function: Callable, stage: int, place: int, value: int):
    """The value of a lambda at an item."""
    try:
        return function(place, value)
    except Fault as fault:
        raise WalkFault(fault.args[0], stage, place) from None


def map_items(items: Items, stage: int, function: Callable) -> Items:
    """Each item's value becomes the lambda's."""
    for place, value in items:
        yield place, lambda_at(function, stage, place, value)


def filter_items(items: Items, stage: int, function: Callable) -> Items:
    """The items at which the lambda is true."""
    for place, value in items:
        if lambda_at(function, stage, place, value):
            yield place, value


def flat_map_items(items: Items, stage: int, function: Callable) -> Items:
    """The values of the inner streams, at the places of their items."""
    for place, value in items:
        for inner in lambda_at(function, stage, place, value):
            yield place, inner


def limit_items(items: Items, most: int) -> Items:
    """The first items. It asks for none after the last of them."""
    if most > 0:
        for number, item in enumerate(items, 1):
            yield item
            if number == most:
                return


def take_while(items: Items, stage: int, function: Callable) -> Items:
    """The items before the first one at which the lambda is false."""
    for place, value in items:
        if not lambda_at(function, stage, place, value):
            return
        yield place, value


def drop_while(items: Items, stage: int, function: Callable) -> Items:
    """The first item at which the lambda is false, and all after it."""
    for place, value in items:
        if not lambda_at(function, stage, place, value):
            yield place, value
            break
    yield from items


def prefix_items(items: Items, stage: int, numbers: List[int], operator: Callable) -> Items:
    """Folds up to each item. All items are asked for before one comes out."""
    gathered = list(items)
    start, end = numbers or (0, len(gathered))
    if end > len(gathered):
        raise WalkFault('out-of-array', stage, '-')
    values = [value for _, value in gathered]
    values[start:end] = itertools.accumulate(values[start:end], operator)
    yield from zip((place for place, _ in gathered), values)


def sorted_items(items: Items) -> Items:
    """The items in the order of their values. All are asked for before one comes out."""
    yield from sorted(items, key=lambda item: item[1])


def distinct_items(items: Items) -> Items:
    """The items whose value no item before them has."""
    seen = set()
    for place, value in items:
        if value not in seen:
            seen.add(value)
            yield place, value


def parts_of(job: Job, columns: Dict[str, List[int]], arrays: Dict[str, List[int]]) -> Iterator[Sequence[int]]:
    """The values of a job's sources; arrays: of the jobs above that this one names."""
    for source in job.sources:
        if isinstance(source, Range):
            yield range(source.start, source.end)
        elif isinstance(source, Values):
            yield source.values
        else:
            yield (columns if isinstance(source, Column) else arrays)[source.name]


def walk(job: Job, source: Selection, numbers: Dict[str, int], columns: Dict[str, List[int]]) -> Items:
    """The items that come out of the last stage; numbers: of the jobs above that this one names; columns: the table."""
    items = None
    for stage, operation in enumerate(job.stages, 1):
        name, given = operation.name, operation.numbers
        if items is None and name in ('limit', 'skip'):
            (source.limit if name == 'limit' else source.skip)(given[0])
            continue
        items = source.items() if items is None else items
        if name == 'limit':
            items = limit_items(items, given[0])
        elif name == 'skip':
            items = itertools.islice(items, min(given[0], sys.maxsize), None)
        elif name == 'prefix':
            items = prefix_items(items, stage, given, operation.of.function)
        elif name in ('sorted', 'distinct'):
            items = sorted_items(items) if name == 'sorted' else distinct_items(items)
        else:
            stages = {'map': map_items, 'filter': filter_items, 'flatMap': flat_map_items, 'takeWhile': take_while,
                      'dropWhile': drop_while}
            items = stages[name](items, stage, operation.of.function(numbers, columns))
    return source.items() if items is None else items
