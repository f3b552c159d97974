"""Mistakes that are put into the tool, one after another: random files have to show each. Files that show no mistake are
worth nothing. What a merge may get wrong the prover refuses (`report_merge`)."""
from unittest import mock

from scatter_lib import jobs, plan, running, tables

from . import by_parts

MOST_FILES = 1000


def in_another_order(merged):
    """Merges the parts in the order in which they happen to be ready: the last one first."""
    return lambda merger, form, text, rows, reports: merged(merger, form, text, rows[::-1], reports[::-1])


def with_equal_rows(merged):
    """Takes all parts for equally long."""
    return lambda merger, form, text, rows, reports: merged(merger, form, text, [sum(rows) // len(rows)] * len(rows), reports)


def at_bytes(cuts):
    """Cuts a table anywhere."""
    def anywhere(data, start, count, sign):
        found = cuts(data, start, count, sign)
        size = len(data) - start
        return [(start + size * number // count, rows) for number, (_, rows) in enumerate(found, 1)]
    return anywhere


# (what, where, its name, what it becomes)
MISTAKES = [
    ('parts merged out of order', running, 'merged', in_another_order(running.merged)),
    ('rows that aren\'t counted', running, 'merged', with_equal_rows(running.merged)),
    ('each part with its own number', plan, 'given', lambda job, record, is_json: job.written()),
    ('a number instead of a fault in a part', jobs.Job, 'written', lambda job, array, is_of_part, true=jobs.Job.written: true(job, array)),
    ('a table cut anywhere', tables, 'cuts', at_bytes(tables.cuts)),
]
# This mistake shows over tables that are refused.
MISTAKES_OF_REFUSALS = [
    ('a row that isn\'t moved', running, 'ended_by', lambda outcome, part, before, true=running.ended_by: true(outcome, part, 0)),
    ('a quote that isn\'t heeded', tables, 'spans', lambda data, start, sign: iter([(False, start, len(data))] * (start < len(data)))),
]


def is_found(test, outcomes_of, where, name, becomes):
    """Whether a file shows a mistake."""
    with mock.patch.object(where, name, becomes):
        for index in range(MOST_FILES):
            _, wanted, got = next(test.differences(outcomes_of, [index]))
            if wanted != got:
                return True
    return False


def all_mistakes(test):
    for mistakes, outcomes_of in ((MISTAKES, by_parts.random_outcomes), (MISTAKES_OF_REFUSALS, by_parts.refused_outcomes)):
        for what, where, name, becomes in mistakes:
            found = is_found(test, outcomes_of, where, name, becomes)
            test.expect('planted', found, f'did not find {what}')
            if found:
                print(f'planted: found {what}')
