"""Mistakes that are put into the explanations, one after another: the files of mistakes have to show each. Files that show
no mistake are worth nothing."""
from collections import defaultdict
from functools import partial
from unittest import mock

from streamrun_language import cells, explain, lines, site, table_hints, tables

from . import cases, follows

true_caret, true_position, true_place = explain.with_caret, lines.JobText.position, tables.place_of
true_rule, true_columns = explain.rule_of, explain.read_columns


def one_to_the_left(text, column):
    return true_caret(text, max(column - 1, 1))


def by_bytes(text, column):
    return [true_caret(text, column)[0], explain.MARGIN + ' ' * (column - 1) + '^']


def line_of_the_job(job, at):
    return job.line, true_position(job, at)[1]


def column_of_the_job(job, at):
    return true_position(job, at)[0], at + 1


def first_cell(data, refused):
    place = true_place(data, refused)
    place.column = 1
    return place


# (what, where, its name, what it becomes)
MISTAKES = [
    ('a caret one to the left', explain, 'with_caret', one_to_the_left),
    ('a caret by bytes', explain, 'with_caret', by_bytes),
    ('the line of the job', lines.JobText, 'position', line_of_the_job),
    ('the column in the job', lines.JobText, 'position', column_of_the_job),
    ('the first cell of the line', explain, 'place_of', first_cell),
    ('lines that end with LF alone', tables, 'LINE_END', tables.re.compile('\n')),
    ('no line below', explain, 'line_below', lambda data, number: b''),
    ('no word that is near', site.difflib, 'get_close_matches', lambda *_: []),
    ('a table of one column', explain, 'read_columns', lambda data: dict(list(true_columns(data).items())[:1])),
]


def without(rules, at):
    """The rules without one of them."""
    return rules[:at] + rules[at + 1:]


def rows_by_rule():
    """The mistakes of job files that each rule of a cause has a hint for."""
    found = defaultdict(list)
    for row, columns in [*cases.all_mistakes(), *follows.all_first_tries()]:
        def heard(data, site, newest, row=row, columns=columns):
            rule = true_rule(data, site, newest)
            found[site.refused.cause, rule.name].append((row, columns))
            return rule
        with mock.patch.object(explain, 'rule_of', heard):
            explain.explain_jobs(cases.unmarked(row[0])[0], columns, newest=3 if len(row) > 2 else 2)
    return found


def rules_left_out():
    """(what, a patch, a check) for each rule: without it the files that it has a hint for get another one."""
    rows = rows_by_rule()
    for cause, rules in explain.RULES.items():
        for at, rule in enumerate(rules):
            patch = mock.patch.dict(explain.RULES, {cause: without(rules, at)})
            yield f'no hint for {rule.name} ({cause.value})', patch, partial(wrong_in, rows[cause, rule.name])
    for at, rule in enumerate(table_hints.TABLE_RULES):
        patch = mock.patch.object(table_hints, 'TABLE_RULES', without(table_hints.TABLE_RULES, at))
        yield f'no hint for {rule.name} (a table)', patch, all_wrong_tables
    for at, form in enumerate(cells.FORMS):
        yield f'no {form.__name__}', mock.patch.object(cells, 'FORMS', without(cells.FORMS, at)), all_wrong_tables


def wrong_in(rows):
    """What is wrong with the explanations of some job files, or of those that are no text."""
    tries = dict(follows.first_tries.FOLLOWED)
    yield from cases.wrong_mistakes([it for it in rows if it[0][0] not in tries])
    yield from follows.wrong_first_tries([(typed, tries[typed]) for (typed, _), _ in rows if typed in tries])
    yield from cases.wrong_files()


def all_wrong_tables():
    yield from cases.wrong_tables()
    yield from cases.wrong_files()
    yield from follows.wrong_whole_tables()


def all_wrong():
    yield from all_wrong_tables()
    yield from cases.wrong_mistakes()


def is_found(check):
    """Whether a file shows that something is wrong."""
    try:
        return next(check(), None) is not None
    except Exception:  # An explanation that fails is found, too.
        return True


def all_mistakes(test):
    """Plants each mistake."""
    patches = [(what, mock.patch.object(where, name, becomes), all_wrong) for what, where, name, becomes in MISTAKES]
    for what, patch, check in [*patches, *rules_left_out()]:
        with patch:
            found = is_found(check)
        test.expect('planted', found, f'did not find {what}')
