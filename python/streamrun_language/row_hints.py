"""Hints on what version 3 of job files has besides: cells, places of items and sumExact."""
from __future__ import annotations

from . import expressions as e
from .lambdas import WITH_ROWS, WORDS_OF_ROWS, Lambda
from .operands import asked_for, closing, instead, is_in_lambda, text
from .refusals import Wanted
from .site import Rule, Site, nearest
from .stage_hints import end_at
from .tokens import Kind

OTHER_CELL = 'another cell of the row is cell("NAME"), docs/job-language.md'


def version_hint(site: Site) -> str:
    """What to do about a file of version 3."""
    return 'Files of version 3 are read with --language 3.' if site.lines.version < WITH_ROWS else 'One line says the version, before all jobs.'


def said_name(site: Site, by: int) -> str:
    """The column that a token names, as the table has it if one is near, or nothing if it is no name."""
    said = site.word(by).strip('"') if site.kind(by) in (Kind.NAME, Kind.STRING) else ''
    return nearest(said, list(site.columns or ())) or said


def cell_hint(site: Site) -> str:
    """What to write for a cell whose name has no parentheses or no quotes."""
    name, is_open = said_name(site, 0), site.wanted is Wanted.CELL_OPEN
    if name not in (site.columns or ()):
        return f'A cell has the name of its column in parentheses and double quotes, such as cell("{next(iter(site.columns or ()), "NAME")}").'
    old = text(site, site.index - (1 if is_open else 2), site.index if is_open else closing(site, site.index - 1))
    return f'The name of a column stands in parentheses and double quotes: {as_cell(name, old)}.'


def as_cell(name: str, old: str) -> str:
    """A text to be written as a cell."""
    return instead(f'cell("{name}")', old)


def other_cell(site: Site, name: str, old: str) -> str:
    """What to write for a text that means another cell of the row."""
    if name in (site.columns or ()) and [token.text for token in site.tokens[1:3]] == ['=', 'column']:
        return f'Another cell of the row is written so: {as_cell(name, old)}{asked_for(site)}.'
    return f'Another cell of the row is cell("{name or "NAME"}"), if the source of the job is one column, docs/job-language.md.'


def column_hint(site: Site) -> str:
    """What to write for a column inside a lambda, or for a cell with brackets."""
    return other_cell(site, said_name(site, 1), text(site, site.index - 1, closing(site, site.index)))


def row_hint(site: Site) -> str:
    """What to write for the place of an item."""
    old = 'row' if site.word(-1) == 'row' else text(site, site.index - 2, closing(site, site.index - 1))
    return f'The place of an item has no argument: {instead("row()", old)}.'


def exact_hint(site: Site) -> str:
    """What to write for an exact sum."""
    cure = instead('.reduce(0, Math::addExact)', text(site, site.index - 1, end_at(site, site.index)))
    return f'sumExact is of version 3: {cure}; or write `version 3` as the first line, and run with --language 3.'


def no_row_hint(site: Site) -> str:
    """What to write where the items are no rows."""
    plain = [it for it in site.columns or () if it != site.about]
    source = f'column("{plain[0] if plain else "NAME"}")'
    return f'Only items of one column are rows: begin the job with {source} alone, or ask for row().'


def is_of_rows(read) -> bool:
    """Whether a lambda has cells or places."""
    return isinstance(read, Lambda) and any(isinstance(node, (e.Cell, e.Row)) for node in e.nodes_of(read.body))


ROWS_OF_JOBS = [
    Rule('version 3', lambda s: s.word() == '3' and s.word(-1) == 'version', version_hint),
    Rule('brackets of a cell', lambda s: s.word() == '[' and s.word(-1) in ('cell', 'column') and is_in_lambda(s), column_hint),
    Rule('sumExact', lambda s: s.word() == 'sumExact' and s.wanted is Wanted.OPERATION, exact_hint),
]
ROWS_OF_LAMBDAS = [
    Rule('cells of version 3', lambda s: s.lines.version < WITH_ROWS and s.word() == '(' and s.word(-1) in WORDS_OF_ROWS,
         lambda s: f'{s.word(-1)} is of version 3: write{asked_for(s)[1:]}.'),
    Rule('column in a lambda', lambda s: s.word() == '(' and s.word(-1) == 'column', column_hint),
    Rule('quotes of a cell', lambda s: s.wanted is Wanted.STRING or s.wanted is Wanted.CELL_OPEN, cell_hint),
    Rule('row', lambda s: s.wanted is Wanted.ROW_OPEN, row_hint),
    Rule('parameter of rows', lambda s: s.wanted is Wanted.PARAMETER and s.word() in WORDS_OF_ROWS,
         lambda s: f'No parameter is named {s.word()} in version 3: name it x, here and in the expression.'),
]
NO_ROW = [Rule('no row', lambda s: True, no_row_hint)]
ROWS_OF_OPERATORS = [Rule('rows in an operator', lambda s: is_of_rows(s.about),
                          'An operator has two numbers and no row: take cell(..) or row() in a map before.')]
