"""Hints on tables that are refused. Commands stand in backquotes, with FILE for the table."""
from __future__ import annotations

import re
from dataclasses import dataclass
from functools import cached_property
from typing import Callable, FrozenSet, NamedTuple, Optional, Union

from .cells import is_missing
from .refusals import RefusedTable, TableCause
from .table_view import SEPARATORS, WORDS, Column, View, look_at, on_one_line, plural, shown
from .tables import INTEGERS, Place, TableForm
from .tokens import MOST_PLACES, key_of

UNPACKED_BY = {b'\x1f\x8b': 'zcat', b'BZh': 'bzcat', b'\xfd7zXZ': 'xzcat', b'\x28\xb5\x2f\xfd': 'zstdcat'}
JOBS = re.compile(rb'\s*((#|//)[^\n]*\s+)*(version 2\s+)?[A-Za-z_]\w*\s*=\s*[A-Za-z.]+\(')
ALL_COLUMNS = ' For all columns at once: tools/explain --columns FILE.'


@dataclass
class TableSite:
    """The place at which a table is refused: its cell and the name of its column, as a reader sees them. form: how the table is
    read; named: the columns that the jobs name."""

    data: bytes
    refused: RefusedTable
    place: Place
    form: TableForm = INTEGERS
    named: FrozenSet[str] = frozenset()

    def __post_init__(self):
        at = max(self.refused.column, 1) - 1
        cells, header = self.place.cells, self.place.header
        self.cell = shown(cells[at]) if at < len(cells) else ''
        self.name = shown(header[at]) if at < len(header) else ''
        self.shown_name = on_one_line(self.name)
        self.is_named = at < len(header) and any(key_of(header[at], places) in self.named for places in range(MOST_PLACES + 1))

    @cached_property
    def view(self) -> View:
        """What the whole table holds."""
        return view_of(self.data, self.form, len(self.place.header))

    def is_bad_cell(self) -> bool:
        """Whether a cell is no number."""
        return self.refused.cause is TableCause.BAD_NUMBER

    def column(self) -> Optional[Column]:
        """The column of a cell that is no number."""
        is_there = self.is_bad_cell() and self.refused.column <= len(self.view.columns)
        return self.view.columns[self.refused.column - 1] if is_there else None

    def is_kept_out(self) -> bool:
        """Whether no job names the column, and all are looked at."""
        return self.form.is_all and not self.is_named

    def has_totals(self) -> bool:
        """Whether the last row has totals, and would be read as a row like others."""
        return self.view.has_totals and self.is_bad_cell() and (self.refused.row == self.view.rows or self.is_kept_out())

    def by(self, *columns: Column) -> str:
        """The command for some columns, what else it does, and where the one for all is."""
        others = [it for it in self.view.columns if it.name not in [done.name for done in columns] and not it.is_lost() and it.value()]
        totals = f' Row {self.view.rows} has totals, and is left out.' if self.view.has_totals and columns else ''
        return f'`{self.view.made_by(list(columns))}`.{totals}' + (ALL_COLUMNS if others else '')


def view_of(data: bytes, form: TableForm, width: int) -> View:
    """What a table holds that is read in a form; width: how many names its header has then. The sign between cells is another one
    if it has one name."""
    return look_at(data, separator=form.separator if width > 1 else None)


def header_hint(data: bytes, form: TableForm, width: int) -> str:
    """What is wrong with the header of a table that is read in a form, or nothing: another separator, lines above it."""
    view = view_of(data, form, width)
    if view.above:
        return f'The header is line {view.above + 1}, and not the first one: `{view.lines_left()[0]}`.'
    if width == 1 and view.separator != form.separator:
        here = f'Cells are parted by {sign_in_words(form.separator)}, and here by {sign_in_words(view.separator)}: '
        return here + ('leave --separator out.' if view.separator == ',' else f'run with `--separator {WORDS[view.separator]}`.')
    return ''


def sign_in_words(sign: str) -> str:
    """A sign between cells in words."""
    return 'commas' if sign == ',' else f'the sign {SEPARATORS[sign]}'


class TableRule(NamedTuple):
    """A hint on tables: its name, when it applies, and its sentence."""

    name: str
    applies: Callable[[TableSite], object]
    sentence: Union[str, Callable[[TableSite], str]]


def unpacked_by(site: TableSite) -> str:
    """The program that unpacks the file, if it is compressed."""
    return next((tool for magic, tool in UNPACKED_BY.items() if site.data.startswith(magic)), '')


def is_utf_16(site: TableSite) -> bool:
    """Whether the file is UTF-16."""
    return site.data.startswith((b'\xff\xfe', b'\xfe\xff')) or site.data[:200].count(b'\0') * 3 > len(site.data[:200]) > 3


def length_hint(site: TableSite) -> str:
    """What to do about a row of another length."""
    wanted, found = len(site.place.header), len(site.place.cells)
    counts = f'The header has {wanted} names and this row has {found} cells: '
    if found > wanted and not site.place.cells[-1].strip():
        return counts + r"delete the comma at the end of the line, `sed 's/,\r*$//' FILE`."
    if found > wanted:
        return counts + 'a comma inside a cell wants double quotes around the cell, and one inside a number has to go.'
    return counts + f'write the cells that are missing, or 0: `{site.view.made_by([])}`.'


def missing_hint(site: TableSite) -> str:
    """What to do about a cell without a value."""
    column, word = site.column(), site.cell.strip(' \t')
    count = plural(len(column.missing[word]), f'cell "{word}"' if word else 'empty cell')
    begun = f'Each cell has a number, and this column has {count}: '
    if column.has_blanks():
        return begun + 'run with `--blank 0`, or another number, as which they count.'
    return begun + f'write 0 or another number, {site.by(column)}'


def odd_hint(site: TableSite) -> str:
    """What to do about a single cell that is no number."""
    column = site.column()
    return (f'Of {plural(site.view.rows, "cell")} {"this one" if len(column.odd) == 1 else f"these {len(column.odd)}"} alone '
            f'of the column {"is" if len(column.odd) == 1 else "are"} no number: correct the cell, or leave '
            f'{plural(len(column.odd), "row")} out, {site.by(column)}')


def form_hint(site: TableSite) -> str:
    """What to write for all cells of the column."""
    column = site.column()
    source = column.with_places()
    looked = f'{source} in a file of version 3 looks at it with decimal places. Or: ' if source else ''
    if column.is_lost():
        return f'{looked}{column.form.sentence}, or leave the column out of the jobs.'
    return f'{looked}{column.form.sentence}: {site.by(column)}'


FILES = [
    TableRule('compressed', unpacked_by,
              lambda s: f'The file is compressed: name <({unpacked_by(s)} FILE) in its place.'),
    TableRule('workbook', lambda s: s.data.startswith((b'PK\x03\x04', b'\xd0\xcf\x11\xe0')),
              'This is a workbook or an archive: save the sheet as CSV.'),
    TableRule('parquet', lambda s: s.data.startswith(b'PAR1'), 'This is a Parquet file: save its columns as CSV.'),
    TableRule('UTF-16', is_utf_16, 'The file is UTF-16: convert it by `iconv -f UTF-16 -t UTF-8 FILE`.'),
    TableRule('JSON', lambda s: s.data.lstrip()[:1] in (b'{', b'['),
              'This is JSON: convert it by `mlr --ijson --ocsv cat FILE`.'),
    TableRule('job file', lambda s: JOBS.match(s.data),
              'This looks like a job file: the table is the file after --columns, and the job file the other one.'),
    TableRule('no header', lambda s: s.refused.cause is TableCause.NO_HEADER,
              'The file is empty: its first line has the names of the columns, with commas between them.'),
    TableRule('header', lambda s: header_hint(s.data, s.form, len(s.place.header)), lambda s: header_hint(s.data, s.form, len(s.place.header))),
    TableRule('too many columns', lambda s: s.refused.cause is TableCause.TOO_MANY,
              lambda s: 'Run with `--only-named`: the columns that jobs name are counted alone.' if s.form.is_all else
              'Name at most 256 columns in a job file, and the others in another file.'),
    TableRule('names that are numbers', lambda s: s.refused.cause is TableCause.SAME_NAME
              and re.fullmatch(r'\s*-?[\d.]+\s*', s.cell),
              'The first line has the names of the columns, and here numbers: put a line of names before them, or '
              'call the columns 1, 2 and so on, `mlr --csv --implicit-csv-header cat FILE`.'),
    TableRule('same name of other columns', lambda s: s.refused.cause is TableCause.SAME_NAME and s.is_kept_out(),
              lambda s: f'Two columns are called "{s.shown_name}", and no job names them: run with `--only-named`.'),
    TableRule('same name', lambda s: s.refused.cause is TableCause.SAME_NAME,
              lambda s: f'Two columns are called "{s.shown_name}": rename one of them in the first line, or call it '
                        f'"{s.shown_name}_2" by `mlr --csv cat FILE`.'),
]

ROWS = [
    TableRule('comment line', lambda s: s.view.has_comments,
              lambda s: f'A table has no comments, and a line that begins with # is a row: delete them by `{" | ".join(s.view.lines_left())}`.'),
    TableRule('open quote', lambda s: any('\n' in it or '\r' in it for it in s.place.cells) and not (s.is_bad_cell() and s.is_kept_out()),
              'A double quote begins a cell that goes on over lines: close it, or delete it.'),
    TableRule('totals', lambda s: s.has_totals(),
              lambda s: f'Row {s.view.rows} is the last one, and has totals of those above: leave it out, {s.by()}'),
    TableRule('length', lambda s: s.refused.cause is TableCause.WRONG_LENGTH, length_hint),
]

CELLS = [
    TableRule('column that no job names', lambda s: s.is_kept_out(),
              'No job names this column: run with `--only-named`, and the columns that jobs name are looked at alone.'),
    TableRule('no-break space', lambda s: '\u00a0' in s.cell and re.fullmatch(r'[+-]?\d+', s.cell.strip()),
              'The cell has a no-break space: delete them by `sed "s/\\xc2\\xa0//g" FILE`.'),
    TableRule('missing value', lambda s: s.column() and s.column().form and is_missing(s.cell), missing_hint),
    TableRule('odd cell', lambda s: s.column() and s.refused.row in s.column().odd, odd_hint),
    TableRule('form', lambda s: s.column() and s.column().form, form_hint),
    TableRule('blank column', lambda s: s.column() and s.column().is_blank,
              lambda s: f'No cell of the column has a number, and this one has "{s.cell.strip()}": leave the column out of the jobs.'),
    TableRule('text', lambda s: True,
              'A cell is a 64-bit integer and no text: replace the texts by codes (docs/tables.md), or leave the column out of the jobs.'),
]
TABLE_RULES = [*FILES, *ROWS, *CELLS]


def table_hint(site: TableSite) -> str:
    """The hint of the first rule that applies."""
    rule = next(it for it in TABLE_RULES if it.applies(site))
    return rule.sentence if isinstance(rule.sentence, str) else rule.sentence(site)
