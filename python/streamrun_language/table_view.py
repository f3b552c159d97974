"""A whole table at a glance: what each column holds, and the one command that reads it.

    look_at(data, file, separator)   a View; str(view) is what a reader sees; file: its name in the command
    view.command()                   the command, or nothing if the table is read without options
    view.made_by(columns)            the command of another tool that makes integers of some columns, or nothing
    open_quote(text, separator)      the row with a double quote that never closes, or None
"""
from __future__ import annotations

import re
from collections import Counter
from dataclasses import dataclass, field
from typing import Any, Dict, List, Optional

from .cells import Form, form_of, is_missing, plural
from .tables import fields_of, records_of, text_of

# Signs between cells besides the comma, as mlr calls them, and as a word of the shell for the option.
SEPARATORS = {';': 'semicolon', '\t': 'tab', '|': 'pipe'}
WORDS = {';': "';'", '\t': 'tab', '|': "'|'"}
NO_CELLS = Form('integers', 'no cells', '', 'X')
# Forms whose cells mlr takes for numbers.
NUMERIC = ('decimals', 'integral')
MOST_OF_A_NAME, MOST_HEAD, MOST_ODD, MOST_SHOWN, MOST_LOOKED_AT = 60, 10, 3, 40, 100000
INTEGER = re.compile(r'-?\d+')
NEVER_CLOSES = 'a double quote in row {} never closes, and all that stands below it is one cell'
TOTALS = re.compile(r'(grand |sub)?totals?|sum|summe|gesamt|insgesamt|totale?|summa|overall', re.I)


def shown(text: str) -> str:
    """A text of a table, which has a character for each byte, as a reader sees it."""
    return text.encode('latin-1').decode('utf-8', 'replace')


def on_one_line(text: str) -> str:
    """A text without line ends, cut after some characters."""
    line = ' '.join(text.splitlines())
    return line if len(line) <= MOST_OF_A_NAME else line[:MOST_OF_A_NAME] + '..'


def quoted(text: str) -> str:
    """A text as a word of the shell."""
    return "'{}'".format(text.replace("'", "'\\''"))


@dataclass
class Column:
    """A column: its name; the form of the cells that have a value, or None for text; what is missing, by its spelling with
    the rows; the rows of few cells that have no form, with their texts; whether no cell has a value, and whether one has
    blanks around it."""

    name: str
    form: Optional[Form]
    missing: Dict[str, List[int]]
    odd: Dict[int, str]
    is_blank: bool
    is_padded: bool = False

    def field(self) -> str:
        """The column in the language of mlr put."""
        return '${%s}' % self.name

    def has_blanks(self) -> bool:
        """Whether its cells are read as they are, but for blank ones."""
        return bool(self.form) and self.form.value == 'X' and list(self.missing) == ['']

    def value(self) -> str:
        """The integer of a cell in that language: nothing if it is read as it is, perhaps with a number for blank cells."""
        field, value = self.field(), self.form.value if self.form else ''
        if self.has_blanks():
            return ''
        text = f'strip(string({field}))' if self.is_padded else f'string({field})'
        tests = [f'is_empty({field})' if not word and not self.is_padded else f'{text} == "{word}"' for word in self.missing]
        if self.is_padded and value != 'X':
            value = value.replace('string(X)', 'X')
            value = re.sub(r'\bX\b', f'float({text})' if self.form.name in NUMERIC else text, value)
        value = re.sub(r'\bX\b', field.replace('\\', r'\\'), value)
        return f'{" || ".join(tests)} ? 0 : {value}' if tests else '' if value == field else value

    def with_places(self) -> str:
        """The source that looks at it with decimal places, or nothing."""
        is_nameable = self.form and self.form.places and not re.search(r'["\\\r\n]', self.name)
        return f'column("{self.name}", {self.form.places})' if is_nameable else ''

    def is_lost(self) -> bool:
        """Whether no integer is meant by its cells."""
        return not self.form or not self.form.value

    def __str__(self):
        what = self.form.shown if self.form else 'blank' if self.is_blank else 'text'
        what += f', by {self.with_places()}' if self.with_places() else ''
        for word, rows in self.missing.items():
            if not self.is_blank:
                what += f', {plural(len(rows), f"{word} cell" if word else "blank")} from row {rows[0]} on'
        for row, text in self.odd.items():
            what += f', in row {row} "{on_one_line(text)[:MOST_SHOWN]}"'
        return f'{on_one_line(self.name) or "(no name)"}: {what}'


def odd_of(cells: List[str]) -> List[str]:
    """Cells without which the others have one form; as soon as there are too many of them, no more are looked for."""
    if form_of(cells):
        return []
    if len(cells) == 1:
        return cells
    middle = len(cells) // 2
    left = odd_of(cells[:middle])
    return left if len(left) > MOST_ODD else left + odd_of(cells[middle:])


def column_of(name: str, cells: List[str]) -> Column:
    """What a column holds."""
    if not cells:
        return Column(name, NO_CELLS, {}, {}, False)
    distinct = list(dict.fromkeys(cells))
    words = {cell for cell in distinct if is_missing(cell)}
    present = [cell for cell in distinct if cell not in words]
    missing: Dict[str, List[int]] = {}
    for row, cell in enumerate(cells, 1) if words else ():
        if cell in words:
            missing.setdefault(cell.strip(' \t'), []).append(row)
    form, odd = form_of(present), {}
    if not form and present:
        least = set(odd_of(present))
        rows = {row: cell for row, cell in enumerate(cells, 1) if cell in least} if len(least) <= MOST_ODD else {}
        rest = form_of([cell for cell in present if cell not in least]) if rows else None
        if rest and len(rows) <= MOST_ODD and len(rows) * 3 <= len(cells):
            form, odd = rest, rows
    is_padded = any(cell != cell.strip() for cell in distinct)
    return Column(name, form, missing if form else {}, odd, not present, is_padded)


@dataclass
class View:
    """A table: the sign between its cells; lines above its header; lines that begin with #; its columns; how many rows it
    has, how many are shorter or longer than the header, the first of them; whether its last row has totals; and the row of
    a double quote that never closes."""

    separator: str = ','
    above: int = 0
    has_comments: bool = False
    columns: List[Column] = field(default_factory=list)
    rows: int = 0
    short: List[int] = field(default_factory=list)
    long: List[int] = field(default_factory=list)
    has_totals: bool = False
    same: List[str] = field(default_factory=list)
    open: Optional[int] = None
    file: str = 'FILE'

    def lost(self) -> List[Column]:
        """The columns that no integer is meant by."""
        return [column for column in self.columns if column.is_lost()]

    def verbs(self, columns: List[Column]) -> List[str]:
        """What mlr does to make integers of some columns."""
        values = {it.field(): it.value() for it in columns if not it.is_lost()}
        puts = [f'{name} = {value}' for name, value in values.items() if value]
        odd = sorted({row for column in columns for row in column.odd})
        return [*(['fill-empty -v 0'] if self.short else []), *([f'head -n {self.rows - 1}'] if self.has_totals else []),
                *(['filter ' + quoted(' && '.join(f'NR != {row}' for row in odd))] if odd else []),
                *([f'put {quoted("; ".join(puts))}'] if puts else [])]

    def lines_left(self) -> List[str]:
        """The commands that leave out the lines that are neither header nor rows, one after another."""
        first = [f'tail -n +{self.above + 1} {self.file}'] if self.above else []
        return first + (['grep -v "^#"' + ('' if first else f' {self.file}')] if self.has_comments else [])

    def made_by(self, columns: List[Column]) -> str:
        """The command that makes integers of some columns, and leaves out what is no row; nothing if there is nothing to do. The
        sign between cells stays."""
        verbs, first = self.verbs(columns), self.lines_left()
        if not verbs and not self.same:
            return ' | '.join(first)
        form = '--csv' if self.separator == ',' else f'--csv --fs {SEPARATORS[self.separator]}'
        mlr = f'mlr {form}{" --allow-ragged-csv-input" if self.short else ""} {" then ".join(verbs or ["cat"])}'
        return ' | '.join([*first, mlr if first else f'{mlr} {self.file}'])

    def options(self) -> List[str]:
        """The options by which the table is read, after that command."""
        return [*(['--only-named'] if self.lost() else []), *([f'--separator {WORDS[self.separator]}'] if self.separator != ',' else []),
                *(['--blank 0'] if any(it.has_blanks() for it in self.columns) else [])]

    def command(self) -> str:
        """The command that reads the table, or nothing if it wants no option and no other tool."""
        made, options = self.made_by(self.columns), self.options()
        if not made and not options:
            return ''
        run = ' '.join(['streamrun', *options, '--columns', '/dev/stdin' if made else self.file, 'JOBS'])
        return f'{made} | {run}' if made else run

    def lines(self) -> List[str]:
        """What is said of the table as a whole."""
        said = [f'{plural(len(self.columns), "column")}, {plural(self.rows, "row")}']
        if self.separator != ',':
            said.append(f'cells are parted by the sign {SEPARATORS[self.separator]}')
        if self.above:
            said.append(f'the header is line {self.above + 1}, and what stands above is no part of the table')
        if self.has_comments:
            said.append('lines that begin with # are no rows')
        if self.same:
            said.append(f'several columns are called {", ".join(self.same)}: mlr calls the second one NAME_2')
        for rows, what in ((self.short, 'shorter'), (self.long, 'longer')):
            said.extend([f'{plural(len(rows), "row")} from row {rows[0]} on {"is" if len(rows) == 1 else "are"} {what} than the header']
                        if rows else [])
        said += [] if self.open is None else [NEVER_CLOSES.format(self.open)]
        return said + (['the last row has totals'] if self.has_totals else [])

    def __str__(self):
        command, ends = self.command(), ['']
        if self.open is not None:
            ends.append('Close the double quote, and look again.')
        elif self.long:
            ends.append('Put double quotes around cells with a separator in them, and look again.')
        else:
            ends.append(command or 'The table is read as it is.')
        odd = ', '.join(map(str, sorted({row for column in self.columns for row in column.odd})))
        if odd:
            ends.append(f'Left out: row {odd}, which has a cell that is no number.')
        if self.lost():
            ends.append(f'Not read: {", ".join(on_one_line(it.name) for it in self.lost())}. Codes for texts: docs/tables.md.')
        if any(it.missing for it in self.columns) or self.short:
            ends.append("0 stands where a value is missing; mlr filter 'is_not_empty($NAME)' drops these rows.")
        return '\n'.join([*self.lines(), '', *(f'  {column}' for column in self.columns), *ends])

    def as_object(self) -> Dict[str, Any]:
        """The view for programs."""
        return {'rows': self.rows, 'columns': {it.name: str(it).split(': ', 1)[1] for it in self.columns}, 'command': self.command()}


def open_quote(text: str, separator: str = ',') -> Optional[int]:
    """The row, the header being row 0, with a double quote that never closes: it is in the last cell then."""
    records = list(records_of(text, separator)) if '"' in text else []
    return len(records) - 1 if records and ends_open(text, records[-1][-1], separator) else None


def ends_open(text: str, last: str, separator: str) -> bool:
    """Whether a text ends within the quotes of its last cell."""
    end = '"' + last.replace('"', '""')
    before = text[:len(text) - len(end)][-1:]
    return text.endswith(end) and (not before or before in f'{separator}\r\n')


def separator_of(lines: List[str]) -> str:
    """The sign that parts the cells of the first lines, by the first one that has a sign."""
    signs = (',', *SEPARATORS)
    header = next((line for line in lines if any(sign in line for sign in signs)), '')
    scores = {sign: sum(line.count(sign) == header.count(sign) for line in lines) for sign in signs if sign in header}
    return max(scores, key=lambda sign: scores[sign]) if scores else ','


def usual_length(records: List[List[str]]) -> int:
    """How many cells most rows have."""
    return Counter(map(len, records[1:])).most_common(1)[0][0] if len(records) > 1 else len(records[0])


def lines_above(records: List[List[str]]) -> int:
    """How many records stand above the header: the first record of the usual length, if it has names."""
    usual = usual_length(records)
    for at, record in enumerate(records[:MOST_HEAD]):
        is_header = len(record) == usual and all(cell.strip() and not re.fullmatch(r'[\d.,-]+', cell) for cell in record)
        if is_header and usual > 1:
            return at
    return 0


def is_total(record: List[str], above: List[List[str]]) -> bool:
    """Whether a row has totals of those above: a word for it, or a blank where none is, beside sums."""
    cells = [cell.strip().rstrip(':') for cell in record]
    if any(TOTALS.fullmatch(cell) for cell in cells):
        return True
    if len(above) < 3 or not any(not cell and all(row[at].strip() for row in above) for at, cell in enumerate(cells)):
        return False
    numeric = [at for at, cell in enumerate(cells) if INTEGER.fullmatch(cell)]
    return bool(numeric) and all(all(INTEGER.fullmatch(row[at].strip()) for row in above)
                                 and sum(int(row[at]) for row in above) == int(cells[at]) for at in numeric)


def is_comment(record: List[str]) -> bool:
    """Whether a record begins as a comment does."""
    return record[0].startswith('#')


def look_at(data: bytes, file: str = 'FILE', separator: Optional[str] = None) -> View:
    """What a table holds; separator: the sign between its cells, if it is known. Without a header no columns are shown."""
    text = text_of(data)
    view = View(file=file)
    lines = [line for line in re.split(r'\r\n|\r|\n', text[:MOST_LOOKED_AT]) if line and not line.startswith('#')]
    view.separator = separator or separator_of(lines[:MOST_HEAD])
    found = list(records_of(text, view.separator))
    comments = [record for record in found if is_comment(record)]
    # Where most rows begin with the sign it is a part of a cell.
    has_comments = len(comments) * 2 < len(found)
    records = [record for record in found if not is_comment(record)] if has_comments else found
    if not records:
        return view
    above = lines_above(records)
    first = next((at for at, record in enumerate(found) if record is records[above]), 0)
    view.above = line_of(text, first, view.separator) if first else 0
    view.has_comments = has_comments and any(map(is_comment, found[first:]))
    view.open = len(records) - 1 - above if '"' in text and ends_open(text, records[-1][-1], view.separator) else None
    return filled(view, records[above], records[above + 1:], text.isascii())


def filled(view: View, header: List[str], rows: List[List[str]], is_plain: bool) -> View:
    """A view with its columns; is_plain: whether all cells are ASCII."""
    view.short = [row for row, record in enumerate(rows, 1) if len(record) < len(header)]
    view.long = [row for row, record in enumerate(rows, 1) if len(record) > len(header)]
    view.same = [shown(name) for name, count in Counter(header).items() if count > 1]
    width = len(header)
    full = [record + [''] * (width - len(record)) for record in rows if len(record) <= width] if view.short or view.long else rows
    view.rows = len(rows)
    view.has_totals = len(full) > 1 and len(rows) == len(full) and is_total(full[-1], full[:-1])
    full = full[:-1] if view.has_totals else full
    names, seen = [], Counter()
    for name in header:
        seen[name] += 1
        names.append(f'{name}_{seen[name]}' if seen[name] > 1 else name)
    for at, name in enumerate(names):
        cells = [record[at] for record in full]
        view.columns.append(column_of(shown(name), cells if is_plain else list(map(shown, cells))))
    return view


def line_of(text: str, record: int, separator: str) -> int:
    """How many lines stand above a record."""
    start = next((it[0].start for at, it in enumerate(fields_of(text, 0, separator)) if at == record), 0)
    return len(re.findall(r'\r\n|\r|\n', text[:start]))
