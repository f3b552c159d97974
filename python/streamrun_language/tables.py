"""Tables: the columns of a CSV file, or why it is refused, and where in the file.

    TableForm                           how a table is read: the sign between cells, how columns are looked at, blank cells
    form_for(jobs, newest, ..)          the form that the options of a run ask for
    read_columns(data, form)            the cells of each column by its name, or RefusedTable
    place_of(data, refused, form)       where it is refused
"""
from __future__ import annotations

import itertools
import re
from dataclasses import dataclass
from typing import Dict, FrozenSet, Iterator, List, NamedTuple, Optional, Tuple

from .lines import MARK, NEWEST, read_lines
from .refusals import RefusedFile, RefusedTable, TableCause
from .tokens import MOST_PLACES, key_of, places_of
from .values import MAX, MIN

MOST_COLUMNS = 256
# The version of job files that may look at columns with decimal places.
WITH_PLACES = 3
# The signs that may stand between cells, and how the option says each.
SIGNS = {',': ',', ';': ';', '|': '|', '\t': 'tab'}
QUOTED, PLAIN = re.compile(r'((?:[^"]|"")*)"?'), {sign: re.compile(rf'[^{re.escape(sign)}\r\n]*') for sign in SIGNS}
BLANK = re.compile(r'[ \t]*')
# A name in a job, and the number of decimal places after it, if there is one.
NAME = re.compile(rb'"([^"]*)"(?:[ \t]*,[ \t]*([0-9]+))?')
NUMBER = re.compile(r'[ \t]*([+-]?)([0-9]*)(?:\.([0-9]+))?[ \t]*')
LINE, LINE_END = re.compile(r'[^\r\n]+'), re.compile(r'\r\n|\r|\n')
# Fewer decimal digits than these are an integer of 64 bits.
SHORT = 19


@dataclass(frozen=True)
class TableForm:
    """How a table is read: the sign between cells; whether all columns are looked at; the names under which jobs look at columns;
    and the number of a blank cell, if it isn't refused."""

    separator: str = ','
    is_all: bool = True
    names: FrozenSet[str] = frozenset()
    blank: Optional[int] = None

    def looks_at(self, name: str) -> List[int]:
        """With how many decimal places a column is looked at: with several numbers of them, with one, or not at all."""
        found = [places for places in range(MOST_PLACES + 1) if key_of(name, places) in self.names]
        return found or [0] * self.is_all


INTEGERS = TableForm()


def names_in(jobs: bytes, newest: int = NEWEST) -> FrozenSet[str]:
    """What stands between double quotes in the jobs of a file, with the decimal places after it; a file whose first line continues
    no job has none."""
    try:
        found = [it for job in read_lines(jobs, newest).jobs for it in NAME.findall(job.text)]
    except RefusedFile:
        return frozenset()
    return frozenset(key_of(name.decode('latin-1'), places_of(digits.decode()) or 0) for name, digits in found)


def is_with_places(jobs: bytes, newest: int) -> bool:
    """Whether a job file may look at columns with decimal places."""
    try:
        return read_lines(jobs, newest).version >= WITH_PLACES
    except RefusedFile:
        return False


def sign_of(word: str) -> str:
    """The sign that the option of a separator says."""
    return '\t' if word == 'tab' else word


def form_for(jobs: bytes, newest: int = NEWEST, only_named: bool = False, separator: str = ',', blank: Optional[int] = None) -> TableForm:
    """The form in which a run reads its table by these options, with this job file."""
    names = names_in(jobs, newest) if only_named or is_with_places(jobs, newest) else frozenset()
    return TableForm(sign_of(separator), not only_named, names, blank)


def text_of(data: bytes) -> str:
    """The text of a file, a character for each byte, without a byte order mark before it."""
    return (data[len(MARK):] if data.startswith(MARK) else data).decode('latin-1')


def field_at(text: str, at: int, sign: str = ',') -> Tuple[str, int]:
    """The field that begins at a place, and where it ends."""
    quoted = ''
    if text[at:at + 1] == '"':
        found = QUOTED.match(text, at + 1)
        quoted, at = found.group(1).replace('""', '"'), found.end()
    found = PLAIN[sign].match(text, at)
    return quoted + found.group(), found.end()


class Field(NamedTuple):
    """A field and where it stands in the file."""

    text: str
    end: int
    start: int


def fields_of(text: str, at: int = 0, sign: str = ',') -> Iterator[List[Field]]:
    """The records of a text from a place on: fields are parted by a sign; one that begins with a double quote may hold anything
    up to the next, and a doubled one for one, and what comes after belongs to it; LF, CR LF or CR ends a record, and an empty line
    is none."""
    while at < len(text):
        if text[at] in '\r\n':
            at += 1
            continue
        record = [Field(*field_at(text, at, sign), at)]
        while text[record[-1].end:record[-1].end + 1] == sign:
            at = record[-1].end + 1
            record.append(Field(*field_at(text, at, sign), at))
        yield record
        at = record[-1].end


def records_of(text: str, sign: str = ',') -> Iterator[List[str]]:
    """The fields of each record. Without a quote every line is a record."""
    if '"' not in text:
        yield from (line.split(sign) for line in LINE.findall(text))
        return
    for record in fields_of(text, 0, sign):
        yield [field.text for field in record]


def record_at(text: str, row: int, sign: str = ',') -> List[Field]:
    """The record of a row, row 0 being the header; no fields if there is none."""
    if '"' in text:
        return next(itertools.islice(fields_of(text, 0, sign), row, None), [])
    line = next(itertools.islice(LINE.finditer(text), row, None), None)
    return next(fields_of(text, line.start(), sign)) if line else []


def integer_of(text: str, most: int = 0, places: int = 0) -> Optional[int]:
    """The number of a cell, which has at most so many digits after its point, times ten to the power of the places; None if it has
    none of 64 bits."""
    found = NUMBER.fullmatch(text)
    if not found or len(found[3] or '') > most or not (found[2] or found[3]):
        return None
    digits = (found[2] + (found[3] or '').ljust(places, '0')).lstrip('0')
    value = int(digits or '0') if len(digits) < 30 else MAX + 2
    value = -value if found[1] == '-' else value
    return value if MIN <= value <= MAX else None


class Looked(NamedTuple):
    """A column that is looked at: its number in the header, from 1, its name, and with how many decimal places, in order."""

    number: int
    name: str
    places: List[int]


def read_header(header: Optional[List[str]], form: TableForm = INTEGERS) -> List[Looked]:
    """The columns that are looked at. Only these are counted, each as often as it is looked at, and have different names."""
    if header is None:
        raise RefusedTable(TableCause.NO_HEADER)
    kept = [it for it in (Looked(number, name, form.looks_at(name)) for number, name in enumerate(header, 1)) if it.places]
    keys = [it.number for it in kept for _ in it.places]
    if len(keys) > MOST_COLUMNS:
        raise RefusedTable(TableCause.TOO_MANY, column=keys[MOST_COLUMNS])
    names = set()
    for it in kept:
        if it.name in names:
            raise RefusedTable(TableCause.SAME_NAME, column=it.number)
        names.add(it.name)
    return kept


def number_of(cell: str, form: TableForm, places: List[int]) -> Optional[int]:
    """The number of a cell in a form for the greatest of these places, or None if it has none for one of them."""
    filled = str(form.blank) if form.blank is not None and BLANK.fullmatch(cell) else cell
    return integer_of(filled, places[0], places[-1])


def read_columns(data: bytes, form: TableForm = INTEGERS) -> Dict[str, List[int]]:
    """The cells of each column that is looked at by its name, one with decimal places by its key."""
    records = records_of(text_of(data), form.separator)
    header = next(records, None)
    kept = read_header(header, form)
    columns: List[List[int]] = [[] for _ in kept]
    for row, record in enumerate(records, 1):
        if len(record) != len(header):
            raise RefusedTable(TableCause.WRONG_LENGTH, row)
        for cells, (number, _, places) in zip(columns, kept):
            text = record[number - 1]
            is_short = places == [0] and text.isdecimal() and len(text) < SHORT
            value = int(text) if is_short else number_of(text, form, places)
            if value is None:
                raise RefusedTable(TableCause.BAD_NUMBER, row, number)
            cells.append(value)
    return {key_of(it.name, some): cells if some == it.places[-1] else [value // 10 ** (it.places[-1] - some) for value in cells]
            for it, cells in zip(kept, columns) for some in it.places}


@dataclass
class Place:
    """Where a table is refused: the names of the header, the cells of the record, the line of the file and the column in
    bytes, both from 1, and the text of the line."""

    header: List[str]
    cells: List[str]
    line: int
    column: int
    text: str


def place_of(data: bytes, refused: RefusedTable, form: TableForm = INTEGERS) -> Place:
    """Where a table is refused: at its cell, at the first cell too many, or at the end of a row that is too short. A file
    without records is refused at its start."""
    text, at = text_of(data), 0
    header, record = (record_at(text, row, form.separator) for row in (0, refused.row))
    column = refused.column or len(header) + 1
    if record:
        at = record[column - 1].start if column <= len(record) else record[-1].end
    start = max(text.rfind('\n', 0, at), text.rfind('\r', 0, at)) + 1
    end = LINE_END.search(text, at)
    line = sum(1 for _ in LINE_END.finditer(text, 0, start)) + 1
    return Place([it.text for it in header], [it.text for it in record], line, at - start + 1,
                 text[start:end.start() if end else len(text)])
