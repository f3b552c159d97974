"""Where and why a job file or a table is refused, for a reader and for editors.

    explain_jobs(jobs, columns, newest, ..)     an Explanation, or None if both are accepted; the options of the table last

    str(explanation)                the place with a caret, and a hint
    explanation.json()              an object for editors
"""
from __future__ import annotations

import json
import unicodedata
from dataclasses import dataclass
from typing import Any, Dict, FrozenSet, Iterable, List, Optional, Tuple

from .begin_hints import STRUCTURE
from .calculations import CALCULATIONS
from .choice_hints import CHOICE_RULES
from .expressions import Call
from .following import added_lines, followed, language_after
from .job_hints import ENDS, PARTS
from .jobs import Job, read_each
from .lambda_hints import EXPRESSIONS, HEADS, STREAM_RULES
from .lines import BLANKS, NEWEST, Lines, lines_of, read_lines
from .meaning_hints import LISTED, NAMES, OTHERS
from .refusals import Cause, RefusedFile, RefusedTable
from .row_hints import NO_ROW, ROWS_OF_JOBS, ROWS_OF_LAMBDAS, ROWS_OF_OPERATORS
from .site import Rule, Site
from .table_hints import TableSite, header_hint, table_hint
from .table_view import on_one_line
from .tables import INTEGERS, TableForm, form_for, names_in, place_of, read_columns, record_at, text_of
from .number_hints import NUMBERS, OF_JOBS, OF_LAMBDAS
from .type_hints import TYPES
from .word_hints import BYTES, WORD_RULES

# The rules of each cause, the first that applies giving the hint.
RULES = {
    Cause.SYNTAX: [*ROWS_OF_JOBS, *OF_JOBS, *NUMBERS, *CALCULATIONS, *BYTES, *STRUCTURE, *PARTS, *ENDS],
    Cause.EXPRESSION_SYNTAX: [*ROWS_OF_LAMBDAS, *OF_LAMBDAS, *NUMBERS, *CHOICE_RULES, *WORD_RULES, *HEADS, *STREAM_RULES, *EXPRESSIONS],
    Cause.UNKNOWN_NAME: NAMES, Cause.WRONG_TYPE: TYPES, Cause.OPERATOR_NOT_LISTED: [*ROWS_OF_OPERATORS, *LISTED], Cause.NO_ROW: NO_ROW,
    **OTHERS,
}
# Where no rule of a cause applies.
ANY = Rule('what is wanted', lambda site: True, lambda site: f'Here {site.wanted.value} is wanted.' if site.wanted else
           f'What the line means, {site.refused.cause.value}, says docs/faults-and-messages.md.')
MARGIN, MOST_SHOWN, BEFORE = '    ', 92, 60


@dataclass
class Cell:
    """The cell at which a table is refused; rows count from 1, without the header."""

    row: int
    name: str
    cell: str


@dataclass
class Explanation:
    """A refusal. cause: the program's line, without `streamrun: `; line, column: the place in the file, from 1, the column
    in bytes; text: the line of the file; followed: the file with the text of the hint put in, if it proposes one, and language:
    the newest version that is read in it."""

    file: str
    line: int
    column: int
    cause: str
    hint: str
    text: bytes
    cell: Optional[Cell] = None
    followed: Optional[bytes] = None
    language: int = NEWEST

    def json(self) -> str:
        """The explanation as an object on one line."""
        found: Dict[str, Any] = {'file': self.file, 'line': self.line, 'column': self.column, 'cause': self.cause,
                                 'hint': self.hint, 'text': self.text.decode('utf-8', 'replace')}
        if self.cell:
            found.update(vars(self.cell))
        return json.dumps(found, ensure_ascii=False)

    def __str__(self):
        """The explanation for a reader."""
        cell = f', row {self.cell.row} of "{on_one_line(self.cell.name)}"' if self.cell else ''
        place = f'{self.file}, line {self.line}, column {self.column}{cell}:'
        return '\n'.join([place, *with_caret(self.text, self.column), self.hint])


def width_of(char: str) -> int:
    """How many columns of a terminal a character takes."""
    return 0 if unicodedata.combining(char) else 2 if unicodedata.east_asian_width(char) in 'WF' else 1


def visible_form(char: str) -> str:
    """A character as a terminal shows it in one place."""
    return char if char.isprintable() else ' ' if char == '\t' else '\N{REPLACEMENT CHARACTER}'


def with_caret(text: bytes, column: int) -> List[str]:
    """A line, or the part of a long one, and below it a caret under a column."""
    before = text[:column - 1].decode('utf-8', 'replace')
    after = text[column - 1:].decode('utf-8', 'replace')
    left = '' if len(before) <= BEFORE else '..'
    before = left + before[-BEFORE:] if left else before
    right = '..' if len(after) > MOST_SHOWN - len(before) else ''
    after = after[:MOST_SHOWN - len(before)] + right
    visible = ''.join(map(visible_form, before + after))
    return [MARGIN + visible, MARGIN + ' ' * sum(map(width_of, visible[:len(before)])) + '^']


def line_below(data: bytes, number: int) -> bytes:
    """The first line after one of this number that isn't skipped, without blanks before it."""
    lines = (line.lstrip(BLANKS) for line in lines_of(data)[number:])
    return next((line for line in lines if line and not line.startswith((b'#', b'//'))), b'')


def goes_on(data: bytes, site: Site, hint: str, newest: int) -> bool:
    """Whether a hint that proposes a text is right as far as can be seen: with the text the job is accepted, or refused further
    on."""
    made = followed(data, site.job, site.refused.at, hint)
    if made is None:
        return True
    try:
        list(read_each(made, site.columns or {}, language_after(hint, newest)))
        return True
    except RefusedFile as refused:
        line = site.job.line + added_lines(data, hint)
        # What comes after an operation that is left out stands where it stood.
        is_left_out = ' leave `.' in hint and len(refused.job.text) - refused.refused.at < len(site.job.text) - site.refused.at
        # A method that isn't there is found after the grammar.
        is_named = site.refused.cause in (Cause.SYNTAX, Cause.EXPRESSION_SYNTAX) and isinstance(refused.refused.about, Call)
        return refused.job.line == line and (is_left_out or is_named) or (refused.job.line, refused.refused.at) > (line, site.refused.at)


def rule_of(data: bytes, site: Site, newest: int) -> Rule:
    """The first rule that applies and whose text goes on."""
    return next((rule for rule in RULES[site.refused.cause] if rule.applies(site) and goes_on(data, site, rule.hint(site), newest)), ANY)


def explain_job_file(data: bytes, columns: Optional[Dict[str, Any]], file: str, newest: int, header: str = '') -> Optional[Explanation]:
    """Why a job file is refused; columns: the names of the table, or None without one; newest: the newest version that is
    read; header: what is wrong with the header of the table."""
    earlier: Dict[str, Job] = {}
    try:
        for job in read_each(data, columns or {}, newest):
            earlier[job.name] = job
        return None
    except RefusedFile as refused:
        return explain_job(data, refused, earlier, columns, file, newest, header)


def explain_job(data: bytes, refused: RefusedFile, earlier: Dict[str, Job], columns, file: str, newest: int, header: str) -> Explanation:
    """Why a job is refused, after those above it."""
    job, cause = refused.job, refused.refused
    line, column = job.position(cause.at)
    site = Site(job, cause, lines_or_none(data, newest), earlier, columns, line_below(data, job.starts[-1][1]), header)
    hint = rule_of(data, site, newest).hint(site)
    made = followed(data, job, cause.at, hint)
    return Explanation(file, line, column, str(refused), hint, lines_of(data)[line - 1], followed=made,
                       language=language_after(hint, newest))


def lines_or_none(data: bytes, newest: int) -> Lines:
    """The lines of a file, or of an empty file if the first one continues no job."""
    try:
        return read_lines(data, newest)
    except RefusedFile:
        return read_lines(b'')


def explain_table(data: bytes, file: str, form: TableForm = INTEGERS, named: FrozenSet[str] = frozenset()) \
        -> Tuple[Optional[Dict[str, List[int]]], Optional[Explanation]]:
    """The cells of a table, or why it is refused; named: the columns that jobs name."""
    try:
        return read_columns(data, form), None
    except RefusedTable as refused:
        place = place_of(data, refused, form)
        site = TableSite(data, refused, place, form, named)
        cell = Cell(refused.row, site.name, site.cell) if refused.row and refused.column else None
        text = place.text.encode('latin-1')
        return None, Explanation(file, place.line, place.column, str(refused), table_hint(site), text, cell)


def explain_jobs(jobs: bytes, columns: Optional[bytes] = None, jobs_file: str = 'JOBS', columns_file: str = 'FILE', newest: int = NEWEST,
                 names: Optional[Iterable[str]] = None, **table: Any) -> Optional[Explanation]:
    """Why the program refuses these bytes, the table first, or None if it accepts them; the files are named so, newest is the
    newest version of job files that is read, and table has the options by which the table is read, as form_for takes them. For a
    table that is no file names are its columns; their cells aren't known."""
    cells, header = None if names is None else dict.fromkeys(name.encode().decode('latin-1') for name in names), ''
    if columns is not None:
        form = form_for(jobs, newest, **table)
        cells, refused = explain_table(columns, columns_file, form, names_in(jobs, newest))
        if refused:
            return refused
        known = [field.text for field in record_at(text_of(columns), 0, form.separator)]
        header = header_hint(columns, form, len(known)) if is_unknown(jobs, cells, newest) else ''
        cells = {**dict.fromkeys(known), **cells}
    return explain_job_file(jobs, cells, jobs_file, newest, header)


def is_unknown(jobs: bytes, cells: Dict[str, Any], newest: int) -> bool:
    """Whether a job file is refused for a column that isn't there."""
    try:
        list(read_each(jobs, cells, newest))
    except RefusedFile as refused:
        return refused.refused.cause is Cause.UNKNOWN_COLUMN
    return False
