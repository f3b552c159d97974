"""Why a job file or a table is refused: the causes, in the words of the program, and the place of each."""
from __future__ import annotations

from enum import Enum, unique
from typing import TYPE_CHECKING, Any, Optional

if TYPE_CHECKING:
    from .lines import JobText


class Cause(Enum):
    """The causes for which a job is refused. The values are the words of the line on standard error."""

    SYNTAX = 'syntax'
    EXPRESSION_SYNTAX = 'expression syntax'
    SAME_NAME = 'same name'
    UNKNOWN_COLUMN = 'unknown column'
    UNKNOWN_JOB = 'unknown job'
    NOT_A_NUMBER = 'not a number'
    NOT_AN_ARRAY = 'not an array'
    LITERAL_TOO_LARGE = 'literal too large'
    NEGATIVE_COUNT = 'negative count'
    BAD_RANGE = 'bad range'
    UNKNOWN_NAME = 'unknown name'
    WRONG_TYPE = 'wrong type'
    TOO_DEEP = 'too deep'
    TOO_LONG = 'too long'
    OPERATOR_NOT_LISTED = 'operator not listed'
    NOT_IDENTITY = 'not identity'
    NO_IDENTITY = 'no identity'
    NOT_SCALAR = 'not scalar'
    NO_ROW = 'no row'


@unique
class Wanted(Enum):
    """What the grammar wants at the token at which a text can't go on. The values are words for a reader."""

    JOB_ABOVE = 'a job above that this line goes on with'
    NAME = 'the name of a job'
    EQUALS = '`=` after the name of the job'
    SOURCE = 'a source, such as range(0, 10) or column("a")'
    SOURCE_NAME = 'the name of a source'
    OPEN = '`(` after the name of an operation'
    NUMBER = 'a number'
    STRING = 'the name of a column, in double quotes'
    PLACES = 'a number of decimal places, 0 to 18'
    ARRAY_NAME = 'the name of a job above that gives an array'
    NEXT_NUMBER = '`,` and a further number, or `)`'
    NEXT_PART = '`,` and a further source, or `)`'
    COMMA = '`,`'
    CLOSE = '`)`'
    CONSTANT = 'MAX_VALUE or MIN_VALUE'
    POINT = '`.` and an operation; the last one is a terminal, such as .sum()'
    OPERATION = 'an operation'
    ARGUMENT = 'a lambda or an operator'
    ARGUMENT_END = '`)` after the argument'
    FALLBACK = 'onFault'
    END = 'the end of the job'
    PARAMETER = 'the parameter of a lambda'
    PAIR = 'two parameters in parentheses'
    ARROW = '`->` after the parameter'
    OPERAND = 'a number, a name or `(`'
    OPERATOR_OR_END = 'an operator or the end of the lambda'
    OPERATOR_OR_CLOSE = 'an operator or `)`'
    COLON = '`:` of `? :`'
    MEMBER = '`.` and the name of a method or a constant'
    METHOD_OPEN = '`(` after the name of a method'
    CELL_OPEN = '`(` and the name of a column, in double quotes'
    ROW_OPEN = '`()` after `row`'
    STREAM = 'an inner stream: range(..), rangeClosed(..), of(..) or empty()'
    STREAM_END = 'the end of the lambda after the inner stream'


class Refused(Exception):
    """A job is refused. `at` is the place in the job's text, from 0; `column` is the one that the program's line has, if it
    has one; `about` is what the place holds, by cause: a node of an expression, a name, a number."""

    def __init__(self, cause: Cause, at: int, wanted: Optional[Wanted] = None, about: Any = None,
                 column: Optional[int] = None):
        super().__init__(cause.value if column is None else f'{cause.value} at column {column}')
        self.cause, self.at, self.wanted, self.about, self.column = cause, at, wanted, about, column


class RefusedFile(Exception):
    """A job file is refused, for its first faulty job."""

    def __init__(self, job: JobText, refused: Refused):
        super().__init__(f'jobs: line {job.line}: {refused}')
        self.job, self.refused = job, refused


class TableCause(Enum):
    """The causes for which a table is refused."""

    NO_HEADER = 'no header'
    TOO_MANY = 'more than 256 columns'
    SAME_NAME = 'same name'
    WRONG_LENGTH = 'wrong length of row {row}'
    BAD_NUMBER = 'bad number in row {row} column {column}'


class RefusedTable(Exception):
    """A table is refused. Rows and columns count from 1; row 0 is the header."""

    def __init__(self, cause: TableCause, row: int = 0, column: int = 0):
        super().__init__('columns: ' + cause.value.format(row=row, column=column))
        self.cause, self.row, self.column = cause, row, column
