"""Tables of Python as column files."""
from __future__ import annotations

import re
from collections.abc import Iterable, Mapping
from decimal import Decimal
from typing import Any

from .errors import TableError

try:
    import numpy
except ImportError:
    numpy = None  # type: ignore[assignment]

LEAST, GREATEST = -2 ** 63, 2 ** 63 - 1
# The names of columns in a text of jobs, with decimal places or without, and lines that are comments.
NAMED, COMMENT = re.compile(r'"([^"\\\r\n]*)"(\s*,\s*[0-9])?'), re.compile(r'^[ \t]*(#|//).*$', re.M)
# Numbers in texts.
INTEGER, DECIMAL = re.compile(r'\s*[+-]?[0-9]+\s*'), re.compile(r'\s*[+-]?[0-9]*[.]?[0-9]+\s*')
# Digits are written by this many at a time.
DIGITS = 4


def named_in(text: str) -> dict[str, bool]:
    """The names of columns that a text of jobs has, each with whether jobs look at it with decimal places."""
    found = NAMED.findall(COMMENT.sub('', text))
    return {name: any(places and name == other for other, places in found) for name in {name for name, _ in found}}


def csv_of(table: Any, named: Mapping[str, bool] | None = None) -> bytes:
    """The bytes of a column file with a table: a data frame of pandas, or a mapping of names to lists or arrays; named: the
    columns that are wanted, each with whether it may have decimals, or None for all as integers. There are no bytes if it has none
    of them."""
    if not isinstance(table, Mapping) and not (hasattr(table, 'items') and hasattr(table, 'dtypes')):
        raise TableError(f'columns= takes a path, a dict of lists or arrays, or a data frame, and not {type(table).__name__}')
    given: dict[str, Any] = {}
    for name, column in table.items():
        if named is not None and str(name) not in named:
            continue
        if str(name) in given:
            raise TableError(f'two columns have the name {name!s}', (str(name),))
        given[str(name)] = column
    if not len(table.keys()):
        raise TableError('the table has no columns')
    cells = integers({name: column for name, column in given.items() if not (named and named[name])})
    cells = {name: cells[name] if name in cells else decimals_of(name, column) for name, column in given.items()}
    lengths = {name: len(column) for name, column in cells.items()}
    if len(set(lengths.values())) > 1:
        raise TableError('the columns have several lengths: ' + ', '.join(f'{name} {length}' for name, length in lengths.items()),
                         tuple(lengths))
    return header_of(cells) + rows_of(list(cells.values())) if cells else b''


def header_of(names: Iterable[Any]) -> bytes:
    """The line with the names of columns."""
    return (','.join('"{}"'.format(str(name).replace('"', '""')) for name in names) + '\n').encode()


def integers(columns: Mapping[str, Any]) -> dict[str, Any]:
    """The cells of columns, as arrays of numpy if it is there; those that aren't all integers are refused by name."""
    cells = {name: integers_of(column) for name, column in columns.items()}
    others = tuple(name for name, column in cells.items() if column is None)
    if others:
        more = f'; {", ".join(map(repr, others[1:]))} too' if others[1:] else ''
        raise TableError(f'column {others[0]!r} {fault_of(columns[others[0]])}{more}', others)
    return cells


def integers_of(column: Any) -> Any:
    """The cells of a column, or None if one isn't an integer of 64 bits. A boolean is none, nor is a missing value."""
    kind = getattr(getattr(column, 'dtype', None), 'kind', None)
    if kind is not None and kind not in 'iuO' or getattr(column, 'ndim', 1) != 1:
        return None
    if numpy is not None and isinstance(getattr(column, 'dtype', None), numpy.dtype) and kind in 'iu':
        array = numpy.asarray(column)
        return None if kind == 'u' and len(array) and int(array.max()) > GREATEST else array.astype(numpy.int64, copy=False)
    values = column.tolist() if hasattr(column, 'tolist') else column
    if not isinstance(values, Iterable) or isinstance(values, (str, bytes)):
        return None
    values = values if isinstance(values, (list, tuple, range)) else list(values)
    if not set(map(type, values)) <= {int}:
        if first_fault(values):
            return None
        values = [value.__index__() for value in values]
    if values and not (LEAST <= min(values) and max(values) <= GREATEST):
        return None
    return values if numpy is None else numpy.array(values, dtype=numpy.int64)


def decimals_of(name: str, column: Any) -> list[str]:
    """The cells of a column with decimals as texts."""
    values = column.tolist() if hasattr(column, 'tolist') else list(column)
    texts = [decimal_text(value) for value in values]
    if None in texts:
        row = texts.index(None)
        raise TableError(f'column {name!r} has {values[row]!r} in row {row + 1}: a cell is an integer, a Decimal or a float', (name,))
    return texts  # type: ignore[return-value]


def decimal_text(value: Any) -> str | None:
    """The digits of a number, with a point if it has a fraction; a float has the fewest digits that are read as it. None if it is no
    number."""
    if isinstance(value, (float, Decimal)) and not isinstance(value, bool):
        number = Decimal(repr(float(value))) if isinstance(value, float) else value
        return format(number, 'f') if number.is_finite() else None
    return str(value.__index__()) if hasattr(value, '__index__') and not isinstance(value, bool) else None


def is_integer(value: Any) -> bool:
    """Whether a cell is an integer of 64 bits."""
    return not isinstance(value, bool) and hasattr(value, '__index__') and LEAST <= value.__index__() <= GREATEST


def first_fault(values: Iterable[Any]) -> tuple[int, Any] | None:
    """The row, from 1, and the value of the first cell that is no integer of 64 bits."""
    return next(((row, value) for row, value in enumerate(values, 1) if not is_integer(value)), None)


def fault_of(column: Any) -> str:
    """The first cell of a column that is no integer, its row, and what to do about cells like it."""
    if isinstance(column, (str, bytes)) or not isinstance(column, Iterable):
        return f'is {column!r}: give a list of integers, or an array'
    if getattr(column, 'ndim', 1) != 1:
        return f'has {column.ndim} dimensions: give one of its columns, such as x[:, 0]'
    kind = getattr(getattr(column, 'dtype', None), 'kind', '')
    values = list(column) if kind == 'M' else column.tolist() if hasattr(column, 'tolist') else list(column)
    faults = [(row, value) for row, value in enumerate(values, 1) if not is_integer(value)] or [(1, values[0] if values else None)]
    row, value = next((it for is_such in (has_fraction, is_text, is_date, is_missing) for it in faults if is_such(it[1])), faults[0])
    shown = value if kind == 'M' else repr(value)
    return f'has {shown} in row {row}: {cure_for(column, value, faults)}' if values else f'has no cells, and the type {column.dtype}'


def is_missing(value: Any) -> bool:
    """Whether a cell has no value."""
    name = type(value).__name__
    return value is None or name in ('NAType', 'NaTType') or (isinstance(value, float) or name == 'datetime64') and value != value


def has_fraction(value: Any) -> bool:
    """Whether a cell is a number between two integers."""
    try:
        return not isinstance(value, (str, bytes)) and not is_missing(value) and value != int(value)
    except (TypeError, ValueError, OverflowError):
        return False


def is_text(value: Any) -> bool:
    """Whether a cell is a text."""
    return isinstance(value, (str, bytes))


def is_date(value: Any) -> bool:
    """Whether a cell is a date, perhaps with a time."""
    return type(value).__name__ in ('datetime', 'date', 'Timestamp', 'datetime64') and not is_missing(value)


def cure_for(column: Any, value: Any, faults: list[tuple[int, Any]]) -> str:
    """What makes integers of a column x, in which a value stands among the cells that are none."""
    has_missing = any(is_missing(it) for _, it in faults)
    if has_fraction(value):
        if hasattr(column, 'fillna') or hasattr(column, 'astype') and not has_missing:
            return f"fractions become hundredths by (100 * x{'.fillna(0)' if has_missing else ''}).round().astype('int64')"
        return f'fractions become hundredths by {each("round(100 * v)", has_missing)}'
    if is_text(value):
        return cure_for_texts(column, [it for _, it in faults if not is_missing(it)], has_missing)
    if is_date(value):
        days = "numpy.asarray(x, 'datetime64[D]').astype('int64')"
        return f'dates become days since 1970 by {f"numpy.where(pandas.isna(x), 0, {days})" if has_missing else days}'
    if is_missing(value):
        return "missing values become 0 by " + ("x.fillna(0).astype('int64')" if hasattr(column, 'fillna') else each('int(v)', True))
    integers_by = "x.astype('int64')" if hasattr(column, 'astype') else each('int(v)', False)
    name = type(value).__name__
    if isinstance(value, bool) or name == 'bool_':
        return f'booleans become 0 and 1 by {integers_by}'
    if hasattr(value, '__index__'):
        return 'an integer has 64 bits, so keep it in a larger unit'
    is_number = isinstance(value, float) or name == 'Decimal' or name.startswith('float')
    return f'values without fractions become integers by {integers_by}' if is_number else 'leave the column out of the jobs'


def each(value: str, has_missing: bool, cells: str = 'x') -> str:
    """A list with this value for each cell v."""
    return f'[{"0 if v is None or v != v else " if has_missing else ""}{value} for v in {cells}]'


def cure_for_texts(column: Any, texts: list[Any], has_missing: bool) -> str:
    """What makes integers of a column with texts: their numbers, or codes."""
    is_filled = has_missing and hasattr(column, 'fillna')
    for pattern, words, value in ((INTEGER, 'texts of digits become integers', 'int(v)'), (DECIMAL, 'texts become hundredths', 'round(100 * float(v))')):
        if all(isinstance(it, str) and pattern.fullmatch(it) for it in texts):
            return f'{words} by {each(value, has_missing and not is_filled, "x.fillna(0)" if is_filled else "x")}'
    return f'texts become codes by {"pandas.factorize(x)[0]" if hasattr(column, "dtype") else "pandas.Series(x).factorize()[0]"}'


def rows_of(columns: list[Any]) -> bytes:
    """The lines of the cells."""
    if not columns or not len(columns[0]):
        return b''
    if numpy is None or any(isinstance(column, list) for column in columns):
        texts = [list(map(str, column)) for column in columns]
        return ('\n'.join(map(','.join, zip(*texts)) if len(texts) > 1 else texts[0]) + '\n').encode()
    parts = [digits_of(column) for column in columns]
    fields = [field for at, groups in enumerate(parts) for field in fields_of(at, len(groups) - 1)]
    out = numpy.empty(len(columns[0]), dtype=fields)
    for at, (signs, *groups) in enumerate(parts):
        out[f'sign{at}'], out[f'end{at}'] = signs, ord(',')
        for group, digits in enumerate(groups):
            out[f'group{at}.{group}'] = digits
    out[f'end{len(parts) - 1}'] = ord('\n')
    return out.tobytes()


def fields_of(column: int, groups: int) -> list[tuple[str, str]]:
    """The bytes of a cell: its sign, groups of digits from the left, and what stands after it."""
    return [(f'sign{column}', 'u1'), *((f'group{column}.{group}', 'u4') for group in range(groups)), (f'end{column}', 'u1')]


def digits_of(column: Any) -> list[Any]:
    """The cells as texts of one length: the bytes of their signs, a minus or a zero, and of their digits in groups."""
    negative = column < 0
    size = column.view(numpy.uint64).copy()
    numpy.negative(size, out=size, where=negative)
    count = -(-len(str(int(size.max()))) // DIGITS)
    size = size.astype(numpy.uint32) if count <= 2 else size
    groups: list[Any] = []
    for _ in range(count - 1):
        rest = size // 10 ** DIGITS
        groups.insert(0, GROUPS.take((size - rest * 10 ** DIGITS).astype(numpy.intp)))
        size = rest
    return [numpy.where(negative, numpy.uint8(ord('-')), numpy.uint8(ord('0'))), GROUPS.take(size.astype(numpy.intp)), *groups]


if numpy is not None:
    # The digits of each number of so many, as one number of four bytes.
    GROUPS = numpy.frombuffer(''.join(f'{it:0{DIGITS}}' for it in range(10 ** DIGITS)).encode(), dtype=numpy.uint32)
