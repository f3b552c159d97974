"""What the cells of a column are, and how mlr makes integers of them.

    form_of(cells)     the Form of cells of one kind, or None if they are of several

The value of a Form is in the language of mlr put; X is the cell there. It is X itself for integers, and empty where no
integer is meant.
"""
from __future__ import annotations

import re
from dataclasses import dataclass
from decimal import Decimal
from typing import Callable, List, Optional, Sequence, Tuple

from . import tokens
from .tables import integer_of
from .values import MAX, MIN

# Words for a value that is missing, in lower case.
MISSING = ('', 'na', 'n/a', '#n/a', 'nan', 'null', 'none', 'nil', '-', '.', '?', '\\n', 'inf', '-inf', '+inf')
UNITS = ('$', '\u20ac', '\u00a3', '\u00a5', '%', '\u2030', '\u00b0', '\u00b0C', 'EUR', 'USD', 'GBP', 'CHF', 'kr', 'kg', 'g', 'mg',
         't', 'km', 'm', 'cm', 'mm', 'l', 'ml', 'h', 'min', 's', 'ms', 'kB', 'MB', 'GB', 'pcs', 'x')
PARTS = {1: 'tenths', 2: 'hundredths', 3: 'thousandths'}
# Signs between thousands, besides the comma and the point.
SPACED = "['_ \u00a0\u2009\u202f\u2019]"
# Texts shorter than these are integers of 64 bits.
SHORT = 19
MOST_PLACES, MOST_EXACT, DAY = 6, 2 ** 53, 86400
TWO_DIGITS = r'gsub(X, "\b([0-9])\b", "0\1")'
# Letters for thousands and millions.
SCALES = {'': 1, 'k': 10 ** 3, 'K': 10 ** 3, 'M': 10 ** 6}
# Dates and times: what a cell looks like, what mlr reads it by, and the cell as it is read.
TIMES = [(r'(T|t| +)\d?\d:\d\d', '%H:%M', ''), (r'(T|t| +)\d?\d:\d\d:\d\d', '%H:%M:%S', ''),
         (r' +\d?\d:\d\d [ap]m', '%I:%M %p', ''), (r' +\d?\d:\d\d:\d\d [ap]m', '%I:%M:%S %p', ''), (r'T\d\d:\d\d:\d\dZ', '%H:%M:%SZ', ''),
         (r'T\d\d:\d\d:\d\d[+-]\d\d\d\d', '%H:%M:%S%z', ''),
         (r'T\d\d:\d\d:\d\d[+-]\d\d:\d\d', '%H:%M:%S%z', r'sub(X, ":([0-9][0-9])$", "\1")'),
         (r'[T ]\d\d:\d\d:\d\d[.]\d+', '%H:%M:%S', 'sub(X, "[.][0-9]+$", "")'),
         (r'T\d\d:\d\d:\d\d[.]\d+Z', '%H:%M:%SZ', 'sub(X, "[.][0-9]+Z$", "Z")')]
DATES = [(r'\d{4}-\d?\d-\d?\d', '%Y-%m-%d'), (r'\d{4}/\d?\d/\d?\d', '%Y/%m/%d'), (r'\d?\d\.\d?\d\.\d{4}', '%d.%m.%Y'),
         (r'\d?\d [A-Za-z]{3} \d{4}', '%d %b %Y'), (r'\d?\d [A-Za-z]{4,} \d{4}', '%d %B %Y'),
         (r'\d?\d-[A-Za-z]{3}-\d{4}', '%d-%b-%Y'), (r'[A-Za-z]{3} \d?\d, \d{4}', '%b %d, %Y')]
EITHER = r'(\d?\d)([/-])(\d?\d)\2(\d{4})'


@dataclass
class Form:
    """A kind of cells: its name, how a column is described, a sentence for a cell that is refused, and the value; places: with how
    many decimal places a job may look at the cells, or 0."""

    name: str
    shown: str
    sentence: str
    value: str
    places: int = 0


def all_match(pattern: str, cells: Sequence[str]) -> bool:
    """Whether all cells look so."""
    matches = re.compile(pattern, re.I).fullmatch
    return all(map(matches, cells))


def places_of(cells: Sequence[str]) -> int:
    """How many decimal places the cells have, none if all of them are integers."""
    needed = max(-min(Decimal(cell).normalize().as_tuple().exponent, 0) for cell in cells)
    return needed and max(needed, *(len(cell.partition('.')[2]) for cell in cells if 'e' not in cell.lower()), 0)


def kept(places: int) -> str:
    """Words for the smaller unit that has so many places."""
    return PARTS.get(places, f'parts of {10 ** places}')


def scaled(text: str, places: int) -> str:
    """The value of a number with decimals in its smaller unit."""
    return f'int(round({text} * {10 ** places}))'


def numbers(cells: Sequence[str], text: str = 'X') -> Tuple[str, str, str]:
    """What numbers with decimals or exponents are, what is kept of them, and their value; text: the number in mlr."""
    places, largest = places_of(cells), max(abs(Decimal(cell)) for cell in cells)
    if largest > MAX:
        return 'numbers beyond 64 bits', '', ''
    fitting = min(places, MOST_PLACES)
    while fitting > 1 and largest * 10 ** fitting > MOST_EXACT:
        fitting -= 1
    if largest * 10 ** fitting > MOST_EXACT and not all(is_exact(cell, fitting) for cell in cells):
        return 'numbers beyond 2^53, which mlr rounds', '', ''
    if not places:
        return 'integers', '', f'fmtnum(int({text}), "%d")'
    rounded = f', rounded to {plural(fitting, "place")}' if fitting < places else ''
    return f'decimals, {plural(places, "place")}{rounded}', f'keep {kept(fitting)}{rounded}', scaled(text, fitting)


def is_exact(cell: str, places: int) -> bool:
    """Whether a float holds a number in its smaller unit."""
    return Decimal(float(cell) * 10 ** places) == Decimal(cell) * 10 ** places


def plural(count: int, word: str) -> str:
    """A number of things."""
    return f'{count} {word}{"s" * (count != 1)}'


def integers(cells: Sequence[str]) -> Optional[Form]:
    """Cells that are read as they are, and integers outside 64 bits."""
    if not all_match(r'[ \t]*[+-]?\d+[ \t]*', cells):
        return None
    if max(map(len, cells)) < SHORT or all(MIN <= int(cell) <= MAX for cell in cells):
        return Form('integers', 'integers', '', 'X')
    return Form('too large', 'integers beyond 64 bits', 'A number has 64 bits, from -9223372036854775808 to 9223372036854775807: '
                'keep it in a larger unit', '')


def read_with_places(cells: Sequence[str]) -> int:
    """With how many decimal places the program reads these numbers, or 0 if it doesn't."""
    places = max(len(cell.partition('.')[2]) for cell in cells)
    is_read = all(integer_of(cell, places, places) is not None for cell in cells)
    return places if is_read and places <= tokens.MOST_PLACES else 0


def decimals(cells: Sequence[str]) -> Optional[Form]:
    """Numbers with a point, or an exponent."""
    if not all_match(r'[+-]?(\d+\.?\d*|\.\d+)(e[+-]?\d+)?', cells):
        return None
    (what, keeps, value), places = numbers(cells), read_with_places(cells)
    if not value:
        return Form('too large', what, f'There are {what}: keep them in a larger unit', '', places)
    if keeps:
        return Form('decimals', what, f'A cell is an integer: {keeps}', value, places)
    how = 'without an exponent' if any('e' in cell.lower() for cell in cells) else 'without .0'
    return Form('integral', f'integers, to be written {how}', f'A number has digits alone, {how}', value)


def unit_of(cells: Sequence[str]) -> Optional[str]:
    """The unit of all cells, before or after their digits; None if they have several, or a word that is no unit."""
    found = {re.sub(r"[\d\s.,'_()+\u2019\u2212-]", '', cell) for cell in cells} - {''}
    unit = ''.join(found)
    if len(found) > 1 or unit and unit not in UNITS:
        return None
    is_before = unit.islower() and any(cell.startswith(unit) for cell in cells)
    return None if is_before else unit


def written(cells: Sequence[str]) -> Optional[Form]:
    """Numbers as people write them: with a unit, thousands separators, a decimal comma, parentheses, a minus after them."""
    unit = unit_of(cells)
    if unit is None:
        return None
    bare = [re.sub(r'\s+$|^\s+', '', cell.replace(unit, '')) if unit else cell for cell in cells]
    for sep, point in ((',', '.'), (SPACED, '.'), ('[.]', ','), (SPACED, ',')):
        dot = re.escape(point)
        body = rf'(\d{{1,3}}({sep}\d{{3}})+|\d+)({dot}\d+)?'
        if all_match(rf'[+\u2212-]?\s*{body}|\(\s*{body}\s*\)|{body}-', bare):
            return written_form(bare, unit, sep, point)
    return None


def written_form(bare: List[str], unit: str, sep: str, point: str) -> Form:
    """The form of such numbers, without their unit, by their separators."""
    has_groups = any(re.search(sep, cell) for cell in bare)
    has_comma = point == ',' and any(',' in cell for cell in bare)
    has_parentheses, has_minus_after = any('(' in cell for cell in bare), any(cell.endswith('-') for cell in bare)
    plain = [re.sub(r'^(.*)-$', r'-\1', re.sub(r'^\(', '-', cell.replace('\u2212', '-'))) for cell in bare]
    plain = [re.sub(f'[^-0-9{point}]', '', cell).replace(',', '.') for cell in plain]
    text = 'sub(string(X), "^[(]", "-")' if has_parentheses else 'string(X)'
    text = r'sub(%s, "^(.*)-$", "-\1")' % text if has_minus_after else text
    text = f'gsub({text}, "\u2212", "-")' if any('\u2212' in cell for cell in bare) else text
    places = places_of(plain)
    text = f'gsub({text}, "[^-0-9{point if places else ""}]", "")'
    if places:
        what, keeps, value = numbers(plain, f'float({f"""sub({text}, ",", ".")""" if has_comma else text})')
    else:
        what, keeps, value = 'integers', '', text
    faults = [(has_parentheses, 'parentheses for a minus', 'parentheses are a minus'),
              (has_minus_after, 'a minus after them', 'the minus stands before'),
              (has_groups, 'thousands separators', 'delete the thousands separators'),
              (has_comma, 'a decimal comma', 'write the comma as a point'), (unit, f'the unit {unit}', 'no unit')]
    shown = ', '.join(name for has, name, _ in faults if has)
    more = '; '.join([*(advice for has, _, advice in faults if has), *([keeps] if keeps else [])])
    return Form('written', f'{what} with {shown}' if shown else what, f'A number has digits alone: {more}', value)


def hexadecimal(cells: Sequence[str]) -> Optional[Form]:
    """Numbers to the base 16."""
    if all_match(r'[+-]?0x[0-9a-f]+|\d+', cells):
        return Form('hexadecimal', 'hexadecimal numbers', 'Numbers are decimal', 'fmtnum(int(X), "%d")')
    return None


def day_format(cells: Sequence[str]) -> Tuple[str, str, str]:
    """The form of dates without a time, as strptime wants it, the pattern, and what is unsure about it."""
    for pattern, wanted in DATES:
        if all_match(pattern, cells):
            return wanted, pattern, ''
    found = [re.fullmatch(EITHER, cell) for cell in cells]
    if not all(found) or len({it[2] for it in found}) > 1:
        return '', '', ''
    sign, is_day_first = found[0][2], any(int(it[1]) > 12 for it in found)
    is_month_first = any(int(it[3]) > 12 for it in found)
    unsure = '' if is_day_first or is_month_first else f'; is the day first? Then it is %d{sign}%m{sign}%Y'
    wanted = f'%d{sign}%m{sign}%Y' if is_day_first else f'%m{sign}%d{sign}%Y'
    return ('', '', '') if is_day_first and is_month_first else (wanted, EITHER, unsure)


def has_single_digit(cell: str) -> bool:
    """Whether a day, a month or an hour has one digit."""
    return re.search(r'(?<![\d.])\d(?!\d)', cell) is not None


def dates(cells: Sequence[str]) -> Optional[Form]:
    """Dates, which become numbers of days, and dates with a time of day, which become seconds."""
    wanted, _, unsure = day_format(cells)
    if wanted:
        cell = TWO_DIGITS if any(map(has_single_digit, cells)) else 'X'
        return Form('dates', f'dates, {wanted}', f'Dates become numbers of days{unsure}',
                    f'strptime({cell}, "{wanted}") // {DAY}')
    for pattern, clock, cell in TIMES:
        halves = [re.fullmatch(rf'(.+?)({pattern})', it, re.I) for it in cells]
        day = day_format([it[1] for it in halves])[0] if all(halves) else ''
        if day:
            between = re.match(r'T|t| +', halves[0][2])[0]
            cell = TWO_DIGITS.replace('X', cell or 'X') if any(has_single_digit(it) for it in cells) else cell
            return Form('times', f'dates with a time, {day}{between}{clock}',
                        'Times become seconds since 1970, of which 86400 are one of the days',
                        f'strptime({cell or "X"}, "{day}{between}{clock}")')
    return None


def clock(cells: Sequence[str]) -> Optional[Form]:
    """Times of a day, and durations."""
    if all_match(r'-?\d+:\d\d:\d\d', cells):
        return Form('clock', 'times of a day', 'Times become seconds', 'hms2sec(X)')
    if all_match(r'\d+:\d\d', cells):
        if all(int(cell.partition(':')[0]) <= 24 for cell in cells):
            return Form('clock', 'times of a day', 'Hours and minutes become seconds', 'hms2sec(X . ":00")')
        return Form('clock', 'minutes and seconds', 'Minutes and seconds become seconds, and hours and minutes would by X . ":00"', 'hms2sec("0:" . X)')
    for pattern, wanted in (('', '%I:%M'), (r':\d\d', '%I:%M:%S')):
        for blank in ('', ' '):
            if all_match(rf'\d?\d:\d\d{pattern}{blank}[ap]m', cells):
                cell = TWO_DIGITS if any(map(has_single_digit, cells)) else 'X'
                return Form('clock', 'times of a day', 'Times become seconds', f'strptime("1970-01-01 " . {cell}, "%Y-%m-%d {wanted}{blank}%p")')
    return None


def magnitudes(cells: Sequence[str]) -> Optional[Form]:
    """Numbers with a letter for thousands or millions."""
    found = [re.fullmatch(r'([+-]?(?:\d+\.?\d*|\.\d+)) ?([kKM]?)', cell) for cell in cells]
    if not all(found) or not any(it[2] for it in found):
        return None
    values = [Decimal(it[1]) * SCALES[it[2]] for it in found]
    places = places_of([f'{value.normalize():f}' for value in values])
    if places > MOST_PLACES or max(map(abs, values)) * 10 ** places > MOST_EXACT:
        return None
    scales = {'[kK]': 1000, 'M': 1000000}
    factor = ' : '.join(f'string(X) =~ "{letter}$" ? {scale}' for letter, scale in scales.items() if any(re.match(letter, it[2]) for it in found))
    number = f'float(sub(string(X), " ?[kKM]$", "")) * ({factor} : 1)'
    value = scaled(number, places) if places else f'int(round({number}))'
    return Form('magnitudes', 'numbers with k or M', 'A number has digits alone: k is 1000, M is 1000000' + (f', and keep {kept(places)}' if places else ''), value)


def booleans(cells: Sequence[str]) -> Optional[Form]:
    """Words for true and false."""
    if all_match('true|false|yes|no|t|f|y|n|on|off', cells):
        return Form('booleans', 'booleans', 'Booleans become 1 and 0', 'tolower(string(X)) =~ "^(t|y|on)" ? 1 : 0')
    return None


def quoted(cells: Sequence[str]) -> Optional[Form]:
    """Integers in single quotes."""
    if all_match(r"'[+-]?\d+'|[+-]?\d+", cells):
        return Form('quoted', 'integers in single quotes', 'A cell stands in double quotes, or in none: delete the single ones',
                    'gsub(string(X), "\'", "")')
    return None


FORMS: List[Callable[[Sequence[str]], Optional[Form]]] = [
    integers, decimals, hexadecimal, clock, dates, booleans, quoted, magnitudes, written]


def is_missing(cell: str) -> bool:
    """Whether a cell has no value."""
    return cell.strip().lower() in MISSING


def form_of(cells: Sequence[str]) -> Optional[Form]:
    """The first form that all these cells have, none of them missing."""
    cells = [cell.strip(' \t') for cell in cells]
    return next(filter(None, (form(cells) for form in FORMS)), None) if cells else None
