"""Random tables with text, and job files that name some of their columns.

    generate(seed, index)         a Case: the bytes of both files, and how the table is read
    generate_large(seed, index)   a table of some MB, which is read in pieces; some in rounds

Equal arguments give equal files. Most tables are written row by row, and then some of them damaged; others are bytes in no
order.
"""
import random
from dataclasses import dataclass
from typing import Any, Dict, List

from streamrun_language.tables import SIGNS
from streamrun_language.values import MAX, MIN
from running import LANGUAGES

BYTES = [b',', b';', b'"', b'\n', b'\r', b'\t', b' ', b'1', b'-', b'x']
OTHERS = [b'|', b'+', b'0', b'""', b'\r\n', b'"\n"', b'\xff', b'\0', b'#']
NAMES = [b'a', b'b', b'c', b'n', b'x;y', b'x,y', b'x|y', b'x\ty', b'', b'1', b' a', b'a ', b'caf\xc3\xa9', b'\xff']
# Names that no job can have.
MORE_NAMES = [b'say "x"', b'"', b'two\nlines', b'a\rb', b'a', b'b']
BLANKS = [b'', b'', b'', b' ', b'\t', b'  ', b' \t']
NUMBERS = [0, 1, -1, 9, 10, 99999999, 10 ** 16, MAX, MIN]
FILLED = [None, None, 0, 0, 1, -1, MIN, MAX]
ODD_DECIMALS = [b'5.', b'.', b'-.', b'1.2.3', b'1. 5', b'1e2', b'.5-', b'+-.5', b'1.2345']
LONG_DECIMALS = [b'92233720368547758', b'-92233720368547758', b'9', b'-9', b'10000000000000000000000']
FRACTIONS = [b'5', b'05', b'50', b'07', b'08', b'125', b'999999999999999999']
PLACES = [[2], [2], [2], [1], [2, 3], [1, 2, 2, 18], [0, 2]]
LINE_ENDS = [b'\n', b'\n', b'\n', b'\r\n', b'\r', b'\n\n', b'\r\n\r\n']
TERMINALS = ['toArray()', 'toArray()', 'sum()', 'count()', 'min()', 'max()']
MARK = b'\xef\xbb\xbf'
# The settings under which a table of some MB is read in pieces, of 256 kB with 64 workers.
LARGE_WORKERS = [1, 4, 64]


@dataclass
class Case:
    """A job file, its table, the newest version that is read, and the options by which the table is read."""

    jobs: bytes
    columns: bytes
    newest: int
    table: Dict[str, Any]


class TableWriter:
    """Writes one table with its job file."""

    def __init__(self, chance: random.Random):
        self.random = chance
        self.sign = self.pick(',', ',', ';', ';', '|', '\t')
        self.blank = self.random.choice(FILLED)
        self.uses_places, self.places = self.often(0.4), self.random.choice(PLACES)
        self.width = self.pick(1, 1, 2, 3, 3, 4, 5, 8)
        self.named = self.random.sample(NAMES, min(self.width, self.pick(0, 1, 1, 2, 2, 3)))
        if self.often(0.03):
            self.width = self.pick(255, 256, 257, 300, 3000)
            self.named = self.pick(self.named, [b'c%d' % at for at in range(min(self.width, self.pick(255, 256, 257)))])

    def pick(self, *choices):
        return self.random.choice(choices)

    def often(self, chance):
        return self.random.random() < chance

    def some_bytes(self, most):
        """Bytes in no order."""
        kinds = BYTES if self.often(0.6) else BYTES + OTHERS
        return b''.join(self.random.choices(kinds, k=self.random.randint(0, most)))

    def in_quotes(self, text):
        """A cell in quotes, which may hold anything."""
        return b'"' + text.replace(b'"', b'""') + b'"'

    def spelled(self, text):
        """A cell with these bytes."""
        return text if text.isalnum() and self.often(0.8) else self.in_quotes(text)

    def text(self):
        """A cell that no job looks at, without its separator outside of quotes."""
        if self.often(0.5):
            return self.in_quotes(self.some_bytes(12)) + (self.bare(3) if self.often(0.1) else b'')
        return self.bare(8)

    def bare(self, most):
        """Bytes that end no cell, and begin with no quote: later ones are bytes like others."""
        text = self.some_bytes(most).translate(None, b'\r\n' + self.sign.encode())
        return text.lstrip(b'"')

    def decimal(self):
        """A cell with a point, for a column that some job looks at with decimal places."""
        if self.often(0.02):
            return self.random.choice(ODD_DECIMALS)
        whole = self.pick(b'', b'0', b'7', b'007', b'-', b'+3', b'-12', self.random.choice(LONG_DECIMALS))
        fraction = self.random.choice(FRACTIONS)[:max(self.places) if self.often(0.02) else min(self.places)]
        return whole + b'.' + fraction if fraction else whole.strip(b'+-') + b'4'

    def number(self):
        """A cell that a job looks at."""
        if self.uses_places and self.often(0.4):
            text = self.decimal()
            return text if self.often(0.8) else self.in_quotes(text)
        if self.often(0.12):
            text = self.random.choice(BLANKS)
            return self.in_quotes(text) if self.sign == '\t' or self.often(0.3) else text
        value = self.random.choice(NUMBERS) if self.often(0.3) else self.random.randint(-99, 9999)
        text = b'%d' % value
        text = self.pick(b'', b'', b'', b'+', b'0', b'00') + text if value >= 0 else text
        text = self.pick(b'', b'', b'', b' ') + text + self.pick(b'', b'', b'', b' ', b'  ')
        if self.often(0.15):
            return self.pick(self.in_quotes(text), self.in_quotes(b'') + text, b'"%s"%s' % (text[:1], text[1:]))
        return text

    def header(self):
        """The names of the columns: those that jobs name at some places."""
        names = [self.random.choice(NAMES + MORE_NAMES) for _ in range(self.width)]
        names = [name if name not in self.named or self.often(0.02 / self.width) else b'other' for name in names]
        for name, at in zip(self.named, self.random.sample(range(self.width), len(self.named))):
            names[at] = name
        return names

    def rows(self, names, count):
        """Rows, without their ends."""
        named = set(self.named)
        cells = [self.number if name in named or self.often(0.2) else self.text for name in names]
        if self.often(0.03):
            self.random.shuffle(cells)
        sign = self.sign.encode()
        return [sign.join(cell() for cell in cells) for _ in range(count)]

    def written(self):
        """A table, row by row."""
        names = self.header()
        lines = [self.sign.encode().join(map(self.spelled, names)), *self.rows(names, self.pick(0, 1, 2, 3, 5, 9))]
        end = self.random.choice(LINE_ENDS)
        lines = [line + (end if self.often(0.9) else self.random.choice(LINE_ENDS)) for line in lines]
        return self.pick(b'', b'', b'', MARK, b'\n', b'\r\n') + b''.join(lines)[:None if self.often(0.8) else -1]

    def damaged(self, data):
        """A table with some bytes changed."""
        for _ in range(self.pick(1, 1, 2, 3)):
            at = self.random.randint(0, len(data))
            data = data[:at] + self.random.choice(BYTES + OTHERS) + data[at + self.pick(0, 0, 1):]
        return data

    def table(self):
        """The bytes of the table."""
        if self.often(0.15):
            return self.pick(b'', MARK, b'a' + self.sign.encode() + b'b\n', b'a\n') + self.some_bytes(40)
        data = self.written()
        return self.damaged(data) if self.often(0.2) else data

    def named_column(self, column):
        """The name of a column as a job has it, with decimal places or without."""
        if not self.uses_places or self.often(0.04):
            return b'"%s"' % column
        return b'"%s"%s,%s%d' % (column, self.pick(b'', b' '), self.pick(b'', b' ', b' \t'), self.random.choice(self.places))

    def wide_job(self, name, columns):
        """A job over several columns."""
        return b'%s = concat(%s).sum()\n' % (name, b', '.join(b'column("%s")' % column for column in columns))

    def job(self, name, column):
        """A job over a column."""
        stage = self.pick(b'', b'', b'.filter(x -> x != 1)', b'\n  .map(x -> x ^ 1)', b'\n# column("b")\n  .filter(x -> x > 0)')
        return b'%s = column(%s)%s.%s\n' % (name, self.named_column(column), stage, self.random.choice(TERMINALS).encode())

    def job_file(self, newest):
        """The bytes of the job file, a few of them refused."""
        lines = [b'version 3\n' if newest == LANGUAGES[-1] else self.pick(b'', b'', b'version 2\n'),
                 self.pick(b'', b'', b'# column("c")\n', b'// "a" "\n')]
        if len(self.named) > 8:
            lines += [self.wide_job(b'w%d' % at, self.named[at:at + 8]) for at in range(0, len(self.named), 8)]
        else:
            lines += [self.job(b'j%d' % at, column) for at, column in enumerate(self.named)]
        if newest == LANGUAGES[-1] and self.named:
            over, of = (self.named_column(self.random.choice(self.named)) for _ in range(2))
            lines.append(b'r = column(%s).map(x -> cell(%s)).toArray()\n' % (over, of))
        if self.often(0.1):
            lines.append(self.pick(b'k = column("n").count()\n', b'k = column("a).sum()\n', b'k = column("b").sum(\n', b'k = range(0, 3).sum()\n',
                                   b'"a" "b"\n', b'k = of(1)\n .sum("c\n .b")\n', b'\xff = column("x,y").sum()\n', MARK))
        if self.often(0.02):
            lines.insert(0, self.pick(b'  .map(x -> column("a"))\n', b'version 9\n', b'version 2\n'))
        return self.pick(b'', b'', MARK) + b''.join(lines)


def generate(seed, index):
    """A random table with its job file."""
    writer = TableWriter(random.Random(f'tables {seed}/{index}'))
    newest = writer.pick(*LANGUAGES)
    writer.uses_places = writer.uses_places and (newest == LANGUAGES[-1] or writer.often(0.1))
    table = {'only_named': writer.often(0.85), 'separator': SIGNS[writer.sign] if writer.often(0.97) else ',', 'blank': writer.blank}
    return Case(writer.job_file(newest), writer.table(), newest, table)


def generate_large(seed, index):
    """A large table, in which a fault is late, if it has one. Every third one is larger than a round."""
    writer = TableWriter(random.Random(f'large tables {seed}/{index}'))
    writer.width, writer.named = writer.pick(2, 3, 5, 9), [b'a', b'n']
    names = writer.header()
    pool = writer.rows(names, 400)
    if writer.often(0.3):
        pool = [row.replace(b'\n', b' ').replace(b'\r', b' ') for row in pool]
    if writer.often(0.3):
        long = writer.in_quotes(b'1;x,\n' * writer.pick(100, 20000, 100000))
        pool += [writer.sign.encode().join(long if name not in writer.named else b'7' for name in names)]
    end = writer.pick(b'\n', b'\n', b'\r\n', b'\r')
    most = (18 if index % 3 == 2 else writer.pick(1, 2, 3)) * 2 ** 20
    lines: List[bytes] = [writer.sign.encode().join(map(writer.spelled, names))]
    size = 0
    while size < most:
        lines.append(writer.random.choice(pool))
        size += len(lines[-1]) + len(end)
    if writer.often(0.5):
        lines.insert(len(lines) - writer.random.randint(0, len(lines) // 2), writer.pick(b'x', lines[1] + writer.sign.encode(), b'"', lines[1][:-1] + b'"'))
    jobs = b''.join(b'%s_%s = column("%s").%s()\n' % (name, terminal, name, terminal) for name in writer.named
                    for terminal in (b'sum', b'count', b'min', b'max'))
    table = {'only_named': True, 'separator': SIGNS[writer.sign], 'blank': writer.pick(0, 1, -5)}
    return Case(jobs, end.join(lines) + writer.pick(end, b''), LANGUAGES[0], table)
