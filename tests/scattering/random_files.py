"""Random tables and job files whose jobs can be made of parts: faults, wraps, empty tables, arrays and numbers of jobs
above; of some tables only columns that jobs name are looked at, or they have another separator, or blanks for a number. What stands
in lambdas and in cells of text comes from the generators of tests/soak.
"""
from generate import Source, Writer
from random_tables import TableWriter
from running import LANGUAGES, language, table_words
from streamrun_language.tables import SIGNS

STAGES = ['map', 'filter', 'flatMap', 'fault', 'filter']
TERMINALS = ['sum', 'sum', 'sum', 'count', 'min', 'max', 'toArray', 'toArray', 'findFirst', 'reduce', 'reduce', 'reduce0',
             'reduce0', 'anyMatch', 'allMatch', 'noneMatch']
LARGE = [2 ** 62, 2 ** 63 - 1, 2 ** 63 - 2, 2 ** 62 + 1, 5, -2 ** 63]
ROWS = [0, 1, 2, 3, 5, 8, 9, 10, 17, 30, 64, 100, 257]
TEXT_NAMES = ['note', 'city', 'x;y', 'say "no"', '\r\n']
MORE_NAMES = ['two\nlines', 'a "quote"', 'tab\t', 'x,y', '\u00e9']


class PartsWriter(Writer):
    """Writes one table with its job file."""

    def __init__(self, seed, index):
        super().__init__(seed, index, [], 40)
        self.rows = self.random.choice(ROWS)
        self.make_columns(self.rows)
        self.version = LANGUAGES[-1] if self.often(0.25) else self.version
        self.uses_rows = False
        self.texts, self.text_names = TableWriter(self.random), []
        self.texts.sign = self.pick(',', ',', ';', '|', '\t')
        self.only_named, self.blank = self.often(0.4), self.pick(None, None, 0, -7)
        if self.often(0.6):
            self.columns[self.random.choice(list(self.columns))] = [self.random.choice(LARGE) for _ in range(self.rows)]
        self.header = list(self.columns)
        if self.often(0.3):
            self.header.insert(self.random.randint(0, 1), self.random.choice(MORE_NAMES))
        if self.only_named:
            self.text_names = self.random.sample(TEXT_NAMES, self.random.randint(1, 3))
            self.header += self.text_names
            self.random.shuffle(self.header)
        self.cut_arrays, self.other_arrays = {}, []

    def options(self):
        """The words of a command line by which the table is read, and the job file."""
        table = {'only_named': self.only_named, 'separator': SIGNS[self.texts.sign], 'blank': self.blank}
        return [*table_words(table), *self.language_words()]

    def language_words(self):
        return language(max(self.version, LANGUAGES[0]))

    def cut_job(self):
        """A job over a column, or over an array of one of these jobs."""
        if not self.cut_arrays or self.often(0.6):
            source = self.column(self.rows)
        else:
            name = self.random.choice(list(self.cut_arrays))
            cells = self.cut_arrays[name]
            source = Source(f'result({name})', len(cells), lambda at: cells[at])
        return [source.text, *self.stages(source, STAGES, 3), self.terminal(source, TERMINALS)]

    def total_job(self):
        """A sum that may wrap, in a part or between parts."""
        return [self.column(self.rows).text, *self.pick([], [], ['map(x -> x >> 1)'], ['filter(x -> x > 0)']),
                self.pick('sum()', 'reduce(0, Long::sum)', 'reduce(Long::sum)', 'reduce(1, product)')]

    def array_job(self):
        """An array of some cells of a column, without faults: its values lie at other places than the rows."""
        source = self.column(self.rows)
        return [source.text, f'filter(x -> {self.pick("(x & 3) != 1", "x % 3 != 0", "x > 0", "x != 1")})', 'toArray()']

    def cells_of(self, job):
        """The cells of the column of an array, or of the array's array."""
        name = job[0].partition('(')[2].strip('")')
        return self.columns.get(name) or self.cut_arrays.get(name) or [0]

    def other_job(self):
        """A job that reads no part, with what parts can't do."""
        self.arrays, self.cells = self.other_arrays, []
        self.uses_rows = self.version == LANGUAGES[-1]
        try:
            return self.pick(self.values, self.slices, self.prefixes, self.folds)()
        finally:
            self.uses_rows = False

    def job(self, name, kind):
        self.uses_names = self.often(0.5)
        parts = {'cut': self.cut_job, 'total': self.total_job, 'array': self.array_job, 'other': self.other_job}[kind]()
        if self.uses_names and self.numbers and self.often(0.3):
            parts.insert(1, f'map(x -> x - ${self.random.choice(self.numbers)})')
        if parts[-1] == 'toArray()':
            if kind == 'other':
                self.other_arrays.append(name)
            else:
                self.cut_arrays[name] = self.cells_of(parts)
        elif 'Match' not in parts[-1]:
            self.numbers.append(name)
            if self.version > 1 and (kind == 'other' or self.often(0.3)):
                parts.append(f'onFault({self.number()})')
        return f'{name} = {self.spell(parts)}'

    def job_file(self):
        names = [self.pick(f'j{at}', f'_{at}', f'range{at}', f'concat{at}') for at in range(self.random.randint(1, 9))]
        lines = [f'version {self.version}'] if self.version > 1 else []
        lines += [self.job(name, self.pick('cut', 'cut', 'cut', 'total', 'array', 'other')) for name in names]
        text = self.pick('\n', '\r\n', '\n\n', '\n# a comment\n').join(lines) + self.pick('\n', '', '\r\n')
        return (self.pick('', '', '\ufeff') + text).encode()

    def table(self, first, last, end=None):
        """The bytes of a table with these rows."""
        sign = self.texts.sign.encode()
        rows = [sign.join(quoted(name).encode() for name in self.header)]
        for at in range(first, last):
            rows.append(sign.join(self.texts.text() if name in self.text_names else self.number_cell(self.columns.get(name, range(last))[at])
                                  for name in self.header))
        between = end or self.pick(b'\n', b'\n', b'\r\n', b'\n\n', b'\r', b'\r\n\r\n')
        return self.pick(b'', b'', b'\xef\xbb\xbf', b'\n') + between.join(rows) + self.pick(between, between, b'')

    def number_cell(self, value):
        """A cell with a number; a blank one may be written for the number of blanks, but no empty line."""
        if value == self.blank and self.often(0.5):
            return self.pick(b'', b' ', b'"\t"') if len(self.header) > 1 else b'""'
        text = self.cell(value)
        return (f'"{text}"' if self.texts.sign in text else text).encode()

    def tables(self):
        """Its rows in several files."""
        ends = sorted(self.random.randint(0, self.rows) for _ in range(self.random.randint(1, 8)))
        bounds = [0, *ends, self.rows]
        return [self.table(first, last) for first, last in zip(bounds, bounds[1:])]

    def damaged_table(self):
        """A table in which something is no number, or a row has another length, a few times."""
        data = self.table(0, self.rows)
        for _ in range(self.pick(1, 1, 2, 5)):
            at = self.random.randint(0, len(data))
            if self.often(0.5):
                at = max(data.find(b'\n', at), data.find(b',', at)) + 1
            piece = self.pick(b'"1\n2"', b'"\n\n3",4', b'"', b'"1"', b',', b'\n', b'\r', b'"\n', b'\n"5\n"', b'-', b' ', b'x',
                              b'"1\n\n2"', b'"",', b'9' * 20, b'"a"b"', b' "', b'""', b'\x00', b'"\r\n"')
            data = data[:at] + piece + data[at + self.pick(0, 0, 1):]
        return data


def quoted(name):
    return name if name.isalnum() or name == '#' else '"' + name.replace('"', '""') + '"'
