"""Random job files with column files.

    generate(seed, index, kinds, most)   (bytes of a job file, bytes of a column file or None, the number of --language)

Equal arguments give equal files. kinds are keys of KINDS; most is about how many items a source has whose walk
doesn't end early. Lengths, numbers and places are mostly those at which something changes: the ends of batches, pieces and
sources, the least and greatest integers, the numbers around a power of two.
"""
import random

from streamrun_language.operators import OPERATORS
from streamrun_language.values import MAX, MIN
from running import LANGUAGES
from random_lambdas import NUMBERS, LambdaWriter

LENGTHS = sorted({*range(10), 31, 33, 62, 100, 3000, 10000, 100000,
                  *(near + by for near in (64, 128, 256, 512, 1000, 1024, 2000, 2048, 3072, 4096, 8192, 2 ** 16, 2 ** 20, 2 ** 21)
                    for by in (-1, 0, 1))})
MOST_ITEMS_OF_MANY = 50
# About how many bytes of a column file may be read at once; it is only a guess at where something may go wrong.
PIECE_BYTES = 4 * 2 ** 20
SPELLED = {'sum': ['sum', 'Long::sum', '(a, b) -> a + b', '(a, b) -> Long.sum(a, b)', '(long p, long q) -> (p) + q'],
           'product': ['product', '(a, b) -> a * b', '(a, b) -> (a * b)'],
           'min': ['min', 'Long::min', 'Math::min', '(a, b) -> Math.min(a, b)', '(x, y) -> Long.min(x, (y))'],
           'max': ['max', 'Long::max', 'Math::max', '(a, b) -> Math.max(a, b)', '(a, b) -> Long.max(a, b)'],
           'and': ['and', '(a, b) -> a & b'], 'or': ['or', '(a, b) -> a | b'], 'xor': ['xor', '(a, b) -> a ^ b'],
           'exact': ['Math::addExact', '(a, b) -> Math.addExact(a, b)', '(x, y) -> (Math.addExact((x), y))'],
           'affine': ['affine'], 'first': ['first', '(a, b) -> a'], 'last': ['last', '(a, b) -> b', '(a, b) -> ((b))']}


class Source:
    """The text of a source, with what is known of it: how many items, and the value of an item."""

    def __init__(self, text, length, value):
        self.text, self.length, self.value = text, length, value


class Writer(LambdaWriter):
    """Writes the jobs of one file. numbers, arrays: the jobs above that have an answer of this kind (or none)."""

    def __init__(self, seed, index, kinds, most):
        super().__init__(random.Random(f'{seed}/{index}/{",".join(kinds)}/{most}'))
        self.kinds, self.most = kinds, most
        self.arrays, self.columns = [], {}
        later = {'cells', 'orders'} & set(kinds)
        is_later = later and self.often(0.4 if set(kinds) - later - {'columns'} else 1)
        self.version = LANGUAGES[-1] if is_later else 2 if self.often(0.3) else 1
        self.uses_rows = is_later and 'cells' in kinds
        self.uses_orders = is_later and 'orders' in kinds

    def length(self, most=None):
        most = self.most if most is None else most
        if self.often(0.25):
            return self.random.randint(0, most)
        return self.random.choice([it for it in LENGTHS if it <= most])

    def condition(self, source):
        """A boolean of x that is often near true or near false, and changes at few values."""
        if self.often(0.4):
            return self.boolean(self.random.randint(0, 2))[0]
        if self.uses_rows and self.often(0.5):
            return f'{self.row()} {self.pick("==", "!=", "<", "<=", ">", ">=")} {self.pick(0, 1, 5, 9, 50, self.place(source.length))}'
        if self.often(0.4):
            return f'x % {self.pick(2, 3, 7, 10, 64, 1000)} {self.pick("==", "!=", "<")} {self.pick(0, 0, 1)}'
        return f'x {self.pick("==", "!=", "<", "<=", ">", ">=")} {self.value_in(source)}'

    def place(self, length):
        """A position at an end of something, or any."""
        ends = [0, 1, length - 1, length - 2, length // 2, length // 2 - 1, length // 4, length * 3 // 4]
        ends += [it + by for it in (64, 1000, 1024, 2048) for by in (-1, 0)]
        found = self.random.choice(ends) if self.often(0.7) else self.random.randrange(max(length, 1))
        return min(max(found, 0), max(length - 1, 0))

    def value_in(self, source):
        return source.value(self.place(source.length)) if source.length else 0

    def fault(self, source):
        """A stage with a fault at the items of one value (or at none)."""
        value = self.value_in(source) if self.often(0.85) else self.number()
        form = self.pick('map(x -> 10 / (x - {}))', 'map(x -> x % (x - {}))', 'filter(x -> 7 / (x - {}) >= 0)',
                         'map(x -> x == {} ? Math.addExact(x, Long.MAX_VALUE) + 1 / (x - x) : x)',
                         'flatMap(x -> of(x, 1 / (x - {})))', 'map(x -> Math.floorMod(x, x - {}))',
                         'map(x -> x == {} ? Math.negateExact(Long.MIN_VALUE) : x)',
                         'flatMap(x -> x == {} ? 0 : 1)' if self.often(0.02) else 'filter(x -> x != {})')
        if self.uses_rows and self.often(0.4):
            form = self.pick('map(x -> 10 / ({1} - {0}))', 'map(x -> x % {1})', 'filter(x -> {1} != {0} && 7 / {1} >= 0)',
                             'flatMap(x -> of(x, {0} / {1}))', 'map(x -> {1} == {0} ? 1 / (x - x) : x)', 'map(x -> Math.multiplyExact(x, {1}))')
            value = self.place(source.length)
        return form.format(value, self.row() if self.uses_rows else '')

    def flat_map(self):
        if self.uses_rows and self.often(0.5):
            return 'flatMap(x -> {})'.format(self.pick('of({0})', 'of({0}, x)', 'of(x, {0}, {1})', 'range(0, {0} & 3)', 'rangeClosed({0}, {0})',
                                                       'range(x, x + ({0} & 1))').format(self.row(), self.row()))
        return 'flatMap(x -> {})'.format(self.pick(
            'of(x)', 'of()', 'empty()', 'of(x, x + 1)', 'of(x, -x, x * x)', 'range(0, x & 3)', 'range(x, x + 2)',
            'rangeClosed(1, x & 1)', 'LongStream.range(0, x % 5)', 'LongStream.of(x, 7)', 'range(x - 1, x)', 'rangeClosed(x, x)',
            'of(x & 7, 100 / ((x & 15) + 1))'))

    # Sources

    def range(self, length):
        start = self.pick(0, 0, 0, 1, -1, -length // 2, -7, 1000, MIN, MAX - length, self.random.randint(-10 ** 6, 10 ** 6))
        start = min(max(start, MIN), MAX - length)
        if self.often(0.2) and length:
            return Source(f'rangeClosed({start}, {start + length - 1})', length, lambda at: start + at)
        return Source(f'{self.pick("", "LongStream.")}range({start}, {start + length})', length, lambda at: start + at)

    def of(self, length):
        length = min(length, self.random.choice([1024, 100, 20]))
        chance, most = self.pick((0, 9), (0.3, 99))
        values = [self.random.choice(NUMBERS) if self.often(chance) else self.random.randint(-9, most) for _ in range(length)]
        return Source('of({})'.format(', '.join(map(str, values))) if values or self.often(0.5) else 'empty()', length,
                      lambda at: values[at])

    def column(self, length):
        if not self.columns:
            self.make_columns(length)
        name = self.random.choice(list(self.columns))
        cells = self.columns[name]
        return Source(f'column("{name}")', len(cells), lambda at: cells[at])

    def make_columns(self, length):
        names = self.random.sample(['a', 'b', 'price', 'a b', '', '#', 'true', 'A', 'day,'], self.random.randint(1, 4))
        names = [it for it in names if it or len(names) > 1] or ['a']
        for name in names:
            kind = self.pick('small', 'any', 'up', 'zeros')
            self.columns[name] = [
                {'small': self.random.randint(-9, 99), 'any': self.random.choice(NUMBERS), 'up': at,
                 'zeros': 0 if self.often(0.01) else self.random.randint(1, 9)}[kind] for at in range(length)]

    def concat(self, length):
        count = self.random.randint(2, 5)
        parts = [self.plain(self.length(max(length // count, 1))) for _ in range(count)]
        text = f'concat({", ".join(it.text for it in parts)})'
        if count > 3 and self.often(0.5):
            inner = f'concat({parts[1].text}, {parts[2].text})'
            text = f'concat({", ".join([parts[0].text, inner, *(it.text for it in parts[3:])])})'

        def value(at):
            for part in parts:
                if at < part.length:
                    return part.value(at)
                at -= part.length
            return 0
        return Source(text, sum(it.length for it in parts), value)

    def plain(self, length):
        form = self.random.random()
        if self.uses_names and self.arrays and form < 0.4:
            return Source(f'result({self.random.choice(self.arrays)})', 10, lambda at: at)
        if 'columns' in self.kinds and form < (0.7 if self.uses_rows else 0.5) and length:
            return self.column(length)
        return self.range(length) if form < 0.75 or length > 1024 else self.of(length)

    def source(self, most=None):
        length = self.length(most)
        found = self.concat(length) if self.often(0.15) else self.plain(length)
        is_column = found.text.startswith('column(')
        self.cells = list(self.columns) if is_column or 'refused' in self.kinds and self.often(0.02) else []
        return found

    # Operations

    def slice(self, length):
        name = self.pick('limit', 'skip')
        count = self.pick(0, 1, 2, self.place(length), self.place(length) + 1, length, length + 1, MAX)
        return f'{name}({count})'

    def while_(self, source):
        return f'{self.pick("takeWhile", "dropWhile")}(x -> {self.condition(source)})'

    def operator(self, has_identity=False):
        name = self.random.choice([it for it in OPERATORS if not has_identity or OPERATORS[it].identity is not None])
        return OPERATORS[name].identity, self.random.choice(SPELLED[name])

    def prefix(self, length):
        operator = self.operator()[1]
        if self.often(0.4):
            return f'prefix({operator})'
        ends = [self.place(length + 2) if self.often(0.8) else self.pick(0, length, length + 1, MAX) for _ in range(2)]
        return f'prefix({min(ends)}, {max(ends)}, {operator})'

    def terminal(self, source, names=None):
        name = self.random.choice(names or ['sum', 'count', 'min', 'max', 'toArray', 'toArray', 'findFirst', 'reduce', 'reduce0',
                                            'exact', 'anyMatch', 'allMatch', 'noneMatch'])
        if name == 'reduce':
            return f'reduce({self.operator()[1]})'
        if name == 'reduce0':
            return 'reduce({}, {})'.format(*self.operator(True))
        if name == 'exact':
            return 'sumExact()' if self.uses_rows and self.often(0.5) else f'reduce(0, {self.random.choice(SPELLED[name])})'
        if name.endswith('Match'):
            return f'{name}(x -> {self.condition(source)})'
        return f'{name}()'

    def stages(self, source, of, most=4):
        """Random stages, each made by one of these functions."""
        makers = {'map': self.map, 'filter': lambda: f'filter(x -> {self.condition(source)})', 'flatMap': self.flat_map,
                  'fault': lambda: self.fault(source), 'slice': lambda: self.slice(source.length),
                  'while': lambda: self.while_(source), 'prefix': lambda: self.prefix(source.length)}
        of, found = [*of, 'order'] if self.uses_orders else of, []
        for _ in range(self.random.randint(0, most)):
            name = self.random.choice(of)
            found += self.order() if name == 'order' else [makers[name]()]
        return found if sum('flatMap' in it for it in found) < 3 else found[:2]

    def order(self):
        """A sort, or the first of equal items, also of few values; in files of earlier versions a map."""
        if not self.uses_orders:
            return ['map(x -> x & 3)']
        few = f'map(x -> {self.pick("x & 3", "x % 3", "x & 255", "-x")})'
        return [*self.pick([], [few]), self.pick('sorted()', 'distinct()')]

    # Kinds of jobs: the source, the stages and the terminal of one job.

    def values(self):
        source = self.source()
        return [source.text, *self.stages(source, ['map', 'map', 'filter', 'fault']), self.terminal(source)]

    def folds(self):
        source = self.source()
        names = ['sum', 'count', 'min', 'max', 'reduce', 'reduce', 'reduce0', 'reduce0', 'exact', 'exact']
        return [source.text, *self.stages(source, ['map', 'filter', 'flatMap', 'fault'], 2), self.terminal(source, names)]

    def flat_maps(self):
        source = self.source(self.most // 4)
        return [source.text, *self.stages(source, ['map', 'filter', 'fault'], 1), self.flat_map(),
                *self.stages(source, ['map', 'filter', 'flatMap', 'fault', 'slice'], 2), self.terminal(source)]

    def slices(self):
        source = self.source()
        return [source.text, *self.stages(source, ['map', 'filter', 'slice', 'slice', 'while', 'fault', 'flatMap'], 5),
                self.pick(self.slice(source.length), self.while_(source)), self.terminal(source)]

    def finds(self):
        source = self.source()
        names = ['findFirst', 'anyMatch', 'allMatch', 'noneMatch']
        return [source.text, *self.stages(source, ['map', 'filter', 'filter', 'fault', 'fault', 'slice', 'flatMap'], 3),
                self.terminal(source, names)]

    def faults(self):
        source = self.source()
        return [source.text, self.fault(source), *self.stages(source, ['map', 'filter', 'fault', 'fault', 'flatMap', 'slice'], 3),
                self.terminal(source)]

    def prefixes(self):
        source = self.source()
        return [source.text, *self.stages(source, ['map', 'filter', 'flatMap', 'fault', 'slice', 'while'], 2),
                self.prefix(source.length), *self.stages(source, ['map', 'filter', 'prefix', 'slice', 'while', 'fault'], 2),
                self.terminal(source)]

    def orders(self):
        source = self.source()
        return [source.text, *self.stages(source, ['map', 'filter', 'flatMap', 'fault', 'slice', 'while'], 2), *self.order(),
                *self.stages(source, ['map', 'order', 'prefix', 'slice', 'slice', 'while', 'fault'], 3), self.terminal(source)]

    def named(self):
        self.uses_names = True
        job = self.pick(self.values, self.slices, self.finds, self.prefixes, self.folds)()
        if self.numbers and self.often(0.4):
            job.insert(1, f'map(x -> x + ${self.random.choice(self.numbers)} - ${self.random.choice(self.numbers)})')
        self.uses_names = False
        return job

    def long_sources(self):
        """A source that is far too long to walk; few of its items are asked for."""
        length = self.pick(2 ** 62, 2 ** 62, 2 ** 62 + 1, 2 ** 62 - 1, 2 ** 40, 2 ** 33 + 1)
        start = self.pick(0, MIN, -length // 2, 1, MAX - length)
        near = self.pick(0, 1, 2, 63, 64, 999, 1000, 1023, 1024, 1025, 3000, self.random.randint(0, self.most))
        skipped = self.pick(0, 0, 1, 1000, length // 2, length - near - 1, length - 1, length)
        source = Source(f'range({start}, {start + length})', near + 1, lambda at: min(start + skipped + at, MAX))
        parts = [source.text, f'skip({skipped})'] if skipped else [source.text]
        if self.often(0.2):
            parts[0] = f'concat({self.range(self.length(100)).text}, {source.text})'
        elif self.often(0.2):
            parts, skipped = [f'of({start})', f'flatMap(x -> range(x, x + {length}))'], 0
        last = source.value(near)
        ends = [[f'limit({near})', self.terminal(source)], [f'limit({near + 1})', 'toArray()'], ['findFirst()'],
                [f'limit({near + 1})', self.prefix(near + 1), self.terminal(source)]]
        stages = [it for it in self.stages(source, ['map', 'fault'], 1) if 'filter' not in it and it not in ('sorted()', 'distinct()')]
        if not stages and 'concat' not in parts[0]:
            ends += [[f'takeWhile(x -> x < {last})', self.terminal(source)], [f'anyMatch(x -> x >= {last})'],
                     [f'allMatch(x -> x < {last})'], [f'noneMatch(x -> x == {last})'],
                     [self.pick(f'map(x -> x / (x - {last}))', f'flatMap(x -> of(x / (x - {last})))'), self.terminal(source)]]
        return [*parts, *stages, *self.random.choice(ends)]

    def endless(self):
        """A source that is far too long to walk, with up to six slices among other stages before few of the items are asked for."""
        near, half = self.place(3000), 2 ** 61
        begin = self.pick([f'range(0, {2 ** 62})'], [f'range(0, {2 ** 62})'], [f'range({-half}, {half})', f'skip({half})'],
                          ['of(0, 1)', f'flatMap(x -> range(x, {2 ** 62} - x))'],
                          [f'of(0, {2 ** 62 - 2})', f'map(x -> {2 ** 62 - 1} - x)', 'flatMap(x -> range(0, x))'],
                          [f'concat(range(0, 1000), range(1000, {2 ** 62}))'])
        stages = []
        for _ in range(self.random.randint(1, 6)):
            stages += self.pick([], [], ['map(x -> x + 1)'], ['map(x -> x)'], ['filter(x -> x % 3 != 1)'], ['filter(x -> (x & 1) == 0)'],
                                ['flatMap(x -> of(x, -x))'], [f'flatMap(x -> range(x, x + {self.pick(1, 2)}))'],
                                [f'map(x -> x + 9 / (x - {near + self.place(3000)}))'])
            stages.append(self.pick(f'skip({self.place(3000)})', 'skip(1)', f'dropWhile(x -> x < {self.place(3000)})',
                                    f'limit({2 ** 40})', f'takeWhile(x -> x < {2 ** 40})', f'limit({self.place(9000)})',
                                    f'takeWhile(x -> x != {self.place(9000)})', f'dropWhile(x -> 7 / (x - {self.place(9000)}) < 2)'))
        source = Source(begin[0], 3000, lambda at: at)
        end = self.pick([f'limit({self.place(3000)})', self.terminal(source)], ['findFirst()'], [f'anyMatch(x -> x > {near + 9})'],
                        [f'map(x -> x > {near + self.place(3000)} ? 9 / (x - x) : x)', self.terminal(source)],
                        [f'limit({near})', self.prefix(near), self.terminal(source)])
        return [*begin, *stages, *end]

    def sums(self):
        """An exact sum that comes near an end of the range of 64 bits, and back."""
        far = self.pick(MAX, MAX, MAX - 1, MIN, MIN, MIN + 1, 2 ** 62, -2 ** 62, 2 ** 61)
        if self.often(0.4):
            some = [self.pick(far, -far - 1, -far, 1, -1, 0, 2, MAX, MIN, MAX // 2, self.random.randint(-9, 9))
                    for _ in range(self.random.randint(1, 30))]
            some = [max(min(it, MAX), MIN) for it in some]
            source = Source('of({})'.format(', '.join(map(str, some))), len(some), lambda at: some[at])
            stages = []
        else:
            source = self.source()
            step, at = far // self.pick(1, 2, 3, max(source.length, 1), max(source.length // 2, 1)), self.value_in(source)
            stages = [self.pick(f'map(x -> {step})', f'map(x -> x == {at} ? {far} : 1)', f'map(x -> x == {at} ? {far} : x == {at} + 1 ? -1 : 0)',
                                f'map(x -> (x & 1) == 0 ? {max(step, MIN + 1)} : -({max(step, MIN + 1)}))', f'map(x -> {step} + (x % 3 - 1))')]
        more = self.stages(source, ['filter', 'flatMap', 'slice', 'while', 'fault'], 1)
        return [source.text, *stages, *more, self.terminal(source, ['exact'])]

    # Files

    def spell(self, parts):
        """A job on one line or on several."""
        between = self.pick('.', '.', '.', ' . ', '\n.', '\n  .', '\n# c\n    .')
        return between.join(parts) + self.pick('', '', '', ';', ' ;')

    def job(self, name, kind):
        self.cells = []
        parts = KINDS[kind](self)
        if parts[-1] == 'toArray()':
            self.arrays.append(name)
        elif 'Match' not in parts[-1]:
            self.numbers.append(name)
            if self.version > 1 and self.often(0.4):
                parts.append(f'onFault({self.number()})')
        if 'refused' in self.kinds and self.often(0.01):
            parts.append(self.pick('onFault(0)', 'onFault(9223372036854775808)', 'onFault()'))
        return f'{name} = {self.spell(parts)}'

    def file(self):
        if 'columns' in self.kinds and 'tables' not in self.kinds and self.often(0.5):
            self.make_columns(self.length(min(self.most, 5000)))
        kinds = [it for it in self.kinds if KINDS[it]] or ['values']
        count = self.random.randint(1, 6)
        if self.random.choice(kinds) == 'many':
            count, kinds = self.random.randint(100, 256), ['many', *(['names'] if 'names' in kinds else [])]
            self.most = min(self.most, MOST_ITEMS_OF_MANY)
        names = [self.pick(f'j{at}', f'j{at}', f'_{at}', f'range{at}') for at in range(count)]
        lines = [self.pick('version {0}', 'version {0}', ' version\t{0}', '# c\n\nversion {0}').format(self.version)] if self.version > 1 else []
        lines += [self.job(name, self.random.choice(kinds)) for name in names]
        text = self.pick('\n', '\n', '\n', '\r\n', '\n\n').join(lines) + self.pick('\n', '\n', '', '\r\n')
        data = text.encode()
        if 'refused' in self.kinds and (len(self.kinds) == 1 or self.often(0.2)):
            data = self.damaged(data)
        return data, self.column_file() if self.columns else None

    def language(self):
        """The number of --language for the file: one of those that read it, and one in a hundred of those that don't."""
        asks_for_less = self.version < LANGUAGES[-1] or self.often(0.01)
        return self.random.choice(LANGUAGES) if asks_for_less else LANGUAGES[-1]

    def column_file(self):
        names = list(self.columns)
        if not self.columns[names[0]] and 'tables' in self.kinds:
            return self.large_file()
        rows = [','.join(quoted(it) for it in names)]
        rows += [','.join(self.cell(self.columns[name][at]) for name in names) for at in range(len(self.columns[names[0]]))]
        data = self.pick('\n', '\n', '\r\n', '\n\n', '\r').join(rows) + self.pick('\n', '')
        data = self.pick('', '', '\ufeff').encode() + data.encode()
        return self.damaged(data) if 'refused' in self.kinds and self.often(0.2) else data

    def tables(self):
        """A job over a large column file, which is read in pieces."""
        if not self.columns:
            self.columns = {name: [] for name in 'abc'[:self.random.randint(1, 3)]}
        source = Source(f'column("{self.random.choice(list(self.columns))}")', 500000, lambda at: at)
        return [source.text, *self.stages(source, ['map', 'filter', 'slice'], 1), self.pick('sum()', 'count()', 'reduce(last)')]

    def large_file(self):
        """Lines of numbers of some megabytes, in which something else stands about where a piece may end."""
        size = self.random.randint(PIECE_BYTES - 100, PIECE_BYTES * self.pick(1, 2, 2, 3) + 1000)
        count = len(self.columns)
        some = [','.join(str(self.random.choice(NUMBERS[:25])) for _ in range(count)) + self.pick('\n', '\n', '\r\n', '\r')
                for _ in range(self.random.randint(1, 2000))]
        text = ''.join(some)
        data = ','.join(self.columns) + '\n' + text * (size // len(text) + 1)
        for _ in range(self.pick(0, 1, 1, 2)):
            at = self.random.randint(1, len(data) // PIECE_BYTES) * PIECE_BYTES + self.random.randint(-30, 30)
            piece = self.pick('"', '"1"', ',', '\n', '\r', '"\n', '\n"5\n"', '-', ' ', 'x', '\n\n\n', '9' * 20, '"",')
            whole = self.often(0.5)
            at = data.find('\n', at) + 1 if whole else at
            data = data[:at] + (','.join([self.pick('"7"', '"7" ', ' 7', '+7', '07', '"\n7"')] * count) + '\n' if whole else piece) + data[at:]
        return data.encode()

    def cell(self, value):
        text = str(value)
        if self.often(0.05):
            text = self.pick(f' {text}', f'{text}\t', f'"{text}"', text if value < 0 else f'+{text}', text if value < 0 else f'00{text}')
        return text

    def damaged(self, data):
        """One change or a few, of bytes or of words."""
        for _ in range(self.pick(1, 1, 1, 2, 3)):
            at = self.random.randint(0, len(data))
            to = min(len(data), at + self.pick(0, 1, 1, 2, 5))
            piece = self.pick(b'', b'', b' ', b'(', b')', b',', b'.', b'$', b'$j0', b'x', b'y', b'0', b'-', b'->', b'=', b'"', b'\\',
                              b'\n', b'\r', b'\x00', b'\xff', b'++', b'&&', b'&', b'?', b':', b'Math', b'Long.', b'true', b'1.5',
                              b'9223372036854775808', b'-9223372036854775808', b'.sum()', b'LongStream.', b'# ', b'//', b';',
                              b'map', b'limit', b'long', b'::', b'[', b'007', b'cell', b'row', b'version 3\n', b'sumExact', b'.sorted()', b'.distinct()', data[at:at + 7], data[max(at - 9, 0):at])
            data = data[:at] + piece + data[to:]
        return data


def quoted(field):
    """A field of a table as it may stand there."""
    return f'"{field}"' if field == '' or ',' in str(field) else str(field)


# What stands in a file: jobs of these kinds; 'columns' gives a column file too, 'cells' and 'orders' make some files ones of the last
# version, with cells, places and its terminals, with sorts and firsts in all places, 'refused' damages some of the bytes.
KINDS = {'values': Writer.values, 'folds': Writer.folds, 'flatmaps': Writer.flat_maps, 'slices': Writer.slices,
         'finds': Writer.finds, 'faults': Writer.faults, 'prefix': Writer.prefixes, 'orders': Writer.orders, 'names': Writer.named,
         'sums': Writer.sums, 'long': Writer.long_sources, 'endless': Writer.endless, 'many': Writer.values, 'tables': Writer.tables,
         'columns': None, 'cells': None, 'refused': None}
# Those that take long, or that few programs can do, are only there if they are asked for.
DEFAULT_KINDS = [kind for kind in KINDS if kind not in ('tables', 'endless')]


def generate(seed, index, kinds, most):
    writer = Writer(seed, index, kinds, most)
    return (*writer.file(), writer.language())
