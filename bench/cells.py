"""The part that times jobs with cells of other columns."""
import os
import sys
import tempfile

from lib import least_of, peer, ran, row
from processes import show_turns
from running import options_of, run, write

ONE = 'column("price").filter(p -> p < 10000).map(p -> p * p).sum()'
WHERE = 'column("price").filter(p -> cell("region") == 3).map(p -> p * cell("quantity")).sum()'
# (what a job does, the job)
JOBS = [('a filter and a product of one column', ONE), ('a product where another cell is a number', WHERE),
        ('products with a number', 'column("price").map(p -> p * 3).sum()'),
        ('products with a cell', 'column("price").map(p -> p * cell("quantity")).sum()'),
        ('a filter of one column', 'column("price").filter(p -> p < 10000).sum()'),
        ('a filter by another', 'column("price").filter(p -> cell("region") == 3).sum()'),
        ('a choice by another', 'column("price").map(p -> cell("region") == 3 ? p * cell("quantity") : 0).sum()'),
        ('the sum of products with the row', 'column("price").map(p -> p * row()).sum()')]
LOOPS = [('Rust, a loop over one array', 'one', ONE), ('Rust, a loop over three arrays', 'sum', WHERE)]
MAWK = 'NR > 1 && $4 == 3 { s += $2 * $3 } END { printf "s = %.0f\\n", s }'
MLR = ['filter', '$region == 3', 'then', 'put', '$a = $price * $quantity', 'then', 'stats1', '-a', 'sum', '-f', 'a', 'then', 'put', '-q',
       'print "s = " . $a_sum']


def sqlite(table):
    create = 'create table t(day integer, price integer, quantity integer, region integer, article integer);'
    return ['sqlite3', ':memory:', '-cmd', create, '-cmd', '.mode csv', '-cmd', f'.import --skip 1 {table} t', '-cmd', '.mode list',
            "select 's = ' || sum(price * quantity) from t where region = 3;"]


class Rows:
    """A table, and the program over it."""

    def __init__(self, options, folder):
        self.options, self.folder, self.starts = options, folder, {}
        self.table = os.path.join(folder, 'table.csv')

    def command(self, job, workers, times=1):
        text = 'version 3\n' + ''.join(f's{"" if times == 1 else at} = {job}\n' for at in range(times))
        path = write(os.path.join(self.folder, f'{abs(hash((job, times)))}.jobs'), text)
        return [self.options.program, '--language', '3', '--workers', str(workers), '--columns', self.table, path]

    def query(self, job):
        """Milliseconds of a job without the start and the reading: processor time of one worker, wall time of four. It stands often
        enough in its file."""
        found = []
        for workers in (1, 4):
            start = self.starts.setdefault(workers, least_of(self.options.turns, self.command('of(1).sum()', workers)))
            cost = least_of(self.options.turns, self.command(job, workers, self.options.times))
            taken = cost.processor - start.processor if workers == 1 else cost.wall - start.wall
            found.append(max(taken, 0.0) / self.options.times)
        return found, cost.printed.splitlines()[0].partition(' = ')[2]


def rows():
    """Times the sum of price * quantity where region is 3, over a table of five columns.

    bench/run rows [--rows N] [--turns N] [--times N] [PROGRAM]

    First whole processes with reading the table (10000000 rows, if not given), in milliseconds of wall time, with their ratio to the
    program's: the same question to mawk, mlr and sqlite3, and the sum of one column by the program. Each has to print the program's
    answer. Then jobs without reading: a job stands N times in its file (20), and what a run costs without it is taken off; loops of
    Rust over arrays in memory have to give the same answers.
    """
    options = options_of(rows.__doc__, rows=10 ** 7, turns=3, times=20)
    with tempfile.TemporaryDirectory() as folder:
        bench, rust = Rows(options, folder), peer(folder, 'rows/rows.rs', '-C', 'target-cpu=native')
        if rust is None:
            return 'rows: the table is made by a program in Rust'
        with open(bench.table, 'wb') as file:
            run([*rust, 'make', str(options.rows)], stdout=file)
        row(f'with reading: {options.rows} rows', [])
        found = {'here': bench.command(WHERE, 4), '1 worker': bench.command(WHERE, 1), 'mawk': ['mawk', '-F,', MAWK, bench.table],
                 'mlr': ['mlr', '--icsv', '--ojsonl', *MLR, bench.table], 'sqlite3': sqlite(bench.table)}
        show_turns(options.turns, found, 'here')
        show_turns(options.turns, {'here, the sum of one column': bench.command('column("price").sum()', 4)}, 'here, the sum of one column')
        row('ms without reading', ['1 worker', '4 workers'], 48)
        answers = {}
        for name, job in JOBS:
            figures, answers[job] = bench.query(job)
            row(name, figures, 48)
        for name, word, job in LOOPS:
            shown = [ran([*rust, word, str(options.rows), threads, str(options.turns * 5)]).printed.split() for threads in '14']
            if any(it[2] != answers[job] for it in shown):
                sys.exit(f'{name}: {shown} instead of {answers[job]}')
            row(name, [float(it[3]) for it in shown], 48)
    return 0
