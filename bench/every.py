"""The part that times every operation of the job language, as docs/job-language.md names them (every_rows.py), and says which are
slow: each source, stage and terminal, each operator of folds and of lambdas, each call.
"""
import os
import shutil
import sys
import tempfile
from collections import namedtuple

from every_rows import contexts, rows
from lib import TOP, in_turns, ran
from running import language, options_of, read, write

PAGE = """Times every operation that docs/job-language.md names, so a new one is measured as soon as the page has it.

    bench/run every [OPTION..] [PROGRAM]      PROGRAM: crates/streamrun/out/streamrun, if not given

    --items N      how many items a source has at first (4000000); it grows until a run takes 50 ms
    --rows N       how many rows the column has (1000000); a job over it is written up to 256 times, until a run takes 200 ms
    --rounds N     each figure is the least of N runs (3)
    --workers A,B  on how many workers (1,4)
    --language N   2 leaves out what version 3 of the language has besides (3), for a program that doesn't read it
    --only TEXT    only rows whose kind and name have this text
    --before FILE  another program, which takes turns with this one and has to give the same answers: the first column is then the time
                   divided by that program's. Where a loop lies in memory makes a tenth of difference or more

Each row is measured over a range, a column, a concat, after a filter, after a flatMap and after a limit. Whether a job is one at all
the programs decide: what one refuses, or answers by a fault, is left out. The figures of a row:

- of its kind: the time per item, or per value that it gives if these are more, or per part of a chain, divided by the time of the
  fastest row of its kind in its place, on as many workers; beyond 4 it is marked; `-` if a row takes less than 0.1 ns per item: it ends early or walks nothing.
  The kind is its sort and what it has to do, since a division isn't an addition: WORK in every_rows.py. A new operation is simple
  until it stands there.
- ns per item that enters it: on one worker processor time, on several wall time, without the start and the reading of columns.

A `toArray` pays for its report. All rows take some minutes, on a machine without other work.
"""
ENOUGH_MILLISECONDS, MOST_ITEMS = 50, 2 ** 29
# Reading a column file takes some hundredths of a second more or less from one run to the next.
ENOUGH_BESIDE_READING, MOST_JOBS = 200, 256
LEAST_NANOSECONDS, MARKED, LOST = 0.1, 4, 1.05
TEST_ITEMS = 128

Line = namedtuple('Line', 'row place workers nanoseconds before')


def each_value(line):
    """Nanoseconds per item, or per value that the row gives if these are more, or per part of a chain."""
    return line.nanoseconds / line.row.values


class Bench:
    def __init__(self, options, folder):
        self.options, self.folder, self.starts = options, folder, {}
        self.programs = [options.program, options.before] if options.before else [options.program]
        self.page = read(os.path.join(TOP, 'docs', 'job-language.md')).decode()
        for name, length in (('few', TEST_ITEMS), ('many', options.rows)):
            write(self.path(f'{name}.csv'), 'a,b\n' + ''.join(f'{it},{it % 10}\n' for it in range(length)))

    def path(self, name):
        return os.path.join(self.folder, name)

    def command(self, program, job, columns, workers, times=1):
        """The command over this job, written some times."""
        newest = self.options.language
        version = 'version 3\n' if newest > 2 else ''
        jobs = write(self.path('jobs'), version + ''.join(f'j{it} = {job}\n' for it in range(times)))
        return [program, *language(newest), '--workers', str(workers), *(['--columns', self.path(columns)] if columns else []), jobs]

    def least(self, *words):
        """The least cost of each program."""
        commands = {it: self.command(it, *words) for it in self.programs}
        return list(in_turns(self.options.rounds, commands, most=40).values())

    def start(self, columns, workers):
        """What a run of each program costs that does nothing but start and read the column file."""
        if (columns, workers) not in self.starts:
            self.starts[columns, workers] = self.least('of(1).sum()', columns, workers)
        return self.starts[columns, workers]

    def kind_of(self, row):
        """The kind of a row, by its answer too, or None if a program doesn't take its job or answers by a fault."""
        job = f'{row.source or contexts(TEST_ITEMS)[0][1]}.{row.rest}'
        costs = [ran(self.command(it, job, 'few.csv', 1), is_needed=False, most=40) for it in self.programs]
        if any(cost is None or '= fault' in cost.printed for cost in costs):
            return None
        return f'{row.sort}, an array' if '= [' in costs[0].printed else row.kind

    def line(self, at, kind, place, workers):
        """The figures of the row with this number in a place, at a length at which it takes long enough."""
        length, times = self.options.items, 1
        while True:
            row = rows(self.page, length)[at]
            source, items = (row.source, length) if row.source else contexts(length)[place][1:]
            columns = 'many.csv' if 'column(' in source else None
            items = self.options.rows * times if columns else items
            costs = list(zip(self.least(f'{source}.{row.rest}', columns, workers, times), self.start(columns, workers)))
            taken = max(costs[0][0].wall - costs[0][1].wall, 0)
            enough = ENOUGH_BESIDE_READING if columns else ENOUGH_MILLISECONDS
            grown, most = (times * 4, MOST_JOBS) if columns else (length * 8, MOST_ITEMS)
            if taken >= enough or grown > most or self.options.items < 10 ** 6:
                break
            # A column is as long as its file, so its job is asked for several times.
            if columns:
                times = grown
            else:
                length = grown
        name = contexts(length)[place][0] if row.source is None else 'itself'
        counted = [max(cost.processor - start.processor if workers == 1 else cost.wall - start.wall, 0) for cost, start in costs]
        return Line(row._replace(kind=kind), name, workers, *(counted[it] / items * 1e6 for it in (0, -1)))

    def lines(self):
        for at, row in enumerate(rows(self.page, TEST_ITEMS)):
            kind = self.kind_of(row) if self.options.only in f'{row.kind} {row.name}' else None
            if kind is None:
                continue
            places = range(1 if row.source else len(contexts(TEST_ITEMS)))
            for place in places:
                for workers in map(int, self.options.workers):
                    yield self.line(at, kind, place, workers)


def of_kind(lines):
    """For each line its time by the best of its kind."""
    best = {}
    for line in lines:
        group = line.row.kind, line.place, line.workers
        if line.nanoseconds >= LEAST_NANOSECONDS:
            best[group] = min(each_value(line), best.get(group, each_value(line)))
    return lambda line: each_value(line) / best[line.row.kind, line.place, line.workers]


def factors(lines, factor_of):
    """(factor or None, line), the greatest factor first; None if the line takes too little time."""
    found = [(factor_of(line) if min(line.nanoseconds, line.before) >= LEAST_NANOSECONDS else None, line) for line in lines]
    return sorted(found, key=lambda it: -(it[0] or 0))


def every():
    options = options_of(PAGE, items=4_000_000, rows=1_000_000, rounds=3, workers=['1', '4'], language=3, only='', before='')
    if options.before:
        found = shutil.which(options.before)
        if found is None:
            sys.exit(f'bench/run every: no program at {options.before}')
        options.before = os.path.abspath(found)
    with tempfile.TemporaryDirectory() as folder:
        lines = list(Bench(options, folder).lines())
    if options.before:
        title, most, beside, factor_of = 'of before', LOST, 'the program before', lambda line: line.nanoseconds / line.before
    else:
        title, most, beside, factor_of = 'of its kind', MARKED, 'the best of their kind', of_kind(lines)
    print(f'{len(os.sched_getaffinity(0))} processors, least of {options.rounds} runs')
    print(f'| {title} | ns per item | workers | place | kind | row |\n|---|---|---|---|---|---|')
    marked = 0
    for factor, line in factors(lines, factor_of):
        is_marked = factor is not None and factor > most
        marked += is_marked
        shown = '-' if factor is None else f'**{factor:.2f}**' if is_marked else f'{factor:.2f}'
        name = line.row.name.replace('|', '\\|')
        print(f'| {shown} | {line.nanoseconds:.2f} | {line.workers} | {line.place} | {line.row.kind} | `{name}` |')
    print(f'every: {len(lines)} rows, {marked} beyond {most} times {beside}')
    return 0 if lines else 1
