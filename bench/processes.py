"""The parts that time whole processes of the program, from cold; each figure is the least of some turns."""
import csv
import io
import os
import shutil
import sys
import tempfile

from lib import HERE, crate_peer, in_turns, least_of, peer, row
from running import TOP, options_of, python_with, run, write
import tasks

ITEMS, COUNT = 50_000_000, 100_000_000
MAP, FILTER = 'map(x -> x * 3 + 1)', 'filter(x -> (x & 7) != 5)'
SLICES = ['sum()', 'skip(1).sum()', 'takeWhile(x -> x >= 0).sum()', 'dropWhile(x -> x < 9).sum()', 'dropWhile(x -> x >= 0).sum()',
          f'{MAP}.sum()', f'{MAP}.skip(1).sum()', f'{MAP}.limit({ITEMS - 1}).sum()', f'{MAP}.takeWhile(x -> x > 0).sum()',
          f'{MAP}.dropWhile(x -> x < 9).sum()', f'{MAP}.' + 'skip(1).limit(40000000).' * 4 + 'sum()',
          f'{FILTER}.sum()', f'{FILTER}.skip(1).sum()', f'{FILTER}.limit({ITEMS}).sum()', f'{FILTER}.takeWhile(x -> x >= 0).sum()',
          f'{FILTER}.dropWhile(x -> x < 9).sum()', f'{FILTER}.' + 'skip(1).' * 8 + 'sum()',
          f'{FILTER}.' * 8 + 'sum()', f'{FILTER}.skip(1).' * 8 + 'sum()']
PREFIXES = [('sum', f'range(0, {COUNT}).prefix(Long::sum).sum()'), ('max', f'range(0, {COUNT}).prefix(max).sum()'),
            ('affine', f'range(0, {COUNT}).prefix(affine).sum()'),
            ('map, sum (a tenth)', f'range(0, {COUNT // 10}).map(x -> x * 3 + 1).prefix(Long::sum).sum()'),
            ('filter, sum (a tenth kept)', f'range(0, {COUNT // 5}).filter(x -> x % 2 == 0).prefix(Long::sum).sum()')]


NUMBERS = {'random': '.map(x -> x * 6364136223846793005 ^ x * 6364136223846793005 >>> 32)',
           'few': '.map(x -> x * 6364136223846793005 >>> 32 & 1023)', 'ascending': '.map(x -> x + 1)', 'reversed': '.map(x -> -x)'}
QUESTIONS_OF_ORDER = {'limit': 'sorted().limit(10).toArray()', 'middle': 'sorted().skip({}).findFirst()',
                      'distinct': 'distinct().count()'}


class Jobs:
    """Times single jobs. An answer that differs from the first one of its job ends the script."""

    def __init__(self, options, folder):
        self.program, self.turns, self.folder, self.answers, self.start = options.program, options.turns, folder, {}, None

    def cost(self, stream, workers, *words):
        jobs = write(os.path.join(self.folder, 'one.jobs'), f'{"version 3" if "--language" in words else ""}\nq = {stream}\n')
        return self.command([self.program, '--workers', str(workers), *words, jobs], stream)

    def per_item(self, stream, source=f'range(0, {ITEMS})', words=()):
        """Nanoseconds for an item of a long walk, without the start of the program: processor time of one worker, wall time of four."""
        if self.start is None:
            self.start = self.cost('range(0, 1).sum()', 1).processor, self.cost('range(0, 1).sum()', 4).wall
        taken = self.cost(f'{source}.{stream}', 1, *words).processor, self.cost(f'{source}.{stream}', 4, *words).wall
        return [max(it - start, 0.0) / ITEMS * 1e6 for it, start in zip(taken, self.start)]

    def command(self, command, stream):
        cost = least_of(self.turns, command)
        if self.answers.setdefault(stream, cost.printed) != cost.printed:
            sys.exit(f'{command}: {cost.printed!r} instead of {self.answers[stream]!r}')
        return cost


def slices():
    """Times limit, skip, takeWhile and dropWhile after other stages, beside the same job without them.

    bench/run slices [--turns N] [PROGRAM]

    It prints nanoseconds per item on one worker (processor time) and on four (wall time), without the start of the program.
    """
    options = options_of(slices.__doc__, turns=5)
    with tempfile.TemporaryDirectory() as folder:
        jobs = Jobs(options, folder)
        row('ns per item', ['1 worker', '4 workers'], 60)
        for stream in SLICES:
            row(stream.replace(FILTER, 'filter').replace(MAP, 'map'), jobs.per_item(stream), 60)


def prefixes():
    """Times prefixes over ranges beside loops in C, Java and Rust that give the answers of the first two jobs.

    bench/run prefixes [--turns N] [PROGRAM]

    It prints wall and processor time in milliseconds. C fills an array, scans it and adds it up; Java does so in parallel, by
    Arrays.parallelPrefix; Rust goes over each part of a range twice on threads of its own, without an array.
    """
    options = options_of(prefixes.__doc__, turns=5)
    with tempfile.TemporaryDirectory() as folder:
        jobs = Jobs(options, folder)
        fill, java, rust = (peer(folder, *it) for it in (('prefixes/fill.c', '-O3', '-march=native'), ('prefixes/Prefixes.java', '-Xmx4g'),
                                                         ('prefixes/two_passes.rs',)))
        rows = [('C, fill and scan', 'sum', fill and [*fill, str(COUNT)])]
        rows += [(f'Java, parallel, {it}', it, java and [*java, it, str(COUNT)]) for it in ('sum', 'max')]
        rows += [(f'Rust, sum, {threads} threads', 'sum', rust and [*rust, str(COUNT), threads]) for threads in '14']
        row('ms', ['wall', 'processor'], 40)
        streams = dict(PREFIXES)
        for name, operator, command in rows:
            if command:
                row(name, jobs.command(command, streams[operator])[:2], 40)
        for name, stream in PREFIXES:
            for workers in (1, 4):
                row(f'{name}, {workers} worker{"s" * (workers > 1)}', jobs.cost(stream, workers)[:2], 40)


# What sort and uniq answer about a file of numbers, by the question; {} is the half of their number.
BY_SORT = {'limit': 'printf "q = [%s]\\n" "$(sort -n "$1" | head -n 10 | paste -sd, | sed "s/,/, /g")"',
           'middle': 'echo "q = OptionalLong[$(sort -n "$1" | sed -n "$(({} + 1))p")]"',
           'distinct': 'echo "q = $(sort -n "$1" | uniq | wc -l)"'}


def sorting():
    """Times sorted and distinct over numbers of four kinds beside Java, Rust, numpy and sort, which give the program's answers.

    bench/run sorting [--turns N] [--counts N,..] [--kinds random,few,ascending,reversed] [PROGRAM]

    It prints wall and processor time in milliseconds of whole processes, Java's in a warm process too, on its own. Rust sorts on one
    thread by sort_unstable and on four by rayon's par_sort_unstable, or fills sets. `sort` reads the numbers from a file. Numbers
    in order come out of a map, since Java doesn't sort a range at all.
    """
    options = options_of(sorting.__doc__, turns=3, counts=['1000000', '10000000'], kinds=list(NUMBERS))
    with tempfile.TemporaryDirectory() as folder:
        jobs, file = Jobs(options, folder), os.path.join(folder, 'numbers')
        java, rust = peer(folder, 'sorting/Sorting.java', '-Xmx4g'), crate_peer(folder, 'sorting/by_rayon')
        numpy = python_with('numpy')
        row('ms', ['wall', 'processor'], 50)
        for count, kind in [(n, k) for n in options.counts for k in options.kinds]:
            numbers = f'range(0, {count}){NUMBERS[kind]}'
            write(file, jobs.cost(f'{numbers}.toArray()', 4).printed[5:-2].replace(', ', '\n') + '\n')
            for question, ends in QUESTIONS_OF_ORDER.items():
                stream, words = f'{numbers}.{ends.format(int(count) // 2)}', [kind, question, count]
                row(f'{question}, {kind}, {count}', [])
                for workers in (1, 4):
                    row(f'  here {workers}', jobs.cost(stream, workers, '--language', '3')[:2], 50)
                by_sort = ['sh', '-c', BY_SORT[question].format(int(count) // 2), 'sh', file]
                for name, command in {'Java, parallel': java and [*java, *words], 'Rust, one thread': rust and [*rust, *words, '1'],
                                      'Rust, rayon': rust and [*rust, *words, '4'], 'sort': ['env', 'LC_ALL=C', *by_sort],
                                      'numpy': numpy and [numpy, os.path.join(HERE, 'sorting', 'by_numpy.py'), *words]}.items():
                    if command:
                        row(f'  {name}', jobs.command(command, stream)[:2], 50)
                if java:
                    row('  Java, parallel, warm', [float(run([*java, *words, '20'], text=True).out)], 50)


def show_turns(turns, commands, ours):
    """Prints the wall time of each command, and its ratio to ours; a line for a tool that isn't installed."""
    there = {name: command for name, command in commands.items() if shutil.which(command[0])}
    costs = in_turns(turns, there)
    for name, cost in costs.items():
        row(f'  {name}', [cost.wall, cost.wall / costs[ours].wall])
    for name in commands.keys() - there.keys():
        print(f'  {name}: left out, since it is not installed')


def peers():
    """Times eleven tasks from cold beside Java's streams, mawk and sqlite3; every peer has to print the program's answers.

    bench/run peers [--turns N] [--only TASK] [PROGRAM]

    All take turns, ten times as many for tasks of few milliseconds. A figure is wall time in milliseconds, with reading the table,
    printing and starting the process; the second one its ratio to the program with its default workers. mawk keeps floating-point
    sums and looks at the columns asked for alone, while the program checks every cell.
    """
    options = options_of(peers.__doc__, turns=5, only='')
    print(f'{os.cpu_count()} processors, least of {options.turns} turns, from cold')
    print(f'a process that does nothing: {least_of(50, ["true"]).wall:.1f} ms, in each figure')
    with tempfile.TemporaryDirectory() as folder:
        tasks.write_all(folder)
        java, table = peer(folder, 'peers/Tasks.java'), os.path.join(folder, 'table.csv')
        for task in [options.only] if options.only else tasks.JOBS:
            words = [*(['--columns', table] if task in tasks.OF_COLUMNS else []), os.path.join(folder, f'{task}.jobs')]
            found = {'here': [options.program, *words], '1 worker': [options.program, '--workers', '1', *words]}
            found |= {f'Java, {mode}': [*java, mode, task, table] for mode in ('parallel', 'sequential') if java}
            if task in tasks.OF_COLUMNS:
                found |= {'mawk': ['mawk', '-F,', tasks.MAWK[task], table], 'sqlite3': tasks.sqlite(table, tasks.SQL[task])}
            row(tasks.JOBS[task][0], [])
            show_turns(options.turns * (10 if task in tasks.SHORT else 1), found, 'here')


def tables():
    """Times one sum and twelve aggregations over tables of several sizes beside mawk, sqlite3 and Rust, and sums over tables with
    text.

    bench/run tables [--rows N,..] [--columns N,..] [--shapes mixed,short,long,quoted,text,lines] [--tasks sum,twelve] [--turns N]
                     [PROGRAM]

    Each peer has to print the program's answers. From four columns on, twelve aggregations follow, beside Rust alone; mawk and
    sqlite3 don't add long numbers in 64 bits. Rust parses each cell but checks neither its range nor the length of a row.

    The shapes text and lines have three columns of integers and two of text of 8 to 40 bytes, one of them in quotes, in `lines` with
    line feeds; the sums of two columns are asked for by --only-named, and beside it by Miller, sqlite3, mawk, pandas (usecols),
    and Rust's crates csv and rayon; and by the program over a table of the three columns of integers alone.
    """
    options = options_of(tables.__doc__, rows=['100000', '1000000', '10000000'], columns=['1', '4', '16'],
                         shapes='mixed short long quoted text lines'.split(), tasks=['sum', 'twelve'], turns=3)
    of_texts = [it for it in options.shapes if it in ('text', 'lines')]
    with tempfile.TemporaryDirectory() as folder:
        table = os.path.join(folder, 'data.csv')
        make, rust = peer(folder, 'tables/make_table.c'), peer(folder, 'tables/table.rs', '-C', 'target-cpu=native')
        files = {'sum': 's = column("c0").sum()\n', 'twelve': tasks.twelve('c0', 'c1', 'c2', 'c3')}
        files = {task: write(os.path.join(folder, task + '.jobs'), text) for task, text in files.items()}
        for rows, columns, shape in [(r, c, s) for r in options.rows for c in options.columns for s in options.shapes if s not in of_texts]:
            with open(table, 'wb') as file:
                run([*make, rows, columns, shape], stdout=file)
            for task in [it for it in options.tasks if it == 'sum' or int(columns) >= 4]:
                found = {f'here {it}': [options.program, '--workers', it, '--columns', table, files[task]] for it in '412'}
                if rust:
                    found |= {f'rust {it}': [*rust, table, it, task] for it in '14'}
                if task == 'sum' and shape != 'long':
                    found |= tasks.sums_of(table)
                row(f'{task}: {rows} rows of {columns} columns, {shape}', [])
                show_turns(options.turns, found, 'here 4')
        if of_texts and make:
            tables_of_text(options, folder, make, of_texts)


def tables_of_text(options, folder, make, shapes):
    """The sums of two columns of tables with text."""
    table, numbers = (os.path.join(folder, name) for name in ('text.csv', 'numbers.csv'))
    jobs, by_csv = write(os.path.join(folder, 'texts.jobs'), tasks.OF_TEXTS), crate_peer(folder, 'tables/by_csv')
    for rows, shape in [(r, s) for r in options.rows for s in shapes]:
        with open(table, 'wb') as file:
            run([*make, rows, '5', shape], stdout=file)
        with open(table, 'rb') as file, open(numbers, 'wb') as cut:
            cut.writelines(f'{",".join(it[name] for name in ("id", "qty", "price"))}\n'.encode() for it in
                           [{'id': 'id', 'qty': 'qty', 'price': 'price'}, *csv.DictReader(io.TextIOWrapper(file, newline=''))])
        found = {f'here {it}': [options.program, '--workers', it, '--only-named', '--columns', table, jobs] for it in '412'}
        found |= {f'integers, here {it}': [options.program, '--workers', it, '--columns', numbers, jobs] for it in '41'}
        found |= {f'csv {it}': [*by_csv, table, it] for it in ('14' if shape == 'text' else '1') if by_csv}
        found |= tasks.sums_of_texts(table, options.program, jobs, shape == 'lines', python_with('pandas'))
        row(f'sums: {rows} rows, {shape}', [])
        print(f'  {os.path.getsize(table) / 10 ** 6:.0f} MB, of which {os.path.getsize(numbers) / 10 ** 6:.0f} MB are integers')
        show_turns(options.turns, found, 'here 4')


def job_files():
    """Times large job files, which take time to read and hardly any to run, beside wc, which counts their lines.

    bench/run job_files [--turns N] [--lines N] [PROGRAM]

    It prints wall time in milliseconds, and the first line of what the program says:

    long       256 jobs of 65,536 bytes each
    junk       N lines (10000000): the first 256 are jobs and the others are not: the 257th is refused
    comments   N lines of comments before one job
    continued  one job on N lines, which is too long
    """
    options = options_of(job_files.__doc__, turns=5, lines=10 ** 7)
    files = {'long': tasks.long_jobs, 'junk': lambda: [*(f'j{at} = of(1).sum()\n' for at in range(256)), 'junk ( , #\n' * (options.lines - 256)],
             'comments': lambda: ['# a comment\n' * options.lines, 'a = of(1).sum()\n'],
             'continued': lambda: ['a = of(1)\n', '    .skip(0)\n' * options.lines, '    .sum()\n']}
    with tempfile.TemporaryDirectory() as folder:
        row('ms', ['bytes', 'here', 'wc', '  answer'], 12)
        for name, parts in files.items():
            path = write(os.path.join(folder, 'jobs'), ''.join(parts()))
            here = least_of(options.turns, ['sh', '-c', '"$@" 2>&1 || true', 'sh', options.program, path])
            counted = least_of(options.turns, ['wc', '-l', path])
            row(name, [os.path.getsize(path), here.wall, counted.wall, '  ' + here.printed.partition('\n')[0]], 12)


# What is asked of each tool: a zero divisor on the way, and a sum beyond 64 bits.
ZERO = 'select 10 / x from (select 5 as x union all select 0 union all select 2);'
LARGE = 'select sum(x) from (select 9223372036854775807 as x union all select 1);'
QUESTIONS = [
    ('10 / x over 5, 0, 2', 'x\n5\n0\n2\n', 'q = of(5, 0, 2).map(x -> 10 / x).toArray()\nother = of(1, 2).sum()\n', [
        ['mlr', '--icsv', '--ojson', 'put', '$y = 10 // $x', 'TABLE'], ['mlr', '--icsv', '--ojson', 'put', '$y = 10 ./ $x', 'TABLE'],
        ['sqlite3', ':memory:', ZERO], ['mawk', 'NR > 1 { print 10 / $1 }', 'TABLE'], ['gawk', 'NR > 1 { print 10 / $1 }', 'TABLE']]),
    ('9223372036854775807 + 1', 'x\n9223372036854775807\n1\n', 'w = of(9223372036854775807, 1).sum()\n', [
        ['mlr', '--icsv', '--ojson', 'stats1', '-a', 'sum', '-f', 'x', 'TABLE'], ['sqlite3', ':memory:', LARGE],
        ['sqlite3', ':memory:', 'select 9223372036854775807 + 1;'], ['mawk', 'NR > 1 { s += $1 } END { printf "%.0f\\n", s }', 'TABLE'],
        ['gawk', 'NR > 1 { s += $1 } END { printf "%.0f\\n", s }', 'TABLE']]),
    ('two faulty items in a parallel stream of Java', '', None, [['java', os.path.join(TOP, 'bench', 'contrast', 'TwoFaults.java')]])]


def contrast():
    """Puts two questions to the program and to other tools, and prints their answers: a zero divisor on the way, and a sum beyond 64
    bits; and counts which of two faulty items a parallel stream of Java reports.

    bench/run contrast [PROGRAM]
    """
    options = options_of(contrast.__doc__)
    with tempfile.TemporaryDirectory() as folder:
        for question, cells, jobs, commands in QUESTIONS:
            print(question)
            table = write(os.path.join(folder, 'table.csv'), cells)
            ours = [[options.program, write(os.path.join(folder, 'jobs'), jobs)]] if jobs else []
            for command in [*ours, *([table if word == 'TABLE' else word for word in it] for it in commands)]:
                if not shutil.which(command[0]):
                    print(f'  {command[0]}: not installed')
                    continue
                got = run(command, text=True)
                said = got.out + got.err
                print(f'  {os.path.basename(command[0])} (status {got.status}, {said.count(chr(10))} lines): {said[:300]!r}')
