"""The part that times jobs beside warm loops of Java and of Rust (warm_rows.py has them)."""
import math
import os
import shutil
import sys
import tempfile

from lib import HERE, Cost, crate_peer, least, peer, ran, row
from running import options_of, read, run, write
from warm_rows import WORKLOADS

ONE_ITEM = 'q = of(1).sum()\n'
HEADS, WIDTH, SLOW = ['here', 'processor', 'Java', 'Rust', 'by Java', 'by Rust'], 30, 1.5
# Four workers: the thread that asks is one of them.
JAVA_FLAGS = '-Xmx4g', '-Djava.util.concurrent.ForkJoinPool.common.parallelism=3'
# The milliseconds of a peer's rounds, for each turn.
OF_TURN = {'Java': 500, 'Rust': 100}
# What the program takes beyond its start is at least this, for means of logarithms.
LEAST_MILLISECONDS = 0.01


def is_file(workload):
    """Whether the job is a whole file, and a peer's expression its report."""
    return workload.job.endswith('\n')


def arm(start, expression, end, workload):
    """The arm of a workload in Java's switch or in Rust's match."""
    return f'"{workload.name}" {start} {expression if is_file(workload) else f"one({expression})"}{end}'


def arm_of_java(workload):
    """A job is Java, but that its source isn't parallel."""
    return 'case ' + arm('->', workload.java or workload.job.replace(')', ').parallel()', 1), ';', workload)


def arm_of_rust(workload):
    return arm('=>', workload.rust, ',', workload)


def peers_in(folder, workloads):
    """The commands of the peers, built of the frames in bench/warm with an arm for each workload; None for one not there."""
    made = shutil.copytree(os.path.join(HERE, 'warm'), os.path.join(folder, 'warm'))
    shutil.copy(os.path.join(HERE, 'tables', 'table.rs'), os.path.join(made, 'by_rayon', 'src'))
    for path, arm_of in (('Warm.java', arm_of_java), ('by_rayon/src/main.rs', arm_of_rust)):
        frame = os.path.join(made, path)
        write(frame, read(frame).decode().replace('/* WORKLOADS */', '\n'.join(map(arm_of, workloads))))
    # The class Warm finds the class Tasks in this folder.
    java = peer(folder, 'peers/Tasks.java') and peer(folder, os.path.join(made, 'Warm.java'), *JAVA_FLAGS)
    return {'Java': java, 'Rust': crate_peer(folder, os.path.join(made, 'by_rayon'), '-C', 'target-cpu=native')}


class Bench:
    """Times single workloads. An answer that differs from the program's ends the script."""

    def __init__(self, options, folder, workloads):
        self.options, self.folder, self.peers = options, folder, peers_in(folder, workloads)
        self.make = peer(folder, 'tables/make_table.c')

    def table(self, size):
        """The table of these rows and columns."""
        path = os.path.join(self.folder, f'{"-".join(size)}.csv')
        if not os.path.exists(path):
            with open(path, 'wb') as file:
                run([*self.make, *size], stdout=file)
        return path

    def ours(self, workload, table):
        """What a job costs beyond a job over one item, the least of turns in alternation."""
        text = workload.job if is_file(workload) else f'q = {workload.job}\n'
        files = {'start.jobs': ONE_ITEM, 'whole.jobs': text}
        one_item, jobs = (write(os.path.join(self.folder, name), 'version 3\n' + it) for name, it in files.items())
        program, columns = [self.options.program, '--language', '3'], [f'--columns={it}' for it in table]
        commands = [*program, one_item], [*program, *columns, jobs]
        start, whole = map(least, zip(*([ran(it) for it in commands] for _ in range(self.options.turns))))
        beyond = (max(getattr(whole, it) - getattr(start, it), LEAST_MILLISECONDS) for it in ('wall', 'processor'))
        return Cost(*beyond, whole.printed)

    def of_peer(self, name, workload, table, wanted):
        """The milliseconds of the least round of a peer, or `-`."""
        if not self.peers[name]:
            return '-'
        words = [workload.name, str(OF_TURN[name] * self.options.turns), *table]
        nanos, _, report = ran([*self.peers[name], *words]).printed.partition('\n')
        if report != wanted:
            sys.exit(f'{workload.name}: {name} gives {report[:200]!r} instead of {wanted[:200]!r}')
        return int(nanos) / 1e6

    def figures(self, workload):
        """The cells of a row."""
        table = [self.table(workload.table)] if workload.table else []
        cost = self.ours(workload, table)
        peers = [self.of_peer(it, workload, table, cost.printed) for it in self.peers]
        return [cost.wall, cost.processor, *peers, *('-' if it == '-' else cost.wall / it for it in peers)]


def means(lines):
    """The geometric means of columns."""
    return ['-' if '-' in it else math.exp(sum(map(math.log, it)) / len(it)) for it in zip(*lines)]


def warm():
    """Times jobs of many kinds beside warm parallel loops: Java's LongStream, and Rust with rayon for this processor.

    bench/run warm [--turns N] [--only WORD] [PROGRAM]

    All have four threads. Of the program it is wall and processor time in milliseconds of whole processes, less the time of
    a job over one item, each the least of N turns (3) in alternation. Of a peer it is the least round of a process that does
    a job again and again, at least three times: 0.5 s for each turn in Java, 0.1 s in Rust. A peer that gives another answer
    ends the run. Java and Rust read the table in each round too, and write an array as text. Small jobs have a mean of their
    own. The last lines are the rows beyond 1.5 of Java's time. --only: rows with this word in their titles.
    """
    options = options_of(warm.__doc__, turns=3, only='')
    chosen, found = [it for it in WORKLOADS if options.only in it.name], {}
    if not chosen:
        sys.exit(f'warm: no title has {options.only!r}')
    with tempfile.TemporaryDirectory() as folder:
        bench = Bench(options, folder, chosen)
        row('ms', HEADS, WIDTH)
        for workload in (it for it in chosen if bench.make or not it.table):
            found[workload] = bench.figures(workload)
            row(workload.name, found[workload], WIDTH)
    for title, is_small in (('geometric mean', False), ('small jobs', True)):
        lines = [figures for it, figures in found.items() if it.is_small == is_small]
        if lines:
            row(title, means(lines), WIDTH)
    by_java = {it.name: figures[-2] for it, figures in found.items() if figures[-2] != '-'}
    slow = [f'{name} {ratio:.2f}' for name, ratio in by_java.items() if ratio > SLOW]
    print(f'above {SLOW} of Java: {len(slow)} of {len(found)}', *slow, sep='\n  ')
    return 0
