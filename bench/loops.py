"""The parts that time arithmetic beside loops of other languages."""
import sys
import tempfile

from lib import peer, ran, row
from processes import Jobs
from running import options_of
import tasks

# For each loop of operators/loops.c, by its name, its job after the source.
OPERATORS = {
    'map_filter_sum': tasks.MAP_FILTER_SUM,
    'fifteen': f'map(x -> {tasks.FIFTEEN}).sum()',
    'choice': 'map(x -> (x & 4) == 0 ? x * 3 : x + 1).sum()',
    'exact': 'map(x -> Math.addExact(x, 5)).sum()',
    'any_match': 'anyMatch(x -> x * 3 > 1000000000)',
    'flat_map_pair': 'flatMap(x -> of(x, x)).sum()',
    'flat_map': 'flatMap(x -> range(0, x & 3)).sum()',
    'add': 'map(x -> x + 5).sum()',
    'multiply': 'map(x -> x * 31).sum()',
    'divide': 'map(x -> x / 7).sum()',
    'remainder': 'map(x -> x % 7).sum()',
    'floor_div': 'map(x -> Math.floorDiv(x, 7)).sum()',
    'floor_mod': 'map(x -> Math.floorMod(x, 7)).sum()',
    'divide_power': 'map(x -> x / 8).sum()',
    'remainder_power': 'map(x -> x % 8).sum()',
    'floor_div_power': 'map(x -> Math.floorDiv(x, 8)).sum()',
    'floor_mod_power': 'map(x -> Math.floorMod(x, 8)).sum()',
}
# After eight outer items.
LONG_INNER = 'flatMap(x -> range(0, 6250000)).sum()'
COUNT_OF_LOOPS, ROUNDS, WORKERS = 50_000, 8, (1, 2, 4)


def operators():
    """Times operators beside loops in C at -O2: nanoseconds per item.

    bench/run operators [--turns N] [PROGRAM]

    Of the program it is the processor time of one worker over 5 * 10^7 numbers and the wall time of four, without the start of the
    process, the least of N turns (5); of C the best of 40 runs over the numbers below 50,000 on one thread. It stops if the program
    and the loop give different results over these numbers. The last rows are a flatMap over eight items, at two thresholds.
    """
    options = options_of(operators.__doc__, turns=5)
    with tempfile.TemporaryDirectory() as folder:
        jobs, loops = Jobs(options, folder), peer(folder, 'operators/loops.c')
        in_c = {name: rest for name, *rest in map(str.split, ran(loops).printed.splitlines() if loops else [])}
        row('ns per item', ['1 worker', '4 workers', 'C'], 60)
        for name, stream in OPERATORS.items():
            found = result_of(jobs.cost(f'range(0, {COUNT_OF_LOOPS}).{stream}', 1).printed)
            nanos, wanted = in_c.get(name, (None, found))
            if wanted != found:
                sys.exit(f'{name}: {found} instead of {wanted}')
            shown = stream.replace(tasks.FIFTEEN, 'fifteen operators')
            row(shown, [*jobs.per_item(stream), int(nanos) / COUNT_OF_LOOPS if nanos else '-'], 60)
        for threshold in ('1024', '1'):
            row(f'threshold {threshold}', jobs.per_item(LONG_INNER, 'range(0, 8)', ['--threshold', threshold]), 60)


def result_of(report):
    """The answer of a report of one job, as a loop in C prints it."""
    answer = report.split()[-1]
    return {'false': '0', 'true': '1'}.get(answer, answer)


def best_round(command, wanted):
    """The least milliseconds of the rounds that a peer prints, each with its answer."""
    rounds = [line.split() for line in ran(command).printed.splitlines()]
    if {answer for _, answer in rounds} != {wanted}:
        sys.exit(f'{command} gives another answer than {wanted}')
    return min(int(nanos) for nanos, _ in rounds) / 1e6


def cores():
    """Times two sums over 10^8 numbers on 1, 2 and 4 threads beside warm loops: Java's parallel streams, and Rust.

    bench/run cores [--turns N] [PROGRAM]

    Of the program it is wall time in milliseconds of whole processes, without the start of one; of a peer the best of eight rounds in
    one process. Each is the least of N turns (3). The last columns are the time on one thread by that on four, and ours on four by
    the row's.
    """
    options = options_of(cores.__doc__, turns=3)
    with tempfile.TemporaryDirectory() as folder:
        jobs, peers_of = Jobs(options, folder), {'Java': peer(folder, 'peers/Tasks.java'), 'Rust': peer(folder, 'cores/sums.rs')}
        starts = {it: jobs.cost('range(0, 1).sum()', it).wall for it in WORKERS}
        row('ms', ['', *map(str, starts), '1 by 4', 'ours by it'])
        for task in tasks.OF_CORES:
            stream = tasks.JOBS[task][1].partition(' = ')[2].strip()
            costs = {it: jobs.cost(stream, it) for it in starts}
            found = {'streamrun': [max(costs[it].wall - start, 0.0) for it, start in starts.items()]}
            wanted = costs[1].printed.split()[-1]
            for name, command in peers_of.items():
                if command:
                    found[name] = [min(best_round([*command, str(it), task, str(ROUNDS)], wanted) for _ in range(options.turns))
                                   for it in starts]
            for name, times in found.items():
                row(task, [name, *times, times[0] / times[-1], found['streamrun'][-1] / times[-1]])
