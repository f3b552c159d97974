"""Limits under which a run of the soak may stand: little memory, few processes, a small stack, few files, pipes that close;
the settings of runs; and the time that the model may take."""
import os
import signal

from running import KB, MB, NOBODY, sets
from streamrun_language.model import outcome


def memory(chance):
    """Of what is allocated, stacks of threads counted in. A limit of all addresses holds the first thread's stack too, and if
    that can't grow the system ends the program."""
    return sets(DATA=chance.choice([chance.randint(128 * KB, 4 * MB), chance.randint(4 * MB, 100 * MB)]))


def processes(chance):
    """Threads count as processes: of those beyond the limit none is started. For a user with rights there is no limit."""
    return sets(NPROC=chance.randint(1, 10), user=NOBODY if os.getuid() == 0 else None)


def stack(_):
    return sets(STACK=256 * KB)


def files(_):
    return sets(NOFILE=8)


# Whether a run may end with 'out of memory' stands beside each.
LIMITS = {'memory': (memory, True), 'processes': (processes, False), 'stack': (stack, False), 'files': (files, False),
          'pipes': (None, False), 'none': (None, False)}


WORKERS, THRESHOLDS, NODES = [1, 2, 8, 64], [1, 1000, 2 ** 20], [0, 1, 3, 4096]


def settings_of(chance, count):
    """Random settings, all different."""
    every = [(w, t, n) for w in WORKERS for t in THRESHOLDS for n in NODES]
    for workers, threshold, nodes in chance.sample(every, min(count, len(every))):
        yield ['--workers', str(workers), '--threshold', str(threshold), '--nodes', str(nodes)]


class TimeUp(Exception):
    """The model took too long."""


def time_up(*_):
    raise TimeUp


def outcome_in_time(seconds, *arguments):
    """The model's outcome, or None if it takes longer."""
    signal.signal(signal.SIGALRM, time_up)
    signal.setitimer(signal.ITIMER_REAL, seconds)
    try:
        return outcome(*arguments)
    except TimeUp:
        return None
    finally:
        signal.setitimer(signal.ITIMER_REAL, 0)
