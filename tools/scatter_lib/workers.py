"""Parts on the workers of a Dask scheduler (Debian: python3-distributed).

A worker needs streamrun and Python's distributed, and nothing of this repository: the functions that it runs are sent to
it by value, and so are the bytes of a part, through the scheduler. A part whose worker dies is given to another one by the
scheduler, which gives a part up after its fourth worker. A part whose program is ended by a signal is sent again from here.
"""
import logging
import os
import sys
import warnings
from collections import Counter, namedtuple
from concurrent.futures import CancelledError

from streamrun_language.tables import sign_of

from .processes import MOST_TRIES, NoProgram, outcome_of
from .running import Ended
from .tables import OtherHeader, header_of, open_table, pieces_of, rows_of_table

DEBIAN = '/usr/bin/python3'
SECONDS_TO_CONNECT = 30
PARTS_IN_FLIGHT = 2

# A part that lies at a worker.
There = namedtuple('There', 'worker path rows')


def distributed_or_debian():
    """Python's distributed; if only Debian's own Python has it, the command begins again there."""
    try:
        import distributed
        return distributed
    except ImportError:
        if os.path.exists(DEBIAN) and os.path.realpath(sys.executable) != os.path.realpath(DEBIAN):
            os.execv(DEBIAN, [DEBIAN, *sys.argv])
        raise Ended('scatter: --scheduler wants Python\'s distributed (Debian: apt-get install python3-distributed)', 4) from None


# What runs at a worker. It is sent by value, with what it calls.

def run_sent(program, options, jobs, table):
    """A part whose bytes came along."""
    return outcome_of(program, options, jobs, [table])


def run_there(program, options, jobs, path):
    """A part that lies here."""
    with open(path, 'rb') as file:
        return outcome_of(program, options, jobs, iter(lambda: file.read(2 ** 24), b''))


def look_there(path, sign):
    """(bytes and names of the header, number of rows) of a file that lies here, or None if it can't be opened."""
    try:
        data = open_table(path)
    except OSError:
        return None
    names, end = header_of(data, sign)
    return data[:end], names, rows_of_table(data, sign)


class Workers:
    """Runs parts on the workers of a scheduler."""

    def __init__(self, client, distributed, program, options):
        self.client, self.distributed, self.program, self.options = client, distributed, program, options
        self.tries = Counter()

    def at_once(self):
        """How many parts are sent: some wait at the scheduler, the others here, on disk."""
        return max(1, sum(self.client.nthreads().values())) * PARTS_IN_FLIGHT

    def send(self, function, *arguments, worker=None):
        import cloudpickle
        cloudpickle.register_pickle_by_value(sys.modules[__package__])
        with warnings.catch_warnings():
            warnings.simplefilter('ignore')  # A part is large on purpose.
            return self.client.submit(lambda *given: function(*given), *arguments, pure=False, workers=worker)

    def send_part(self, form, jobs, part):
        options = [*self.options, *form]
        if isinstance(part, There):
            return self.send(run_there, self.program, options, jobs, part.path, worker=[part.worker])
        return self.send(run_sent, self.program, options, jobs, b''.join(pieces_of(part)))

    def result(self, future, part):
        """What a worker gave."""
        try:
            return future.result()
        except self.distributed.scheduler.KilledWorker as killed:
            raise Ended(f'scatter: {part}: its workers died, {killed.last_worker.address} last', 3) from None
        except (CancelledError, self.distributed.comm.CommClosedError, TimeoutError):
            raise Ended('scatter: the scheduler is gone', 4) from None
        finally:
            future.release()

    def outcome(self, future, number):
        """What came of a part, or None if it has to be sent again."""
        self.tries[number] += 1
        found = self.result(future, f'part {number}')
        if found[0] is None:
            raise NoProgram(f'{self.program} at a worker')
        return None if found[0] < 0 and self.tries[number] < MOST_TRIES else found

    def run_all(self, form, jobs, parts, step, is_failure):
        """What comes of each part, with the option of this form of the report; None for parts that weren't sent since one before them failed."""
        self.tries.clear()
        found, waiting, numbers, end = [None] * len(parts), list(range(len(parts))), {}, len(parts)
        results = self.distributed.as_completed(loop=self.client.loop)
        while True:
            while waiting and len(numbers) < self.at_once():
                at = waiting.pop(0)
                if at < end:
                    future = self.send_part(form, jobs, parts[at])
                    numbers[future.key] = at
                    results.add(future)
            if not numbers:
                return found
            future = next(results)
            at = numbers.pop(future.key)
            found[at] = self.outcome(future, at + 1)
            if found[at] is None:
                waiting.insert(0, at)
                continue
            if is_failure(found[at]):
                end = min(end, at)
            step()


def run_on_workers(options, folder):
    """The report of a run whose parts run on workers."""
    distributed = distributed_or_debian()
    from .command import mergeable_jobs, run_of, table_and_jobs, words_of
    logging.disable()  # What matters to the user is said in a line of our own.
    try:
        client = distributed.Client(options.scheduler, timeout=SECONDS_TO_CONNECT, set_as_default=False)
    except (OSError, ValueError, TimeoutError):
        raise Ended(f'scatter: no scheduler at {options.scheduler}', 4) from None
    with client:
        threads = ['--workers', str(options.workers)] if options.workers else []
        runner = Workers(client, distributed, options.program, [*threads, *words_of(options)])
        if options.at_workers:
            jobs = mergeable_jobs(options)
            header, parts = parts_there(runner, options.columns, sign_of(options.separator))
        else:
            count = options.parts or max(1, sum(client.nthreads().values()))
            header, parts, jobs = table_and_jobs(options, folder, count)
        return run_of(options, jobs, header, parts, runner).report(options.json)


def parts_there(runner, words, sign):
    """The header and the parts of files that lie at workers, each WORKER:PATH."""
    known = set()
    for address, about in runner.client.scheduler_info()['workers'].items():
        known.update([address, str(about['name']), about['host']])
    places = [word.rpartition(':')[::2] for word in words]
    for worker, path in places:
        if worker not in known:
            raise Ended(f'scatter: {worker}:{path}: no worker {worker}', 4)
    futures = [runner.send(look_there, path, sign, worker=[worker]) for worker, path in places]
    looks = [runner.result(future, word) for word, future in zip(words, futures)]
    for word, look in zip(words, looks):
        if look is None:
            raise Ended('streamrun: cannot open columns', 4)
        if look[1] != looks[0][1]:
            raise OtherHeader(f'{word}: another header than {words[0]}')
    parts = [There(worker, path, rows) for (worker, path), (_, _, rows) in zip(places, looks)]
    return looks[0][0], parts
