"""The part that times one run of the program over a table beside runs over its parts."""
import os
import signal
import subprocess
import sys
import tempfile
import time

from lib import TOP, peer
from running import options_of, write
from scatter_lib.workers import distributed_or_debian

JOBS = '''total = column("c0").sum()
least = column("c3").min()
mixed = column("c2").map(x -> x * 3 + 1).filter(x -> x % 7 != 0).reduce(0, xor)
last = column("c1").filter(x -> x % 10 == 3).map(x -> x * x).toArray()
first = column("c0").filter(x -> x > 999990000).findFirst()
late = column("c1").map(x -> 1000 / (x - {late})).sum()
above = column("c0").filter(x -> x > $total / {rows}).count()
'''
WORKERS, LOOK_SECONDS, SECONDS = 4, 0.05, 3000


def timed(name, command, meanwhile=None):
    """The bytes that a command writes; its time is printed."""
    begun = time.monotonic()
    with tempfile.TemporaryFile() as out:
        running = subprocess.Popen(command, stdin=subprocess.DEVNULL, stdout=out)
        done = meanwhile(running) if meanwhile else ''
        status = running.wait(SECONDS)
        taken = time.monotonic() - begun
        out.seek(0)
        written = out.read()
    print(f'{name:40} {taken:8.1f} s{done}', flush=True)
    if status:
        sys.exit(f'{name}: status {status}')
    return written


def kill_a_worker(client):
    """What kills a worker that works on a part, once another part is done."""
    def meanwhile(running):
        pids = client.run(os.getpid)
        seen = set()
        while running.poll() is None:
            busy = {worker: keys for worker, keys in client.processing().items() if keys}
            seen.update(key for keys in busy.values() for key in keys)
            gone = len(seen) - sum(len(keys) for keys in busy.values())
            if gone and busy:
                worker = min(busy)
                os.kill(pids[worker], signal.SIGKILL)
                return f', worker {worker} killed after {gone} parts'
            time.sleep(LOOK_SECONDS)
        sys.exit('the run ended before a worker could be killed')
    return meanwhile


def scatter():
    """Times one run of the program over a table beside runs over its parts: by processes, by a Dask cluster of four processes on this
    machine, and by a cluster whose worker is killed in the middle. Each has to write the same bytes.

    bench/run scatter [--rows N] [--parts N] [--merger PATH] [PROGRAM]

    N: 10000000 rows, 8 parts. It wants a C compiler, and Debian's python3-distributed.
    """
    merger = os.path.join(TOP, 'crates', 'streamrun_merge', 'out', 'streamrun_merge')
    options = options_of(scatter.__doc__, rows=10 ** 7, parts=8, merger=merger)
    # (another Python, which has the package, may have to begin again)
    sys.argv.insert(1, 'scatter')
    distributed = distributed_or_debian()
    with tempfile.TemporaryDirectory() as folder:
        table = os.path.join(folder, 'table.csv')
        with open(table, 'wb') as file:
            subprocess.run([*peer(folder, 'tables/make_table.c'), str(options.rows), '4'], stdout=file, check=True)
        jobs = write(os.path.join(folder, 'jobs'), JOBS.format(late=options.rows * 9 // 10, rows=options.rows))
        print(f'{options.rows} rows, {os.path.getsize(table)} bytes, {options.parts} parts, {os.cpu_count()} processors')
        wanted = timed('one run', [options.program, '--columns', table, jobs])
        by_parts = [os.path.join(TOP, 'tools', 'scatter'), 'run', '--parts', str(options.parts), '--program', options.program,
                    '--merger', options.merger, '--columns', table, jobs]
        got = [timed('parts by processes', by_parts)]
        cluster = distributed.LocalCluster(n_workers=WORKERS, threads_per_worker=1, dashboard_address=':0')
        with cluster, distributed.Client(cluster) as client:
            there = [*by_parts, '--scheduler', cluster.scheduler_address]
            got.append(timed(f'parts by a cluster of {WORKERS} processes', there))
            got.append(timed('this cluster, a worker killed', there, kill_a_worker(client)))
    is_right = all(it == wanted for it in got)
    print('the same bytes in each' if is_right else 'OTHER BYTES')
    return 0 if is_right else 1
