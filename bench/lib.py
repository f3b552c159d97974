"""What the benchmarks have in common: peers, runs that are timed, and tables."""
import collections
import os
import shutil
import subprocess
import sys

HERE = os.path.dirname(os.path.realpath(__file__))
TOP = os.path.dirname(HERE)
sys.path.append(os.path.join(TOP, 'tests'))
from running import measured  # noqa: E402

# Where Debian has crates of Rust.
CRATES = '/usr/share/cargo/registry'
# (title, cells) of each row that the running part has shown.
SHOWN = []
# Least wall time and processor time in milliseconds, and what the last run printed.
Cost = collections.namedtuple('Cost', 'wall processor printed')


def ran(command, is_needed=True, most=None):
    """The cost of a run, with what it prints, or its first bytes. None if it fails, and isn't needed."""
    got, cost = measured(command, most=most)
    if got.status and is_needed:
        sys.exit(f'{command[0]} ended with {got.status}: {got.err.decode(errors="replace")}')
    return None if got.status else Cost(1000 * cost.wall, 1000 * cost.processor, got.out.decode())


def least(costs):
    """The least times of some runs; all have to print the same."""
    costs = list(costs)
    if len({cost.printed for cost in costs}) != 1:
        sys.exit(f'the answers differ: {sorted({cost.printed[:200] for cost in costs})}')
    return Cost(min(cost.wall for cost in costs), min(cost.processor for cost in costs), costs[0].printed)


def least_of(turns, command, **more):
    """The least cost of some runs of a command."""
    return least(ran(command, **more) for _ in range(turns))


def in_turns(turns, commands, **more):
    """The least cost of each command, by its name; they take turns, and have to give the words that the first one gives."""
    rounds = [{name: ran(command, **more) for name, command in commands.items()} for _ in range(turns)]
    found = {name: least(one[name] for one in rounds) for name in commands}
    wanted = next(iter(found.values())).printed.split()
    for name, cost in found.items():
        if cost.printed.split() != wanted:
            sys.exit(f'{name} gives another answer: {cost.printed[:200]!r}')
    return found


def peer(work, path, *flags):
    """The command of a peer, built of a source in C, Java or Rust; None, with a line, if it can't be built."""
    source, (stem, language) = os.path.join(HERE, path), os.path.basename(path).split('.')
    made = os.path.join(work, stem)
    build, command = {
        'c': ([os.environ.get('CC', 'gcc'), '-O2', '-pthread', *flags, '-o', made, source], [made]),
        'java': (['javac', '-d', work, source], ['java', *flags, '-cp', work, stem]),
        'rs': (['rustc', '-O', *flags, '-o', made, source], [made])}[language]
    if not shutil.which(build[0]):
        print(f'{path}: left out, since {build[0]} is not installed')
        return None
    ended = subprocess.run(build, cwd=work, capture_output=True, text=True, check=False)
    if ended.returncode:
        print(f'{path}: left out, since it was not built: {ended.stderr[-400:]}')
        return None
    return command


def crate_peer(work, path, *flags):
    """The command of a peer in Rust that is built by cargo with the crates of Debian; None, with a line, if it can't be built."""
    name, sources = os.path.basename(path), os.path.join(work, f'{os.path.basename(path)}-sources')
    if not shutil.which('cargo') or not os.path.isdir(CRATES):
        print(f'{path}: left out, since cargo or the folder {CRATES} (librust-csv-dev and librust-rayon-dev) is not there')
        return None
    shutil.copytree(os.path.join(HERE, path), sources)
    settings = ('source.crates-io.replace-with="debian"', f'source.debian.directory="{CRATES}"', f'build.rustflags={list(flags)}')
    more = [word for it in settings for word in ('--config', it)]
    ended = subprocess.run(['cargo', 'build', '--release', '--offline', *more], cwd=sources, capture_output=True, text=True, check=False)
    if ended.returncode:
        print(f'{path}: left out, since it was not built: {ended.stderr[-400:]}')
        return None
    return [os.path.join(sources, 'target', 'release', name)]


def row(title, cells, width=24):
    """Shows a line of a table: a title, and cells of ten columns."""
    SHOWN.append((title.strip(), cells))
    print(f'{title:{width}}' + ''.join(f'{cell:>10.2f}' if isinstance(cell, float) else f'{cell:>10}' for cell in cells), flush=True)
