"""What tests over the built program have in common: their command lines, their job files, their runs, and the count of these."""
import argparse
import collections
import concurrent.futures
import contextlib
import functools
import glob
import os
import re
import resource
import shlex
import shutil
import stat
import subprocess
import sys
import tempfile
import threading
import time

TESTS = os.path.dirname(os.path.realpath(__file__))
TOP = os.path.dirname(TESTS)
sys.path += [TESTS, *(os.path.join(TOP, *path) for path in (('tests', 'soak'), ('python',), ('tools',), ('reference',)))]
PROGRAM = os.path.join(TOP, 'crates', 'streamrun', 'out', 'streamrun')
# What standard error has beside a report of no jobs.
NO_JOBS = b'streamrun: the job file has no job\n'
OUT_OF_MEMORY = (b'', b'streamrun: out of memory\n', 3)
KB, MB = 2 ** 10, 2 ** 20
NOBODY = 65534
# Folders for new files, of which at least one can be reached by every user.
FOLDERS_OF_ALL = '/tmp', '/var/tmp', '/dev/shm'
# The folders with job files that have a report or a refusal beside them.
FOLDERS = ['examples', 'examples/gallery', 'examples/tables', 'examples/tutorial', 'tests/answers', 'tests/messages']

# The head of a file of a later version than is read by default: comments and empty lines before its first line are skipped.
LATER_FILE = re.compile(rb'(?:\xef\xbb\xbf)?(?:[ \t]*(?:(?:#|//)[^\n]*)?\r?\n)*[ \t]*version[ \t]+3[ \t]*\r?(?:\n|$)')
LANGUAGES = 2, 3

Run = collections.namedtuple('Run', 'out err status')
# What a run took: wall time and processor time in seconds, and the most bytes that it held.
Cost = collections.namedtuple('Cost', 'wall processor memory')


def options_of(page, at=PROGRAM, **defaults):
    """The options of a script, by the page at its head: each default gives one its kind. The program is `at` if none is given; with
    None there is no program."""
    first, rest = page.replace('%', '%%').split('\n\n', 1)
    parser = argparse.ArgumentParser(description=first, usage=rest.strip(), formatter_class=argparse.RawDescriptionHelpFormatter)
    for name, default in defaults.items():
        kind = {'action': 'store_true'} if default is False else {'default': default, 'type': type(default)}
        if isinstance(default, list):
            kind['type'] = lambda text: text.split(',')
        parser.add_argument('--' + name.replace('_', '-'), **kind)
    if at is None:
        return parser.parse_args()
    parser.add_argument('program', nargs='?', default=at)
    options = parser.parse_args()
    found = options.program and shutil.which(options.program)
    if found is None:
        parser.exit(2, f'{parser.prog}: no program at {options.program}\n')
    options.program = found and os.path.abspath(found)
    return options


def read(path):
    with open(path, 'rb') as file:
        return file.read()


def write(path, data):
    """Writes bytes, or a text as it is, and gives the path."""
    with open(path, 'wb') as file:
        file.write(data if isinstance(data, bytes) else data.encode())
    return path


@functools.lru_cache(maxsize=None)
def counted():
    """A folder, as long as the script runs, with the job files of reference/counted."""
    folder = tempfile.TemporaryDirectory()
    subprocess.run([os.path.join(TOP, 'reference', 'counted'), folder.name], check=True)
    return folder


def job_files():
    """(path of a job file, the columns that it is run over or None) of all that have a report or a refusal beside them."""
    folders = [*(os.path.join(TOP, folder) for folder in FOLDERS), counted().name]
    for path in sorted(path for folder in folders for path in glob.glob(os.path.join(folder, '*.jobs'))):
        folder, name = os.path.split(path[:-len('.jobs')])
        tables = [os.path.join(folder, table + '.csv') for table in (name, name.split('.')[0])]
        yield path, next(filter(os.path.exists, tables), None)


def written(report):
    """What a run that writes this report ends with."""
    return report, NO_JOBS if report in (b'', b'[]\n') else b'', 0


def newest_of(jobs):
    """The least number of `--language` with which a job file may be accepted."""
    return LANGUAGES[-1] if LATER_FILE.match(jobs) else LANGUAGES[0]


def language(newest):
    """The words that ask for a language; the first one is the default."""
    return [] if newest == LANGUAGES[0] else ['--language', str(newest)]


def table_words(table):
    """The words of a command line by which a table is read, by the options of it."""
    words = ['--only-named'] if table.get('only_named') else []
    words += ['--separator', table['separator']] if table.get('separator', ',') != ',' else []
    return words + ([] if table.get('blank') is None else [f'--blank={table["blank"]}'])


def table_of(words):
    """The options of a table that such words say."""
    parser = argparse.ArgumentParser(argument_default=argparse.SUPPRESS)
    parser.add_argument('--only-named', action='store_true')
    parser.add_argument('--separator')
    parser.add_argument('--blank', type=int)
    return vars(parser.parse_args(words))


def options_beside(jobs):
    """The options of the table of a job file: NAME.options beside it has their words, if it isn't read as it is."""
    path = jobs[:-len('.jobs')] + '.options'
    return table_of(shlex.split(read(path).decode())) if os.path.exists(path) else {}


def sets(user=None, **limits):
    """What a new process does before the program is loaded. Limits have the names of `resource`, without RLIMIT_."""
    def limit():
        for name, value in limits.items():
            resource.setrlimit(getattr(resource, f'RLIMIT_{name}'), (value, value))
        if user is not None:
            os.setgroups([])
            os.setgid(user)
            os.setuid(user)
    return limit


def is_reached_by_all(folder):
    """Whether every user can open what is in a folder, as far as the folders above it are concerned too."""
    path = os.path.realpath(folder)
    above = [path] + [path[:at] or '/' for at, sign in enumerate(path) if sign == '/']
    return os.path.isdir(path) and all(os.stat(it).st_mode & stat.S_IXOTH for it in above)


@contextlib.contextmanager
def for_everyone(program):
    """A new folder that every user can look into, and a copy of the program in it. The folder of the program may be closed to other
    users, and the usual one for new files too."""
    usual = tempfile.gettempdir()
    chosen = next(filter(is_reached_by_all, (usual, *FOLDERS_OF_ALL)), usual)
    os.umask(stat.S_IWGRP | stat.S_IWOTH)
    with tempfile.TemporaryDirectory(dir=chosen) as folder:
        os.chmod(folder, 0o755)
        copied = shutil.copy(program, os.path.join(folder, 'streamrun'))
        os.chmod(copied, 0o755)
        yield folder, copied


def run(command, limit=None, seconds=None, **more):
    """A run of a command; its status is None if its time was up."""
    try:
        ended = subprocess.run(command, **{'stdin': subprocess.DEVNULL, 'stdout': subprocess.PIPE, 'stderr': subprocess.PIPE, **more},
                               preexec_fn=limit, timeout=seconds, check=False)
        nothing = '' if more.get('text') else b''
        return Run(ended.stdout or nothing, ended.stderr or nothing, ended.returncode)
    except subprocess.TimeoutExpired as late:
        return Run(late.stdout or b'', late.stderr or b'', None)


def measured(command, limit=None, seconds=None, most=None):
    """A run of a command, which is killed when its time is up, and its cost. Of what it writes at most
    `most` bytes are read: what this process holds counts as memory of later runs."""
    with tempfile.TemporaryFile() as out, tempfile.TemporaryFile() as err:
        begun = time.perf_counter()
        running = subprocess.Popen(command, stdin=subprocess.DEVNULL, stdout=out, stderr=err, preexec_fn=limit)
        late = threading.Timer(seconds or threading.TIMEOUT_MAX, running.kill)
        if seconds:
            late.start()
        _, status, used = os.wait4(running.pid, 0)
        late.cancel()
        wall, running.returncode = time.perf_counter() - begun, os.waitstatus_to_exitcode(status)
        for file in (out, err):
            file.seek(0)
        cost = Cost(wall, used.ru_utime + used.ru_stime, used.ru_maxrss * KB)
        return Run(out.read(most), err.read(most), running.returncode), cost


def python_with(module):
    """A Python of this machine that has a module, or None."""
    there = filter(shutil.which, ('python3', '/usr/bin/python3'))
    return next((python for python in there if run([python, '-c', f'import {module}']).status == 0), None)


def side_by_side(function, items):
    """What a function gives for each item, in their order; as many run at a time as there are processors."""
    with concurrent.futures.ThreadPoolExecutor(len(os.sched_getaffinity(0))) as pool:
        yield from pool.map(function, items)


class Tally:
    """How many cases passed and failed; the first ones that fail have a line each."""

    def __init__(self, title, shown=40):
        self.title, self.shown, self.passed, self.failed = title, shown, 0, 0

    def expect(self, name, is_right, got=''):
        """Counts a case, with what to say of it if it isn't right: a text, or (standard output, standard error, status)."""
        self.passed += bool(is_right)
        self.failed += not is_right
        if not is_right and self.failed <= self.shown:
            said = f'status {got[2]}, {got[0][:200]!r}, {got[1][:400]!r}' if isinstance(got, tuple) else got
            print(f'{name}: {said}', flush=True)

    def compare(self, name, got, wanted):
        """Counts a run by what it has to give."""
        self.expect(name, tuple(got[:3]) == tuple(wanted), tuple(got))

    def all_right(self, wrong, count):
        """Counts `count` cases; these are wrong."""
        wrong = list(wrong)
        self.passed += count - len(wrong)
        for said in wrong:
            self.expect(self.title, False, said)

    def end(self, more=''):
        """Prints the last line, and gives the exit status."""
        print(f'{self.title}: {self.passed} passed, {self.failed} failed{more}')
        return 0 if self.passed and not self.failed else 1
