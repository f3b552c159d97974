"""Runs a program in which chosen calls fail: allocations, reads, writes, openings of files, starts of threads (faults.c).

    with Faults(program) as faults:
        run = faults.run(['FILE.jobs'], ALLOC='3')      # as faults.c names them, without FAULTS_
        run.out, run.err, run.status, run.seen['ALLOC']

A run that doesn't end within its time has the status None.
"""
import collections
import os
import shutil
import struct
import subprocess
import sys
import tempfile
import threading
import time

import running

KINDS = ['ALLOC', 'READ', 'WRITE', 'OPEN', 'THREAD', 'FAILED']

Run = collections.namedtuple('Run', 'out err status seen')

# A job of 2^62 items.
ENDLESS = b'e = range(0, 4611686018427387904).filter(x -> x < 0).sum()\n'


def compiler():
    """A C compiler: $CC, or the system's."""
    for name in (os.environ.get('CC'), 'cc', 'gcc', 'clang'):
        if name and shutil.which(name):
            return name
    return sys.exit('no C compiler for tests/faults.c')


class Faults:
    def __init__(self, program, seconds=60, inside=None):
        """inside: the folder for its files, if it isn't the usual one, which other users may not look into."""
        self.program, self.seconds, self.inside = program, seconds, inside
        self.files = threading.local()
        self.written, self.lock = {}, threading.Lock()

    def __enter__(self):
        self.folder = tempfile.TemporaryDirectory(dir=self.inside)
        if self.inside:
            os.chmod(self.folder.name, 0o755)
        self.library = os.path.join(self.folder.name, 'faults.so')
        source = os.path.join(running.TESTS, 'faults.c')
        subprocess.run([compiler(), '-O2', '-shared', '-fPIC', '-o', self.library, source, '-ldl'], check=True)
        return self

    def __exit__(self, *_):
        self.folder.cleanup()

    def file(self, name, data):
        """The path of a file that holds these bytes. It isn't written again while a run may read it."""
        path = os.path.join(self.folder.name, name)
        with self.lock:
            if self.written.get(name) != data:
                running.write(path, data)
                self.written[name] = data
        return path

    def counters(self):
        """A file of counters for this thread of the script."""
        if not hasattr(self.files, 'path'):
            self.files.path = self.file(f'seen-{threading.get_ident()}', b'')
        return running.write(self.files.path, bytes(64))

    def environment(self, path, words):
        """What is set for a run whose counters are in this file, and in which these calls fail."""
        return {'FAULTS_SEEN': path, **{f'FAULTS_{word}': str(words[word]) for word in words}}

    def threads(self, arguments, wanted, **words):
        """How many threads a run over an endless job has, as soon as it has as many as are wanted at two looks in turn, or after
        20 seconds. Then the run is ended."""
        environment = {**os.environ, 'LD_PRELOAD': self.library, **self.environment(self.counters(), words)}
        found = None
        with subprocess.Popen([self.program, *arguments, self.file('endless.jobs', ENDLESS)], env=environment) as ran:
            try:
                for _ in range(1000):
                    before, found = found, len(os.listdir(f'/proc/{ran.pid}/task'))
                    if before == found == wanted:
                        break
                    time.sleep(0.02)
            finally:
                ran.kill()
        return found

    def run(self, arguments, limit=None, is_alone=False, **words):
        """A run of the program. `limit` is called in the new process before the program is loaded; if the program `is_alone`, the
        library isn't loaded, and nothing is counted."""
        path = self.counters()
        environment = self.environment(path, words)
        if not is_alone:
            environment['LD_PRELOAD'] = self.library
        answer = running.run([self.program, *arguments], limit, self.seconds, env=environment)
        return Run(*answer, dict(zip(KINDS, struct.unpack('6Q', running.read(path)[:48]))))
