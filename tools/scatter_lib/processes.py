"""Runs of streamrun on this machine."""
import os
import subprocess
import tempfile
from concurrent.futures import ThreadPoolExecutor

from .tables import pieces_of

MOST_TRIES = 3


class NoProgram(Exception):
    """The program isn't there, or it can't be started."""


def outcome_of(program, options, jobs, pieces):
    """(status, standard output, standard error) of a run over a job file and a table that comes in pieces. The status is
    below 0 if a signal ended the run, and None if the program isn't there."""
    with tempfile.TemporaryDirectory() as folder:
        jobs_path = os.path.join(folder, 'jobs')
        with open(jobs_path, 'wb') as file:
            file.write(jobs)
        with tempfile.TemporaryFile(dir=folder) as out, tempfile.TemporaryFile(dir=folder) as err:
            command = [program, *options, '--columns', '/dev/stdin', jobs_path]
            try:
                running = subprocess.Popen(command, stdin=subprocess.PIPE, stdout=out, stderr=err)
            except OSError:
                return None, b'', b''
            try:
                with running.stdin as table:
                    for piece in pieces:
                        table.write(piece)
            except BrokenPipeError:
                pass  # It ended before it had read all, and its status says why.
            except BaseException:
                running.kill()
                raise
            finally:
                status = running.wait()
            out.seek(0)
            err.seek(0)
            return status, out.read(), err.read()


class Processes:
    """Runs parts by processes of this machine, some at once."""

    def __init__(self, program, options, at_once):
        self.program, self.options, self.at_once, self.is_stopped = program, options, at_once, False

    def outcome(self, form, jobs, part):
        """What comes of a part. A run that a signal ends is tried again."""
        for tried in range(MOST_TRIES):
            found = outcome_of(self.program, [*self.options, *form], jobs, pieces_of(part))
            if found[0] is None:
                raise NoProgram(self.program)
            if found[0] >= 0 or self.is_stopped:
                break
        return found

    def run_all(self, form, jobs, parts, step, is_failure):
        """What comes of each part, with the option of this form of the report; None for parts that weren't begun since one before them failed."""
        failures = [len(parts)]

        def run(index):
            if index > min(failures):
                return None
            found = self.outcome(form, jobs, parts[index])
            if is_failure(found):
                failures.append(index)
            step()
            return found

        with ThreadPoolExecutor(self.at_once) as pool:
            try:
                return list(pool.map(run, range(len(parts))))
            except KeyboardInterrupt:
                self.is_stopped = True
                failures.append(-1)
                raise
