"""The rounds of a run over the parts of a table, and its refusals, in the order of one run: first the table, then the job
file, both before a job runs; then the rounds."""
import os
import re
import subprocess
import sys
import tempfile

from .jobs import NotRead, read_jobs
from .plan import Plan
from .processes import NoProgram
from .records import array_in, records_of, report_of
from .tables import Part

LINE_OF_JOBS = re.compile(rb'streamrun: jobs: line (\d+): .*\n')
ROW = re.compile(rb'(streamrun: columns: .*\brow )(\d+)(.*\n)', re.S)


class Ended(Exception):
    """A run without a report: the lines for standard error, and the status."""

    def __init__(self, lines, status):
        super().__init__(lines, status)
        self.lines, self.status = lines, status


class Progress:
    """Says on a terminal how far a run is."""

    def __init__(self, stream):
        self.stream = stream if stream.isatty() else None
        self.text, self.done, self.all = '', 0, 0

    def begin(self, text, parts):
        self.text, self.done, self.all = text, -1, parts
        self.step()

    def step(self):
        self.done += 1
        if self.stream:
            self.stream.write(f'\r\033[Kscatter: {self.text}: {self.done} of {self.all} parts')
            self.stream.flush()

    def end(self):
        if self.stream:
            self.stream.write('\r\033[K')
            self.stream.flush()


def probe_of(jobs):
    """A job file that is refused in its last line, if at all: the program says of the lines above whether it accepts them,
    and runs no job. Also the number of that line."""
    between = b' \n' if jobs.endswith(b'\r') else b'\n'
    return jobs + between + b'0\n', jobs.count(b'\n') + 2


def demand_mergeable(jobs, language):
    """Refuses a job file that can't be made of parts, before anything runs. What this can't read is for the program to
    refuse."""
    try:
        plan = Plan(read_jobs(jobs, language))
    except NotRead:
        return
    plan.demand_mergeable()


def merged(merger, form, jobs, rows, reports):
    """What the program of the merge writes of the parts' reports; merger: its words."""
    with tempfile.TemporaryDirectory() as folder:
        paths = [os.path.join(folder, name) for name in ('jobs', *map(str, range(1, len(reports) + 1)))]
        for path, data in zip(paths, [jobs, *reports]):
            with open(path, 'wb') as file:
                file.write(data)
        try:
            ended = subprocess.run([*merger, *form, '--rows', ','.join(map(str, rows)), *paths], stdin=subprocess.DEVNULL, capture_output=True, check=False)
        except OSError:
            raise NoProgram(merger[0]) from None
        if ended.returncode:
            raise Ended(f'scatter: the parts\' reports: {ended.stderr.decode(errors="replace")}'.rstrip('\n'), 3)
        return ended.stdout


class Run:
    """A job file over the parts of a table. runner: Processes or Workers; merger: the words of the program that merges reports;
    language: the newest version of job files that is read; only_named: whether only the columns that jobs name are looked at."""

    def __init__(self, jobs, header, parts, runner, merger, language, only_named, progress=None):
        self.jobs, self.parts, self.runner, self.merger = jobs, parts, runner, merger
        self.language, self.only_named = language, only_named
        self.header = Part(None, header, 0, 0, 0)
        self.progress = progress or Progress(sys.stderr)

    def outcomes(self, jobs, parts, text, form=(), expected=None):
        """What comes of each part, if none of them fails. form: the option of the report's form; expected: lines on standard
        error that are no failure."""
        def is_failure(outcome):
            return outcome[0] != 0 and not (expected and expected.fullmatch(outcome[2]))
        self.progress.begin(text, len(parts))
        try:
            found = self.runner.run_all(form, jobs, parts, self.progress.step, is_failure)
        finally:
            self.progress.end()
        before = 0
        for number, (part, outcome) in enumerate(zip(parts, found), 1):
            if is_failure(outcome):
                raise ended_by(outcome, f'part {number} of {len(parts)}', before)
            before += part.rows
        return found

    def demand_accepted(self):
        """Ends as one run would if it refuses the header, or the job file; a bad row then comes first. A round looks at the columns
        that its own jobs name, so before several rounds all rows are read once."""
        probe, line = probe_of(self.jobs)
        [(_, _, said)] = self.outcomes(probe, [self.header], 'job file', expected=LINE_OF_JOBS)
        refused = LINE_OF_JOBS.fullmatch(said)
        if not refused:
            raise Ended(f'scatter: {self.runner.program} is no streamrun', 4)
        if int(refused[1]) < line:
            self.outcomes(probe, self.parts, 'job file', expected=LINE_OF_JOBS)
            raise Ended(said.decode().rstrip('\n'), 1)
        plan = Plan(read_jobs(self.jobs, self.language))
        if self.only_named and plan.rounds > 1:
            self.outcomes(probe, self.parts, 'table', expected=LINE_OF_JOBS)
        return plan

    def report_together(self, together, records, form, text):
        """The report of jobs that run together."""
        jobs = together.jobs[1]
        if together.is_cut:
            found = self.outcomes(together.part_jobs[1], self.parts, text, ['--json'])
            return merged(self.merger, form, jobs, [part.rows for part in self.parts], [out for _, out, _ in found])
        table = self.header
        if together.array:
            numbers = array_in(records[together.array], bool(form))
            table = Part(None, f'{together.array}\n'.encode() + numbers, 0, 0, numbers.count(b'\n'))
        [(_, out, _)] = self.outcomes(jobs, [table], text, form)
        return out

    def report(self, is_json):
        """The report of the whole table. What was merged goes out as it is, if all jobs ran together."""
        plan, records = self.demand_accepted(), {}
        form = ['--json'] if is_json else []
        for number in range(1, plan.rounds + 1):
            for together in list(plan.runs(number, records, is_json)):
                report = self.report_together(together, records, form, f'round {number} of {plan.rounds}')
                if len(together.names) == len(plan.jobs):
                    return report
                found = dict(zip(together.jobs[0], records_of(report, is_json)))
                records.update((name, found[name]) for name in together.names)
        return report_of([records[name] for name in plan.jobs], is_json)


def ended_by(outcome, part, before):
    """The end of a run by a part that failed. A row is reported as the whole counts rows: `before` lie before the part."""
    status, _, said = outcome
    if status < 0:
        return Ended(f'scatter: {part}: ended by signal {-status}, again and again', 3)
    row = ROW.fullmatch(said)
    if row:
        said = row[1] + b'%d' % (int(row[2]) + before) + row[3]
    line = said.decode(errors='replace').rstrip('\n')
    is_of_the_table = status == 1 and line.startswith('streamrun: columns: ')
    return Ended(line if is_of_the_table else f'scatter: {part}: {line}', status)
