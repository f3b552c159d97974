"""A run over parts in each way that there is, and one run to compare with. An outcome is (standard output, standard
error, status), and files lie in a folder of the test's own."""
import json
import os

import running
from running import LANGUAGES, TOP, read
from scatter_lib import command
from scatter_lib.jobs import read_jobs
from scatter_lib.plan import Plan
from streamrun_language.tables import SIGNS

from .random_files import PartsWriter

TOOL = os.path.join(TOP, 'tools', 'scatter')
WAYS = ['run', 'files', 'merge', 'merge']


def write(folder, name, data):
    return running.write(os.path.join(folder, name), data)


def run(*arguments):
    """What a command of the tool gives; its lines as bytes."""
    out, lines, status = command.outcome([str(it) for it in arguments])
    return out, lines.encode() + b'\n' * bool(lines), status


def one_run(program, *arguments, **more):
    return tuple(running.run([program, *arguments], **more))


class ByHand:
    """The commands that a cluster without Dask goes through: cut, jobs, the program, and streamrun-merge. writer: of the files."""

    def __init__(self, test, folder, writer):
        self.test, self.folder, self.seen = test, folder, test.seen
        self.options, self.language = writer.options(), writer.language_words()
        self.separator = ['--separator', SIGNS[writer.texts.sign]]

    def outcome(self, columns, jobs, count, form):
        out, lines, status = run('cut', '--parts', count, *self.separator, columns, self.folder)
        if status:
            return out, lines, status
        parts = sorted(os.path.join(self.folder, name) for name in os.listdir(self.folder) if name.startswith('part-'))
        if run('rows', *self.separator, *parts)[0] != out:
            return b'', b'cut and rows count differently\n', 1
        rows = out.decode().strip()
        self.seen['an empty part'] += '0' in rows.split(',')
        data, lines, status = run('jobs', *self.language, jobs)
        if status:
            return data, lines, status
        part_jobs = write(self.folder, 'part.jobs', data)
        reports = []
        for at, part in enumerate(parts):
            out, err, status = one_run(self.test.program, '--json', *self.options, '--columns', part, part_jobs)
            if status:
                return out, err, status
            reports.append(write(self.folder, f'report-{at}.json', out))
        self.look_at(data, [json.loads(read(report)) for report in reports])
        return one_run(self.test.merger, '--rows', rows, *self.language, *form, jobs, *reports)

    def look_at(self, jobs, reports):
        """Counts what the parts' answers are, so that a test without wraps or faults is noticed."""
        for at, job in enumerate(read_jobs(jobs, LANGUAGES[-1])):
            given = [report[at] for report in reports]
            values = [it.get('number', it.get('optional')) for it in given]
            if 'sum' in (job.terminal.name, job.operator) and None not in values:
                self.seen['a wrapped sum'] += not -2 ** 63 <= sum(values) < 2 ** 63
            if job.sources[0].name == 'column' and 'fault' not in given[0]:
                self.seen['a fault of a later part'] += any('fault' in it for it in given)


def is_done_by_hand(jobs, seen):
    """Whether a job file has one round, and no source without values, which is a column to streamrun-merge. It counts what is
    in it."""
    plan = Plan(read_jobs(read(jobs), LANGUAGES[-1]))
    seen['a later round'] += plan.rounds > 1
    seen['an array in a round'] += any(it.array for it in plan.jobs.values())
    seen['onFault'] += any(it.is_cut and it.job.fallback for it in plan.jobs.values())
    return plan.rounds == 1 and not any(source.is_empty for it in plan.jobs.values() for source in it.job.sources)


def count_options(seen, writer):
    """Counts how the tables are read."""
    seen['texts'] += writer.only_named
    seen['another separator'] += writer.texts.sign != ','
    seen['blanks'] += writer.blank is not None
    seen['version 3'] += writer.version == LANGUAGES[-1]


def random_outcomes(test, index, folder):
    """The outcomes of one run and of a run over parts of its random files."""
    writer = PartsWriter(test.seed, index)
    jobs = write(folder, 'jobs', writer.job_file())
    columns = write(folder, 'columns.csv', writer.table(0, writer.rows))
    form, count, options = writer.pick([], ['--json']), writer.random.randint(1, 9), writer.options()
    wanted = one_run(test.program, *form, *options, '--columns', columns, jobs)
    # A command by hand knows nothing of a job file that is refused: each part says so.
    way = WAYS[index % len(WAYS)] if wanted[2] == 0 and is_done_by_hand(jobs, test.seen) else WAYS[index % 2]
    count_options(test.seen, writer)
    test.seen[way] += 1
    programs = ['--program', test.program, '--merger', test.merger, *options]
    if way == 'merge':
        return wanted, ByHand(test, os.path.join(folder, 'parts'), writer).outcome(columns, jobs, count, form)
    if way == 'files':
        files = [write(folder, f'file-{at}.csv', data) for at, data in enumerate(writer.tables())]
        return wanted, run('run', '--parts', count, *programs, *form, '--columns', *files, jobs)
    return wanted, run('run', '--parts', count, *programs, *form, '--columns', columns, jobs)


def refused_outcomes(test, index, folder):
    """These outcomes over a table that is damaged, and may be refused; in one of three with a job file that is refused."""
    writer = PartsWriter(test.seed, index)
    data = writer.damaged_table()
    jobs = writer.job_file() + (b'last = of(1).average()' if index % 3 == 0 else b'')
    jobs, columns = write(folder, 'jobs', jobs), write(folder, 'columns.csv', data)
    wanted = one_run(test.program, *writer.options(), '--columns', columns, jobs)
    for words in (b'bad number', b'wrong length', b'jobs: line'):
        test.seen[words.decode()] += words in wanted[1]
    programs = ['--program', test.program, '--merger', test.merger, *writer.options()]
    return wanted, run('run', '--parts', writer.random.randint(1, 9), *programs, '--columns', columns, jobs)
