"""Which jobs of a file can be answered over a table in parts, and in which run.

A job over a column is cut: each part walks its own rows, and streamrun-merge merges the answers. A job that names a job of
the table, by $NAME or result(NAME), needs the answer over the whole, so it runs in the round after: with `NAME = of(N).sum()`
for a number, and for an array over a table that has it as its column. A job that does neither gives one answer in every part.
"""
from collections import namedtuple

from streamrun_language.operators import EXACT

from .records import array_in, number_in

STAGES_OF_ITEMS, EXACT_SUM = {'map', 'filter', 'flatMap'}, 'sumExact'
SHOWN = 60
# Jobs that give no number and no array, instead of one with a fault.
NO_NUMBER, NO_ARRAY = '{} = range(0, 0).min()', '{} = of(0).map(x -> 1 / x).toArray()'

# is_cut: whether the job is over a column. array: the job of the table whose array it is over, if it is over one. is_of_table:
# whether it is cut, or names a job that is of the table. refusal: the text of the call for which it can't be made of parts,
# with what it stands beside; None if it can.
Planned = namedtuple('Planned', 'job is_cut array is_of_table round refusal')
# Jobs that run together. names: their own; array: the job whose array is their table, or None; is_cut: whether they run over
# the parts, and are merged; part_jobs and jobs: the job files of the parts and of the merge, each with the names in it.
Together = namedtuple('Together', 'names array is_cut part_jobs jobs')


class Unmergeable(Exception):
    """Jobs that can't be made of parts: a line for each."""

    def __init__(self, refused):
        super().__init__('\n'.join(f'jobs: line {it.job.line}: {it.job.name} isn\'t mergeable: {it.refusal}' for it in refused))


def shown(text):
    return text if len(text) <= SHOWN else f'{text[:SHOWN]}..'


def refusal_of(job, columns, arrays, planned):
    """Why a job can't be made of parts, or None."""
    for name in job.names:
        if planned[name].refusal:
            return f'it names {name}'
    others = [source for source in job.sources if source not in columns]
    if not columns:
        other = next((source for source in arrays if source.of != arrays[0].of), None)
        return other and f'concat with {shown(other.text)} beside {shown(arrays[0].text)}'
    beside = shown(columns[0].text)
    if job.is_concat:
        return f'concat with {shown(others[0].text)} beside {beside}' if others else f'concat beside {beside}'
    for part in [*job.stages, job.terminal]:
        is_exact = part is job.terminal and (job.operator == EXACT.name or part.name == EXACT_SUM)
        if is_exact or part is not job.terminal and part.name not in STAGES_OF_ITEMS:
            return f'{shown(part.text)} beside {beside}'
        if part.row:
            return f'{shown(part.row)} beside {beside}'
    return None


def planned_job(job, planned):
    columns = [source for source in job.sources if source.name == 'column']
    arrays = [source for source in job.sources if source.name == 'result' and planned[source.of].is_of_table]
    before = [planned[name].round for name in job.names if planned[name].is_of_table]
    return Planned(job, bool(columns), arrays[0].of if arrays else None, bool(columns or before), 1 + max(before, default=0),
                   refusal_of(job, columns, arrays, planned))


class Plan:
    """The jobs of a file, each with its round."""

    def __init__(self, jobs):
        self.jobs = {}
        for job in jobs:
            self.jobs[job.name] = planned_job(job, self.jobs)
        self.rounds = max([1, *(it.round for it in self.jobs.values())])

    def demand_mergeable(self):
        refused = [it for it in self.jobs.values() if it.refusal]
        if refused:
            raise Unmergeable(refused)

    def runs(self, number, records, is_json):
        """What runs in a round, after the records of the rounds before. The first round is over the parts, so that a bad table is
        refused."""
        groups = {None: []} if number == 1 else {}
        for name, it in self.jobs.items():
            if it.round == number:
                has_array = it.array and array_in(records[it.array], is_json) is not None
                groups.setdefault(it.array if has_array else None, []).append(name)
        for array, names in groups.items():
            files = [self.job_file(names, array, records, is_json, is_of_parts) for is_of_parts in (True, False)]
            yield Together(names, array, number == 1 or any(self.jobs[name].is_cut for name in names), *files)

    def job_file(self, names, array, records, is_json, is_of_parts):
        """The names in the job file of these jobs, and its bytes."""
        lines, waiting = {}, list(names)
        while waiting:
            name = waiting.pop()
            it = self.jobs[name]
            if name in records and it.is_of_table:
                lines[name] = given(it.job, records[name], is_json)
            elif name not in lines:
                lines[name] = it.job.written(array, is_of_parts)
                waiting += [other for other in it.job.names if other != array]
        ordered = [name for name in self.jobs if name in lines]
        versions = {it.job.version for it in self.jobs.values()} - {1}
        version = [f'version {it}' for it in versions]
        return ordered, ''.join(line + '\n' for line in version + [lines[name] for name in ordered]).encode('latin-1')


def given(job, record, is_json):
    """The text of a job that gives what the record of another one gives."""
    value = number_in(record, is_json)
    return f'{job.name} = of({value}).sum()' if value else (NO_ARRAY if job.terminal.name == 'toArray' else NO_NUMBER).format(job.name)


def described(it):
    """What the plan says of a job."""
    if it.refusal:
        return f'no: {it.refusal}'
    if not it.is_cut:
        over = f'over the array of {it.array}' if it.array else 'on the whole'
        return f'round {it.round}: {over if it.is_of_table else "the same in every part"}'
    name = it.job.terminal.name
    rule = {'toArray': 'arrays joined', 'findFirst': 'the first part that finds or faults', 'count': 'counts added',
            'sum': 'sums added, wrapped to 64 bits', 'min': 'the least', 'max': 'the greatest',
            'reduce': f'folded by {it.job.operator}'}
    return f'round {it.round}: {rule.get(name, "the first part that decides or faults")}'
