"""The command line of tools/scatter."""
import argparse
import os
import re
import sys
import tempfile

from streamrun_language.tables import SIGNS, sign_of

from . import tables
from .jobs import NotRead, read_jobs
from .plan import Plan, Unmergeable, described
from .processes import NoProgram, Processes
from .running import Ended, Run, demand_mergeable

NO_JOBS = 'streamrun: the job file has no job'
EPILOG = 'What can be made of parts, and by which rule: docs/beyond-one-machine.md. The exit statuses are as with streamrun.'


def options_of(arguments):
    parser = argparse.ArgumentParser(prog='scatter', description='Runs streamrun over a table in parts.', epilog=EPILOG)
    commands = parser.add_subparsers(dest='command', required=True, metavar='COMMAND')

    def command(name, text):
        found = commands.add_parser(name, help=text, description=text)
        found.set_defaults(parser=found)
        return found
    add_run(command('run', 'Runs a job file over a table in parts, and writes the report of the whole.'))
    plan = command('plan', 'Says of each job whether it can be made of parts; status 1 if one of them can\'t.')
    jobs = command('jobs', 'Writes the job file that each part runs, for streamrun-merge.')
    cut = command('cut', 'Cuts a table into files, and prints how many rows each has.')
    rows = command('rows', 'Prints how many rows each file of a table has.')
    for it in (plan, jobs):
        add_language(it)
        it.add_argument('jobs', metavar='JOBS')
    for it in (cut, rows):
        add_separator(it)
    cut.add_argument('--parts', type=positive, required=True, metavar='N', help='into how many parts')
    cut.add_argument('columns', metavar='FILE')
    cut.add_argument('folder', metavar='FOLDER', help='where the parts go, part-1.csv and so on; it is made if need be')
    rows.add_argument('columns', metavar='FILE', nargs='+')
    return parser.parse_args(arguments)


def add_language(command):
    command.add_argument('--language', type=int, choices=(2, 3), default=2, metavar='N', help='read job files up to this version (2)')


def add_separator(command):
    command.add_argument('--separator', choices=[*SIGNS.values(), '\t'], default=',', metavar='SIGN', help='what stands between cells: , ; | or tab (,)')


def add_run(run):
    run.add_argument('--parts', type=positive, metavar='N', help='cut the table into N parts; at most N run at once')
    run.add_argument('--scheduler', metavar='ADDRESS', help='run the parts on the workers of this Dask scheduler')
    run.add_argument('--at-workers', action='store_true', help='each FILE is WORKER:PATH, a file that lies at this worker')
    run.add_argument('--columns', metavar='FILE', nargs='+', required=True, help='a table to cut, or several that are its parts')
    run.add_argument('--only-named', action='store_true', help='look at the columns that jobs name alone')
    add_separator(run)
    run.add_argument('--blank', type=int, metavar='NUMBER', help='read an empty cell as this number')
    add_language(run)
    run.add_argument('--json', action='store_true', help='write the report as JSON')
    run.add_argument('--program', default='streamrun', metavar='PATH', help='the program (streamrun), for a worker its own')
    run.add_argument('--merger', default='streamrun-merge', metavar='PATH', help='the program that merges (streamrun-merge)')
    run.add_argument('--workers', type=positive, metavar='N', help='how many threads a part has')
    run.add_argument('jobs', metavar='JOBS', nargs='?')


def positive(text):
    number = int(text)
    if number < 1:
        raise ValueError
    return number


def read(path):
    with open(path, 'rb') as file:
        return file.read()


def opened(what, path, take):
    """What a call makes of a file, or the lines that streamrun writes if it can't be opened or read."""
    try:
        return take(path)
    except OSError as error:
        line = f'{what}: read failed' if isinstance(error, IsADirectoryError) else f'cannot open {what}'
        raise Ended(f'streamrun: {line}\nstreamrun: {error.filename}: {os.strerror(error.errno)} (os error {error.errno})', 4) from None


def plan_of(options):
    return Plan(read_jobs(opened('jobs', options.jobs, read), options.language))


def words_of(options):
    """The words that each run has of the command line: how the table is read, and the language."""
    words = ['--only-named'] if options.only_named else []
    words += ['--separator', options.separator] if options.separator != ',' else []
    words += [] if options.blank is None else [f'--blank={options.blank}']
    return words + language_of(options)


def language_of(options):
    """The words that ask for a language."""
    return ['--language', str(options.language)] if options.language > 2 else []


# The commands. Each gives the bytes for standard output.

def plan_command(options):
    plan = plan_of(options)
    sys.stdout.write(''.join(f'{name}: {described(it)}\n' for name, it in plan.jobs.items()))
    sys.stdout.flush()
    plan.demand_mergeable()
    return b''


def jobs_command(options):
    plan = plan_of(options)
    plan.demand_mergeable()
    for it in plan.jobs.values():
        if it.round > 1:
            raise Ended(f'scatter: jobs: line {it.job.line}: {it.job.name} names a job of the table; scatter run takes it in round {it.round}', 1)
    [together] = plan.runs(1, {}, False)
    return together.part_jobs[1]


def cut_command(options):
    _, parts = opened('columns', [options.columns], lambda paths: tables.parts_of(paths, options.parts, sign_of(options.separator)))
    os.makedirs(options.folder, exist_ok=True)
    names = [f'part-{number:0{len(str(len(parts)))}}.csv' for number in range(1, len(parts) + 1)]
    others = {name for name in os.listdir(options.folder) if re.fullmatch(r'part-[0-9]+\.csv', name)} - set(names)
    if others:
        raise Ended(f'scatter: {options.folder} has a part of another cut, {min(others)}', 1)
    for name, part in zip(names, parts):
        with open(os.path.join(options.folder, name), 'wb') as file:
            file.writelines(tables.pieces_of(part))
    return rows_line(parts)


def rows_command(options):
    return rows_line(opened('columns', options.columns, lambda paths: tables.parts_of(paths, 1, sign_of(options.separator)))[1])


def rows_line(parts):
    return ','.join(str(part.rows) for part in parts).encode() + b'\n'


def run_command(options):
    if options.jobs is None and len(options.columns) > 1:
        options.jobs = options.columns.pop()
    if options.jobs is None or (options.at_workers and not options.scheduler):
        options.parser.error('JOBS is missing' if options.jobs is None else '--at-workers wants --scheduler')
    with tempfile.TemporaryDirectory() as folder:
        if options.scheduler:
            from .workers import run_on_workers
            return run_on_workers(options, folder)
        header, parts, jobs = table_and_jobs(options, folder, options.parts or processors())
        at_once = min(options.parts or len(parts), len(parts), processors())
        threads = options.workers or max(1, processors() // at_once)
        runner = Processes(options.program, ['--workers', str(threads), *words_of(options)], at_once)
        return run_of(options, jobs, header, parts, runner).report(options.json)


def run_of(options, jobs, header, parts, runner):
    """The run of a job file over these parts."""
    return Run(jobs, header, parts, runner, [options.merger, *language_of(options)], options.language, options.only_named)


def table_and_jobs(options, folder, count):
    """The table is opened first, as one run does."""
    paths = opened('columns', options.columns, lambda paths: [tables.regular(path, folder) for path in paths])
    jobs = mergeable_jobs(options)
    return *opened('columns', paths, lambda paths: tables.parts_of(paths, count, sign_of(options.separator))), jobs


def mergeable_jobs(options):
    jobs = opened('jobs', options.jobs, read)
    demand_mergeable(jobs, options.language)
    return jobs


def processors():
    return len(os.sched_getaffinity(0))


COMMANDS = {'run': run_command, 'plan': plan_command, 'jobs': jobs_command, 'cut': cut_command, 'rows': rows_command}


def outcome(arguments):
    """The bytes for standard output, the lines for standard error, and the status."""
    try:
        options = options_of(arguments)
        out = COMMANDS[options.command](options)
        return out, NO_JOBS if options.command == 'run' and out in (b'', b'[]\n') else '', 0
    except Ended as ended:
        return b'', ended.lines, ended.status
    except (Unmergeable, NotRead, tables.OtherHeader) as refused:
        return b'', '\n'.join(f'scatter: {line}' for line in str(refused).split('\n')), 1
    except NoProgram as missing:
        return b'', f'scatter: no program {missing}', 4
    except OSError as wrong:
        return b'', f'scatter: {wrong}', 4
    except KeyboardInterrupt:
        return b'', 'scatter: interrupted', 130


def main(arguments):
    out, lines, status = outcome(arguments)
    if lines:
        sys.stderr.write(lines + '\n')
    written = 0
    try:
        while written < len(out):
            written += os.write(1, out[written:written + tables.CHUNK])
    except OSError:
        sys.stderr.write(f'scatter: write failed after {written} bytes\n')
        return 4
    return status
