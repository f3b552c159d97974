"""Job files with the reports that they have to give: answers that were worked out by hand or come from Java 17
(tests/soak/worked.py), and the answers of examples/."""
import collections
import os

from running import TOP, language, newest_of, options_beside, read, table_words, written
import worked

# `columns` is None for no column file; `options` are the words that the report asks for.
Case = collections.namedtuple('Case', 'name jobs columns options out err status')

# Beside one job of each kind of memory: numbers of a column, a fold, inner streams, a job that names another, a prefix over a
# part, lines that are joined, and a column file with a byte order mark.
SMALL = [
    ('a sum of a column', b's = column("a").sum()\n', worked.COLUMNS, b's = -2\n'),
    ('a fold of affine maps', b'h = of(8589934595, 21474836487).reduce(4294967296, affine)\n', None, b'h = 42949672982\n'),
    ('inner streams', b'k = of(2, 0, 3).flatMap(x -> range(0, x)).toArray()\n', None, b'k = [0, 1, 0, 1, 2]\n'),
    ('a job that names another', b't = column("a").sum()\nu = column("b").map(x -> x / $t).toArray()\n', worked.COLUMNS,
     b't = -2\nu = [-5, -10, -15]\n'),
    ('a prefix of a part', b'o = of(1, 2, 3, 4).prefix(1, 3, Long::sum).toArray()\n', None, b'o = [1, 2, 5, 4]\n'),
    ('lines that are joined', b'# squares\r\ns = LongStream.rangeClosed(1, 4)\r\n  .map((x) -> x * x)\r\n  .sum();\r\n', None,
     b's = 30\n'),
    ('a byte order mark', b's = column("a").sum()\n', b'\xef\xbb\xbfa\n +007 \n', b's = 7\n'),
]


def small():
    for name, jobs, columns, out in SMALL:
        yield Case(name, jobs, columns, [], out, b'', 0)


def example(name, end='report'):
    """An example with its report, or with `json` its report as JSON, or with `fault` its refusal."""
    path = os.path.join(TOP, 'examples', name)
    # (TABLE.QUESTION is over TABLE.csv)
    table = next((it for it in (path, path.rpartition('.')[0]) if os.path.exists(it + '.csv')), None)
    columns = read(table + '.csv') if table else None
    said = read(f'{path}.{end}')
    out, err, status = (b'', said, 1) if end == 'fault' else written(said)
    jobs = read(path + '.jobs')
    options = [*language(newest_of(jobs)), *(['--json'] if end == 'json' else []), *table_words(options_beside(path + '.jobs'))]
    return Case(f'{name}.{end}'.replace('/', ' '), jobs, columns, options, out, err, status)


def examples(ends=('report', 'json', 'fault')):
    for file in sorted(os.listdir(os.path.join(TOP, 'examples'))):
        name, _, end = file.rpartition('.')
        if end in ends:
            yield example(name, end)


def all_answers():
    """Every answer of worked.py that is no refusal, each file once more as one of each later version: the jobs of one line each
    together in one file, the others as they are."""
    jobs = ''.join(f'w{at} = {job}\n' for at, (job, _) in enumerate(worked.ANSWERS))
    out = ''.join(f'w{at} = {answer}\n' for at, (_, answer) in enumerate(worked.ANSWERS))
    later_jobs = ''.join(f'w{at} = {job}\n' for at, (job, _) in enumerate(worked.LATER_ANSWERS))
    later_out = ''.join(f'w{at} = {answer}\n' for at, (_, answer) in enumerate(worked.LATER_ANSWERS))
    files = [(jobs, out), (f'version 3\n{later_jobs}', later_out), *worked.REPORTS, *worked.LATER_REPORTS]
    for at, (text, newest, report) in enumerate(worked.of_all_versions(files)):
        yield Case(f'worked answers {at}', text.encode(), worked.COLUMNS, language(newest), *written(report.encode()))
    for at, (text, newest, report) in enumerate(worked.of_all_versions(worked.JSON)):
        yield Case(f'worked JSON {at}', text.encode(), None, [*language(newest), '--json'], *written(report.encode()))


def arguments_of(case, faults):
    """The words that run the program over a case, whose files are written where the faults' files are."""
    name = case.name.replace(' ', '_')
    words = [*case.options, faults.file(name + '.jobs', case.jobs)]
    return words if case.columns is None else ['--columns', faults.file(name + '.csv', case.columns), *words]
