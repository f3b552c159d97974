"""Refusals, lines and commands of tools/scatter and streamrun-merge with what they have to say. Each is worked out by hand from
the rules of docs/beyond-one-machine.md and docs/job-language.md."""
import os
import sys
import tempfile
from unittest import mock

from scatter_lib import tables

from .by_parts import TOOL, one_run, run, write

TABLE = b'a,b\n1,10\n0,20\n-5,30\n7,0\n'

# A job file that isn't mergeable, and what its line says after 'scatter: jobs: line '.
UNMERGEABLE = [
    ('s = column("a").limit(3).sum()', '1: s isn\'t mergeable: limit(3) beside column("a")'),
    ('t = column("a").sum()\ns = column("a").map(x -> x + 1).skip( 2 ).sum()', '2: s isn\'t mergeable: skip( 2 ) beside column("a")'),
    ('s = column("b").takeWhile(x -> x < 9).count()', '1: s isn\'t mergeable: takeWhile(x -> x < 9) beside column("b")'),
    ('s = column("b")\n  .dropWhile(x -> x < 9).count()', '1: s isn\'t mergeable: dropWhile(x -> x < 9) beside column("b")'),
    ('s = column("a").prefix(Long::sum).max()', '1: s isn\'t mergeable: prefix(Long::sum) beside column("a")'),
    ('s = column("a").reduce(0, Math::addExact)', '1: s isn\'t mergeable: reduce(0, Math::addExact) beside column("a")'),
    ('s = column("a").prefix(1, 2, max).max()', '1: s isn\'t mergeable: prefix(1, 2, max) beside column("a")'),
    ('s = concat(range(0, 3), column("a")).sum()', '1: s isn\'t mergeable: concat with range(0, 3) beside column("a")'),
    ('s = concat(column("a"), column("b")).sum()', '1: s isn\'t mergeable: concat beside column("a")'),
    ('p = column("a").toArray()\nq = column("b").toArray()\ns = concat(of(1), concat(result(p), result(q))).sum()',
     '3: s isn\'t mergeable: concat with result(q) beside result(p)'),
    ('s = column("a").limit(3).sum()\nt = column("a").map(x -> x + $s).sum()\nu = column("a").skip(1).min()',
     '1: s isn\'t mergeable: limit(3) beside column("a")\nscatter: jobs: line 2: t isn\'t mergeable: it names s\n'
     'scatter: jobs: line 3: u isn\'t mergeable: skip(1) beside column("a")'),
]

# Those cases for job files that are read with --language 3.
UNMERGEABLE_ROWS = [
    ('version 3\ns = column("a").map(x -> x * cell( "b" )).sum()', '2: s isn\'t mergeable: cell( "b" ) beside column("a")'),
    ('version 3\nt = column("a").filter(row2 -> row2 > 1).sum()\ns = column("a").anyMatch(x -> x > row())',
     '3: s isn\'t mergeable: row() beside column("a")'),
    ('version 3\ns = column("a").map(x -> x).sumExact()', '2: s isn\'t mergeable: sumExact() beside column("a")'),
    ('version 3\ns = column("a").sorted().toArray()', '2: s isn\'t mergeable: sorted() beside column("a")'),
    ('version 3\ns = column("a").distinct().count()', '2: s isn\'t mergeable: distinct() beside column("a")'),
]

# Table, job file, other words, report: tables that are read by options, and job files of version 3.
RUN = [
    (b'id;note;qty\n1;"a\n;b";4\n2;x;\n3;;-1\n', 's = column("qty").sum()\nt = column("id").map(x -> x * $s).toArray()',
     ['--only-named', '--separator', ';', '--blank', '10'], 's = 13\nt = [13, 26, 39]\n'),
    (b'a\tb\n1\t2\n3\t4\n', 'version 3\ns = column("a").sum()\nr = range(0, 3).map(x -> row() + $s).sumExact()',
     ['--separator', 'tab', '--language', '3'], 's = 4\nr = 15\n'),
]

# Table, job file, number of parts, status, line: what one run says by docs/job-language.md.
REFUSED = [
    (b'', b'a = of(1).sum()', 3, 1, 'streamrun: columns: no header'),
    (b'\xef\xbb\xbf\n\r\n', b'a = of(1).sum()', 3, 1, 'streamrun: columns: no header'),
    (b'a,b,a\n1,2,3\n', b'a = of(1).sum()', 3, 1, 'streamrun: columns: same name'),
    (b',' * 256 + b'\n', b'a = of(1).sum()', 3, 1, 'streamrun: columns: more than 256 columns'),
    (b'a\n1\n2\n3\n4\n5\n6\nx\n8\ny\n', b's = column("a").sum()', 4, 1, 'streamrun: columns: bad number in row 7 column 1'),
    (b'a\n1\n\n2\n\n\n"3\n4"\n5\n6\n', b's = column("a").sum()', 9, 1, 'streamrun: columns: bad number in row 3 column 1'),
    (b'a,b\n1,1\n2,2\n3,3\n4\nx,5\n', b's = column("a").sum()', 5, 1, 'streamrun: columns: wrong length of row 4'),
    (b'a,b\n1,1\n2,2\n3,3\n4\nx,5\n', b'not a job', 5, 1, 'streamrun: columns: wrong length of row 4'),
    (b'a\n1\n2\n', b'\n# c\ns = column("a").sum()\nt = column("b").sum()', 2, 1, 'streamrun: jobs: line 4: unknown column'),
    (b'a\n1\n2\n', b's = column("a").sum()\r', 2, 1, 'streamrun: jobs: line 1: syntax'),
    (b'a\n1\n2\n', b's = column("a").sum()\nt = result(s).sum()', 2, 1, 'streamrun: jobs: line 2: not an array'),
    (b'a\n1\n2\n', b's = column("a").map(x -> x +).sum()', 2, 1, 'streamrun: jobs: line 1: expression syntax at column 9'),
]

# Job file, rows and other words, reports of the parts, report of the whole as text.
MERGED = [
    ('s = column("a").sum()', '1,1', ['[{"name":"s","number":9223372036854775807}]', '[{"name":"s","number":1}]'],
     's = -9223372036854775808'),
    ('s = column("a").reduce(4294967296, affine)', '1,1',
     ['[{"name":"s","number":8589934595}]', '[{"name":"s","number":21474836487}]'], 's = 42949672982'),
    ('s = column("a").reduce((p, q) -> (q))', '2,0,2',
     ['[{"name":"s","optional":5}]', '[{"name":"s","optional":null}]', '[{"name":"s","optional":7}]'], 's = OptionalLong[7]'),
    ('s = column("a").min()', '0,0', ['[{"name":"s","optional":null}]'] * 2, 's = OptionalLong.empty'),
    ('s = column("a").map(x -> 1 / x).toArray()', '3,2',
     ['[{"array":[1,0,0],"name":"s"}]', '[{"fault":"divide-by-zero","item":1,"name":"s","stage":1}]'],
     's = fault divide-by-zero stage 1 item 4'),
    ('s = column("a").toArray()', '1,2', ['[{"array":[-9223372036854775808],"name":"s"}]', '[{"array":[9223372036854775807,0],"name":"s"}]'],
     's = [-9223372036854775808, 9223372036854775807, 0]'),
    ('s = column("a").toArray()', '2,0,1', ['[{"array":[1,-2],"name":"s"}]', '[{"array":[],"name":"s"}]', '[{"array":[3],"name":"s"}]'],
     's = [1, -2, 3]'),
    ('s = column("a").map(x -> 1 / x).findFirst()', '2,2',
     ['[{"name":"s","optional":1}]', '[{"fault":"divide-by-zero","item":0,"name":"s","stage":1}]'], 's = OptionalLong[1]'),
    ('s = column("a").filter(x -> 1 / x > 5).findFirst()', '2,2',
     ['[{"name":"s","optional":null}]', '[{"fault":"divide-by-zero","item":0,"name":"s","stage":1}]'],
     's = fault divide-by-zero stage 1 item 2'),
    ('s = column("a").anyMatch(x -> 1 / x > 5)', '2,2,1',
     ['[{"name":"s","truth":false}]', '[{"name":"s","truth":true}]', '[{"fault":"divide-by-zero","item":0,"name":"s","stage":1}]'],
     's = true'),
    ('s = column("a").allMatch(x -> x > 5)', '2,2', ['[{"name":"s","truth":true}]', '[{"name":"s","truth":false}]'], 's = false'),
    ('s = column("a").noneMatch(x -> x > 5)', '2,2', ['[{"name":"s","truth":true}]'] * 2, 's = true'),
    ('s = range(0, 9).limit(2).sum()', '5,5', ['[{"name":"s","number":1}]'] * 2, 's = 1'),
    ('version 2\ns = column("a").map(x -> 1 / x).sum().onFault(-1)', '2,2', ['[{"name":"s","number":1}]', '[{"fault":"divide-by-zero","item":0,"name":"s","stage":1}]'],
     's = -1'),
    ('version 2\nt = range(0, 0).min()\ns = column("a").map(x -> x + $t).sum().onFault(-1)', '2,2',
     ['[{"name":"t","optional":null},{"name":"s","unusable":"t"}]'] * 2, 't = OptionalLong.empty\ns = unusable t'),
    ('s = column("one, two").count()\nt = column("").max()', '1', ['[{"name":"s","number":1},{"name":"t","optional":7}]'],
     's = 1\nt = OptionalLong[7]'),
    ('# none', '1,2', ['[]'] * 2, ''),
    ('s = column("a").flatMap(x -> of(x, x)).count()', '1,0', ['[{"name":"s","number":2}]', '[{"name":"s","number":0}]'], 's = 2'),
    ('version 2\nd = range(0, 5).count().onFault(-1)', '1,1', ['[{"name":"d","number":-1}]'] * 2, 'd = -1'),
    ('d = range(0, 3).prefix(1, 9, sum).sum()', '1,1', ['[{"fault":"out-of-array","item":null,"name":"d","stage":1}]'] * 2,
     'd = fault out-of-array stage 1 item -'),
    ('version 3\ns = column("a").max()\nn = of(5, 6).map(x -> row()).toArray()', '1,1 --language 3',
     ['[{"name":"s","optional":1},{"array":[0,1],"name":"n"}]', '[{"name":"s","optional":2},{"array":[0,1],"name":"n"}]'],
     's = OptionalLong[2]\nn = [0, 1]'),
]

# Job file, rows and other words, reports, status, and what the line says after 'streamrun-merge: ', where JOBS and LAST are the job file and the
# last report.
SUM, ONE = 's = column("a").sum()', '[{"name":"s","number":1}]'
NOT_MERGED = [
    (SUM, '1', [ONE] * 2, 1, 'LAST: no number of rows'),
    (SUM, '1,2,3', [ONE] * 2, 1, 'more numbers of rows than reports'),
    (SUM, '1,x', [ONE] * 2, 2, '--rows: no number: x'),
    (SUM, '1,-1', [ONE] * 2, 2, '--rows: no number: -1'),
    (SUM, '4611686018427387904,1', [ONE] * 2, 1, 'more rows than a table has'),
    (SUM, '1,1', [ONE, '[{"name":"t","number":1}]'], 1, 'LAST: no answer of s at its place'),
    (SUM, '1,1', [ONE, '[]'], 1, 'LAST: no answer of s at its place'),
    (SUM, '1,1', [ONE, '[{"name":"s","number":1},{"name":"t","number":1}]'], 1, 'LAST: more answers than jobs'),
    ('# none', '1', ['[{"name":"t","number":1}]'], 1, 'LAST: more answers than jobs'),
    (SUM, '1,1', [ONE, '[{"array":[],"name":"t"}]'], 1, 'LAST: no answer of s at its place'),
    (SUM, '1,1', [ONE, '[{"fault":"overflow","item":null,"name":"t","stage":1}]'], 1, 'LAST: no answer of s at its place'),
    (SUM + '\nt = of(1).sum()', '1', [ONE], 1, 'LAST: no answer of t at its place'),
    (SUM, '1,1', [ONE, '[{"name":"s","optional":1}]'], 1, 'LAST: s can\'t have this answer'),
    (SUM, '1,1', [ONE, '[{"fault":"divide-by-zero","item":1,"name":"s","stage":1}]'], 1, 'LAST: s can\'t have this answer'),
    *((SUM, '1,1', [ONE, report], 1, 'LAST: no report of streamrun --json') for report in (
        '', 's = 1', '[{"name":"s","number":1}', '[{"name": "s","number":1}]', '[{"number":1,"name":"s"}]', '[{"name":"s","number":1.0}]',
        '[{"name":"s","number":9223372036854775808}]', '[{"name":"s","number":01}]', '[{"name":"s","number":1,"optional":2}]',
        '[{"fault":"overrun","item":0,"name":"s","stage":1}]', '[{"fault":"overflow","name":"s","stage":1}]', '[{"name":"s","unusable":"t"}]',
        '[{"name":"s"}]', '[{"name":"s","number":-0}]', '[{"name":"s","number":+1}]', '[{"name":"s","number":1},]', '[{"array":[1,],"name":"s"}]',
        '[{"name":"s","number":1}]]', '{}', '[1]', '[{"name":"s","number":1}]\n', '[{"array":[1, 2],"name":"s"}]', '[{"name":"\\u0073","number":1}]')),
    ('s = column("a").limit(2).sum()', '1', [ONE], 1, 'JOBS: s can\'t be merged: a stage over a column that isn\'t map, filter or flatMap'),
    ('s = concat(of(1), column("a")).sum()', '1', [ONE], 1, 'JOBS: s can\'t be merged: concat with a column'),
    ('s = column("a").reduce(0, Math::addExact)', '1', [ONE], 1, 'JOBS: s can\'t be merged: an exact sum of a column'),
    (SUM + '\nt = of(1).map(x -> x + $s).sum()', '1', [ONE], 1, 'JOBS: t can\'t be merged: it names a job over a column'),
    ('s = column("a").toArray()\nt = result(s).sum()', '1', [ONE], 1, 'JOBS: t can\'t be merged: it names a job over a column'),
    ('\n# c\ns = column("a").sum', '1', [ONE], 1, 'JOBS: line 3 is refused; streamrun says why'),
    ('.sum()', '1', [ONE], 1, 'JOBS: line 1 is refused; streamrun says why'),
    ('version 3\n' + SUM, '1', [ONE], 1, 'JOBS: line 1 is refused; streamrun says why'),
    ('version 3\ns = column("a").map(x -> x * cell("b")).sum()', '1 --language 3', [ONE], 1,
     'JOBS: s can\'t be merged: a lambda over a column with cell or row()'),
    ('version 3\n' + SUM + '\nt = column("a").anyMatch(x -> row() > 3)', '1 --language 3', [ONE], 1,
     'JOBS: t can\'t be merged: a lambda over a column with cell or row()'),
    ('version 3\ns = column("a").sumExact()', '1 --language 3', [ONE], 1, 'JOBS: s can\'t be merged: an exact sum of a column'),
    (SUM, '4611686018427387905', [ONE], 1, 'more rows than a table has'),
    # Jobs that read no column.
    *((f'd = {job}', '1,1', [f'[{left}]', f'[{right}]'], 1, 'LAST: d has another answer than in the reports before') for job, left, right in (
        ('range(0, 3).sum()', '{"name":"d","number":3}', '{"name":"d","number":4}'),
        ('range(0, 3).sum()', '{"name":"d","number":4}', '{"name":"d","number":3}'),
        ('range(0, 3).max()', '{"name":"d","optional":2}', '{"name":"d","optional":null}'),
        ('range(0, 3).anyMatch(x -> x > 1)', '{"name":"d","truth":true}', '{"name":"d","truth":false}'),
        ('range(0, 3).toArray()', '{"array":[0,1,2],"name":"d"}', '{"array":[0,1],"name":"d"}'),
        ('range(0, 3).map(x -> 1 / x).sum()', '{"name":"d","number":3}', '{"fault":"divide-by-zero","item":0,"name":"d","stage":1}'),
        ('range(0, 3).map(x -> 1 / x).sum()', '{"fault":"divide-by-zero","item":0,"name":"d","stage":1}',
         '{"fault":"divide-by-zero","item":1,"name":"d","stage":1}'))),
    ('d = range(0, 3).sum()', '1,1', ['[{"name":"d","number":3}]', '[{"name":"d","optional":3}]'], 1, 'LAST: d can\'t have this answer'),
    # What no job can answer.
    *((f's = {job}', '5', [f'[{report}]'], 1, 'LAST: s can\'t have this answer') for job, report in (
        ('column("a").sum()', '{"name":"s","optional":1}'), ('column("a").sum()', '{"name":"s","truth":true}'),
        ('column("a").sum()', '{"array":[1],"name":"s"}'), ('column("a").toArray()', '{"name":"s","number":1}'),
        ('column("a").sum()', '{"name":"s","unusable":"s"}'), ('column("a").sum()', '{"fault":"overflow","item":0,"name":"s","stage":7}'),
        ('column("a").map(x -> 1 / x).sum()', '{"fault":"out-of-array","item":0,"name":"s","stage":1}'),
        ('column("a").map(x -> 1 / x).sum()', '{"fault":"divide-by-zero","item":null,"name":"s","stage":1}'),
        ('column("a").map(x -> 1 / x).sum()', '{"fault":"divide-by-zero","item":5,"name":"s","stage":1}'),
        ('column("a").map(x -> 1 / x).sum()', '{"fault":"divide-by-zero","item":0,"name":"s","stage":2}'),
        ('column("a").sum()', '{"fault":"source-too-long","item":null,"name":"s","stage":0}'),
        ('column("a").filter(x -> x > 1).toArray()', '{"array":[1,2,3,4,5,6],"name":"s"}'),
        ('column("a").count()', '{"name":"s","number":6}'), ('column("a").count()', '{"name":"s","number":-1}'),
        ('range(0, 3).sum()', '{"fault":"overflow","item":0,"name":"s","stage":1}'))),
    *((f's = column("a").{call}', '0', [f'[{report}]'], 1, 'LAST: s can\'t have this answer') for call, report in (
        ('min()', '{"name":"s","optional":9}'), ('findFirst()', '{"name":"s","optional":9}'), ('sum()', '{"name":"s","number":9}'),
        ('anyMatch(x -> x > 1)', '{"name":"s","truth":true}'), ('allMatch(x -> x > 1)', '{"name":"s","truth":false}'),
        ('noneMatch(x -> x > 1)', '{"name":"s","truth":false}'), ('flatMap(x -> of(x, x)).count()', '{"name":"s","number":1}'),
        ('map(x -> 1 / x).sum()', '{"fault":"divide-by-zero","item":0,"name":"s","stage":1}'))),
    ('a = of(1).sum()\nb = column("a").map(x -> x + $a).sum()', '1', ['[{"name":"a","number":1},{"name":"b","unusable":"a"}]'], 1,
     'LAST: b can\'t have this answer'),
    ('a = range(0, 0).min()\nb = range(0, 3).map(x -> x + $a).sum()', '1', ['[{"name":"a","optional":null},{"name":"b","number":3}]'], 1,
     'LAST: b can\'t have this answer'),
]

PLAN = '''total = column("a").sum()
near = column("b").filter(x -> x > $total).toArray()
inner = result(near).max()
same = range(0, 9).map(x -> x * $inner).limit(3).toArray()
any = column("a").anyMatch(x -> x > 5)
'''
PLANNED = '''total: round 1: sums added, wrapped to 64 bits
near: round 2: arrays joined
inner: round 3: over the array of near
same: round 4: on the whole
any: round 1: the first part that decides or faults
'''


def lines_of(outcome):
    return outcome[1].decode().rstrip('\n')


def refusals(test, folder):
    columns = write(folder, 'table.csv', TABLE)
    for text, line in UNMERGEABLE:
        jobs = write(folder, 'jobs', text.encode())
        # The program isn't there: nothing runs before the refusal.
        for got in (run('run', '--parts', 2, '--program', '/none', '--columns', columns, jobs), run('jobs', jobs)):
            test.expect(text, got == (b'', f'scatter: jobs: line {line}\n'.encode(), 1), got)
        test.expect(text, real('plan', jobs)[1:] == (f'scatter: jobs: line {line}\n'.encode(), 1), real('plan', jobs))
    for text, line in UNMERGEABLE_ROWS:
        jobs = write(folder, 'jobs', text.encode())
        for got in (run('run', '--language', 3, '--program', '/none', '--columns', columns, jobs), run('jobs', '--language', 3, jobs)):
            test.expect(text, got == (b'', f'scatter: jobs: line {line}\n'.encode(), 1), got)
    for table, text, words, report in RUN:
        columns, jobs = write(folder, 'table.csv', table), write(folder, 'jobs', text.encode())
        for count in (1, 2, 3):
            got = run('run', '--parts', count, '--program', test.program, '--merger', test.merger, *words, '--columns', columns, jobs)
            test.expect(text, got == (report.encode(), b'', 0), got)
    columns, empty = write(folder, 'table.csv', TABLE), write(folder, 'jobs', b'# none\n')
    for form, report in ([], b''), (['--json'], b'[]\n'):
        got = run('run', *form, '--program', test.program, '--merger', test.merger, '--columns', columns, empty)
        test.expect('no jobs', got == (report, b'streamrun: the job file has no job\n', 0), got)
    later = write(folder, 'jobs', b's = column("a").sum()\nt = column("b").map(x -> x + $s).sum()\n')
    columns = write(folder, 'table.csv', b'a,b\n1,1\n2,y\nx,3\n')
    got = run('run', '--parts', 3, '--only-named', '--program', test.program, '--merger', test.merger, '--columns', columns, later)
    test.expect('a bad cell of a later round', got == (b'', b'streamrun: columns: bad number in row 2 column 2\n', 1), got)
    for table, text, count, status, line in REFUSED:
        columns, jobs = write(folder, 'table.csv', table), write(folder, 'jobs', text)
        got = run('run', '--parts', count, '--program', test.program, '--columns', columns, jobs)
        test.expect(line, got == (b'', line.encode() + b'\n', status), got)


def merges(test, folder):
    for text, rows, reports, report in MERGED:
        _, _, got = merge_of(test, folder, text, rows, reports)
        test.expect(text, got == (report.encode() + b'\n' * bool(report), b'', 0), got)
    for text, rows, reports, status, line in NOT_MERGED:
        jobs, last, got = merge_of(test, folder, text, rows, reports)
        wanted = f'streamrun-merge: {line}\n'.replace('JOBS', jobs).replace('LAST', last)
        test.expect(f'{text} {reports}', got == (b'', wanted.encode(), status), got)


def merge_of(test, folder, text, rows, reports):
    """The job file, the last report, and what the merge gives."""
    jobs = write(folder, 'jobs', text.encode())
    paths = [write(folder, f'{number}.json', report.encode() + b'\n') for number, report in enumerate(reports)]
    return jobs, paths[-1], one_run(test.merger, '--rows', *rows.split(), jobs, *paths)


def real(*arguments, **more):
    """What the tool gives as a process of its own."""
    return one_run(sys.executable, TOOL, *map(str, arguments), **more)


def processes(test, folder):
    """Files that aren't there, programs that aren't or that die, and the command line itself."""
    columns, jobs = write(folder, 'table.csv', TABLE), write(folder, 'jobs', b's = column("a").sum()\n')
    other = write(folder, 'other.csv', b'a,c\n1,2\n')
    begin = ['run', '--parts', 2, '--program', test.program, '--merger', test.merger, '--columns']
    nowhere = '/none: No such file or directory (os error 2)'
    missing = f'streamrun: {nowhere}'
    a_folder = f'streamrun: {folder}: Is a directory (os error 21)'
    parts = os.path.join(folder, 'parts')
    test.expect('cut', real('cut', '--parts', 3, columns, parts) == (b'2,1,1\n', b'', 0), os.listdir(parts))
    for name, arguments, status, line in [
            ('no table', [*begin, '/none', jobs], 4, f'streamrun: cannot open columns\n{missing}'),
            ('neither file', [*begin, '/none', '/none'], 4, f'streamrun: cannot open columns\n{missing}'),
            ('no job file', [*begin, columns, '/none'], 4, f'streamrun: cannot open jobs\n{missing}'),
            ('a folder', [*begin, folder, jobs], 4, f'streamrun: columns: read failed\n{a_folder}'),
            ('a folder of jobs', [*begin, columns, folder], 4, f'streamrun: jobs: read failed\n{a_folder}'),
            ('another header', [*begin, columns, other, jobs], 1, f'scatter: {other}: another header than {columns}'),
            ('no program', ['run', '--program', '/none', '--columns', columns, jobs], 4, 'scatter: no program /none'),
            ('another program', ['run', '--program', '/bin/true', '--columns', columns, jobs], 4, 'scatter: /bin/true is no streamrun'),
            ('a folder with parts', ['cut', '--parts', 2, columns, parts], 1, f'scatter: {parts} has a part of another cut, part-3.csv'),
            ('no merger', ['run', '--program', test.program, '--merger', '/none', '--columns', columns, jobs], 4, 'scatter: no program /none'),
            ('rounds by hand', ['jobs', write(folder, 'rounds', b's = column("a").sum()\nt = of(1).map(x -> x + $s).sum()\n')], 1,
             'scatter: jobs: line 2: t names a job of the table; scatter run takes it in round 2'),
            ('no job at all', ['plan', write(folder, 'bad', b'x\n')], 1,
             'scatter: jobs: line 1: this is no job; streamrun says why')]:
        got = real(*arguments)
        test.expect(name, got == (b'', line.encode() + b'\n', status), got)
    for name, arguments in (('no command', []), ('no job file', [*begin, columns]), ('no parts', ['run', '--parts', 0])):
        got = real(*arguments)
        test.expect(name, got[2] == 2 and not got[0] and b'usage' in got[1], got)
    with open('/dev/full', 'wb') as full:
        got = real(*begin, columns, jobs, stdout=full)
    test.expect('a full disk', got == (b'', b'scatter: write failed after 0 bytes\n', 4), got)
    got = real('plan', write(folder, 'plan', PLAN.encode()))
    test.expect('plan', got == (PLANNED.encode(), b'', 0), got)
    report = write(folder, 'report', f'{ONE}\n'.encode())
    with open('/dev/full', 'wb') as full:
        for name, words, status, line, more in [
                ('no job file to merge', ['/none', report], 4, f'cannot open {nowhere}', {}),
                ('no report', [jobs, '/none'], 4, f'cannot open {nowhere}', {}),
                ('a folder as a report', [jobs, folder], 4, f'{folder}: read failed', {}),
                ('a merge to a full disk', [jobs, report], 4, 'write failed after 0 bytes', {'stdout': full}),
                ('a name that is no text', [jobs, b'\xff'], 2, 'an argument is no text', {})]:
            got = one_run(test.merger, '--rows', '1', *words, **more)
            test.expect(name, got == (b'', f'streamrun-merge: {line}\n'.encode(), status), got)
    for words in ([], [jobs, report], ['--rows', '1', jobs], ['--rows']):
        got = one_run(test.merger, *words)
        test.expect(f'streamrun-merge {words}', got[2] == 2 and not got[0] and got[1], got)
    for word in ('--help', '-h'):
        got = one_run(test.merger, word)
        test.expect(f'streamrun-merge {word}', got[0].startswith(b'streamrun-merge ') and got[1:] == (b'', 0), got)


def dying(test, folder):
    """A part whose program is killed is run again; one that is killed each time ends the run."""
    columns, jobs = write(folder, 'table.csv', TABLE), write(folder, 'jobs', b's = column("a").sum()\n')
    mark = os.path.join(folder, 'mark')
    once = write(folder, 'once', f'#!/bin/sh\nif mkdir {mark} 2> {folder}/err; then kill -9 $$; fi\nexec {test.program} "$@"\n'.encode())
    always = write(folder, 'always', b'#!/bin/sh\nkill -9 $$\n')
    for path in (once, always):
        os.chmod(path, 0o755)
    got = run('run', '--parts', 3, '--program', once, '--merger', test.merger, '--columns', columns, jobs)
    test.expect('a program that is killed once', got == (b's = 3\n', b'', 0) and os.path.isdir(mark), got)
    got = run('run', '--parts', 3, '--program', always, '--columns', columns, jobs)
    test.expect('a program that is killed each time', got[2] == 3 and b'part 1 of 1: ended by signal 9' in got[1], got)
    with open(columns, 'rb') as table:
        got = real('run', '--parts', 3, '--program', test.program, '--merger', test.merger, '--columns', '/dev/stdin', jobs, stdin=table)
    test.expect('a table from standard input', got == (b's = 3\n', b'', 0), got)
    piped = f'cat {columns} | {sys.executable} {TOOL} run --parts 3 --program {test.program} --merger {test.merger} --columns /dev/stdin {jobs}'
    got = one_run('sh', '-c', piped)
    test.expect('a table from a pipe', got == (b's = 3\n', b'', 0), got)


# Bytes of a table, and how many rows they have.
COUNTED = [(b'a', 0), (b'a\n', 0), (b'a\n1', 1), (b'\n\na\n\n1\n\n', 1), (b'a\r\n1\r\n\r\n2\r3\n\r4', 4), (b'a\n \n\t\n', 2),
           (b'a\n"1\n\n2"\n3\n', 2), (b'"a\n"\n"1"\n\n"', 2), (b'\xef\xbb\xbf"a"\n1\n22222222\n333333333333\n', 3)]


def counts(test, folder):
    """Rows are counted piece by piece, and a piece may end anywhere."""
    for data, rows in COUNTED:
        path = write(folder, 'table.csv', data)
        for size in (1, 2, 3, 5, 8, 2 ** 24):
            with mock.patch.object(tables, 'CHUNK', size):
                got = run('rows', path)
            test.expect(f'rows of {data} in pieces of {size}', got == (b'%d\n' % rows, b'', 0), got)


def all_cases(test):
    for cases in (counts, refusals, merges, processes, dying):
        with tempfile.TemporaryDirectory() as folder:
            cases(test, folder)
