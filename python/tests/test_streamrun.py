"""Tests of the package streamrun: tests/python runs them, with the program in the environment as STREAMRUN.

With WITHOUT=numpy,pandas these modules can't be imported, as where they aren't installed.
"""
import copy
import datetime
import decimal
import json
import os
import pathlib
import pickle
import stat
import sys
import tempfile
import types
import unittest
import xml.etree.ElementTree

for module in filter(None, os.environ.get('WITHOUT', '').split(',')):
    sys.modules[module] = None  # type: ignore[assignment]

import streamrun  # noqa: E402
from streamrun import Fault, JobFailed, Unusable  # noqa: E402

try:
    import numpy
except ImportError:
    numpy = None  # type: ignore[assignment]
try:
    import pandas
except ImportError:
    pandas = None  # type: ignore[assignment]

PROGRAM = os.environ['STREAMRUN']
MIN, MAX = -2 ** 63, 2 ** 63 - 1
EACH_ANSWER = """\
number = of(3, 4).sum()
truth = of(3, 4).anyMatch(x -> x > 3)
array = of(3, 4, -5).toArray()
optional = of(3, 4).max()
none = of(3, 4).filter(x -> x > 9).max()
fault = of(1, 0).map(x -> 1 / x).sum()
long = range(Long.MIN_VALUE, Long.MAX_VALUE).sum()
after = of(1).map(x -> x + $none).sum()
"""


def run(jobs, columns=None, **options):
    return streamrun.run(jobs, columns, program=PROGRAM, **options)


def plain(answer):
    """An answer, an array as a list."""
    return answer.tolist() if hasattr(answer, 'tolist') else answer


class Answers(unittest.TestCase):
    def test_each_kind_of_answer_has_its_type(self):
        report = run(EACH_ANSWER)
        expected = {'number': 7, 'truth': True, 'array': [3, 4, -5], 'optional': 4, 'none': None,
                    'fault': Fault('divide-by-zero', 1, 1), 'long': Fault('source-too-long', 0, None), 'after': Unusable('none')}
        self.assertEqual({name: plain(answer) for name, answer in report.items()}, expected)
        self.assertEqual(list(report), list(expected))
        self.assertIs(type(report['number']), int)
        self.assertIs(type(report['truth']), bool)
        self.assertEqual((report['fault'].kind, report['fault'].stage, report['fault'].item), ('divide-by-zero', 1, 1))
        with self.assertRaises(KeyError):
            report['nowhere']

    def test_a_fault_is_no_value(self):
        report = run(EACH_ANSWER)
        lines = ('fault = fault divide-by-zero stage 1 item 1', 'long = fault source-too-long stage 0 item -', 'after = unusable none')
        self.assertEqual(report.faults, {'fault': report['fault'], 'long': report['long'], 'after': report['after']})
        for use in (lambda it: it + 1, lambda it: 2 * it, bool, int, float, list, len, lambda it: it < 3, lambda it: 1 / it, lambda it: it[0],
                    lambda it: -it, lambda it: sum([it]), json.dumps, lambda it: json.dumps([it], default=str), lambda it: json.dumps({'a': it}, indent=2),
                    dict, lambda it: it['kind']):
            with self.assertRaises(JobFailed) as failed:
                use(report['fault'])
            self.assertEqual((failed.exception.lines, str(failed.exception)), (lines[:1], lines[0]))
        with self.assertRaises(JobFailed) as failed:
            report.check()
        self.assertEqual(failed.exception.lines, lines)
        self.assertEqual(run('a = of(1).sum()').check()['a'], 1)

    def test_a_fault_is_copied_and_pickled_whole(self):
        for answer in run(EACH_ANSWER).faults.values():
            for made in (copy.deepcopy(answer), pickle.loads(pickle.dumps(answer))):
                self.assertEqual((made, made.job, hash(made)), (answer, answer.job, hash(answer)))

    def test_numbers_are_exact_up_to_the_ends(self):
        report = run(f'a = of({MIN}, {MAX}, 9007199254740993).toArray()\nb = of({MAX}).sum()')
        self.assertEqual((plain(report['a']), report['b']), ([MIN, MAX, 9007199254740993], MAX))

    def test_a_report_is_a_line_per_job(self):
        self.assertEqual(repr(run('a = of(1, 2).sum()\nb = range(0, 20).toArray()\nc = empty().max()')),
                         'a = 3\nb = [0, 1, 2, 3, 4, 5, 6, 7, ..] (20 values)\nc = None')

    def test_a_report_is_the_same_with_any_number_of_workers(self):
        self.assertEqual(run(EACH_ANSWER, workers=1), run(EACH_ANSWER, workers=64))
        self.assertNotEqual(run('a = of(1).sum()'), run('a = of(2).sum()'))

    def test_no_jobs_have_no_answers(self):
        self.assertEqual((len(run('')), len(run('# a comment\n'))), (0, 0))

    def test_a_report_is_a_table_with_a_line_for_each_array(self):
        html = run('a = of(5, -2, 9).toArray()\nb = of(1).sum()\nc = range(0, 1000).toArray()\nd = of().toArray()')._repr_html_()
        table = xml.etree.ElementTree.fromstring(html)
        self.assertEqual([row.find('th').text for row in table.iter('tr')], ['a', 'b', 'c', 'd'])
        lines = [line.get('points').split() for line in table.iter('polyline')]
        # 5 is 4 below the greatest of a span of 11, 22 pixels high: 1 + 22 * 4 / 11.
        self.assertEqual(lines[0], ['1.0,9.0', '80.0,23.0', '159.0,1.0'])
        self.assertEqual((len(lines), len(lines[1])), (2, 160))
        self.assertEqual((lines[1][0], lines[1][-1]), ('1.0,23.0', '159.0,1.0'))


class Tables(unittest.TestCase):
    SUM = 's = column("a").sum()'
    BOTH = 's = column("good").sum()\nt = column("bad one").sum()'

    def test_a_dict_of_lists_is_a_table(self):
        report = run('s = column("a, b").sum()\nt = column("").toArray()', {'a, b': [1, 2, MAX - 3], '': (5, 0, -1)})
        self.assertEqual((report['s'], plain(report['t'])), (MAX, [5, 0, -1]))

    def test_a_column_may_be_alone_or_empty_and_have_any_name(self):
        self.assertEqual(run('n = column("").count()', {'': [7, 8]})['n'], 2)
        self.assertEqual(run('n = column("a").count()', {'a': []})['n'], 0)
        self.assertEqual(run('n = column("3").max()', {3: [7, 8]})['n'], 8)

    def test_a_path_is_a_column_file(self):
        with tempfile.TemporaryDirectory() as folder:
            path = pathlib.Path(folder, 'day=3.csv')
            path.write_text('a\n4\n5\n', encoding='utf-8')
            jobs = pathlib.Path(folder, '--json')
            jobs.write_text(self.SUM, encoding='utf-8')
            before = os.getcwd()
            os.chdir(folder)
            try:
                reports = [run(self.SUM, path), run(self.SUM, 'day=3.csv'), run(jobs, path), run('--json', path)]
            finally:
                os.chdir(before)
            self.assertEqual([report['s'] for report in reports], [9] * 4)

    def test_what_is_no_integer_is_refused_by_the_name_of_its_column(self):
        for column in (['x'], [1.0], [True], [None], [MAX + 1], [MIN - 1], ['1'], 'ab', 3):
            with self.assertRaises(streamrun.TableError) as refused:
                run(self.BOTH, {'good': [1], 'bad one': column})
            self.assertEqual(refused.exception.columns, ('bad one',), column)
            self.assertIn("'bad one'", str(refused.exception))

    def test_a_refusal_names_the_first_value_its_row_and_what_to_do(self):
        for column, words in (([4, 1.5, 'x'], 'has 1.5 in row 2: fractions become hundredths by '), ([4, 2.0], 'has 2.0 in row 2: '),
                              ([float('nan')], 'has nan in row 1: missing values '), ([None], 'has None in row 1: missing values '),
                              ([1, True], 'has True in row 2: booleans '), ([decimal.Decimal(1)], "has Decimal('1') in row 1: "),
                              ([datetime.date(2024, 1, 30)], 'has datetime.date(2024, 1, 30) in row 1: dates become days since 1970 by '),
                              ([MAX, MAX + 1], f'has {MAX + 1} in row 2: an integer has 64 bits'),
                              (['a'], "has 'a' in row 1: texts become codes by ")):
            with self.assertRaises(streamrun.TableError) as refused:
                run(self.BOTH, {'good': [1, 2, 3][:len(column)], 'bad one': column})
            self.assertIn(f"column 'bad one' {words}", str(refused.exception))

    def made_by_the_cure(self, column, given):
        with self.assertRaises(streamrun.TableError) as refused:
            run(self.SUM, given)
        made = eval(str(refused.exception).rpartition(' by ')[2], {'numpy': numpy, 'pandas': pandas, 'x': column})
        return [int(value) for value in made]

    def test_what_a_refusal_of_a_list_says_is_right(self):
        for column, wanted in (([4, 1.5], [400, 150]), ([4.0, None, 2.5], [400, 0, 250]), ([4.0, 2], [4, 2]), ([4, float('nan')], [4, 0]),
                               ([None, 7], [0, 7]), ([True, 2], [1, 2]), ([decimal.Decimal(3)], [3]), (['1', ' -2'], [1, -2]),
                               ([None, '5'], [0, 5]), (['1.25', '-3'], [125, -300]), (('7', 1), [7, 1])):
            self.assertEqual(self.made_by_the_cure(column, {'a': column}), wanted, column)

    @unittest.skipIf(pandas is None, 'pandas is not installed')
    def test_what_a_refusal_of_an_array_says_is_right(self):
        days = [datetime.date(2024, 1, 30), None]
        for column, wanted in ((numpy.array([1.0, 2.0]), [1, 2]), (numpy.array([1.5, numpy.nan]), [150, 0]), (numpy.array([1.0, numpy.nan]), [1, 0]),
                               (numpy.array(['1', '-2']), [1, -2]), (numpy.array(['b', 'a', 'b']), [0, 1, 0]), (['b', 'a', 'b'], [0, 1, 0]),
                               (numpy.array(days, 'datetime64[D]'), [19752, 0]), (days, [19752, 0]), (numpy.array([True]), [1])):
            self.assertEqual(self.made_by_the_cure(column, {'a': column}), wanted, column)
        for column, wanted in ((pandas.to_datetime(['2024-01-30', None]), [19752, 0]), (['1', None, '3'], [1, 0, 3]), ([None, '2.5'], [0, 250])):
            frame = pandas.DataFrame({'a': column})
            self.assertEqual(self.made_by_the_cure(frame['a'], frame), wanted, column)

    @unittest.skipIf(pandas is None, 'pandas is not installed')
    def test_what_a_refusal_says_is_right(self):
        # 2024-01-30 is day 19752 since 1970.
        for column, wanted in (([4, 1.5], [400, 150]), ([4.0, 2.0], [4, 2]), ([4.0, float('nan')], [4, 0]), ([float('nan'), 1.25], [0, 125]), ([True, False], [1, 0]),
                               (pandas.to_datetime(['2024-01-30 10:00', '2024-01-31']), [19752, 19753]), (['b', 'a', 'b'], [0, 1, 0]),
                               (pandas.array([1, None], dtype='Int64'), [1, 0])):
            frame = pandas.DataFrame({'a': column})
            with self.assertRaises(streamrun.TableError) as refused:
                run(self.SUM, frame)
            cure = str(refused.exception).rpartition(' by ')[2]
            made = eval(cure, {'numpy': numpy, 'pandas': pandas, 'x': frame['a']})
            self.assertEqual(plain(run('b = column("a").toArray()', {'a': made})['b']), wanted, cure)

    def test_columns_that_no_job_names_may_hold_anything(self):
        table = {'a': [3, 4], 'text': ['x', 'y'], 'price': [1.5, None], 'short': [1]}
        self.assertEqual(run(f'# column("text")\n{self.SUM}', table)['s'], 7)
        self.assertEqual(run('s = range(0, 3).sum()', table)['s'], 3)
        with tempfile.NamedTemporaryFile('w', suffix='.jobs') as file:
            file.write(self.SUM)
            file.flush()
            self.assertEqual(run(pathlib.Path(file.name), table)['s'], 7)
        refused = Failures.failure(self, streamrun.JobsRefused, 's = column("b").sum()', table)
        self.assertIn('"a", "text", "price", "short"', str(refused))

    def test_a_file_is_read_by_options(self):
        with tempfile.TemporaryDirectory() as folder:
            notes = pathlib.Path(folder, 'notes.csv')
            notes.write_bytes(b'id;note;qty\n1;"pay; later";4\n2;"said ""no""\ntwice";-1\n3;;+10\n')
            self.assertEqual(plain(run('q = column("qty").toArray()', notes, only_named=True, separator=';')['q']), [4, -1, 10])
            tabs = pathlib.Path(folder, 'tabs.csv')
            tabs.write_bytes(b'a\tb\n1\t\n" "\t2\n')
            report = run('a = column("a").toArray()\nb = column("b").toArray()', tabs, separator='\t', blank=-5)
            self.assertEqual((plain(report['a']), plain(report['b'])), ([1, -5], [-5, 2]))
            for jobs, given, line, words in (
                    ('q = column("qty").sum()', {}, 'bad number in row 1 column 1', "run with `separator=';'`"),
                    ('q = column("qty").sum()', {'separator': ';'}, 'bad number in row 1 column 2', 'run with `only_named=True`'),
                    ('n = column("note").sum()', {'separator': ';', 'only_named': True}, 'bad number in row 1 column 2', 'leave the column out')):
                refused = Failures.failure(self, streamrun.ColumnsRefused, jobs, notes, **given)
                self.assertEqual(refused.line, f'streamrun: columns: {line}')
                self.assertIn(words, str(refused))
            refused = Failures.failure(self, streamrun.ColumnsRefused, 'b = column("b").sum()', tabs, separator='\t')
            self.assertIn('run with `blank=0`', str(refused))
            refused = Failures.failure(self, streamrun.JobsRefused, 'q = column("qty").sum()', notes, only_named=True)
            self.assertEqual(refused.line, 'streamrun: jobs: line 1: unknown column')
            self.assertIn("run with `separator=';'`", str(refused))
            self.assertEqual(Failures.failure(self, streamrun.CommandLineRefused, 'a = of(1).sum()', notes, separator='x').status, 2)

    def test_options_of_files_change_nothing_of_other_tables(self):
        table = {'a': [3, 4], 'text': ['x', 'y;z']}
        self.assertEqual(run(self.SUM, table, only_named=True, separator=';', blank=9)['s'], 7)
        with self.assertRaises(streamrun.TableError):
            run(self.SUM, {'a': [3, None]}, blank=9)
        wide = {f'c{at}': [at] for at in range(300)}
        self.assertEqual(run('s = column("c299").sum()', wide)['s'], 299)
        refused = Failures.failure(self, streamrun.JobsRefused, 's = column("c2990").sum()', wide)
        self.assertIn('did you mean "c299"?', str(refused))
        refused = Failures.failure(self, streamrun.JobsRefused, 's = column("\u00e91").sum()', {'\u00e9': [3, 4]})
        self.assertIn('write `"\u00e9"` for `"\u00e91"`', str(refused))
        # How many cells there are isn't said: the table is no file.
        refused = Failures.failure(self, streamrun.JobsRefused, 's = column("a").tail(1)', {'a': [3, 4]})
        self.assertNotIn('items that there are now', str(refused))

    def test_cells_of_all_sizes_arrive(self):
        cells = [MIN, MIN + 1, -10 ** 16, -99999999, -1, 0, 7, 9999, 10000, 123456789, 10 ** 16 - 1, MAX]
        for at in range(1, len(cells) + 1):
            self.assertEqual(plain(run('a = column("a").toArray()', {'a': cells[:at]})['a']), cells[:at])
            self.assertEqual(plain(run('b = column("b").toArray()', {'a': cells[-at:], 'b': cells[-at:]})['b']), cells[-at:])

    def test_a_table_has_columns_of_one_length_and_of_different_names(self):
        for table in ({}, {'a': [1], 'b': [1, 2]}, [1, 2]):
            with self.assertRaises(streamrun.TableError):
                run('s = column("a").sum()\nt = column("b").sum()', table)
        with self.assertRaises(streamrun.TableError):
            run('s = column("1").sum()', {'1': [1], 1: [2]})

    @unittest.skipIf(numpy is None, 'numpy is not installed')
    def test_arrays_of_numpy_go_in_and_come_out(self):
        for kind in ('int8', 'int64', 'uint16', 'uint64'):
            report = run('d = column("a").map(x -> 2 * x).toArray()', {'a': numpy.array([1, 2, 3], dtype=kind)})
            self.assertIsInstance(report['d'], numpy.ndarray)
            self.assertEqual((report['d'].dtype, report['d'].tolist()), (numpy.dtype('int64'), [2, 4, 6]))
        self.assertEqual(run('e = of().toArray()')['e'].dtype, numpy.dtype('int64'))
        for array in (numpy.array([1.5]), numpy.array([True]), numpy.array([2 ** 63], dtype='uint64'), numpy.array(['2020-01-01'], dtype='datetime64[D]'),
                      numpy.array([[1, 2]])):
            with self.assertRaises(streamrun.TableError):
                run(self.SUM, {'a': array})

    @unittest.skipIf(pandas is None, 'pandas is not installed')
    def test_a_data_frame_is_a_table(self):
        frame = pandas.DataFrame({'a': [3, -1, 4], 'b': pandas.array([1, 2, 3], dtype='Int64')})
        totals = run('t = column("a").prefix(Long::sum).toArray()\nu = column("b").sum()', frame)
        self.assertEqual((plain(totals['t']), totals['u']), (frame['a'].cumsum().tolist(), 6))
        frame['city'] = ['x', 'y', 'z']
        frame['price'] = [1.5, 2.0, 3.0]
        frame['some'] = pandas.array([1, None, 3], dtype='Int64')
        jobs = '\n'.join(f'{name} = column("{name}").sum()' for name in frame)
        with self.assertRaises(streamrun.TableError) as refused:
            run(jobs, frame)
        self.assertEqual(refused.exception.columns, ('city', 'price', 'some'))
        self.assertIn("'price', 'some' too", str(refused.exception))
        self.assertEqual(run(self.SUM, frame)['s'], 6)
        frame['day'] = pandas.to_datetime(['2024-01-30', '2024-01-31', '2024-02-01'])
        with self.assertRaises(streamrun.TableError) as refused:
            run('d = column("day").sum()', frame)
        self.assertIn('has 2024-01-30 00:00:00 in row 1: dates become days', str(refused.exception))
        with self.assertRaises(streamrun.TableError):
            run(self.SUM, pandas.concat([frame[['a']], frame[['a']]], axis=1))


class Failures(unittest.TestCase):
    def failure(self, kind, *arguments, **options):
        with self.assertRaises(kind) as failed:
            streamrun.run(*arguments, **{'program': PROGRAM, **options})
        return failed.exception

    def test_a_refused_job_file_has_the_line_and_the_status(self):
        refused = self.failure(streamrun.JobsRefused, 'a = of(1).sum()\nb = of(1).average()')
        self.assertEqual((refused.line, refused.status), ('streamrun: jobs: line 2: syntax', 1))
        self.assertTrue(str(refused).startswith('streamrun: jobs: line 2: syntax'))

    def test_a_language_reads_files_of_its_version(self):
        jobs = 'version 3\na = column("p").map(p -> p * cell("q") + row()).toArray()'
        self.assertEqual(list(run(jobs, {'p': [4, 5], 'q': [10, 20]}, language=3)['a']), [40, 101])
        refused = self.failure(streamrun.JobsRefused, jobs, {'p': [4], 'q': [10]})
        self.assertEqual(refused.line, 'streamrun: jobs: line 1: syntax')
        refused = self.failure(streamrun.JobsRefused, jobs, {'p': [4]}, language=3)
        self.assertEqual(refused.line, 'streamrun: jobs: line 2: unknown column')

    def test_decimals_are_read_with_places(self):
        jobs = 'version 3\na = column("p", 2).toArray()\nb = column("q").map(q -> q * cell("p", 2)).sum()'
        report = run(jobs, {'p': [12.5, decimal.Decimal('-0.25'), 3], 'q': [4, 2, 1]}, language=3)
        self.assertEqual((list(report['a']), report['b']), ([1250, -25, 300], 5250))
        refused = self.failure(streamrun.ColumnsRefused, jobs, {'p': [0.125], 'q': [4]}, language=3)
        self.assertEqual(refused.line, 'streamrun: columns: bad number in row 1 column 1')
        for missing in (None, float('nan'), True, '1.5'):
            refused = self.failure(streamrun.TableError, jobs, {'p': [1.5, missing], 'q': [1, 2]}, language=3)
            self.assertIn(f"column 'p' has {missing!r} in row 2", str(refused))

    def test_a_refused_column_file_has_them_too(self):
        with tempfile.NamedTemporaryFile('w', suffix='.csv') as file:
            file.write('a,b\n1,2\n3,x\n')
            file.flush()
            refused = self.failure(streamrun.ColumnsRefused, 'a = column("a").sum()', file.name)
        self.assertEqual((refused.line, refused.status), ('streamrun: columns: bad number in row 2 column 2', 1))

    def test_a_refusal_carries_what_explain_says_of_the_bytes(self):
        package, explain, seen = types.ModuleType('streamrun_language'), types.ModuleType('streamrun_language.explain'), []

        class Explanation:
            def __str__(self):
                return 'line 1, column 11\n  here'

        def explain_jobs(text, **given):
            seen.append((text, given))
            return Explanation()
        explain.explain_jobs = explain_jobs
        kept = {name: sys.modules.get(name) for name in ('streamrun_language', 'streamrun_language.explain')}
        sys.modules.update({'streamrun_language': package, 'streamrun_language.explain': explain})
        try:
            refused = self.failure(streamrun.JobsRefused, 'b = of(1).average()', {'a': [1]})
        finally:
            for name, module in kept.items():
                if module is None:
                    del sys.modules[name]
                else:
                    sys.modules[name] = module
        self.assertEqual(seen, [(b'b = of(1).average()', {'names': ['a'], 'newest': 2})])
        self.assertEqual(str(refused), 'streamrun: jobs: line 1: syntax\nline 1, column 11\n  here')

    def test_a_refusal_goes_without_explain(self):
        kept = {name: sys.modules.get(name) for name in ('streamrun_language', 'streamrun_language.explain')}
        sys.modules['streamrun_language.explain'] = None
        try:
            refused = self.failure(streamrun.JobsRefused, 'b = of(1).average()')
        finally:
            del sys.modules['streamrun_language.explain']
            sys.modules.update({name: module for name, module in kept.items() if module is not None})
        self.assertIsNone(refused.explanation)
        self.assertEqual(str(refused), refused.line)

    def test_files_and_options_that_fail_have_errors_of_their_own(self):
        nowhere = self.failure(streamrun.FileFailed, 'nowhere.jobs')
        self.assertEqual(nowhere.line, 'streamrun: cannot open jobs')
        self.assertIn("'nowhere.jobs', No such file", str(nowhere))
        both = self.failure(streamrun.FileFailed, 'column("a").sum()', {'a': [1]})
        self.assertIn('is taken for a path', str(both))
        self.assertIn('a text of jobs has a =, such as total = column("a").sum()', str(both))
        self.assertIn('columns=', str(self.failure(streamrun.JobsRefused, 's = column("a").sum()')))
        with self.assertRaises(TypeError):
            run(b'a = of(1).sum()')
        self.assertEqual(self.failure(streamrun.FileFailed, 'a = of(1).sum()', 'nowhere.csv').status, 4)
        self.assertEqual(self.failure(streamrun.CommandLineRefused, 'a = of(1).sum()', workers=65).status, 2)
        missing = self.failure(streamrun.ProgramNotFound, 'a = of(1).sum()', program='/nowhere/streamrun')
        self.assertIn('/nowhere/streamrun', str(missing))

    def test_other_ends_of_the_program_are_failures(self):
        with tempfile.TemporaryDirectory() as folder:
            for text, kind, status, line in (
                    ('echo "streamrun: out of memory" >&2; exit 3', streamrun.OutOfMemory, 3, 'streamrun: out of memory'),
                    ('kill -TERM $$', streamrun.StreamrunError, -15, 'streamrun: ended with status -15')):
                program = pathlib.Path(folder, 'program')
                program.write_text(f'#!/bin/sh\n{text}\n', encoding='utf-8')
                program.chmod(program.stat().st_mode | stat.S_IXUSR)
                failed = self.failure(kind, 'a = of(1).sum()', {'a': list(range(100000))}, program=program)
                self.assertEqual((failed.status, failed.line), (status, line))

    def test_each_failure_is_a_streamrun_error(self):
        for kind in (streamrun.JobsRefused, streamrun.ColumnsRefused, streamrun.CommandLineRefused, streamrun.OutOfMemory,
                     streamrun.FileFailed, streamrun.ProgramNotFound):
            self.assertTrue(issubclass(kind, streamrun.StreamrunError))


if __name__ == '__main__':
    unittest.main()
