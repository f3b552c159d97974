"""Follows hints to the letter: what they propose is put in, and has to be accepted and to give what is right."""
import os
import re
import shlex
import shutil
import tempfile
from decimal import Decimal

from running import LANGUAGES, TOP, run as ran, table_of, write
from streamrun_language import explain, model, table_view
from streamrun_language.tables import SIGNS, form_for, read_columns, records_of, text_of

from . import cases, first_tries, tables, whole_tables

# A command of a hint, and the program that it wants; an option of it.
COMMAND = re.compile(r'`((mlr|iconv|sed|grep|tr|tail) [^`]*)`')
OPTION = re.compile(r'`(--(?:only-named|separator|blank)[^`]*)`')
MOST_ROUNDS = 9


def made_by(command, data):
    """What a command makes of a table; what it says on standard error, or that it is status, as an answer that is no table."""
    with tempfile.NamedTemporaryFile() as file:
        file.write(data)
        file.flush()
        done = ran(['sh', '-c', command.replace('FILE', file.name)])
    return done.out if done.status == 0 and not done.err else b'x\n' + done.err.replace(b'\n', b' ')


def followed(data, jobs, table=None):
    """A table after the commands of its hints, one after another, the options that they name, and the last hint that has
    neither."""
    table = dict(table or {})
    for _ in range(MOST_ROUNDS):
        found = explain.explain_jobs(jobs, data, **table)
        if not found or found.file != 'FILE':
            return data, table, None
        command, option = COMMAND.search(found.hint), OPTION.search(found.hint)
        if not command and not option:
            return data, table, found.hint
        if option:
            table.update(table_of(shlex.split(option[1])))
        else:
            data = made_by(command[1], data)
    return data, table, 'too many rounds'


def wrong_cures():
    """Tables that are refused after the commands of their hints, too. Miller ends no lines by CR, and a command has no name of two
    lines."""
    samples = [(data, jobs, options) for data, _, _, _, _, jobs, options in cases.table_rows()]
    samples += [(data, cases.naming_all(data), {}) for data, _ in tables.FILES]
    for data, jobs, options in samples if shutil.which('mlr') else []:
        hint = explain.explain_jobs(jobs, data, **options).hint
        is_tried = (COMMAND.search(hint) or OPTION.search(hint)) and b'\r' not in data and not data.startswith(b'"')
        made, _, hint = followed(data, jobs, options) if is_tried else (b'a\n', {}, None)
        if hint:
            yield f'{data[-80:]!r}: {made[:80]!r} {hint}'


def sums_of(data, jobs, table):
    """The sum of each column that these jobs name, by the model."""
    columns = read_columns(data, form_for(jobs, **{**table, 'only_named': True}))
    return {table_view.shown(name): sum(cells) for name, cells in columns.items()}


def sums_at_once(command, data, jobs):
    """These sums after the one command of a table."""
    made, _, run = command.rpartition('streamrun ')
    options = table_of(shlex.split(run.partition('--columns')[0]))
    return sums_of(made_by(made.removesuffix(' | '), data) if made else data, jobs, options)


def report_of(program, command, data, jobs):
    """What this program prints by the one command of a table."""
    with tempfile.TemporaryDirectory() as folder:
        table, job_file = (write(os.path.join(folder, name), text) for name, text in (('table', data), ('jobs', jobs)))
        command = command or 'streamrun --columns FILE JOBS'
        return ran(['sh', '-c', f'streamrun() {{ {shlex.quote(program)} "$@"; }}; ' + command.replace('FILE', table).replace('JOBS', job_file)]).out.decode()


def wrong_whole_tables(program=''):
    """What is wrong after following the hints of a table, and its one command. Without Miller no command is tried."""
    for text, sums in whole_tables.ROWS if shutil.which('mlr') else []:
        data, jobs = text.encode(), cases.naming(sums)
        made, table, hint = followed(data, jobs)
        command = table_view.look_at(data).command()
        try:
            got = [sums_of(made, jobs, table), sums_at_once(command, data, jobs)]
        except explain.RefusedTable as refused:
            got = refused
        report = ''.join(f'j{at} = {total}\n' for at, total in enumerate(sums.values()))
        if hint or got != [sums, sums] or program and report_of(program, command, data, jobs) != report:
            yield f'{text[:90]!r}: {made[:90]!r} {table} {hint} {command} {got}'
    for text, words in whole_tables.BY_HAND:
        found = explain.explain_jobs(cases.naming_all(text.encode()), text.encode())
        if not found or not all(word in found.hint for word in words):
            yield f'{text!r}: {found}'


def wrong_places():
    """What is wrong with columns that hints look at with decimal places: a job does it, and has their sum."""
    for text in [text for text, _ in whole_tables.ROWS] + [text for text, _ in whole_tables.BY_HAND]:
        data = text.encode()
        view = table_view.look_at(data)
        for column in view.columns:
            found = re.fullmatch(r'column\("(.*)", (\d+)\)', column.with_places())
            if not found or column.missing or column.odd or view.above or view.has_totals:
                continue
            at = next(number for number, name in enumerate(view.columns) if name is column)
            cells = [record[at] for record in list(records_of(text_of(data), view.separator))[1:]]
            total = sum(int(Decimal(cell.strip()).scaleb(int(found[2]))) for cell in cells)
            got = model.outcome(f'version 3\nj = {found[0]}.sumExact()\n'.encode(), data, newest=3,
                                table={'only_named': True, 'separator': SIGNS[view.separator]})
            if got != (f'j = {total}\n'.encode(), b'', 0):
                yield f'{text[:90]!r}: {found[0]} {got} {total}'


def wrong_view():
    """What is wrong with the lines of a view, or with what is said of open quotes."""
    table, wanted = whole_tables.VIEW
    if str(table_view.look_at(table.encode())) != wanted:
        yield str(table_view.look_at(table.encode()))
    for text, separator, row in whole_tables.OPEN:
        found = [table_view.look_at(text.encode(), separator=separator).open, table_view.open_quote(text, separator)]
        if found != [row, row] or row is not None and 'Close the double quote' not in str(table_view.look_at(text.encode(), separator=separator)):
            yield f'{text!r}: {found}'


def explained(typed):
    """The explanation of a first try, and whether its caret stands where it should."""
    data, line, column = cases.unmarked(typed)
    found = explain.explain_jobs(data, first_tries.TABLE)
    return found, bool(found) and (found.line, found.column) == (line, column) and found.hint.endswith('.')


def all_first_tries():
    """((a first try, words of its hint), its table) of each one."""
    others = [(typed, [word]) for typed, word in first_tries.PAGES + first_tries.PLACES]
    rows = [*((typed, []) for typed, _ in first_tries.FOLLOWED + first_tries.COMMANDS), *others]
    return [(row, first_tries.TABLE) for row in rows]


def wrong_first_tries(rows=None, rounds=1):
    """What is wrong with first tries whose hint proposes a text: it is put in, accepted, and gives the report; in more rounds with the
    texts of further hints."""
    for typed, report in first_tries.FOLLOWED if rows is None else rows:
        found, is_placed = explained(typed)
        made = found and found.followed
        for _ in range(1, rounds):
            next_one = made and explain.explain_jobs(made, first_tries.TABLE, newest=found.language)
            found, made = (next_one, next_one.followed) if next_one else (found, made)
        got = made and model.outcome(made, first_tries.TABLE, newest=found.language)
        if not is_placed or not got or got != (f'{report}\n'.encode(), b'', 0):
            yield f'{typed!r}: {found} {made!r} {got}'


def wrong_other_tries():
    """What is wrong with first tries whose hint has a command, a page, or the place alone."""
    for typed, words in first_tries.COMMANDS:
        found, is_placed = explained(typed)
        command = found and COMMAND.search(found.hint)
        printed = made_by(command[1], first_tries.TABLE).decode() if command and shutil.which('mlr') else ''
        is_right = all(word in printed.rstrip().rsplit('\n', 1)[-1] for word in words) or not shutil.which('mlr')
        if not is_placed or not command or not is_right:
            yield f'{typed!r}: {found} {printed}'
    for typed, word in first_tries.PAGES + first_tries.PLACES:
        found, is_placed = explained(typed)
        is_there = not word.startswith('docs/') or os.path.exists(os.path.join(TOP, word))
        if not is_placed or word not in found.hint or found.followed or not is_there:
            yield f'{typed!r}: {found}'


def wrong_followed():
    """Mistakes of which the hints' texts, put in one after another, make a file that is refused."""
    for (text, _, *newest), columns in cases.all_mistakes():
        data = cases.unmarked(text)[0]
        found = explain.explain_jobs(data, columns, newest=newest[0] if newest else LANGUAGES[0])
        for _ in range(MOST_ROUNDS):
            made = found and found.followed
            found = explain.explain_jobs(made, columns, newest=found.language) if made is not None else None
        if found:
            yield f'{text[:90]!r}: {found}'
