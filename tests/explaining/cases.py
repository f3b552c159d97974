"""Explanations of refused files, and the command, with what they have to say."""
import json
import os
import re
import shutil
import sys
import tempfile

from running import LANGUAGES, TOP, read, run as ran, write
from streamrun_language import explain
from streamrun_language.tables import records_of, text_of

from . import mistakes, tables

TOOL = os.path.join(TOP, 'tools', 'explain')
MARK = mistakes.MARK.encode()
BYTE_ORDER_MARK = b'\xef\xbb\xbf'
MEANT = 'There is no .zum(): did you mean .sum? Then write `sum` for `zum`.'
KEYS = ['file', 'line', 'column', 'cause', 'hint', 'text']


def unmarked(text):
    """The bytes of a text without its mark, and the line and the column of the mark: bytes after the line's start, a byte
    order mark not counted."""
    before, after = text.encode().split(MARK)
    line = before.replace(b'\r\n', b'\n').replace(b'\r', b'\n').count(b'\n') + 1
    start = max(before.rfind(b'\n'), before.rfind(b'\r')) + 1
    start += len(BYTE_ORDER_MARK) if start == 0 and before.startswith(BYTE_ORDER_MARK) else 0
    return before + after, line, len(before) - start + 1


def line_of(data, number):
    """A line of a file of jobs, without its end."""
    lines = data[len(BYTE_ORDER_MARK):].split(b'\n') if data.startswith(BYTE_ORDER_MARK) else data.split(b'\n')
    line = lines[number - 1]
    return line[:-1] if line.endswith(b'\r') and number < len(lines) else line


def has_caret(found):
    """Whether the caret stands below the character of the column, or one past the end."""
    _, above, caret, *_ = str(found).split('\n')
    at = len(caret) - 1
    wanted = found.text[found.column - 1:].decode('utf-8', 'replace')[:1]
    is_shown = wanted.isprintable() and wanted.isascii() and wanted
    return caret.strip() == '^' and above[at:at + 1] == (wanted if is_shown else above[at:at + 1])


def all_mistakes():
    """(a row, its table) of each mistake."""
    return [(row, mistakes.TABLE) for row in mistakes.MISTAKES] + [(row, None) for row in mistakes.WITHOUT_TABLE]


def wrong_mistakes(rows=None):
    """What is wrong with the explanations of job files that are written by hand."""
    for (text, words, *newest), columns in all_mistakes() if rows is None else rows:
        data, line, column = unmarked(text)
        found = explain.explain_jobs(data, columns, newest=newest[0] if newest else LANGUAGES[0])
        if found is None:
            yield f'{text!r} is accepted'
        elif (found.line, found.column) != (line, column):
            yield f'{text!r}: line {found.line}, column {found.column}'
        elif not all(word in found.hint for word in words) or not found.hint.endswith(('.', '?')):
            yield f'{text!r}: {found.hint}'
        elif not has_caret(found):
            yield f'{text!r}: {found}'


def naming(names):
    """A job file that names these columns, as far as jobs can."""
    names = [name for name in names if not set(name) & set('"\r\n')]
    return ''.join(f'j{at} = column("{name}").sum()\n' for at, name in enumerate(names)).encode()


def naming_all(data):
    """A job file that names all columns of a table."""
    header = next(records_of(text_of(data)), [])
    return naming([name.encode('latin-1').decode(errors='replace') for name in header])


def table_rows():
    """Each table that is refused, without its mark: (data, line, column, cell, words, job file, options)."""
    for text, cell, words, *more in tables.ROWS:
        data, line, column = unmarked(text)
        named = naming(more[0]) if more and more[0] is not None else naming_all(data)
        yield data, line, column, cell, words, named, more[1] if len(more) > 1 else {}


def wrong_tables():
    """What is wrong with the explanations of tables that are written by hand."""
    for text, line, column, cell, words, jobs, options in table_rows():
        found = explain.explain_jobs(jobs, text, **options)
        if found is None:
            yield f'{text!r} is accepted'
        elif (found.line, found.column, found.cell and tuple(vars(found.cell).values())) != (line, column, cell):
            yield f'{text!r}: line {found.line}, column {found.column}, {found.cell}'
        elif not all(word in found.hint for word in words) or not has_caret(found):
            yield f'{text[-80:]!r}: {found}'


def wrong_files():
    """What is wrong with the explanations of files that are no text."""
    for data, words, is_table in [*((*it, False) for it in mistakes.FILES), *((*it, True) for it in tables.FILES)]:
        found = explain.explain_jobs(b'', data) if is_table else explain.explain_jobs(data)
        if not found or not all(word in found.hint for word in words):
            yield f'{data!r}: {found}'


def wrong_refusals(cases):
    """Refusals that differ from what was worked out by hand, the cases being (jobs, columns, form, language, (out, err, status), options
    of the table)."""
    for jobs, columns, _, newest, (_, err, status), table in cases:
        found = explain.explain_jobs(jobs.encode(), columns, newest=newest, **table)
        if (f'streamrun: {found.cause}\n' if found else '') != err or bool(found) != bool(status):
            yield f'{jobs[:100]!r}: {found and found.cause}, wanted {err}'


def wrong_place(data, columns, newest, table):
    """What is wrong with the place of a refusal, or nothing."""
    found = explain.explain_jobs(data, columns, 'jobs', 'columns', newest, **table)
    if found is None:
        return ''
    is_whole = found.file == 'columns' or found.text == line_of(data, found.line)
    if is_whole and 1 <= found.column <= len(found.text) + 1 and found.hint.endswith(('.', '?')) and has_caret(found):
        return ''
    return f'{data[:100]!r}: {found.line}, {found.column}: {found}'


def run(*arguments):
    """What the command gives."""
    return tuple(ran([sys.executable, TOOL, *arguments], text=True))


def wrong_commands():
    """What is wrong with the command: its statuses, lines and the object for editors."""
    with tempfile.TemporaryDirectory() as folder:
        texts = {'good.jobs': 'a = of(1).sum()\n', 'bad.jobs': 'a = of(1)\n .zum()\n', 't.csv': 'a\nx\n'}
        good, bad, table = (write(os.path.join(folder, name), text) for name, text in texts.items())
        shown = f'streamrun: jobs: line 1: syntax\n\n{bad}, line 2, column 3:\n     .zum()\n      ^\n{MEANT}\n'
        cell = f'streamrun: columns: bad number in row 1 column 1\n\n{table}, line 2, column 1, row 1 of "a":\n    x\n    ^\n'
        missing = 'streamrun: cannot open {}\nstreamrun: nowhere: No such file or directory (os error 2)\n'
        a_folder = f'streamrun: {{}}: read failed\nstreamrun: {folder}: Is a directory (os error 21)\n'
        for arguments, wanted in [
                ([good], ('accepted\n', '', 0)), ([good, '--json'], ('{}\n', '', 0)), ([bad], (shown, '', 1)),
                (['nowhere'], ('', missing.format('jobs'), 4)), ([folder], ('', a_folder.format('jobs'), 4)),
                (['nowhere', '--columns', 'nowhere'], ('', missing.format('columns'), 4)),
                ([good, '--columns', folder], ('', a_folder.format('columns'), 4))]:
            if run(*arguments) != wanted:
                yield f'{arguments}: {run(*arguments)}'
        yield from wrong_remarks(folder)
        view = (f'1 column, 1 row\n\n  a: text\n\nstreamrun --only-named --columns {table} JOBS\nNot read: a. Codes for texts: docs/tables.md.\n', '', 1)
        if run('--columns', table) != view or json.loads(run('--columns', table, '--json')[0])['columns'] != {'a': 'text'}:
            yield f'{run("--columns", table)}'
        if not run(bad, '--columns', table)[0].startswith(cell) or run()[2] != 2 or run('--column', table)[2] != 2:
            yield f'{run(bad, "--columns", table)}'
        first, second = (json.loads(run(*it, '--json')[0]) for it in ([bad], [bad, '--columns', table]))
        if list(first) != KEYS or list(first.values()) != [bad, 2, 3, 'jobs: line 1: syntax', MEANT, ' .zum()']:
            yield f'{first}'
        if list(second) != [*KEYS, 'row', 'name', 'cell'] or list(second.values())[6:] != [1, 'a', 'x']:
            yield f'{second}'
        yield from wrong_editors(bad)


def wrong_remarks(folder):
    """What is wrong with what is said of accepted files that may be meant otherwise."""
    table = write(os.path.join(folder, 'priced.csv'), 'pr\u00eex,region\n1,2\n')
    for number, (text, said) in enumerate(mistakes.REMARKS):
        jobs = write(os.path.join(folder, f'remarks_{number}.jobs'), text)
        wanted = ', but '.join(['accepted', *said])
        if run(jobs, '--columns', table) != (f'{wanted}\n', '', 0) or run(jobs, '--columns', table, '--json') != ('{}\n', '', 0):
            yield f'{text}: {run(jobs, "--columns", table)}'


def wrong_editors(bad):
    """What vim's errorformat and the problem matcher of VS Code make of an explanation."""
    package = json.loads(read(os.path.join(TOP, 'editors', 'vscode', 'package.json')))
    pattern = package['contributes']['problemMatchers'][0]['pattern']
    matched = re.search(pattern['regexp'], run(bad, '--json')[0])
    got = matched and tuple(matched[pattern[it]] for it in ('file', 'line', 'column', 'message'))
    if got != (bad, '2', '3', MEANT):
        yield f'problem matcher: {got}'
    if shutil.which('vim'):
        steps = [f'set runtimepath+={os.path.join(TOP, "editors", "vim")}', 'compiler streamrun', 'silent make',
                 f'redir! > {bad}.list', 'clist', 'redir END', 'qall!']
        words = [word for step in steps for word in ('-c', step)]
        ran(['vim', '-Nu', 'NONE', '-es', *words, bad])
        listed = read(bad + '.list').decode()
        if '2 col 3' not in listed or MEANT not in listed:
            yield f'vim: {listed!r}'
