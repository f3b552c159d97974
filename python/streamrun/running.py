"""Starts the program."""
from __future__ import annotations

import importlib
import os
import re
import subprocess
import tempfile
from typing import Any

from .errors import ProgramNotFound, StreamrunError, error_of
from .report import Report
from .tables import csv_of, named_in

STANDARD_INPUT, TAB = '/dev/stdin', '\t'
# What a hint on the command line says, and what it is here.
HERE = [('--columns FILE', 'columns='), ('--language 3', 'language=3'), ('--only-named', 'only_named=True')]
SEPARATOR, BLANK = re.compile(r"--separator '?([;|,]|tab)'?"), re.compile(r'--blank (-?\d+)')


def run(jobs: str | os.PathLike[str], columns: Any = None, *, only_named: bool = False, separator: str | None = None,
        blank: int | None = None, workers: int | None = None, language: int | None = None,
        program: str | os.PathLike[str] | None = None) -> Report:
    """Runs jobs over a table, and gives the report.

    jobs        the text of a job file; or the path of one, if it is a Path, or a text without '=' and line ends
    columns     the path of a column file, a dict of lists or numpy arrays, or a data frame of pandas; its columns are integers
    only_named  whether only the columns of a file that the jobs name are looked at; the others may hold anything then
    separator   what stands between the cells of a file: ',' if not given, ';', '|' or '\\t'
    blank       the number of an empty cell of a file; if none is given, it is refused
    workers     how many threads run the jobs; the report is the same for any number
    language    the newest version of job files that is read: 2, if not given, or 3
    program     the program, if it isn't the `streamrun` on PATH

    Of a dict or a frame the columns that the jobs name are sent alone. A run that fails is a StreamrunError with the program's
    line; a table whose named columns aren't of integers is a TableError.
    """
    if not isinstance(jobs, (str, os.PathLike)):
        raise TypeError(f'jobs are a text or a path, and not {type(jobs).__name__}')
    text = None if is_path(jobs) else os.fspath(jobs)
    is_file = isinstance(columns, (str, os.PathLike))
    table = None if columns is None or is_file else csv_of(columns, named_by(jobs, text)) or None
    with tempfile.TemporaryDirectory(prefix='streamrun-') as folder:
        path = os.fspath(jobs)
        if text is not None:
            path = os.path.join(folder, 'given.jobs')
            with open(path, 'w', encoding='utf-8', newline='') as file:
                file.write(text)
        words = [os.fspath(program or 'streamrun'), '--json']
        if table is not None or is_file:
            words.append(f'--columns={STANDARD_INPUT if table is not None else os.fspath(columns)}')
        if is_file:
            words += options_of(only_named, separator, blank)
        if workers is not None:
            words.append(f'--workers={workers}')
        if language is not None:
            words.append(f'--language={language}')
        ended = started([*words, '--', path], table)
        if ended.returncode == 0:
            return Report(ended.stdout)
        form = {'only_named': only_named, 'separator': separator or ',', 'blank': blank} if is_file else {}
        raise failure_of(ended, path, columns, {'newest': language or 2, **form})


def options_of(only_named: bool, separator: str | None, blank: int | None) -> list[str]:
    """The options of the program for a column file that is read so."""
    words = ['--only-named'] if only_named else []
    words += [] if separator is None else [f'--separator={"tab" if separator == TAB else separator}']
    return words + ([] if blank is None else [f'--blank={blank}'])


def named_by(jobs: str | os.PathLike[str], text: str | None) -> dict[str, bool]:
    """The names of columns in the jobs, each with whether they look at it with decimal places; the program says what is wrong with a file that can't be read."""
    data = text if text is not None else (bytes_of(os.fspath(jobs)) or b'').decode(errors='replace')
    return named_in(data)


def is_path(jobs: str | os.PathLike[str]) -> bool:
    """Whether this is the path of a job file and no text of jobs, which has '=' or is empty."""
    return not isinstance(jobs, str) or '=' not in jobs and '\n' not in jobs and jobs.strip() != ''


def started(words: list[str], table: bytes | None) -> subprocess.CompletedProcess[bytes]:
    """A run that has ended. The program reads the table from standard input."""
    given: dict[str, Any] = {'stdin': subprocess.DEVNULL} if table is None else {'input': table}
    try:
        return subprocess.run(words, stdout=subprocess.PIPE, stderr=subprocess.PIPE, check=False, **given)
    except FileNotFoundError as missing:
        raise ProgramNotFound(f'no program {words[0]!r}: give its path as program, or put it on PATH', 127) from missing


def failure_of(ended: subprocess.CompletedProcess[bytes], path: str, columns: Any, given: dict[str, Any]) -> StreamrunError:
    """The error of a run that failed, with what is known of the place in a refused file, or of a file that isn't there; given:
    how the files are read."""
    line = ended.stderr.decode(errors='replace').rstrip('\n')
    if ended.returncode == 1:
        if isinstance(columns, (str, os.PathLike)):
            return error_of(line, 1, explanation_of(bytes_of(path), {'columns': bytes_of(os.fspath(columns)), **given}))
        names = None if columns is None else list(map(str, columns))
        return error_of(line, 1, explanation_of(bytes_of(path), {'names': names, **given}))
    if ended.returncode == 4:
        line, _, more = line.partition('\n')
        return error_of(line, 4, reason_of(path, columns) or more.replace('streamrun: ', '', 1) or None)
    return error_of(line, ended.returncode, None)


def reason_of(path: str, columns: Any) -> str | None:
    """Which file can't be read, and why."""
    for given, what in ((columns, 'columns='), (path, 'jobs')):
        try:
            if isinstance(given, (str, os.PathLike)):
                open(given, 'rb').close()
        except OSError as error:
            both = f'; a text of jobs has a =, such as total = {path}' if what == 'jobs' and '(' in path else ''
            return f'{what} is taken for a path: {os.fspath(given)!r}, {error.strerror}{both}'
    return None


def bytes_of(path: str) -> bytes | None:
    try:
        with open(path, 'rb') as file:
            return file.read()
    except OSError:
        return None


def explanation_of(text: bytes | None, given: dict[str, Any]) -> str | None:
    """What `tools/explain` prints of a refused file, if its package is installed, in the words of this package."""
    if text is None:
        return None
    try:
        explain = importlib.import_module('streamrun_language.explain')
    except ImportError:
        return None
    found = explain.explain_jobs(text, **given)
    if found is None:
        return None
    said = str(found)
    for option, argument in HERE:
        said = said.replace(option, argument)
    return SEPARATOR.sub(r"separator='\1'", BLANK.sub(r'blank=\1', said))
