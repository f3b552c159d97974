"""Job files, as far as a merge has to know them: the source, the stages and the terminal of each job, and which jobs it
names.

It reads every file that streamrun accepts (docs/job-language.md), and many that streamrun refuses: what stands in a lambda
is no concern of a merge.
"""
from dataclasses import dataclass
from typing import List, Optional

from streamrun_language.lambdas import WITH_ROWS, WORDS_OF_ROWS
from streamrun_language.lines import NEWEST, read_lines
from streamrun_language.operators import read_operator
from streamrun_language.refusals import Refused, RefusedFile
from streamrun_language.syntax import JobReader
from streamrun_language.tokens import Kind


@dataclass
class Part:
    """A source that is no concat, a stage, a terminal or a fallback, and where it begins. of: the column or the job that a
    source names; is_empty: whether it is written without values; row: the first `cell(..)` or `row()` in the lambda of a stage or
    a terminal."""

    name: str
    text: str
    start: int
    of: Optional[str] = None
    is_empty: bool = False
    row: Optional[str] = None


@dataclass
class Job:
    """A job. names: the jobs that it names, in order of writing. operator: the name of the one of `reduce`. version: of its
    file."""

    name: str
    line: int
    text: str
    sources: List[Part]
    is_concat: bool
    stages: List[Part]
    terminal: Part
    names: List[str]
    operator: Optional[str]
    fallback: Optional[Part]
    version: int

    def written(self, array=None, is_of_part=False):
        """Its text. array: a job whose array is a column of this name here. A source without values is a range: to
        streamrun-merge `of()` would be a column. is_of_part: without onFault, if it is over a column."""
        text = self.text
        if is_of_part and self.fallback and self.sources[0].name == 'column':
            text = text[:text.rindex('.', 0, self.fallback.start)]
        for source in reversed(self.sources):
            new = (f'column("{array}")' if source.name == 'result' and source.of == array else
                   'range(0, 0)' if source.is_empty else source.text)
            text = text[:source.start] + new + text[source.start + len(source.text):]
        return text


class NotRead(Exception):
    """A text that is no job, with its line."""

    def __init__(self, line):
        super().__init__(f'jobs: line {line}: this is no job; streamrun says why')


def read_jobs(data, newest=NEWEST):
    """The jobs of a file, or NotRead; newest: the newest version that is read."""
    try:
        lines = read_lines(data, newest)
    except RefusedFile as refused:
        raise NotRead(refused.job.line) from None
    jobs = {}
    for text in lines.jobs:
        try:
            job = read_job(text, lines.version)
        except Refused:
            raise NotRead(text.line) from None
        if job.name in jobs or not all(name in jobs for name in job.names):
            raise NotRead(text.line)
        jobs[job.name] = job
    return list(jobs.values())


def read_job(job_text, version):
    """The job that a text spells, or Refused."""
    syntax, text = JobReader(job_text.text, version).job(), job_text.text.decode('latin-1')

    def part(it):
        return Part(it.name, text[it.start:it.end], it.start, row=first_row(it.argument, text, version))
    plain = syntax.source.plain()
    operator = read_operator(syntax.terminal.argument, version).name if syntax.terminal.name == 'reduce' else None
    return Job(syntax.name.text, job_text.line, text,
               [Part(it.name, text[it.start:it.end], it.start, it.word_text() if it.word else None,
                     it.name in ('of', 'empty') and not it.numbers) for it in plain],
               syntax.source.name == 'concat', [part(it) for it in syntax.stages], part(syntax.terminal),
               names_of(plain, syntax.tokens), operator, part(syntax.fallback) if syntax.fallback else None, version)


def first_row(argument, text, version):
    """The first `cell(..)` or `row()` of a lambda, or None. In files of earlier versions these are names like others."""
    tokens = argument.tokens if argument and version >= WITH_ROWS else []
    for word, after in zip(tokens, tokens[1:]):
        if word.kind is Kind.NAME and word.text in WORDS_OF_ROWS and after.text == '(':
            return text[word.start:next(it.end for it in tokens if it.text == ')' and it.start > after.start)]
    return None


def names_of(sources, tokens):
    """The jobs that a job names: arrays as sources come first, then numbers in lambdas."""
    names = [source.word_text() for source in sources if source.name == 'result']
    return list(dict.fromkeys(names + [token.text[1:] for token in tokens if token.kind is Kind.REFERENCE]))
