"""Hints on jobs that calculate with sources and with other jobs: `max(a) - min(b)`, `s / n`, `table["a"].sum()`. Each job of such a
calculation gets a line of its own."""
from __future__ import annotations

import re
from typing import List, Optional, Tuple

from .jobs import read_job
from .lambdas import Argument, Want, read_lambda
from .operands import as_jobs, instead
from .refusals import Refused
from .site import Rule, Site
from .syntax import SOURCES, TERMINALS
from .tokens import Token, cut

TERMINAL_OF = {'sum': 'sum', 'max': 'max', 'min': 'min', 'count': 'count', 'len': 'count', 'length': 'count', 'size': 'count',
               'first': 'findFirst', 'total': 'sum'}
MEANS = ('avg', 'mean', 'average')
FUNCTION = re.compile(r'(?<![\w.$])(' + '|'.join([*TERMINAL_OF, *MEANS]) + r')\(\s*(\*|column\("[^"]*"\)|"[^"]*"|\'[^\']*\'|\w+)\s*\)', re.I)
MEAN_STAGE = re.compile(r'((?:column\("[^"]*"\)|result\(\w+\)|\$\w+|(?:range|rangeClosed|of)\([^()]*\))(?:\.\w+\((?:[^()]|\([^()]*\))*\))*?)'
                        r'\.(?:avg|mean|average)\(\)(?:\.\w+\(\))?')
INDEXED = re.compile(r'(?<![\w.$"])\w+\[\s*["\'](\w[^"\']*)["\']\s*\]')
MEMBER = re.compile(r'(?<![\w.$"])([A-Za-z_]\w*)\.([A-Za-z_]\w*)(?=\.)')
STATEMENT = re.compile(r'(?:(?:System\.out\.|console\.)?(?:print|println|log|printf|echo|puts)\((.*)\)|return\s+(.*?))\s*;?')
SELECT = re.compile(r'select\s+(\w+)\s*\(\s*(\w+|\*)\s*\)\s+from\s+\w+(?:\s+where\s+(.+?))?\s*;?', re.I)


def source_of(site: Site, word: str) -> str:
    """The source that a word names: a column, the array of a job, or a source; nothing if it names none."""
    name = word.strip('"\'')
    columns = list(site.columns or ())
    if word == '*':
        return f'column("{columns[0]}")' if columns else ''
    if name in site.earlier:
        return f'result({name})' if site.earlier[name].terminal.name == 'toArray' else ''
    return word if word.startswith('column(') else f'column("{name}")' if name in columns else ''


def over(source: str, name: str) -> str:
    """What a function of other languages gives of a source."""
    return f'({source}.sum() / {source}.count())' if name.lower() in MEANS else f'{source}.{TERMINAL_OF[name.lower()]}()'


def normal(site: Site, text: str) -> str:
    """A calculation with sources as they are written here."""
    text = INDEXED.sub(lambda it: source_of(site, it[1]) or f'column("{it[1]}")', text)
    text = MEMBER.sub(lambda it: source_of(site, it[2]) if it[1] not in SOURCES and source_of(site, it[2]) else it[0], text)
    text = FUNCTION.sub(lambda it: over(source_of(site, it[2]), it[1]) if source_of(site, it[2]) else it[0], text)
    text = re.sub(r'(?<![\w."(])\$?([A-Za-z_]\w*)(?=\.)', lambda it: source_of(site, it[1]) or it[0], text)
    return MEAN_STAGE.sub(lambda it: over(it[1], 'mean'), text)


def job_end(tokens: List[Token], at: int) -> int:
    """The index of the last token of the source and operations that begin at an index."""
    index = at + 2 if tokens[at].text == 'LongStream' else at
    while index + 1 < len(tokens) and tokens[index + 1].text == '(':
        depth = 0
        for index in range(index + 1, len(tokens)):
            depth += (tokens[index].text == '(') - (tokens[index].text == ')')
            if depth == 0:
                break
        if index + 2 >= len(tokens) or tokens[index + 1].text != '.':
            break
        index += 2
    return index


def parted(site: Site, text: str) -> Tuple[str, List[str]]:
    """The calculation with a reference for each job in it, and these jobs."""
    data, jobs, made, index = text.encode(), [], '', 0
    tokens, last = cut(data), 0
    while index < len(tokens):
        word = tokens[index].text
        if word in SOURCES or word == 'LongStream':
            end = job_end(tokens, index)
            job = data[tokens[index].start:tokens[end].end].decode(errors='replace')
            jobs += [job] if job not in jobs else []
            made += data[last:tokens[index].start].decode(errors='replace') + f'${site.name()}_{jobs.index(job) + 1}'
            index, last = end, tokens[end].end
        index += 1
    made += data[last:].decode(errors='replace')
    scalars = [name for name, job in site.earlier.items() if job.terminal.name != 'toArray']
    return re.sub(r'(?<![\w.$"])([A-Za-z_]\w*)(?!\w*\s*\()', lambda it: f'${it[1]}' if it[1] in scalars else it[0], made), jobs


def is_job(site: Site, text: str) -> bool:
    """Whether a text is a job by itself, after those above."""
    try:
        read_job(f'{site.name()} = {text}'.encode(), site.lines.version, site.columns or (), dict(site.earlier))
        return True
    except Refused:
        return False


def is_number(text: str, names: List[str]) -> bool:
    """Whether a text is an expression with these jobs."""
    try:
        found = read_lambda(Argument.of(b'x -> ' + text.encode()), Want.LONG)
    except Refused:
        return False
    return all(it.text in names for it in found.references()) and not re.search(r'(?<![\w.$])x\b', text)


def calculation(site: Site) -> Optional[str]:
    """What to write for the text after the name of a job, if it is a calculation."""
    whole = site.job.text.decode('utf-8', 'replace')
    found = re.fullmatch(r'(\s*[A-Za-z_]\w*\s*=\s*)(.+?)[\s;]*', whole)
    if not found:
        return None
    text = normal(site, found[2])
    if is_job(site, text):
        return instead(text, found[2])
    body, jobs = parted(site, text)
    if len(jobs) == 1 and re.fullmatch(r'\(*\$\w+\)*', body) and is_job(site, jobs[0]):
        return instead(jobs[0], found[2])
    names = [*site.earlier, *(f'{site.name()}_{at}' for at in range(1, len(jobs) + 1))]
    body = body[1:-1] if re.fullmatch(r'\([^()]*\)', body) else body
    if not is_number(body, names) or not all(is_job(site, job) for job in jobs):
        return None
    last = f'of(0).map(x -> {body}).sum()'
    if not jobs:
        return instead(last, found[2])
    return as_jobs(*(f'{site.name()}_{at} = {job}' for at, job in enumerate(jobs, 1)), f'{site.name()} = {last}')


def calculation_hint(site: Site) -> str:
    """The hint with what to write for a calculation."""
    cure = calculation(site)
    rounded = ', where / rounds toward zero' if ' / ' in cure else ''
    return f'A job is one source with its operations, and numbers of jobs stand in a lambda: {cure}{rounded}.'


def statement(site: Site) -> Optional[str]:
    """What to write for a statement of another language, or nothing."""
    whole = site.job.text.decode('utf-8', 'replace').strip()
    if re.match(r'(import|package|using|from|use|require|include|public|class|def|func|fn)\b(?!\s*=)', whole):
        return f'A file has jobs alone: leave `{whole}` out.'
    found, query = STATEMENT.fullmatch(whole), SELECT.fullmatch(whole)
    if query and source_of(site, query[2]) and query[1].lower() in TERMINAL_OF:
        condition = re.sub(r'(?<![<>=!])=(?!=)', '==', query[3] or '').replace('<>', '!=').replace(' and ', ' && ').replace(' or ', ' || ')
        names = set(re.findall(r'[A-Za-z_]\w*', condition))
        source = source_of(site, query[2] if query[2] != '*' or not names else sorted(names)[0])
        keeps = f'.filter({sorted(names)[0]} -> {condition})' if names else ''
        cure = f'total = {source}{keeps}.{TERMINAL_OF[query[1].lower()]}()'
        is_one = len(names) <= 1 and (not names or query[2] in ('*', *names))
        return f'A job is NAME = SOURCE.TERMINAL(): {instead(cure, whole)}.' if is_one else None
    inner = found and (found[1] or found[2])
    return inner and (f'A job is NAME = SOURCE.TERMINAL(): {instead(f"total = {normal(site, inner)}", whole)}.'
                      if is_job(site, normal(site, inner)) else f'A file has jobs alone: leave `{whole}` out.')


def is_calculation(site: Site) -> Optional[str]:
    """What to write, where no lambda holds the place and the job is a calculation."""
    words = [token.text for token in site.tokens[:site.index]]
    is_outside = '->' not in words or site.open_at() is None
    return calculation(site) if is_outside and site.word() != ')' else None


CALCULATIONS = [Rule('statement', statement, statement), Rule('calculation', is_calculation, calculation_hint)]
assert set(TERMINAL_OF.values()) <= set(TERMINALS)
