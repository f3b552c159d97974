"""The lists of files in docs/adding.md: which files an operation that is there has touched. `scripts/pages --write` writes them.

An operation's files are those that say its name in code, in definitions or in a proof, comments apart.
"""
import itertools
import os
import re

from page_layout import wrapped
from page_text import files_below, is_text
from repository import crates_of, read

# The words of one operation of each kind.
OPERATIONS = {
    'flatMap': r'\b(?:FlatMap|flatMap)\b|\bStages\b.*\bflat_map\b',
    'floorMod': r'\b(?:floorMod|FloorMod|FloorRemainder\w*|\w*floor_remainder)\b',
    'findFirst': r'\b(?:findFirst|FindFirst|find_first)(?:_\w+)?\b|\bFindTerminal::First\b|\bfind_of terminal\.First\b',
}
# The files of an operation that another one of its kind doesn't need, and what they are for.
APART = {
    'floorMod': (r'dispatch\.rt|power|Power|reciprocal|Reciprocal', 'For the speed of divisions by numbers alone'),
}
# Each column of a list, with the folders whose files it names.
FOLDERS = {'src': ('src',), 'specs': ('specs',), 'proofs': ('proofs',), 'wrong bodies': ('wrong-bodies',)}
# What begins a comment in the files of a crate.
COMMENTS = {'.rt': re.compile('//'), '.antt': re.compile('--')}
ELSEWHERE = ('editors', 'python/streamrun_language', 'scripts', 'tests')


def says(path, pattern):
    """Whether a file says this. A comment in a crate may name an operation that the file knows nothing of."""
    comment = COMMENTS.get(os.path.splitext(path)[1])
    return is_text(path) and any(re.search(pattern, comment.split(line)[0] if comment else line) for line in read(path).splitlines())


def files_that_say(base, pattern):
    """The files below a folder that name an operation, by their places in it."""
    return [os.path.relpath(path, base) for path in files_below(base) if says(path, pattern)]


def bases(top, crate, folders):
    return [os.path.join(top, 'crates', crate, folder) for folder in folders]


def rows(top, pattern, apart):
    """A row for each crate, without the files that stand apart."""
    for crate in crates_of(top):
        cells = []
        for folders in FOLDERS.values():
            found = [name for base in bases(top, crate, folders) for name in files_that_say(base, pattern)]
            found = [name for name in found if not (apart and re.search(apart, name))]
            cells.append(', '.join(f'`{name}`' for name in found))
        if any(cells):
            yield f'| `{crate}` | ' + ' | '.join(cells) + ' |'


def files_apart(top, pattern, apart):
    """The files that stand apart, by their places."""
    for crate in crates_of(top):
        for base in bases(top, crate, itertools.chain.from_iterable(FOLDERS.values())):
            for name in files_that_say(base, pattern):
                if re.search(apart, name):
                    yield os.path.relpath(os.path.join(base, name), os.path.join(top, 'crates'))


def list_of(top, name):
    """The lines of the list of an operation."""
    pattern, (apart, purpose) = OPERATIONS[name], APART.get(name, (None, ''))
    yield '| crate | ' + ' | '.join(FOLDERS) + ' |'
    yield '|---' * (len(FOLDERS) + 1) + '|'
    yield from rows(top, pattern, apart)
    if apart:
        yield ''
        yield from wrapped([f'{purpose}: ' + ', '.join(f'`{path}`' for path in files_apart(top, pattern, apart)) + '.'])
    found = [os.path.relpath(path, top) for folder in ELSEWHERE for path in files_below(os.path.join(top, folder))
             if not path.endswith('/page_adding.py') and says(path, pattern)]
    yield ''
    yield from wrapped(['Elsewhere: ' + ', '.join(f'`{path}`' for path in found) + '.'])
