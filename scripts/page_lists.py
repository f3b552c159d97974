"""The lists on pages that are made from the sources: `scripts/pages --write` writes them, the check `lists` compares.

Each list stands between a comment that names it and `<!-- end -->`.
"""
import functools
import os
import re

from page_adding import OPERATIONS, list_of
from page_clauses import exported_by, public_heads, words_brought
from page_definitions import CLOSURE, reached_from, specs_of
from page_facts import libraries_of
from page_layout import wrapped
from repository import crates_of, read, sources_of, write


def sentence_of(lines):
    """The first sentence of a comment, as a cell of a table. Two full stops, as in `N,N,..`, don't end it."""
    return re.split(r'(?<!\.)\.(?:\s|$)', ' '.join(lines).strip())[0].replace('|', '\\|')


def page_of_crate(top, crate):
    """The first sentence of the `//!` page at the head of a crate."""
    paths = [os.path.join(top, 'crates', crate, 'src', name) for name in ('lib.rt', 'main.rt')]
    text = read(next(path for path in paths if os.path.isfile(path)))
    lines = re.match(r'(?://!.*\n)+', text)[0].splitlines()
    paragraph = [line[3:].strip() for line in lines]
    return sentence_of(paragraph[:paragraph.index('')] if '' in paragraph else paragraph)


def crates(top):
    """A row for each crate: what it is, and what it stands on; what one of these stands on isn't named again."""
    yield '| crate | is | stands on |'
    yield '|---|---|---|'
    below = {name: [other for other in others if os.path.isdir(os.path.join(top, 'crates', other))]
             for name, others in crates_of(top).items()}
    all_below = {}
    for name, others in below.items():
        all_below[name] = set(others).union(*(all_below[other] for other in others))
        own = [other for other in others if not any(other in all_below[nearer] for nearer in others)]
        yield f'| `{name}` | {page_of_crate(top, name)} | ' + ', '.join(f'`{other}`' for other in own) + ' |'


def named_in_contracts(top):
    """The files of definitions that contracts of public calls name."""
    names = libraries_of(top)
    for crate in names:
        exported = exported_by(top, crate)
        for _, path in sources_of(top, crate):
            text = read(path)
            brought = words_brought(text, names)
            for _, head in public_heads(text, exported):
                yield from (brought[word][0] for word in set(re.findall(r"[A-Za-z_][\w']*", head)) & set(brought))


def files(top):
    """An item for each crate: its files of definitions that contracts of public calls name, or that are Designs, beside the files
    of the headline."""
    specs = specs_of(top)
    listed = set(named_in_contracts(top)) | {name for name, spec in specs.items() if not spec[1].startswith('-- Condition:')}
    listed -= reached_from(specs, CLOSURE)
    for crate in libraries_of(top):
        of_crate = [name for name in sorted(listed & set(specs)) if name.split('.')[0] == crate]
        said = [f'[{name.split(".", 2)[2]}](../{path}): {sentence_of([first.partition(": ")[2]])}'
                for name in of_crate for path, first, _ in [specs[name]]]
        if said:
            yield from wrapped([f'- `{crate}`. ' + '; '.join(said) + '.'])


# The lists of each page: what the comment before each says, and what makes its lines.
LISTS = {'docs/crates.md': [('crates', crates)], 'docs/definitions.md': [('files', files)],
         'docs/adding.md': [(f'files of {name}', functools.partial(list_of, name=name)) for name in OPERATIONS]}


def page_with_lists(top, path):
    """A page with its lists, as the sources say them now."""
    page = read(os.path.join(top, path))
    for name, lines in LISTS[path]:
        begin, end = f'<!-- {name}: made by scripts/pages --write -->\n', '<!-- end -->\n'
        before, found, rest = page.partition(begin)
        if not found or end not in rest:
            raise SystemExit(f'{path}: no comment {begin.strip()} with its {end.strip()}')
        page = before + begin + '\n'.join(lines(top)) + '\n' + end + rest.partition(end)[2]
    return page


def stale(top, *paths):
    for path in paths:
        if page_with_lists(top, path) != read(os.path.join(top, path)):
            yield f'{path}: a list is not the present one; run scripts/pages --write'


def lists(top):
    """Pages whose lists are not what the sources say."""
    yield from stale(top, 'docs/crates.md', 'docs/definitions.md')


def adding(top):
    """Lists of files of docs/adding.md that aren't the present ones."""
    yield from stale(top, 'docs/adding.md')


def write_lists(top):
    """Writes the lists of all pages."""
    for path in LISTS:
        write(os.path.join(top, path), page_with_lists(top, path))
