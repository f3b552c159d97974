"""What scripts/pages checks of the pages' text: listings, code, clauses, words, identifiers, links, sizes."""
import glob
import os
import re

from page_layout import page_wrapped, too_long, torn as torn_lines
from proof_layout import folded
from repository import read, sources_of, write

MOST_WORDS_OF_THE_README, MOST_WORDS_OF_A_PAGE, MOST_WORDS = 1000, 6500, 47_144
TICKED = re.compile(r'`([^`]+)`')
CITED = re.compile(r'^[a-z_0-9]+(?:::[A-Za-z_0-9]+)+$')
NAME = re.compile(r'^[a-z_0-9]+$')
WORD = re.compile(r"[A-Za-z_][A-Za-z_0-9']*")
# Words in backquotes that no source has: methods and an error of Rust's std, tools and what they print, and a name that is
# only an example.
OUTSIDE = {'read_to_end', 'write_all', 'WriteZero', 'perf', 'clock', 'row_2', 'jq', 'gnuplot', 'sqlite3', 'Inf', 'inf',
           'mawk', 'miller', 'is_not_empty', 'itsv', 'pipefail', 'select_dtypes', 'ulimit', "integer'"}
DEFINITION = re.compile(r'^(?:abbrev pub|pub data|pub record|def pub|pub abbrev) ([^\s:({]+)')


def files_below(folder):
    return sorted(path for path in glob.glob(os.path.join(folder, '**', '*'), recursive=True) if os.path.isfile(path))


def pages_of(top):
    return [os.path.join(top, 'README.md'), *sorted(glob.glob(os.path.join(top, 'docs', '*.md')))]


def listings(top):
    """Blocks that begin with ```text or ```python and are no file of examples/, word for word."""
    examples = {read(path) for path in examples_of(top)}
    for page in pages_of(top):
        for block in re.findall(r'^```(?:text|python)\n(.*?)^```$', read(page), re.M | re.S):
            if block not in examples and block.replace('\n', '\r\n') not in examples:
                yield f'{os.path.basename(page)}: a listing that is no file of examples/: {block.splitlines()[0]!r}'


def code(top):
    """Listings of code that stand in no test: each has to be part of a file of a crate of tests, the file named above it."""
    for page in pages_of(top):
        text = read(page)
        for block in re.finditer(r'^```rust\n(.*?)^```$', text, re.M | re.S):
            named = TICKED.findall(text[:block.start()].rstrip().splitlines()[-1])
            path = os.path.join(top, named[-1]) if named else top
            is_test = re.match(r'crates/test_\w+/src/', named[-1] if named else '')
            if not is_test or not os.path.isfile(path) or '\n' + block[1] not in read(path):
                yield f'{os.path.basename(page)}: code that stands in no crate of tests: {block[1].splitlines()[0]!r}'


def examples_of(top):
    """The files of examples/, its folders and tests/messages that are texts."""
    paths = [path for folder in ('examples', 'tests/messages') for path in glob.glob(os.path.join(top, folder, '**', '*'), recursive=True)]
    return [path for path in paths if os.path.isfile(path) and is_text(path)]


def is_text(path):
    try:
        read(path)
    except UnicodeDecodeError:
        return False
    return True


def contracts_of(top):
    """For each crate, the heads of its functions by name: all that stands before their bodies."""
    crates = {}
    for crate, path in sources_of(top):
        heads = crates.setdefault(crate, {})
        text = read(path)
        heads.setdefault('', []).append(text)
        for head in re.finditer(r'^[ ]*(?:pub(?:\([a-z]+\))? )?(?:const |unsafe )*fn (\w+)(.*?)^[ ]*(?:\{|\})$', text, re.M | re.S):
            heads.setdefault(head.group(1), []).append(head.group(2))
    return crates


def clauses(top):
    """Calls and clauses that a table names and that do not exist."""
    crates = contracts_of(top)
    for page in pages_of(top):
        for row in read(page).splitlines():
            if not row.startswith('|'):
                continue
            crate = None
            for cell in row.split('|'):
                for part in cell.split(';'):
                    named = TICKED.findall(part)
                    function = None
                    for word in named:
                        first = word.split('::')[0]
                        if CITED.match(word) and first in crates:
                            crate, function = first, word.split('::')[-1]
                            if function not in crates[crate] and not stands_in(crates[crate], function):
                                yield f'{os.path.basename(page)}: {word} is in no source of its crate'
                                function = None
                        elif crate and function and NAME.match(word) and function in crates[crate]:
                            heads = ' '.join(crates[crate][function])
                            if not re.search(r'\b%s\b' % word, heads) and word not in crates[crate]:
                                yield f'{os.path.basename(page)}: {crate}::{function} has no clause {word}'


def stands_in(functions, word):
    """Whether a word is the name of a type, a trait, a variant or a module of a crate."""
    return any(re.search(r'\b%s\b' % word, text) for text in functions[''])


def forbidden(top):
    """The right column of the word table of CONTRIBUTING.md."""
    table = read(os.path.join(top, 'CONTRIBUTING.md')).split('| write | not |')[1]
    for row in table.splitlines()[2:]:
        if not row.startswith('|'):
            break
        yield from TICKED.findall(row.split('|')[2])


def prose_of(path):
    """(line number, prose) of a page, or of the comments and names of tests of a source."""
    previous = ''
    for number, line in enumerate(read(path).splitlines(), 1):
        if path.endswith(('.md', '.1', '.txt')):
            yield number, line
        elif path.endswith('.edit'):
            continue
        elif path.endswith('.antt'):
            if '--' in line:
                yield number, line.split('--', 1)[1]
        elif '//' in line:
            yield number, line.split('//', 1)[1]
        elif previous.strip() == '#[test]':
            yield number, line.replace('_', ' ')
        previous = line


def words(top):
    """Words of the right column of CONTRIBUTING.md's word table in pages, comments and names of tests, but for backquotes."""
    found = re.compile(r'\b(%s)\b' % '|'.join(sorted(forbidden(top), key=len, reverse=True)), re.I)
    paths = pages_of(top) + [os.path.join(top, 'CHANGELOG.md')]
    paths += sorted(glob.glob(os.path.join(top, '*', '**', 'README.md'), recursive=True))
    paths += [os.path.join(top, 'man', 'streamrun.1'), *sorted(glob.glob(os.path.join(top, 'completions', '*.txt')))]
    paths += [path for _, path in sources_of(top)]
    paths += sorted(glob.glob(os.path.join(top, 'crates', '*', 'specs', '**', '*.antt'), recursive=True))
    for path in paths:
        for number, line in prose_of(path):
            for word in found.findall(TICKED.sub('', line)):
                yield f'{os.path.relpath(path, top)}:{number}: {word}'


def words_of_sources(top):
    """For each source of a crate, each script and each example the words in it, and in its path."""
    found = {}
    for pattern in ('crates/*/*/**/*.*', 'scripts/*', 'tools/**/*', 'examples/**/*', 'reference/**/*', 'tests/**/*', 'python/**/*',
                    'bench/**/*', '.ci/*', '*.txt'):
        for path in glob.glob(os.path.join(top, pattern), recursive=True):
            name = os.path.relpath(path, top)
            # scripts/planted has the words that must not be found.
            if os.path.isfile(path) and '/out/' not in name and name != 'scripts/planted' and is_text(path):
                found[name] = set(WORD.findall(read(path))) | set(WORD.findall(name))
    return found


def is_known(first, last, sources):
    """Whether both words of `first::last` stand in one source, or the last one in a source of the crate first."""
    return any(last in words and (first in words or name.startswith(f'crates/{first}/')) for name, words in sources.items())


def without_blocks(text):
    """A page with empty lines instead of its blocks."""
    return re.sub(r'^```.*?^```$', lambda it: '\n' * it[0].count('\n'), text, flags=re.M | re.S)


def identifiers(top):
    """Words in backquotes that stand in no source, script or example, in no name of a file, and in no command of their page; of
    `name::word` both have to stand in one file, or the word in the crate of that name. Words in capitals are placeholders."""
    sources = words_of_sources(top)
    known = set().union(OUTSIDE, *sources.values())
    for page in pages_of(top):
        in_commands = {word for block in re.findall(r'^```console\n(.*?)^```$', read(page), re.M | re.S) for word in WORD.findall(block)}
        for number, line in enumerate(without_blocks(read(page)).splitlines(), 1):
            for ticked in TICKED.findall(line):
                if ticked.startswith('rattle-kit'):
                    continue
                unknown = [word for word in WORD.findall(ticked) if word not in known | in_commands and not word.isupper()]
                pairs = re.findall(r'\b([A-Za-z_]\w*)::(?=([A-Za-z_]\w*))', ticked)
                unknown += [f'{first}::{last}' for first, last in pairs if not is_known(first, last, sources)]
                for word in dict.fromkeys(unknown):
                    yield f'{os.path.basename(page)}:{number}: {word} stands in no source'


def anchors_of(page):
    """The anchors of the headings of a page."""
    for heading in re.findall(r'^#+ (.+)$', read(page), re.M):
        yield re.sub(r'[^\w\- ]', '', heading.lower()).replace(' ', '-')


def targets_of(page):
    """(path, heading) of each link of a page to a file; the heading is empty if the link names none."""
    for target, anchor in re.findall(r'\]\(([^)#\s]*)(?:#([^)\s]+))?\)', read(page)):
        if '://' not in target:
            yield os.path.join(os.path.dirname(page), target) if target else page, anchor


def links(top):
    """Links that lead nowhere: to a file that isn't there, or to a heading that its page hasn't."""
    for page in pages_of(top) + [os.path.join(top, 'CONTRIBUTING.md')]:
        for path, anchor in targets_of(page):
            target = os.path.relpath(path, os.path.dirname(page))
            if not os.path.exists(path):
                yield f'{os.path.basename(page)}: a link to {target}, which is not there'
            elif anchor and anchor not in anchors_of(path):
                yield f'{os.path.basename(page)}: a link to {target}#{anchor}, a heading that is not there'


def wrapped_pages(top):
    return pages_of(top) + [os.path.join(top, name) for name in ('CONTRIBUTING.md', 'CHANGELOG.md')]


def wrap_pages(pages):
    """Lays out anew the paragraphs of pages that have a longer line, and folds the wide lines of definitions and proofs."""
    for page in pages:
        old = read(page)
        new = folded(old) if page.endswith('.antt') else page_wrapped(old)
        if new != old:
            write(page, new)
            print(f'wrapped {os.path.relpath(page)}')
    return 0


def length(top):
    """Pages with too many words, and too many in all of them."""
    counts = {page: len(read(page).split()) for page in wrapped_pages(top)}
    if sum(counts.values()) > MOST_WORDS:
        yield f'the pages have {sum(counts.values())} words, at most {MOST_WORDS}'
    for page, count in counts.items():
        name = os.path.basename(page)
        most = MOST_WORDS_OF_THE_README if name == 'README.md' else MOST_WORDS_OF_A_PAGE
        if count > most:
            yield f'{name} has {count} words, at most {most}'


def torn(top):
    """Lines of paragraphs that begin as an item of a list would."""
    for page in wrapped_pages(top):
        for number in torn_lines(read(page)):
            yield f'{os.path.basename(page)}:{number}: a paragraph goes on with a number and a point; put other words there'


def width(top):
    """Lines of text beyond 100 columns, which `scripts/pages --wrap` lays out anew."""
    for page in wrapped_pages(top):
        for number in too_long(read(page)):
            yield f'{os.path.basename(page)}:{number}: longer than 100 columns; run scripts/pages --wrap'
