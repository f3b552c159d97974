"""What scripts/pages checks of calls, tests and wrong bodies: that each public call is made, and that what promises.md says is
shown by tests, or refused, is."""
import os
import re

from page_text import TICKED
from repository import crates_of, read, script, sources_of

COMMENT = re.compile(r'//.*$')
# It knows the functions of a source.
BUDGET = script('scripts', 'gate_budget')


def block_of(lines, place):
    """The head of the impl block or trait in which a line stands, on one line."""
    first = next((at for at in range(place, -1, -1) if re.match(r'(?:pub )?(?:impl|trait)\b', lines[at])), place)
    last = next(at for at in range(first, place + 1) if '{' in lines[at] or at == place)
    return ' '.join(line.split('{')[0].strip() for line in lines[first:last + 1]).strip()


def type_of(block):
    """The type of an impl block, by the block's head; none of another item."""
    while re.search(r'<[^<>]*>', block):
        block = re.sub(r'<[^<>]*>', '', block)
    named = re.fullmatch(r'impl (?:.* for )?&?(?:\w+::)*(\w+)(?: where.*)?', block.strip())
    return named[1] if named else ''


class Function:
    """A function of a source: where it stands, whether others may call it, and the code of its body."""

    def __init__(self, crate, lines, text, found):
        self.name, first, body, last = found
        self.crate, self.text = crate, text
        block = block_of(lines, first) if lines[first].startswith(' ') else ''
        self.type, self.is_of_trait = type_of(block), block.startswith(('trait', 'pub trait')) or ' for ' in block
        self.is_public = lines[first].strip().startswith('pub fn')
        self.is_test = first > 0 and lines[first - 1].strip() == '#[test]'
        head = ' '.join(lines[first:max(body, first) + 1])
        self.takes_self = bool(re.search(r"\(\s*(?:mut |&(?:'\w+ )?(?:mut )?)?self\b", head))
        # A law says something in its contract, and does nothing.
        self.is_law = lines[last].strip() == '{}'
        self.code = '\n'.join(COMMENT.sub('', line) for line in lines[body + 1:last])
        self.words = set(re.findall(r'\w+', self.code))

    def shown(self):
        return f'{self.crate}::' + (f'{self.type}::' if self.type else '') + self.name

    def is_called_by(self, caller, types, is_alone):
        """Whether a function's code names it. `types` are its type and other names of it, and `is_alone` says that no other type has
        a method of this name; a method of two types belongs to the type that the caller's file names."""
        if self.is_of_trait:
            return bool(re.search(rf'[.:]{self.name}\b', caller.code))
        paths = re.findall(rf'(\.)?(?:\b(\w+)(?:::<[^;()]*>)?::)?\b{self.name}\b(?!: )', caller.code)
        if not self.type:
            return any(not dot and not path[:1].isupper() for dot, path in paths)
        if any(path in types or path == 'Self' and caller.type == self.type for _, path in paths):
            return True
        is_named = is_alone or caller.type == self.type or any(re.search(rf'\b{it}\b', caller.text) for it in types)
        return self.takes_self and is_named and bool(re.search(rf'\.{self.name}(?:::<[^;()]*>)?\(', caller.code))


def functions_of(top):
    """Every function of the crates, and for each type the other names that it is given."""
    functions, names = [], {}
    for crate, path in sources_of(top):
        lines = BUDGET.lines_of(path)
        text = '\n'.join(COMMENT.sub('', line) for line in lines)
        functions += [Function(crate, lines, text, found) for found in BUDGET.functions_of(lines)]
        for name, kind in re.findall(r'\btype (\w+)[^=;]*= *(?:\w+::)*(\w+)', text):
            names.setdefault(kind, {kind}).add(name)
        for kind, name in re.findall(r'\b([A-Z]\w+) as ([A-Z]\w+)', text):
            names.setdefault(kind, {kind}).add(name)
    for _ in range(3):
        for kind in names:
            names[kind] = names[kind].union(*(names.get(it, {it}) for it in names[kind]))
    return functions, names


def below_of(top):
    """For each crate all that it stands on."""
    found = {}
    for name, below in crates_of(top).items():
        found[name] = {name}.union(*(found.get(it, {it}) for it in below))
    return found


def reached_from(roots, functions, names, below):
    """The functions that these call, directly or through others, as far as names say, and they themselves."""
    of_name, reached, waiting = {}, set(roots), list(roots)
    for it in functions:
        of_name.setdefault(it.name, []).append(it)
    while waiting:
        caller = waiting.pop()
        for name in caller.words & of_name.keys():
            is_alone = len({it.type for it in of_name[name] if it.takes_self}) < 2
            for it in of_name[name]:
                if it in reached or not (it.is_of_trait or it.crate in below[caller.crate]):
                    continue
                if it.is_called_by(caller, names.get(it.type, {it.type}), is_alone):
                    reached.add(it)
                    waiting.append(it)
    return reached


def called(top):
    """Public calls of the libraries that neither a program nor a test makes, and those that nothing in a program names and
    promises.md doesn't list as calls for other programs."""
    functions, names = functions_of(top)
    below, mains = below_of(top), [it for it in functions if it.name == 'main']
    of_all = reached_from(mains + [it for it in functions if it.is_test], functions, names, below)
    named = set().union(*(it.words for it in reached_from(mains, functions, names, below)))
    listed = {crate.strip('`'): TICKED.findall(calls) for crate, calls in rows_of(section(top, 'Calls for other programs'))}
    for it in functions:
        if not it.is_public or it.is_law or it.crate.startswith('test_'):
            continue
        words = listed.get(it.crate, [it.crate])
        if it not in of_all:
            yield f'neither the program nor a test calls {it.shown()}'
        elif it.name not in named and words and {it.name, it.type, f'{it.type}::{it.name}'}.isdisjoint(words):
            yield f'promises.md: {it.shown()} is called by no program, and is not among the calls for other programs'


def section(top, title):
    """The part of promises.md below a heading."""
    return read(os.path.join(top, 'docs', 'promises.md')).split(f'\n## {title}\n')[1].split('\n## ')[0]


def rows_of(part):
    """The first two cells of each row of a table, without its head."""
    rows = [[cell.strip() for cell in line.strip('|').split(' | ')] for line in part.splitlines() if line.startswith('| ')]
    return [row[:2] for row in rows[1:]]


def tests_of(top):
    """`CRATE::NAME` of each test in Rattle."""
    return {f'{it.crate}::{it.name}' for it in functions_of(top)[0] if it.is_test}


def lacking(top, word, tests, commands):
    """Why what shows a promise, in backquotes, isn't there; none if it is. A command has to be one of the test command's."""
    if re.fullmatch(r'test_\w+::\w+', word):
        return None if word in tests else 'is no test'
    if not os.path.exists(os.path.join(top, word.split()[0])):
        return 'is not there'
    return None if all(it in commands for it in word.split()) else '.ci/run does not run it'


def lacking_in(top, title, nothing, is_there=lambda word: False):
    """Rows of a table of promises.md without a word in backquotes, and words in backquotes that aren't there or aren't run."""
    tests, commands = tests_of(top), read(os.path.join(top, '.ci', 'run')).split()
    for promise, cell in rows_of(section(top, title)):
        words = TICKED.findall(cell)
        if not words:
            yield f'promises.md: {nothing} {promise}'
        for word in words:
            why = None if is_there(word) else lacking(top, word, tests, commands)
            if why:
                yield f'promises.md: {word} {why}'


def shown(top):
    """Rows of the table of what tests show that name no test, or one that isn't there or isn't run."""
    yield from lacking_in(top, 'Shown by tests', 'no test shows')


def refused(top):
    """Rows of the table of wrong bodies that name no edit and no test, or one that isn't there."""
    def is_edit(word):
        crate, _, edit = word.partition('/')
        return os.path.exists(os.path.join(top, 'crates', crate, BUDGET.FOLDER_OF_EDITS, f'{edit}.edit'))
    yield from lacking_in(top, 'Wrong bodies that are refused', 'nothing refuses:', is_edit)
