"""What scripts/pages checks of the files of definitions: what they import, what their first lines say, whether the page of
definitions has them, and which cases they leave to a last row."""
import glob
import os
import re

from page_text import DEFINITION, TICKED
from repository import read

# Values that mean a refusal: what a last row forgets is then refused, and never given a value. `untyped` has no type and is refused
# as an operand; `lexeme.Other` is in no expression; `Single Other` is no listed operator.
REFUSALS = ['None', 'false', '⊥', 'Err', 'untyped', 'lexeme.Other', 'Single Other']
REFUSED = re.compile('|'.join(re.escape(it) + r'(?![\w.])' for it in REFUSALS))
# The file that says what a run writes: Meaning is what it rests on.
CLOSURE = ['engine.specs.Run']
IMPORT = re.compile(r'^(?:pub )?use Rattle\.([\w.+]+?)(?:\.\{|\.\*|$| )', re.M)
CONSTRUCTOR = re.compile(r'^  ([a-z]\w*) :', re.M)


def head_of(text):
    """The comment at the head of a file, as one line, up to the line that ends a sentence."""
    head = ''
    for line in text.splitlines():
        if not line.startswith('-- '):
            break
        head += line if not head else line[2:]
        if head.endswith('.'):
            break
    return head


def specs_of(top):
    """For each file of definitions, as imports name it: its path, what its head says, and what it imports."""
    found = {}
    for path in glob.glob(os.path.join(top, 'crates', '*', 'specs', '**', '*.antt'), recursive=True):
        name = os.path.relpath(path, os.path.join(top, 'crates'))[:-len('.antt')].replace(os.sep, '.')
        text = read(path)
        found[name] = os.path.relpath(path, top), head_of(text), IMPORT.findall(text)
    return found


def reached_from(specs, begin):
    """The files that some import, directly or through others, and these."""
    reached, waiting = set(), list(begin)
    while waiting:
        name = waiting.pop()
        if name in specs and name not in reached:
            reached.add(name)
            waiting += specs[name][2]
    return reached


def comments(top):
    """Files of definitions that a comment of a source names, and that aren't there."""
    for path in sorted(glob.glob(os.path.join(top, 'crates', '*', '*', '**', '*.*'), recursive=True)):
        if not path.endswith(('.rt', '.antt')) or f'{os.sep}out{os.sep}' in path:
            continue
        for crate, names in re.findall(r'\b(\w+)/specs/([A-Z]\w*(?:, [A-Z]\w*)*)', read(path)):
            for name in names.split(', '):
                if not os.path.exists(os.path.join(top, 'crates', crate, 'specs', f'{name}.antt')):
                    yield f'{os.path.relpath(path, top)}: {crate}/specs/{name}.antt is not there'


def meanings(top):
    """Files whose first line says another word than what rests on them: Meaning is exactly what Run.antt imports, directly or
    through others."""
    specs = specs_of(top)
    reached = reached_from(specs, CLOSURE)
    for name, (path, first, _) in sorted(specs.items()):
        is_meaning = first.startswith('-- Meaning:')
        if not first.startswith(('-- Meaning: ', '-- Condition: ', '-- Design: ')):
            yield f'{path}: its first line says none of Meaning, Condition and Design'
        elif is_meaning and name not in reached:
            yield f'{path}: Run.antt imports it nowhere, so its first line begins with -- Design:'
        elif name in reached and not is_meaning:
            yield f'{path}: Run.antt rests on it, so its first line begins with -- Meaning:'


def definitions(top):
    """Files on which Run.antt rests that docs/definitions.md doesn't link, and public definitions there that it doesn't name."""
    page = read(os.path.join(top, 'docs', 'definitions.md'))
    named = set(re.findall(r"[A-Za-z_0-9']+", ' '.join(TICKED.findall(page))))
    specs = specs_of(top)
    for name in sorted(reached_from(specs, CLOSURE)):
        path = specs[name][0]
        if f'](../{path})' not in page:
            yield f'{path}: docs/definitions.md has no link to it'
        lines = read(os.path.join(top, path)).splitlines()
        for number, line in enumerate(lines):
            head = DEFINITION.match(line)
            if not head or head.group(1) in named:
                continue
            above = number - 1
            while above > 0 and lines[above - 1].startswith('--'):
                above -= 1
            if not lines[above].startswith('-- helper:'):
                yield f'{path}: {head.group(1)} is not in docs/definitions.md and no helper'


def constructors_of(top):
    """The constructors of all types of definitions whose names begin with a small letter."""
    found = {'true', 'false', 'zero', 'refl', 'no', 'yes', 'none', 'some'}
    for name in specs_of(top).values():
        for block in re.findall(r'^pub data .*? where\n((?:  .*\n)*)', read(os.path.join(top, name[0])), re.M):
            found.update(CONSTRUCTOR.findall(block))
    return found


def patterns_of(row, name):
    """The patterns of a row of a definition, and what it gives."""
    depth, parts, at = 0, [''], len(name)
    while at < len(row):
        if depth == 0 and row.startswith(' = ', at):
            break
        depth += {'(': 1, '{': 1, '[': 1, ')': -1, '}': -1, ']': -1}.get(row[at], 0)
        if row[at] == ' ' and depth == 0:
            parts.append('')
        else:
            parts[-1] += row[at]
        at += 1
    return [part for part in parts if part and not part.startswith('{')], row[at + 3:].strip()


def takes_all(patterns, constructors):
    """Whether a pattern is a variable, for each of several."""
    return [bool(re.fullmatch(r"[a-z_][\w']*", pattern)) and pattern not in constructors for pattern in patterns]


def rows_of(text):
    """(name, type, rows) of each definition by rows; a row that goes on in further lines is joined."""
    lines = re.sub(r'\n +', ' ', text).splitlines()
    for number, line in enumerate(lines):
        head = DEFINITION.match(line)
        if head:
            name = head[1]
            rows = []
            for row in lines[number + 1:]:
                if not row.startswith(name + ' '):
                    break
                rows.append(row)
            yield name, line.partition(' : ')[2], rows


def silent_defaults(top):
    """`CRATE FILE NAME` of each definition of a Meaning file whose last row takes all other cases and gives a value."""
    constructors = constructors_of(top)
    for path, first, _ in specs_of(top).values():
        if not first.startswith('-- Meaning:'):
            continue
        for name, kind, rows in rows_of(read(os.path.join(top, path))):
            split = [patterns_of(row, name) for row in rows]
            if len(split) < 2 or kind.endswith('Type 0'):
                continue
            variables = [takes_all(patterns, constructors) for patterns, _ in split]
            asked = [at for at in range(len(variables[0])) if not all(row[at] for row in variables if at < len(row))]
            last, value = split[-1]
            is_default = all(at < len(last) and variables[-1][at] for at in asked)
            if is_default and not REFUSED.match(value):
                _, crate, _, file = path.split(os.sep)[:4]
                yield f'{crate} {file[:-len(".antt")]} {name}'


def defaults(top):
    """Definitions of Meaning files whose last row takes all other cases, in silence, and gives a value."""
    for name in sorted(silent_defaults(top)):
        yield f'{name}: its last row takes all other cases and gives a value; write a row for each'
