"""What scripts/pages checks of the facts on the pages, and of what is made beside them: recipes, messages, the gallery,
lists of files, the drawings of architecture.md, completions, colours of editors."""
import glob
import os
import re
import subprocess

from page_commands import TOOLS, commands_of
from page_text import TICKED, contracts_of, pages_of, without_blocks
from repository import crates_of, read, sources_of


def recipes(top):
    """Recipes without another tool, or whose other tool prints a number that the report doesn't have."""
    for section in re.split(r'^(?=## )', read(os.path.join(top, 'docs', 'recipes.md')), flags=re.M)[1:]:
        title = section.splitlines()[0][3:]
        ours, others = set(), []
        for _, command, printed in commands_of(section):
            numbers = re.findall(r'-?\d+', ' '.join(printed))
            ours.update(numbers if command.startswith('streamrun') else [])
            others += [] if command.startswith('streamrun') else numbers
        if not ours or not others:
            yield f'recipes.md: {title}: not in two tools'
        for number in others:
            if number not in ours:
                yield f'recipes.md: {title}: {number} is in no report of this recipe'


# Where the texts of messages stand, and how each is found there.
WRITTEN = r'(?:write_str\(|write!\(f, )"([^"]+)"'
MESSAGES = [
    ('columns/src/fault.rt', WRITTEN),
    ('lambda_expr/src/fault.rt', WRITTEN),
    ('job_language/src/fault.rt', WRITTEN),
    ('engine/src/fault.rt', WRITTEN),
    ('lambda_values/src/fault.rt', r'=> "([^"]+)"'),
    ('streamrun/src/main.rt', r'(?:"streamrun: |Some\(")([^"]+)"'),
    ('streamrun/src/advice.rt', r'(?:Some\(|TABLE_OPTION: &str = )"([^"]+)"'),
]


def messages(top):
    """Messages that docs/faults-and-messages.md leaves out, and lines there that their files don't give."""
    page = read(os.path.join(top, 'docs', 'faults-and-messages.md'))
    ticked = ' | '.join(TICKED.findall(without_blocks(page)))
    for path, pattern in MESSAGES:
        texts = re.findall(pattern, read(os.path.join(top, 'crates', path)))
        if not texts:
            yield f'crates/{path}: no message is found in it'
        for text in texts:
            if not re.search(re.sub(r'\\?\{[^}]*\}', r'\\S+', re.escape(text)), ticked):
                yield f'faults-and-messages.md: {text!r} of crates/{path} is not there'
    for row in re.findall(r'^\| `((?:jobs|columns): .*)', page, re.M):
        line = re.sub(r'\b[LCR]\b', r'\\d+', row.split('`')[0])
        files = re.findall(r'`([\w/]+)\.jobs`', row)
        if not files and 'read failed' not in line:
            yield f'faults-and-messages.md: {line} is given by no file'
        for name in files:
            fault = next((path for path in (os.path.join(top, it, name + '.fault') for it in ('examples', 'tests')) if os.path.exists(path)), None)
            if not fault or not re.fullmatch(f'streamrun: {line}\n', read(fault)):
                yield f'faults-and-messages.md: {name}.jobs does not give {line}'


def gallery(top):
    """Reports of examples/gallery that aren't what the tables give."""
    yield from lines_of_script(top, 'reference/gallery', '--check')


def libraries_of(top):
    """For each crate what it stands on, but for the crates of tests."""
    return {name: below for name, below in crates_of(top).items() if not name.startswith('test_')}


def floors(top):
    """Crates that architecture.md doesn't draw, or not above what they stand on."""
    crates = libraries_of(top)
    page = read(os.path.join(top, 'docs', 'architecture.md'))
    drawn, floor = {}, 0
    for line in re.search(r'^## The floors.*?^```\n(.*?)^```$', page, re.M | re.S)[1].splitlines():
        number = re.match(r' *(\d+) ', line)
        floor = int(number[1]) if number else floor
        drawn.update((name, floor) for name in re.findall(r'\w+', line) if name in crates)
    for name, below in crates.items():
        if name not in drawn:
            yield f'architecture.md: {name} is not drawn'
        for other in below:
            if name in drawn and other in drawn and drawn[name] <= drawn[other]:
                yield f'architecture.md: {name} stands on {other}, which is drawn on no lower floor'


# A name of one crate that another one gives out, since callers look for it there: what a walk is made of, and what a reader of
# column files gives.
GIVEN_OUT = {('trace', 'lambda_values::Item'), ('columns', 'tables::Columns')}


def type_names(top):
    """Public types, traits and constants that stand in two crates, exported or not, and names of a crate that another one gives out."""
    found, crates = {}, crates_of(top)
    for crate, path in sources_of(top):
        for given, other in re.findall(r'^ *pub use ((\w+)[^;]*);', read(path), re.M):
            if other in crates and (crate, given) not in GIVEN_OUT:
                yield f'{crate} gives out names of {other}'
        for word in re.findall(r'^ *pub (?:struct|enum|trait|type|const) (\w+)', read(path), re.M):
            if found.setdefault(word, crate) != crate:
                yield f'{word} is a public name of {found[word]} and of {crate}'


def tests_of(top, crate):
    """Who tests a crate, as its `//!` page says it: files of the crates of tests that use it, and runs of the programs."""
    users = {}
    for tests, path in sources_of(top):
        if tests.startswith('test_') and re.search(rf'^use {crate}::', read(path), re.M):
            users.setdefault(tests, []).append(f'`{os.path.basename(path)}`')
    found = [f'{", ".join(sorted(files))} of `{tests}`' for tests, files in sorted(users.items())]
    return '; '.join(found + ['runs of the programs in `tests`'] if is_run(top, crate) else found)


def is_run(top, crate):
    """Whether a program is this crate, or stands on it."""
    crates, reached = crates_of(top), ['streamrun', 'streamrun_merge']
    for name in reached:
        reached += [other for other in crates.get(name, []) if other not in reached]
    return crate in reached


def tested(top):
    """Crates whose `//!` page doesn't end with «Tested: » and the files of tests that use the crate."""
    for crate in libraries_of(top):
        path = next(path for _, path in sources_of(top, crate) if os.path.basename(path) in ('lib.rt', 'main.rt'))
        page = ' '.join(line[4:] for line in re.match(r'(?://!.*\n)+', read(path))[0].splitlines())
        wanted = f'Tested: {tests_of(top, crate)}.'
        if not page.endswith(wanted):
            yield f'{crate}: its page does not end with "{wanted}"'


def marked(top, crate, name):
    """Whether the comment of a public item, or the page of its crate, says that it is for other programs."""
    page = re.sub(r'\n//! ?', ' ', read(os.path.join(top, 'crates', crate, 'src', 'lib.rt')).split('#![')[0])
    if 'or other programs' in page:
        return True
    item = r'((?:^[ \t]*///.*\n)+)(?:^[ \t]*#\[.*\n)*^[ \t]*pub (?:fn|struct|enum|trait) %s\b' % name
    texts = (read(path) for _, path in sources_of(top, crate))
    return any('or other programs' in comment for text in texts for comment in re.findall(item, text, re.M))


def others(top):
    """Calls that promises.md lists as calls for other programs, and whose comments don't say so."""
    section = read(os.path.join(top, 'docs', 'promises.md')).split('\n## Calls for other programs\n')[1].split('\n## ')[0]
    for crate, calls in re.findall(r'^\| `(\w+)` \| (.*?) \|', section, re.M):
        for name in re.findall(r'`(?:\w+::)?(\w+)`', calls) or ['']:
            if not marked(top, crate, name):
                yield f'{crate}: the comment of {name or "lib.rt"} does not say "for other programs"'


# What is in backquotes and looks like a path, or like the name of a file.
A_PATH = re.compile(r'(?=.*[A-Za-z])[\w.+-]+(?:/[\w.+-]+)+/?|[\w+-]+\.(?:rt|antt|edit|jobs|csv|py|md)')


def ends_of_paths(top):
    """Each path of the repository, and what is left of it without its first folders: pages name files as short as they can."""
    found = set()
    for folder, folders, files in os.walk(top):
        folders[:] = [name for name in folders if name not in ('.git', 'out')]
        for name in folders + files:
            parts = os.path.relpath(os.path.join(folder, name), top).split(os.sep)
            found.update('/'.join(parts[first:]) for first in range(len(parts)))
    return found


def is_there(top, known, path):
    """Whether a path is one of the repository, or names a wrong body by its crate."""
    crate, _, edit = path.partition('/')
    return path in known or os.path.exists(os.path.join(top, 'crates', crate, 'wrong-bodies', edit + '.edit'))


def missing_paths(top):
    """Paths and names of files in backquotes that aren't there. A word in capitals is a placeholder."""
    known = ends_of_paths(top)
    for page in pages_of(top) + [os.path.join(top, 'CONTRIBUTING.md')]:
        for number, line in enumerate(without_blocks(read(page)).splitlines(), 1):
            for word in ' '.join(TICKED.findall(line)).split():
                path = word.strip(',;').rstrip('/')
                if A_PATH.fullmatch(path) and not re.search(r'\b[A-Z]{2,}\b', path) and not is_there(top, known, path):
                    yield f'{os.path.basename(page)}:{number}: {path} is not there'


def paths(top):
    """Paths in backquotes, and rows of the path of a job in architecture.md, whose file or function isn't there."""
    yield from missing_paths(top)
    page = read(os.path.join(top, 'docs', 'architecture.md'))
    block = re.search(r'^The files and functions on that path.*?^```\n(.*?)^```$', page, re.M | re.S)[1]
    for path, functions in re.findall(r'^ *(\w+/src/\w+\.rt) +(\w[\w:]*(?:, \w+)*)', block, re.M):
        file = os.path.join(top, 'crates', path)
        text = read(file) if os.path.isfile(file) else ''
        for function in re.split(r', |::', functions):
            if not re.search(r'\b(?:fn|struct|impl(?:<[^>]*>)?) %s\b' % function, text):
                yield f'architecture.md: {path} has no {function}'
    for crate, function in re.findall(r'^ *(\w+) {2,}([a-z]\w+_\w+) ', block, re.M):
        if function not in contracts_of(top).get(crate, {}):
            yield f'architecture.md: {crate} has no {function}'


def lines_of_script(top, *command):
    """What a script prints, or its status if it prints nothing and fails."""
    run = subprocess.run([os.path.join(top, *command[0].split('/')), *command[1:]], stdout=subprocess.PIPE, text=True, check=False)
    return run.stdout.splitlines() or ([f'status {run.returncode}'] if run.returncode else [])


def worked(top):
    """The source with the worked answers, if it isn't what they are."""
    yield from lines_of_script(top, 'tests/soak/worked_jobs', '--check')


def shell(top):
    """Completions, and options and statuses of the man page, that aren't what the tables of completions/ say; other versions."""
    yield from lines_of_script(top, 'scripts/shell_files', '--check', top)


def manual(top):
    """A page of the language for man that was made of other texts, or was changed."""
    yield from lines_of_script(top, 'scripts/manual', '--check', top)


def helps(top):
    """Scripts that don't say by --help what they do. Without an answer install and test would begin to build, so they aren't run."""
    for path in sorted(glob.glob(os.path.join(top, 'scripts', '*')) + glob.glob(os.path.join(top, 'tests', '*'))):
        name = os.path.relpath(path, top)
        if os.path.isfile(path) and os.access(path, os.X_OK) and name not in ('scripts/install', 'scripts/test'):
            run = subprocess.run([path, '--help'], stdout=subprocess.PIPE, stderr=subprocess.DEVNULL, stdin=subprocess.DEVNULL, text=True,
                                 timeout=60, check=False)
            if run.returncode or name not in run.stdout:
                yield f'{name} --help: status {run.returncode}, and no text that says how it is called'


def editors(top):
    """Tokens of examples/ that an editor gives another colour than the grammar says."""
    for line in lines_of_script(top, 'tests/editors'):
        if not line.startswith('editors: '):
            yield line


def needs(top):
    """A tool that commands of a page need, and that stands neither in its first paragraphs nor in every system."""
    for page in pages_of(top):
        text = read(page)
        head = text[:text.find('```console')]
        named = {tool for _, command, _ in commands_of(text) for tool in re.findall(r'\b(%s)\b' % '|'.join(TOOLS), command)}
        missing = sorted(tool for tool in named - {'bash', 'man'} if not re.search(rf'`[^`]*\b{tool}\b[^`]*`', head))
        if missing:
            yield f'{os.path.relpath(page, top)}: its commands need {", ".join(missing)}, and its head does not say so'
