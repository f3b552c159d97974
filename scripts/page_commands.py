"""The commands of the pages, run as a reader would copy them: scripts/pages --run calls this.

A block that begins with ```console has commands, each after '$ ' (it goes on in the next line after a backslash, and
while a quote is open), and after each the lines that it prints. A command runs in a folder that has examples/, reference/ and what else the
repository has, with the program on PATH as `streamrun`, and `streamrun-merge` from beside it or from its crate. It has to end with status 0 and to print just these lines,
standard error among them. Commands of one page share the folder, so a later one may read what an earlier one wrote.
Answers in the text are run too, all answers of a page as one file of version 3 over examples/accounts.csv: `JOB` is `ANSWER`, or is a
number, and `NAME = JOB` gives `NAME = ANSWER`. The recipes are run over random tables too (page_recipes.py).

A page whose commands leave files has to begin with one that goes into a folder of its own.

A command that names a tool of TOOLS that isn't installed, a script that runs Java, or a program of Python that imports what
isn't installed, is skipped, and counted, and so is each later one that wants a file which it would have written. python3 is one
that has pandas, if there is one.
"""
import functools
import os
import re
import shutil
import subprocess
import tempfile

CONSOLE = re.compile(r'^```console\n(.*?)^```$', re.M | re.S)
TOOLS = ('awk', 'bash', 'datamash', 'fish', 'gnuplot', 'java', 'jq', 'make', 'man', 'mawk', 'mlr', 'python3', 'sqlite3', 'vim', 'zcat', 'zsh')
SECONDS = 60


def goes_on(command):
    """Whether a command goes on in the next line: after a backslash, or with an open quote."""
    quote, at = '', 0
    while at < len(command):
        if command[at] == '\\' and quote != "'":
            at += 1
            if at == len(command):
                return True
        elif command[at] in '\'"' and quote in ('', command[at]):
            quote = '' if quote else command[at]
        at += 1
    return quote != ''


def commands_of(text):
    """(line number, command, what it prints) of each command of a page."""
    for block in CONSOLE.finditer(text):
        number = text.count('\n', 0, block.start(1)) + 1
        at, command, printed = number, None, []
        for line in block[1].splitlines():
            if command is not None and not printed and goes_on(command):
                command += '\n' + line
            elif line.startswith('$ '):
                if command is not None:
                    yield at, command, printed
                at, command, printed = number, line[2:], []
            else:
                printed.append(line)
            number += 1
        if command is not None:
            yield at, command, printed


def answers_in(text):
    """(line number, job, answer) of each answer in the text of a page; jobs that name other jobs are left out."""
    for found in re.finditer(r'`(?:(\w+) = )?([^`]+\))`\s+(?:is|gives)\s+(?:`(?:(\w+) = )?([^`]+)`|(-?\d+))', text):
        name, job, same, answer, number = found.groups()
        is_job = re.match(r'(?:LongStream\.)?(?:range|rangeClosed|of|empty|column|concat)\(', job)
        if is_job and name == same and not re.search(r'result\(|\$', job):
            yield text.count('\n', 0, found.start()) + 1, ' '.join(job.split()), ' '.join((answer or number).split())


def wrong_answers(text, top, program):
    """(line number, fault) of each answer in the text that the program doesn't give, and how many it gives."""
    said = list(answers_in(text))
    with tempfile.NamedTemporaryFile('w', suffix='.jobs') as file:
        file.writelines(['version 3\n', *(f'answer_{place} = {job}\n' for place, (_, job, _) in enumerate(said))])
        file.flush()
        columns = os.path.join(top, 'examples', 'accounts.csv')
        run = subprocess.run([program, '--language', '3', '--columns', columns, file.name], stdout=subprocess.PIPE, stderr=subprocess.STDOUT,
                             text=True, timeout=SECONDS, check=False)
    given = dict(line.split(' = ', 1) for line in run.stdout.splitlines() if ' = ' in line)
    wrong = [(number, f'{job} is {given.get(f"answer_{place}", run.stdout.strip())} and not {answer}')
             for place, (number, job, answer) in enumerate(said) if given.get(f'answer_{place}') != answer]
    return wrong, len(said) - len(wrong)


def missing_tools(command, top='.'):
    """The tools that a command names, and the modules that its program of Python imports, that aren't installed."""
    named = set(re.findall(r'\b(%s)\b' % '|'.join(TOOLS), command))
    if '<(' in command:
        named.add('bash')
    modules = set()
    for program in re.findall(r'python3 (\S+\.py)\b', command):
        with open(os.path.join(top, program), encoding='utf-8') as file:
            modules.update(re.findall(r'^(?:import|from) (\w+)', file.read(), re.M))
    missing = {tool for tool in named if not shutil.which(tool)}
    return sorted(missing | {module for module in modules - {'streamrun'} if not imports(page_python(), module)})


def written_by(command):
    """The files that a command writes into its folder."""
    return re.findall(r'(?:>|\btee)\s*([\w-]+\.\w+)', command)


def names(command, file, top):
    """Whether a command names a file of its folder, or names one of the repository that does."""
    texts = [command]
    for word in re.findall(r'[\w./-]+', command):
        if os.path.isfile(os.path.join(top, word)):
            with open(os.path.join(top, word), encoding='utf-8', errors='replace') as source:
                texts.append(source.read())
    return any(re.search(rf'(?<![\w./-]){re.escape(file)}(?!\w)', text) for text in texts)


@functools.lru_cache(maxsize=None)
def imports(python, module):
    """Whether a Python has a module."""
    return subprocess.run([python, '-c', f'import {module}'], stdout=subprocess.DEVNULL, stderr=subprocess.DEVNULL, check=False).returncode == 0


def page_python():
    """The Python that commands of pages run: one that has pandas, if there is one."""
    found = [*filter(shutil.which, ('python3', '/usr/bin/python3'))]
    return shutil.which(next((python for python in found if imports(python, 'pandas')), found[0]))


def folder_for(top, work, program):
    """A folder with links to all that the repository has, and what a command finds on its way."""
    folder, programs = os.path.join(work, 'repository'), os.path.join(work, 'programs')
    os.mkdir(folder)
    os.mkdir(programs)
    for name in os.listdir(top):
        if not name.startswith('.git'):
            os.symlink(os.path.join(top, name), os.path.join(folder, name))
    os.symlink(program, os.path.join(programs, 'streamrun'))
    merger = os.path.join(os.path.dirname(program), 'streamrun-merge')
    built = os.path.join(top, 'crates', 'streamrun_merge', 'out', 'streamrun_merge')
    os.symlink(merger if os.path.exists(merger) else built, os.path.join(programs, 'streamrun-merge'))
    python = os.path.join(programs, 'python3')
    with open(python, 'w', encoding='utf-8') as file:
        file.write(f'#!/bin/sh\nexec {page_python()} -B "$@"\n')
    os.chmod(python, 0o755)
    return folder, {**os.environ, 'PATH': programs + os.pathsep + os.environ['PATH'], 'PYTHONPATH': os.path.join(top, 'python'),
                    'LC_ALL': 'C.UTF-8', 'TMPDIR': work}


def ran(command, folder, environment):
    """A command that has ended: by bash if it wants that, else by the shell of scripts."""
    shell = 'bash' if '<(' in command else 'sh'
    return subprocess.run([shell, '-c', command], cwd=folder, env=environment, stdin=subprocess.DEVNULL,
                          stdout=subprocess.PIPE, stderr=subprocess.STDOUT, timeout=SECONDS, check=False)


def printed_by(command, folder, environment):
    return ran(command, folder, environment).stdout.decode(errors='replace')


def wrong_with(command, printed, folder, environment):
    """What is wrong with a command, or nothing."""
    try:
        run = ran(command, folder, environment)
    except subprocess.TimeoutExpired:
        return f'not done after {SECONDS} seconds'
    lines = run.stdout.decode(errors='replace').splitlines()
    if lines != printed:
        for place in range(max(len(lines), len(printed))):
            said = printed[place] if place < len(printed) else None
            came = lines[place] if place < len(lines) else None
            if said != came:
                return f'line {place + 1} of what it prints is {came!r} instead of {said!r}'
    return f'status {run.returncode}' if run.returncode else None


def has_own_folder(text):
    """Whether the first command of a page goes into a new folder."""
    first = next((command for _, command, _ in commands_of(text)), '')
    return 'cd "$(mktemp -d)"' in first


def run_pages(top, pages, program):
    """Runs the commands of the pages, prints a line for each fault, and answers how many passed and failed."""
    passed = failed = 0
    skipped = {}
    for page in pages:
        with tempfile.TemporaryDirectory() as work, open(page, encoding='utf-8') as file:
            text = file.read()
            answers, right = wrong_answers(text, top, program)
            passed, failed = passed + right, failed + len(answers)
            for number, wrong in answers:
                print(f'commands: {os.path.relpath(page, top)}:{number}: {wrong}')
            folder, environment = folder_for(top, work, program)
            unwritten = {}
            for number, command, printed in commands_of(text):
                missing = missing_tools(command, top) or next((tools for file, tools in unwritten.items() if names(command, file, top)), [])
                unwritten.update(dict.fromkeys(written_by(command), missing) if missing else {})
                wrong = None if missing else wrong_with(command, printed, folder, environment)
                for tool in missing:
                    skipped[tool] = skipped.get(tool, 0) + 1
                passed += not missing and not wrong
                failed += bool(wrong)
                if wrong:
                    print(f'commands: {os.path.relpath(page, top)}:{number}: {command.splitlines()[0]}: {wrong}')
            left = [entry.name for entry in os.scandir(folder) if not entry.is_symlink()]
            if left and not has_own_folder(text):
                failed += 1
                print(f'commands: {os.path.relpath(page, top)}: leaves {", ".join(sorted(left)[:3])}, and begins in no folder of its own')
    for tool, count in sorted(skipped.items()):
        print(f'commands: {count} skipped, since {tool} is not installed')
    return passed, failed
