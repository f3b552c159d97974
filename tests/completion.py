"""Types beginnings of command lines into a bash on a pseudo-terminal, each with a tab after it, and sees what it makes of them."""
import os
import pty
import re
import select
import subprocess
import tempfile
import time

from running import write

HELPERS = '/usr/share/bash-completion/bash_completion'
FILES = ['two words.jobs', 'plain.jobs', 'notes.txt', 'table.csv', 'a table.csv', 'below/inner.jobs']
# What is typed, and what stands on the line after a tab.
LINES = [
    ('streamrun two', r'streamrun two\ words.jobs '),
    ('streamrun pl', 'streamrun plain.jobs '),
    ('streamrun no', 'streamrun no'),
    ('streamrun bel', 'streamrun below/'),
    ('streamrun --columns ta', 'streamrun --columns table.csv '),
    ('streamrun --columns=ta', 'streamrun --columns=table.csv '),
    (r'streamrun --columns=a\ t', r'streamrun --columns=a\ table.csv '),
    ('streamrun --workers=6', 'streamrun --workers=64 '),
    ('streamrun --workers 6', 'streamrun --workers 64 '),
    ('streamrun --threshold=104', 'streamrun --threshold=1048576 '),
    ('streamrun --separator=t', 'streamrun --separator=tab '),
    ('streamrun --separator t', 'streamrun --separator tab '),
    ('streamrun --blank ta', 'streamrun --blank ta'),
    ('streamrun --json=', 'streamrun --json='),
    ('streamrun --json two', r'streamrun --json two\ words.jobs '),
]
SECONDS = 20


class Bash:
    """An interactive bash in a folder, which prints the line that is being typed when it gets a certain key."""

    def __init__(self, folder, completion):
        self.terminal, end = pty.openpty()
        environment = {'PATH': os.environ['PATH'], 'HOME': folder, 'TERM': 'dumb', 'LC_ALL': 'C.UTF-8', 'PS1': ''}
        self.child = subprocess.Popen(['bash', '--norc', '--noprofile', '-i'], cwd=folder, env=environment, stdin=end, stdout=end, stderr=end,
                                      start_new_session=True)
        os.close(end)
        self.type(f'. {HELPERS}; . "{completion}"\n')
        self.type(r'''bind -x '"\C-g": printf "\n<<%s>>\n" "$READLINE_LINE"'; bind 'set bell-style none'; echo '<<'ready'>>' ''' + '\n')
        self.shown()

    def type(self, text):
        os.write(self.terminal, text.encode())

    def shown(self):
        """What it prints next between << and >>."""
        text, end = '', time.monotonic() + SECONDS
        while time.monotonic() < end:
            if select.select([self.terminal], [], [], 0.1)[0]:
                text += os.read(self.terminal, 65536).decode(errors='replace')
            found = re.search(r'\n<<(.*)>>', text)
            if found:
                return found[1].rstrip('\r')
        return f'nothing: {text!r}'

    def completed(self, line):
        """The line after a tab; it is wiped then."""
        self.type(line + '\t\x07')
        shown = self.shown()
        self.type('\x01\x0b')
        return shown

    def end(self):
        self.child.kill()
        self.child.wait()
        os.close(self.terminal)


def shortest(option, options):
    """The shortest beginning of an option that no other one has, after its minus signs."""
    for length in range(3 if option.startswith('--') else 2, len(option)):
        if not any(other != option and other.startswith(option[:length]) for other in options):
            return option[:length]
    return option


def faults_of(completion, options):
    """What bash completes otherwise than it has to, by this file of completions; None if bash-completion isn't installed."""
    if not os.path.exists(HELPERS):
        return None
    with tempfile.TemporaryDirectory() as folder:
        os.mkdir(os.path.join(folder, 'below'))
        for name in FILES:
            write(os.path.join(folder, name), '')
        bash = Bash(folder, completion)
        lines = LINES + [(f'streamrun {shortest(option, options)}', f'streamrun {option} ') for option in options]
        shown = [(line, wanted, bash.completed(line)) for line, wanted in lines]
        bash.end()
    return [f'{line!r} to {found!r} and not to {wanted!r}' for line, wanted, found in shown if found != wanted]
