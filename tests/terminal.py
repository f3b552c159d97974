"""Runs the program with standard error on a pseudo-terminal, where a run of more than a second shows how far it is.

    python3 tests/terminal.py PROGRAM      called by tests/command_line

What the terminal gets is also given to terminals of 40, 60 and 80 columns that pyte imitates, where it has to stay on one
line; without pyte (python3-pyte) a line says that this was left out. The last line is 'how far a run is: N passed, M failed'. The
status is 0 only if none failed.
"""
import os
import pty
import re
import subprocess
import sys
import tempfile
import threading
import time

from running import Tally, write

try:
    import pyte
except ImportError:
    pyte = None

WIPE = '\r\x1b[K'
# After the files are read, a line of the one short job may come too.
READING = re.compile(r'(?:\r\x1b\[Kstreamrun: \d+ s, reading)+(?:\r\x1b\[Kstreamrun: \d+ s, [01]/1 jobs(?:, \d+\.\d %)?)*\r\x1b\[K')
WALKING = re.compile(r'(?:\r\x1b\[Kstreamrun: \d+ s, (?:reading|\d/3 jobs, \d+\.\d %))+\r\x1b\[K')
# What a line must fit into, and what it may look like after the longest time that a test could wait for.
MOST_COLUMNS, WIDTHS = 39, (40, 60, 80)
LONGEST = '\r\x1b[Kstreamrun: 999 s, 256/256 jobs, 99.9 %'
TOO_LONG = '\r\x1b[Kstreamrun: 3 s, 2 of 7 jobs have answers, 45 % of the items entered'
# Jobs of a file that comes late: the run waits for it for more than a second.
LATE = 's = range(0, 10).sum()\n'
REPORT = 's = 45\n'


def run(program, jobs, one_terminal=False):
    """(status, standard output, what the terminal gets); with one terminal both go there."""
    terminal, end = pty.openpty()
    child = subprocess.Popen([program, '--workers', '4', jobs], stdin=subprocess.DEVNULL, stdout=end if one_terminal else subprocess.PIPE, stderr=end)
    os.close(end)
    shown = []
    reader = threading.Thread(target=read_all, args=(terminal, shown))
    reader.start()
    written = b'' if one_terminal else child.stdout.read()
    status = child.wait()
    reader.join()
    return status, written.decode(), b''.join(shown).decode()


def read_all(terminal, shown):
    """Reads a terminal until its other side is closed, which is an error there."""
    try:
        while part := os.read(terminal, 65536):
            shown.append(part)
    except OSError:
        pass
    os.close(terminal)


def late(folder, text):
    """A pipe that gives a text after more than a second."""
    path = os.path.join(folder, f'late{len(os.listdir(folder))}')
    os.mkfifo(path)

    def give():
        with open(path, 'w', encoding='utf-8') as pipe:
            time.sleep(1.7)
            pipe.write(text)
    threading.Thread(target=give, daemon=True).start()
    return path


def while_reading(program, folder):
    status, written, shown = run(program, late(folder, LATE))
    return status == 0 and written == REPORT and READING.fullmatch(shown) and fits(shown)


def on_one_terminal(program, folder):
    status, _, shown = run(program, late(folder, LATE), one_terminal=True)
    front, wipe, report = shown.rpartition(WIPE)
    return status == 0 and READING.fullmatch(front + wipe) and report == REPORT.replace('\n', '\r\n')


def before_a_refusal(program, folder):
    status, written, shown = run(program, late(folder, 'x =\n'))
    front, wipe, line = shown.rpartition(WIPE)
    return (status, written, line) == (1, '', 'streamrun: jobs: line 1: syntax\r\n') and READING.fullmatch(front + wipe)


def without_a_terminal(program, folder):
    child = subprocess.run([program, late(folder, LATE)], stdin=subprocess.DEVNULL, capture_output=True, text=True, check=False)
    return (child.returncode, child.stdout, child.stderr) == (0, REPORT, '')


def of_a_short_run(program, folder):
    return run(program, write(os.path.join(folder, 'short.jobs'), LATE)) == (0, REPORT, '')


def of_a_long_walk(program, folder):
    """Walks more and more items, until it takes so long that a line is shown in which other workers have answered the two short jobs."""
    path = os.path.join(folder, 'long.jobs')
    for power in range(10, 27):
        count = 3 ** power
        write(path, f'a = range(0, {count}).map(x -> x % 2).sum()\nb = empty().count()\nc = of(5).prefix(sum).max()\n')
        begin = time.monotonic()
        status, written, shown = run(program, path)
        seconds = time.monotonic() - begin
        if (status, written) != (0, f'a = {count // 2}\nb = 0\nc = OptionalLong[5]\n') or shown and not WALKING.fullmatch(shown):
            return False
        shares = [float(share) for share in re.findall(r'([\d.]+) %', shown)]
        answers = [int(count) for count in re.findall(r'(\d)/3', shown)]
        if shares != sorted(shares) or answers != sorted(answers) or shares and shares[-1] >= 100:
            return False
        if answers and answers[-1] >= 2:
            return fits(shown)
        if seconds > 10:
            break
    return False


def fits(shown):
    """Whether each line that is shown has few characters enough, and stays on the first line of terminals of all widths."""
    if any(len(line) > MOST_COLUMNS for line in shown.split(WIPE)):
        return False
    return pyte is None or all(stays_on_one_line(shown, columns) for columns in WIDTHS)


def stays_on_one_line(shown, columns):
    screen = pyte.Screen(columns, 6)
    stream = pyte.Stream(screen)
    for part in re.split(r'(?=\r)', shown):
        stream.feed(part)
        if screen.cursor.y > 0 or any(line.strip() for line in screen.display[1:]):
            return False
    return True


def of_any_width(_program, _folder):
    """The longest line fits, and one that is too long is seen: once by its characters, and by pyte where it is narrow."""
    seen = pyte is None or [stays_on_one_line(TOO_LONG * 2, columns) for columns in WIDTHS] == [False, False, True]
    return fits(LONGEST * 3 + WIPE) and not fits(TOO_LONG) and seen


def main():
    if pyte is None:
        print('how far a run is: NOT SEEN in narrow terminals, since pyte is not installed (python3-pyte)')
    runs = [of_any_width, while_reading, on_one_terminal, before_a_refusal, without_a_terminal, of_a_short_run, of_a_long_walk]
    tally = Tally('how far a run is')
    with tempfile.TemporaryDirectory() as folder:
        for made in runs:
            tally.expect(made.__name__.replace('_', ' '), made(sys.argv[1], folder), 'not what should be shown')
    return tally.end()


if __name__ == '__main__':
    sys.exit(main())
