"""The part that makes the tables of the README and of docs/benchmarks.md."""
import datetime
import functools
import os
import re
import sys

import cells
import lib
import loops
import processes
import warm
from running import TOP, options_of, read, write

PAGES = ['README.md', 'docs/benchmarks.md']
COMMAND = re.compile(r'`bench/run (\w+)((?: [^`]+)?)`')


def machine():
    """The processor, their number, the memory and the day."""
    with open('/proc/cpuinfo', encoding='utf-8') as file:
        name = re.search(r'model name\s*: (.*)', file.read())[1]
    memory = os.sysconf('SC_PAGE_SIZE') * os.sysconf('SC_PHYS_PAGES') / 1e9
    return f'Machine: {os.cpu_count()} processors, {name}, {memory:.0f} GB; {datetime.date.today()}.'


@functools.lru_cache(maxsize=None)
def figures(part, words, program):
    """What a part shows, by the titles and the heads of its tables. A row without cells begins a table whose rows are the columns."""
    lib.SHOWN.clear()
    sys.argv = [part, *words.split(), program]
    next(getattr(it, part) for it in (processes, loops, cells, warm) if hasattr(it, part))()
    found, heads, group = {}, [], None
    for title, costs in lib.SHOWN:
        if not costs:
            group = found.setdefault(title, {})
        elif all(isinstance(it, str) for it in costs):
            heads, group = costs, None
        elif group is None:
            found[title] = dict(zip(heads, costs))
        else:
            group[title] = costs[0]
    return found


def shown(figure):
    return f'{figure:.{0 if figure >= 100 else 1 if figure >= 10 else 2}f}' if isinstance(figure, float) else str(figure)


def row_of(found, cell):
    """The figures of the row with this title, or of the one whose title goes on with a comma."""
    longer = [title for title in found if title.startswith(f'{cell}, ')]
    for title in (cell, cell.strip('`'), cell.split(':')[0], *longer):
        if title in found:
            return found[title]
    sys.exit(f'page: no row has the title {cell!r}')


def filled(text, program):
    """The lines of a page with new figures. The command that begins a paragraph makes the table below it."""
    command, heads = None, None
    for line in text.splitlines():
        begun = COMMAND.match(line)
        if begun:
            command, heads = begun.groups(), None
        elif line.startswith('#'):
            command = None
        elif line.startswith('Machine: '):
            line = machine()
        elif command and line.startswith('|'):
            cells = [it.strip() for it in line.strip('|').split('|')]
            if heads is None:
                heads = cells
            elif not line.startswith('|---'):
                of_row = row_of(figures(*command, program), cells[0])
                line = f'| {" | ".join([cells[0], *(shown(of_row.get(head, "-")) for head in heads[1:])])} |'
        yield line


def page():
    """Makes the tables of the README and of docs/benchmarks.md: runs the command that begins the paragraph above each of them.

    bench/run page [--write] [PROGRAM]

    A table keeps its rows and columns: a figure is what the command shows for the row's title, below the column's head. The title
    is the first cell, stands before its colon, or begins with it and a comma. `-` is a peer that doesn't do the task, or isn't
    installed. The line that begins with `Machine:` says where and when. Without --write the pages are printed. All takes some
    fifteen minutes, on a machine without other work.
    """
    options = options_of(page.__doc__, write=False)
    for name in PAGES:
        path = os.path.join(TOP, name)
        text = '\n'.join(filled(read(path).decode(), options.program)) + '\n'
        write(path, text) if options.write else print(text)
