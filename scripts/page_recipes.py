"""The recipes over other tables than on their page: scripts/pages --run calls this.

Each recipe of docs/recipes.md is run again, by its own two commands, over random tables of the same names, whose cells are
negative, zero, and the least and greatest ones that both tools and the recipe's words allow. The report has to be what
reference/gallery works out from the table, and each number that the other tool prints has to stand in it.
"""
import collections
import os
import pathlib
import random
import re
import shutil
import tempfile

from page_commands import commands_of, folder_for, missing_tools, printed_by
from repository import read, script

ROWS, TABLES = 1000, 4
MIN, MAX = -2 ** 63, 2 ** 63 - 1
# awk prints larger sums in six digits.
SUMMED = 2 * 10 ** 6


def cells(numbers, low, high):
    """A column: one of three cells is an end, zero, or next to it."""
    edges = [low, high, 0, 0, max(low, -1), min(high, 1)]
    return [numbers.choice(edges) if numbers.random() < 0.3 else numbers.randint(low, high) for _ in range(ROWS)]


def with_a_total(numbers):
    """A column whose sum isn't near zero, so that it can be divided by."""
    column = cells(numbers, -SUMMED, SUMMED)
    return column if abs(sum(column)) > 10 ** 6 else with_a_total(numbers)


def with_a_half(numbers):
    """A column whose mean lies in the middle between two integers."""
    column = cells(numbers, -SUMMED, SUMMED)
    column[-1] -= (sum(column) - ROWS // 2) % ROWS
    return column


def to_the_ends(numbers):
    """A column whose sums from the top reach both ends of 64 bits, and never leave them."""
    total, column = 0, []
    for _ in range(ROWS):
        next_total = numbers.choice([MIN, MAX, 0, numbers.randint(MIN, MAX)])
        column.append(max(MIN, min(MAX, next_total - total)))
        total += column[-1]
    return column


def with_a_gap(numbers):
    first, gap = numbers.choice([-10 ** 6, -500, -1, 0, 1, 10 ** 6]), numbers.randint(1, ROWS - 1)
    return [first + row + (row >= gap) for row in range(ROWS)]


def amounts_in_days(numbers):
    """Days that ascend, prices and quantities of either sign."""
    prices, quantities = [], []
    for _ in range(ROWS):
        quantities.append(numbers.choice([-500, -1, 0, 1, 499, numbers.randint(-500, 499)]))
        most = 499999 // max(1, abs(quantities[-1]))
        prices.append(numbers.choice([-most, 0, most, numbers.randint(-most, most)]))
    return {'day': sorted(numbers.randint(-20, 230) for _ in range(ROWS)), 'price': prices, 'quantity': quantities}


# For each recipe's job file the columns that it is about.
COLUMNS = {
    'ledger.running': lambda numbers: {'amount': cells(numbers, numbers.choice([-SUMMED, 1]), SUMMED)},
    'sales.top': lambda numbers: {'price': cells(numbers, MIN, numbers.choice([MAX, -1]))},
    'sales.top_three': lambda numbers: {'price': cells(numbers, MIN, numbers.choice([MAX, 0]))},
    'sales.share': lambda numbers: {'quantity': with_a_total(numbers)},
    'sales.percents': lambda numbers: {'quantity': with_a_total(numbers)},
    'sensor.valid': lambda numbers: {'humidity': [numbers.randint(0, 100) for _ in range(99)] + cells(numbers, MIN, MAX)[99:]},
    'ledger.fits': lambda numbers: {'amount': to_the_ends(numbers)},
    'sensor.mean': lambda numbers: {'temperature': with_a_half(numbers)},
    'sales.days': amounts_in_days,
    'sales.turnover': lambda numbers: {'price': cells(numbers, -10 ** 9, 10 ** 9), 'quantity': cells(numbers, -500, 499)},
    'sales.check_digits': lambda numbers: {'article': [numbers.choice([0, numbers.randint(10 ** 12, 10 ** 13 - 1)]) for _ in range(ROWS)]},
    'ledger.gaps': lambda numbers: {'entry': with_a_gap(numbers)},
    'sensor.sorted': lambda numbers: {'second': numbers.choice([sorted, list])(cells(numbers, -10 ** 6, numbers.choice([10 ** 6, -1])))},
    'sensor.longest_run': lambda numbers: {'temperature': cells(numbers, MIN, numbers.choice([MAX, 9]))},
    'sensor.classes': lambda numbers: {'temperature': numbers.choice([cells(numbers, MIN, MAX), cells(numbers, -99, 99)])},
}
HEADERS = {'sales': ['day', 'article', 'price', 'quantity'], 'sensor': ['second', 'temperature', 'humidity'],
           'ledger': ['entry', 'day', 'account', 'amount']}


def write_tables(folder, name, numbers):
    """The tables of a recipe, over the tables of the gallery."""
    special = COLUMNS[name](numbers)
    for table, header in HEADERS.items():
        columns = [special.get(column) or list(range(1, ROWS + 1)) for column in header]
        write(folder / f'{table}.csv', header, zip(*columns))


def write(path, header, rows):
    path.write_text('\n'.join(','.join(map(str, row)) for row in [header, *rows]) + '\n', encoding='utf-8')


def answers_over(folder):
    """The script that works out reports, over the tables of this folder."""
    module = script('reference', 'gallery')
    module.GALLERY = folder
    return module


def recipes_of(text):
    """(title, name of the job file, its command, the other tool's commands) of each recipe."""
    for section in re.split(r'^(?=## )', text, flags=re.M)[1:]:
        commands = [command for _, command, _ in commands_of(section)]
        ours = next(command for command in commands if command.startswith('streamrun'))
        yield section.splitlines()[0][3:], re.search(r'gallery/([\w.]+)\.jobs', ours)[1], ours, [it for it in commands if it != ours]


def numbers_in(text):
    return collections.Counter(re.findall(r'(?<![\w.])-?\d+', text))


def fault_of(name, ours, others, answers, folder, environment):
    """What is wrong with a recipe over the tables of this folder, or nothing."""
    report = printed_by(ours, folder, environment)
    if report != answers.report_of(name):
        return f'the report is not what the table gives: {report!r}'
    for other in others:
        printed = printed_by(other, folder, environment)
        missing = numbers_in(printed) - numbers_in(report)
        if missing or not printed.split():
            return f'{other.split()[0]} prints {printed[:200]!r}, and the report is {report[:200]!r}'
    return None


def random_recipes(top, page, program):
    """Runs the recipes over random tables, prints a line for each fault, and answers how many passed and failed."""
    passed = failed = 0
    recipes = list(recipes_of(read(page)))
    with tempfile.TemporaryDirectory() as work:
        folder, environment = folder_for(top, work, program)
        gallery = pathlib.Path(work, 'random')
        shutil.copytree(os.path.join(top, 'examples', 'gallery'), gallery)
        os.remove(os.path.join(folder, 'examples'))
        os.mkdir(os.path.join(folder, 'examples'))
        os.symlink(gallery, os.path.join(folder, 'examples', 'gallery'))
        answers = answers_over(gallery)
        for title, name, ours, others in recipes:
            missing = {tool for command in others for tool in missing_tools(command)}
            if missing:
                print(f'recipes: {title}: SKIPPED, since {", ".join(sorted(missing))} is not installed')
            for seed in range(TABLES if not missing else 0):
                write_tables(gallery, name, random.Random(f'{name} {seed}'))
                fault = fault_of(name, ours, others, answers, folder, environment)
                if fault:
                    print(f'recipes: {title}, random table {seed}: {fault}')
                passed, failed = passed + (not fault), failed + bool(fault)
    return passed, failed
