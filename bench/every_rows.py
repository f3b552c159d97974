"""Every operation of the job language, as docs/job-language.md names it, in jobs that can be timed.

    rows(page)   a list of Row; page is the text of docs/job-language.md

Headings give the sources, stages and terminals, tables the operators of folds and of lambdas, and the paragraph of calls the
calls and constants. No operation is named to be measured, so a new one is as soon as the page has it. What an argument has
to be is found by trying: a form gives several jobs, and the ones that the program refuses are left out. WORK alone names
operations: those that take a processor longer than an addition.
"""
import re
from collections import namedtuple

# sort: source, stage, terminal, lambda, condition or chain. kind: what it has to do; rows of one kind are compared with each
# other. source: the job's, or None: it is measured in each context. values: how many it gives for each item, 1 if fewer, or
# how many parts a chain has.
Row = namedtuple('Row', 'sort kind name source rest values')

# What an argument may be. Of conditions one is always true, one never, one for every second item.
LAMBDAS = ['x -> x + 1', 'x -> x >= 0', 'x -> x < 0', 'x -> (x & 1) == 0', 'x -> of(x)', 'x -> of(x, x)', 'x -> empty()',
           'x -> range(0, x & 3)', 'x -> range(0, 64)']
# How many values the streams among them give.
VALUES = {'x -> of(x, x)': 2, 'x -> range(0, x & 3)': 1.5, 'x -> range(0, 64)': 64}
# What the text of a row has to do that an addition hasn't: the first that fits. A new operation is a simple one until it
# stands here.
WORK = [('divides by a constant', r' [/%] 3|floor(?:Div|Mod)\(x, 3\)'), ('divides', r' [/%] |floor(?:Div|Mod)'),
        ('multiplies', r' \* |multiply|product|affine'), ('can fault', r'Exact'), ('chooses', r' \? '),
        ('can leave an operand out', r' (?:&&|\|\|) ')]
TICKED = re.compile(r'`([^`]+)`')
FORM = re.compile(r'(\w+)\((.*)\)')


def section(page, title):
    return re.search(r'^## %s\n(.*?)(?=^## |\Z)' % re.escape(title), page, re.M | re.S)[1]


def headings(text):
    """The forms of headings, as ('prefix', ['NUM', 'NUM', 'OPERATOR'])."""
    for heading in re.findall(r'^### (.*)$', text, re.M):
        for form in TICKED.findall(heading):
            found = FORM.fullmatch(form)
            if found:
                yield found[1], [it.strip() for it in found[2].split(',') if it.strip()]


def tables(text):
    """The rows of each table, as lists of cells, without the heads."""
    for row in re.findall(r'^\|(.*)\|$', text, re.M):
        yield [cell.replace('\\|', '|').strip() for cell in re.split(r'(?<!\\)\|', row)]


def operators_of_folds(page):
    """(name, identity or None) of each operator."""
    for cells in tables(section(page, 'Operators')):
        name = re.fullmatch(r'`(\w+)`', cells[0])
        if name:
            yield name[1], cells[2] if re.fullmatch(r'-?\d+', cells[2]) else None


def operators_of_lambdas(page):
    """(the operator, or the whole form if it has several, the words on its types)."""
    for cells in tables(section(page, 'Lambdas')):
        if len(cells) == 3 and ' to ' in cells[2] and TICKED.search(cells[1]):
            for group in cells[1].split(';'):
                for form in TICKED.findall(group):
                    yield form, 'before one operand' in group


def calls(page):
    text = section(page, 'Lambdas')
    return list(dict.fromkeys(it for it in TICKED.findall(text) if re.fullmatch(r'(?:Math|Long)\.\w+', it)))


def numbers(count, length):
    """Values for this count of numbers of an operation, over a source of this length."""
    return {0: [], 1: [length // 2]}.get(count, [length // 4, length // 2])


def calls_of(forms, page, length):
    """Each form with each argument that may fit, as (name, call)."""
    folds = list(operators_of_folds(page))
    for name, parameters in forms:
        given = ', '.join(map(str, numbers(parameters.count('NUM'), length)))
        if 'OPERATOR' in parameters:
            for operator, identity in folds:
                if 'NUM' not in parameters:
                    yield f'{name}({operator})', f'{name}({operator})'
                elif parameters.count('NUM') > 1:
                    yield f'{name}({given}, {operator})', f'{name}(NUM, NUM, {operator})'
                elif identity is not None:
                    yield f'{name}({identity}, {operator})', f'{name}(NUM, {operator})'
        elif 'LAMBDA' in parameters:
            for text in LAMBDAS:
                yield f'{name}({text})', f'{name}({text})'
        else:
            yield f'{name}({given})', f'{name}({", ".join(parameters)})'


def work(text):
    """What the text of an operation has to do."""
    return next((name for name, pattern in WORK if re.search(pattern, text)), 'simple')


def argument(name):
    """What a stage or a terminal takes, and how many values it gives for each item, at least 1."""
    _, _, text = name[:-1].partition('(')
    if text not in LAMBDAS:
        return f'a fold, {work(text)}' if not text or re.search(r'[a-z]', text) else 'numbers', 1
    if re.search(r'-> (?:of|empty|range)\(', text):
        return 'to streams', VALUES.get(text, 1)
    return 'a test' if re.search(r'[<>=]=?', text[4:]) else 'to numbers', 1


def lambdas(page):
    """Each operator, call and constant, as (name, lambda to an integer or a boolean)."""
    for operator, is_unary in operators_of_lambdas(page):
        if re.search(r'[a-z]', operator):
            words = {'c': 'x > 5', 'p': 'x + 1', 'q': 'x - 1'}
            yield operator, 'x -> ' + re.sub(r'\b[a-z]\b', lambda it: words.get(it[0], 'x'), operator)
        elif is_unary:
            yield f'{operator} x', f'x -> {operator} x'
            yield f'{operator} (x > 5)', f'x -> {operator} (x > 5)'
        else:
            for right in ('3', '(x | 1)'):
                yield f'x {operator} {right}', f'x -> x {operator} {right}'
            yield f'x > 1 {operator} x < 9', f'x -> x > 1 {operator} x < 9'
    for call in calls(page):
        for form in (call, f'{call}(x)', f'{call}(x, 3)', f'{call}(x, x | 1)'):
            yield form, f'x -> {form}'


def sources(page, length):
    """Each source that can have any number of items, as (name, text); the others have at most a thousand or so."""
    for name, parameters in headings(section(page, 'Sources')):
        if parameters and set(parameters) == {'SOURCE', '..'}:
            parts = [f'range({at * (length // 4)}, {(at + 1) * (length // 4)})' for at in range(4)]
            yield name, f'{name}({", ".join(parts)})'
        elif parameters == ['NUM', 'NUM']:
            yield name, f'{name}(0, {length})'
        elif parameters == ['"NAME"']:
            yield name, f'{name}("a")'


def terms(page):
    """What may stand beside the parameter in a lambda over a column: the parameter, and each form of the sources with a name or
    nothing; the program refuses the ones that are sources."""
    yield 'x'
    for name, parameters in headings(section(page, 'Sources')):
        if parameters in ([], ['"NAME"']):
            yield f'{name}("b")' if parameters else f'{name}()'


def of_rows(page):
    """Each term in maps and filters over a column, and after a filter."""
    for place, source in (('', 'column("a")'), (' after a filter', 'column("a").filter(x -> x != 7)')):
        for term in terms(page):
            for text in ('x -> {}', 'x -> {} + 3', 'x -> x + {}', 'x -> x * {}', 'x -> x > 9 ? {} : x'):
                text = text.format(term)
                yield Row('lambda', f'lambda of rows, {work(text)}', text + place, source, f'map({text}).sum()', 1)
            for text in ('x -> {} > 5', 'x -> {} < x'):
                text = text.format(term)
                yield Row('condition', f'condition of rows, {work(text)}', text + place, source, f'filter({text}).sum()', 1)


def contexts(length):
    """What stands before a row: (name, the start of a job, how many items come out of it)."""
    inner, outer = 64, length // 64
    return [('a range', f'range(0, {length})', length), ('a column', 'column("a")', None),
            ('a concat', f'concat(range(0, {length // 2}), range({length // 2}, {length}))', length),
            ('after a filter', f'range(0, {length}).filter(x -> x != 7)', length),
            ('after a flatMap', f'range(0, {outer}).flatMap(x -> range(x, x + {inner}))', outer * inner),
            ('after a limit', f'range(0, {length}).filter(x -> x != 7).limit({length - 2})', length)]


def chains():
    """Parts in a row, as (what they are, how many, the stages): a part takes its time, however many there are."""
    def joined(between, count, part):
        return between.join(part.format(it) for it in range(count))
    for count in (8, 9, 16, 62):
        yield 'cases', count, f'map(x -> {joined(" : ", count, "x == {0} ? 1{0}")} : x)'
    for count in (29, 30, 60):
        yield 'conditions', count, f'filter(x -> {joined(" && ", count, "x != {0}")})'
    for count in (4, 5, 16, 64):
        yield 'operands', count, f'flatMap(x -> of({joined(", ", count, "x + {0}")}))'
    for count in (3, 4, 8, 32):
        yield 'flatMaps', count, joined('.', count, 'flatMap(x -> of(x))')


def rows(page, length):
    """All rows, in one order for every length."""
    found = []
    for name, text in sources(page, length):
        found.append(Row('source', 'source', name, text, 'sum()', 1))
    for call, name in calls_of(headings(section(page, 'Stages')), page, length):
        takes, values = argument(name)
        found.append(Row('stage', f'stage, {takes}', name, None, f'{call}.sum()', values))
    for call, name in calls_of(headings(section(page, 'Terminals')), page, length):
        found.append(Row('terminal', f'terminal, {argument(name)[0]}', name, None, call, 1))
    for name, text in lambdas(page):
        found.append(Row('lambda', f'lambda, {work(text)}', name, None, f'map({text}).sum()', 1))
        found.append(Row('condition', f'condition, {work(text)}', name, None, f'filter({text}).sum()', 1))
    for parts, count, text in chains():
        found.append(Row('chain', f'chain, {parts}', f'{count} {parts}', f'range(0, {length})', f'{text}.sum()', count))
    return found + list(of_rows(page))
