"""The layout of definitions and proofs: where a wide line of an `.antt` file is broken."""
import re

from page_layout import wrapped

MOST_COLUMNS = 120
# A line is broken after this column if possible.
FEWEST_COLUMNS = 40
STRING = re.compile(r'"(?:[^"\\]|\\.)*"')
WORD = re.compile(rf'(?:{STRING.pattern}|\S)+')
COMMENT = re.compile(r' *-- ')
IMPORTS = re.compile(r'(?:pub )?use [^{]+\{(?=[^{}]*\}$)')
# Two words that stay on one line.
TOGETHER = re.compile(r'(?:use|pub|\||[(\[{]*let) |\S+ (?:[)}\]]|(?:in|where|:|=|↦)$)|in \($')
# Two words between which a line may be broken, the best ones first; all others come last.
BREAKS = [re.compile(pair) for pair in (
    r'(?:in|\S*[,;]) |\S+ \|$', r'[=↦] ', r'\S+ →$', r'\S+ (?:×|⊎|then|else)$', r'\S+ [∙≡]$',
    # Before another operator; and before an operand.
    r'\S*\w\S* [^\w\s(){}\[\]"◌]+$', r'\S*[\w)}\]]\S* ')]


def break_of(line):
    """Where the first part of a wide line ends, and where the rest begins: in the fewest brackets, there between the best words,
    and there as far right as possible. None if the line can't be broken."""
    depth, is_binder, found = 0, False, []
    words = list(WORD.finditer(line))
    for word, following in zip(words, words[1:]):
        code = STRING.sub('', word[0])
        depth += len(re.findall(r'[(\[{]', code)) - len(re.findall(r'[)\]}]', code))
        # The variables of `λ x y.` stay together.
        is_binder = (is_binder or code.lstrip('([{') == 'λ') and not code.endswith('.')
        pair = f'{word[0]} {following[0]}'
        if not is_binder and not TOGETHER.match(pair):
            rank = next((at for at, good in enumerate(BREAKS) if good.match(pair)), len(BREAKS))
            found.append((depth, rank, -word.end(), following.start()))
    for fewest in (FEWEST_COLUMNS, 0):
        fitting = [place for place in found if fewest <= -place[2] <= MOST_COLUMNS]
        if fitting:
            return -min(fitting)[2], min(fitting)[3]
    return (-found[0][2], found[0][3]) if found else None


def imports_of(line, head):
    """Several imports of one module, each on a line, for a wide one: a list on several lines has each name on a line of its own."""
    out = [head]
    for name in line[len(head):-1].split(', '):
        if out[-1] != head and len(f'{out[-1]}, {name}}}') > MOST_COLUMNS:
            out.append(head)
        out[-1] += name if out[-1] == head else f', {name}'
    return [imports + '}' for imports in out]


def folded_line(line):
    """The lines that a wide line becomes. They differ from it in white space, in the signs of comments, and where imports end."""
    comment, imports = COMMENT.match(line), IMPORTS.match(line)
    if len(line) > MOST_COLUMNS and imports:
        return imports_of(line, imports[0])
    if len(line) > MOST_COLUMNS and comment:
        return [comment[0] + part for part in wrapped([line[comment.end():]], MOST_COLUMNS - comment.end())]
    # A declaration ends where a line stands no further right than its first one.
    margin, out = re.match(' *', line)[0] + ' ' * 4, []
    while len(line) > MOST_COLUMNS and (place := break_of(line)):
        out.append(line[:place[0]])
        line = margin + line[place[1]:]
    return [*out, line]


def folded(text):
    """A file of definitions or proofs with its wide lines on several lines."""
    return '\n'.join(part for line in text.split('\n') for part in folded_line(line))
