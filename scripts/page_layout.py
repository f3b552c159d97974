"""The layout of pages: which lines are too long, and how a paragraph is wrapped."""
import re

COLUMNS = 100
# What a line of text mustn't begin with, since it would begin something else than text there.
MARKS = re.compile(r'^(?:[-+*|>]|#+|\d{1,9}[.)])$|^(?:\||```)')
# The number of an item has nine digits at most; a longer one is text.
ITEM = re.compile(r'^(\s*)([-*+]|\d{1,9}\.) +')


def words_of(text):
    """The words of a text; what stands in backquotes isn't parted, and a mark stays with the word before it."""
    words = re.findall(r'(?:`[^`]*`|[^\s`]|`)+', text)
    joined = []
    for word in words:
        if joined and MARKS.match(word):
            joined[-1] += ' ' + word
        else:
            joined.append(word)
    return joined


def wrapped(lines, columns=COLUMNS):
    """A paragraph or an item of a list in lines of at most so many columns."""
    item = ITEM.match(lines[0])
    first = item[0] if item else re.match(r'\s*', lines[0])[0]
    rest = ' ' * len(first) if item else first
    out, line = [], first
    for word in words_of(' '.join([lines[0][len(first):], *lines[1:]])):
        if line.strip() and line != first and len(line) + 1 + len(word) > columns:
            out.append(line)
            line = rest + word
        else:
            line += word if line in (first, rest) else ' ' + word
    return [*out, line]


def is_text(line):
    return bool(line.strip()) and not re.match(r'\s*(?:\||#+ |```|<)', line)


def too_long(text):
    """The numbers of the lines of text that are too long; a line of one word can't be wrapped."""
    fenced = False
    for number, line in enumerate(text.splitlines(), 1):
        if line.lstrip().startswith('```'):
            fenced = not fenced
        elif not fenced and is_text(line) and len(line) > COLUMNS and len(words_of(line)) > 1:
            yield number


def torn(text):
    """The numbers of the lines that go on with a paragraph and begin with a number and a point: Markdown may take one for an item."""
    fenced, above = False, ''
    for number, line in enumerate(text.splitlines(), 1):
        if line.lstrip().startswith('```'):
            fenced = not fenced
        elif not fenced and re.match(r'(?!1\.)\d+\. ', line) and is_text(above) and not re.match(r'\s|\d+\. ', above):
            yield number
        above = line


def page_wrapped(text):
    """The page with its long paragraphs laid out anew."""
    out, block, fenced = [], [], False

    def end():
        out.extend(wrapped(block) if any(len(line) > COLUMNS for line in block) else block)
        block.clear()

    for line in text.splitlines():
        if line.lstrip().startswith('```'):
            fenced = not fenced
            end()
            out.append(line)
        elif fenced or not is_text(line):
            end()
            out.append(line)
        else:
            if ITEM.match(line):
                end()
            block.append(line)
    end()
    return '\n'.join(out) + '\n'
