"""Jobs in Java: their stages, one after the other in Java's spelling, on Java's sequential LongStream, with Arrays.parallelPrefix
for a prefix and a loop over BigInteger for an exact sum (Walk.java).

    report_of(folder, jobs, columns, seconds)    the line that Java prints for each job; the jobs are (name, parts of its text)

A job's parts are the texts of its source, of each stage and of its terminal. Java has no answer to a job in time if its inner
streams, skips or arrays are too long: its line ends in ' = ?' then.
"""
import os
import re
import shutil
import subprocess

from streamrun_language.lambdas import Argument
from streamrun_language.operators import read_operator

# A method of Java has at most 64 KB.
JOBS_OF_A_METHOD = 500
OPERATORS = {'sum': 'Long::sum', 'product': '(f, g) -> f * g', 'min': 'Math::min', 'max': 'Math::max', 'and': '(f, g) -> f & g',
             'or': '(f, g) -> f | g', 'xor': '(f, g) -> f ^ g', 'affine': 'Walk::affine', 'first': '(f, g) -> f',
             'last': '(f, g) -> g'}
WRAPPERS = {'map': 'at', 'flatMap': 'streamAt'}
MAIN = '''import java.util.stream.LongStream;

final class Jobs {
%s
    public static void main(String[] none) {
%s    }
}
'''


def split(text, mark):
    """The parts of a text between these marks, but for those within parentheses or quotes."""
    parts, depth, is_quoted = [''], 0, False
    for char in text:
        is_quoted ^= char == '"'
        depth += 0 if is_quoted else (char == '(') - (char == ')')
        if char == mark and depth == 0 and not is_quoted:
            parts.append('')
        else:
            parts[-1] += char
    return [part.strip() for part in parts]


def parts_of(text):
    """The parts of a job."""
    parts = split(text.strip().rstrip(';'), '.')
    return parts[1:] if parts[0] == 'LongStream' else parts


def array_of(name):
    """The array of Java with the cells of a column."""
    return 'of_' + ''.join(char if char.isalnum() else f'_{ord(char)}_' for char in name)


def in_java(text):
    """The sources of a job, or a lambda, in Java, which takes an integer without L for one of 32 bits."""
    text = re.sub(r'column\("([^"]*)"\)', lambda it: f'LongStream.of(Jobs.{array_of(it[1])})', text)
    text = re.sub(r'cell\("([^"]*)"\)', lambda it: f'Jobs.{array_of(it[1])}[(int) walk.row()]', text)
    text = re.sub(r'\brow\(\)', 'walk.row()', text).replace('walk.walk.', 'walk.')
    text = re.sub(r'(?<!LongStream\.)\b(range|rangeClosed|of|empty)\(', r'LongStream.\1(', text)
    return re.sub(r'(?<![\w.])([0-9]+)[lL]?\b', r'\1L', text)


def source_in_java(text):
    """Java's concat takes two streams; a job's takes two or more, one after the other."""
    text = text.removeprefix('LongStream.')
    if not text.startswith('concat('):
        return in_java(text)
    made, *others = [source_in_java(it) for it in split(text[len('concat('):-1], ',')]
    for other in others:
        made = f'LongStream.concat({made}, {other})'
    return made


def split_call(text):
    name, _, inner = text.partition('(')
    return name, inner[:-1]


def number_and_operator(inner):
    """The numbers before an operator, as Java has them, and the operator's name."""
    numbers = re.match(r'(?:\s*(?:-?[0-9]+[lL]?|Long\.\w+)\s*,)*', inner).group()
    return re.sub(r'([0-9]+)[lL]?', r'\1L', numbers), read_operator(Argument.of(inner[len(numbers):].strip().encode())).name


def job_in_java(parts):
    """The Java expression of a job's parts."""
    source, *stages, terminal = parts
    walk = f'walk.source({source_in_java(source)})'
    for stage, text in enumerate(stages, 1):
        name, inner = split_call(text)
        if name in ('limit', 'skip'):
            walk += f'.{name}({in_java(inner)})'
        elif name == 'prefix':
            numbers, operator = number_and_operator(inner)
            walk = f'walk.prefix({stage}, {walk}, {numbers} {OPERATORS[operator]})'
        elif name == 'sorted':
            walk = f'walk.sorted({walk})'
        elif name == 'distinct':
            walk += '.distinct()'
        else:
            function = re.sub(r'LongStream\.(range|rangeClosed)\(', r'Walk.\1(', in_java(inner))
            walk += f'.{name}(walk.{WRAPPERS.get(name, "testAt")}({stage}, {function}))'
    return terminal_in_java(walk, len(stages) + 1, *split_call(terminal))


def terminal_in_java(walk, stage, name, inner):
    if name == 'sumExact':
        return f'walk.exactSum({stage}, {walk})'
    if name == 'reduce':
        numbers, operator = number_and_operator(inner)
        return f'{walk}.reduce({numbers} {OPERATORS[operator]})' if operator in OPERATORS else f'walk.exactSum({stage}, {walk})'
    if name.endswith('Match'):
        return f'{walk}.{name}(walk.testAt({stage}, {in_java(inner)}))'
    # Java's count() may leave stages out whose number of items it knows.
    return f'{walk}.filter(value -> true).count()' if name == 'count' else f'{walk}.{name}()'


def report_of(folder, jobs, columns=None, seconds=1):
    """The line that Java prints for each job (name, parts), by classes in this folder."""
    members = [f'    static final long[] {array_of(name)} = {{{", ".join(f"{cell}L" for cell in cells)}}};\n' for name, cells in (columns or {}).items()]
    members += [f'    static Object j{at}(Walk walk) {{\n        return {job_in_java(parts)};\n    }}\n' for at, (_, parts) in enumerate(jobs)]
    calls = [f'        Walk.run("{name}", Jobs::j{at}, {seconds});\n' for at, (name, _) in enumerate(jobs)]
    groups = range(0, len(calls), JOBS_OF_A_METHOD)
    members += [f'    static void from{first}() {{\n{"".join(calls[first:first + JOBS_OF_A_METHOD])}    }}\n' for first in groups]
    with open(os.path.join(folder, 'Jobs.java'), 'w', encoding='utf-8') as file:
        file.write(MAIN % (''.join(members), ''.join(f'        from{first}();\n' for first in groups)))
    shutil.copy(os.path.join(os.path.dirname(os.path.realpath(__file__)), 'Walk.java'), folder)
    subprocess.run(['javac', '-nowarn', '-Xlint:none', '-d', folder, 'Walk.java', 'Jobs.java'], cwd=folder, check=True)
    # Without that option an exception that is thrown often has no message after a while.
    ran = subprocess.run(['java', '-Xmx2g', '-XX:-OmitStackTraceInFastThrow', '-cp', folder, 'Jobs'], stdout=subprocess.PIPE, check=True)
    return ran.stdout.decode().splitlines()
