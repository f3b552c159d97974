"""What others call operations and methods that the language lacks, with what to write."""
from __future__ import annotations

# What may stand after the terminal in Java: an empty text says that nothing is to be written.
OF_OPTIONALS = {
    **dict.fromkeys(('orElse', 'orElseGet'), 'write .reduce(Long.MIN_VALUE, max) or .reduce(Long.MAX_VALUE, min), which give a '
                    'number also without items'),
    **dict.fromkeys(('getAsLong', 'get', 'orElseThrow', 'getAsInt', 'ifPresent', 'getAsDouble'), ''),
    'isPresent': 'write .anyMatch(x -> true) for the terminal', 'isEmpty': 'write .noneMatch(x -> true) for the terminal',
}
# Sources, with the one to write, or with words.
SOURCE_NAMES = {
    'IntStream': 'LongStream', 'Stream': 'LongStream', 'DoubleStream': 'LongStream', 'List.of': 'of', 'Arrays.asList': 'of',
    'Arrays.stream': 'of', 'Set.of': 'of', 'array': 'of', 'list': 'of', 'Array': 'of', 'vec': 'of', 'values': 'of', 'col': 'column',
    'seq': 'rangeClosed', 'arange': 'range', 'field': 'column', 'np.arange': 'range',
}
SOURCES = {
    'iterate': 'range(0, N).map(..) counts, and a prefix goes on from item to item, docs/job-language.md',
    'generate': 'range(0, N).map(..) counts, docs/job-language.md', 'builder': 'of(1, 2, 3) lists values',
    'stream': 'of(1, 2, 3) lists values, and column("a") reads a table', 'read': 'column("NAME") reads the table of --columns FILE',
    'read_csv': 'column("NAME") reads the table of --columns FILE', 'open': 'column("NAME") reads the table of --columns FILE',
    'random': 'there are no random numbers', 'Arrays': 'of(1, 2, 3) lists values', 'List': 'of(1, 2, 3) lists values',
}
# Methods and constants.
METHODS = {
    'Math.incrementExact': 'Math.addExact({0}, 1)', 'Math.decrementExact': 'Math.subtractExact({0}, 1)',
    'Math.absExact': '({0} < 0 ? Math.negateExact({0}) : {0})', 'Long.signum': '({0} > 0 ? 1 : {0} < 0 ? -1 : 0)',
    'Math.signum': '({0} > 0 ? 1 : {0} < 0 ? -1 : 0)', 'Long.compare': '({0} > {1} ? 1 : {0} < {1} ? -1 : 0)',
    'Math.clamp': 'Math.min(Math.max({0}, {1}), {2})', 'Math.ceilDiv': '-Math.floorDiv(-({0}), {1})',
    'Math.toIntExact': '{0}', 'Long.valueOf': '{0}', 'Math.sum': 'Long.sum({0}, {1})', 'Math.mod': 'Math.floorMod({0}, {1})',
    'Long.hashCode': '{0}', 'Math.fma': '({0} * {1} + {2})', 'Long.parseLong': '{0}', 'Math.trunc': '{0}', 'Math.rint': '{0}',
    'Math.isEven': '({0} % 2 == 0)', 'Math.sub': 'Math.subtractExact({0}, {1})', 'Math.add': 'Math.addExact({0}, {1})',
    'Math.multiply': 'Math.multiplyExact({0}, {1})', 'Math.square': '{0} * {0}',
}
# Methods that no single expression is.
WITHOUT_EXPRESSION = {
    'Long.highestOneBit': 'shifts and masks, >> and &, find it', 'Long.numberOfTrailingZeros': 'shifts and masks, >> and &, find it',
    'Long.numberOfLeadingZeros': 'shifts and masks, >> and &, find it', 'Math.random': 'another tool makes a column of random numbers',
    'Long.bitCount': 'one shift and mask for each bit, (x >> 3 & 1), and their sum', 'Math.sqrt': 'compare squares, x * x <= n',
    'Math.multiplyHigh': 'multiply halves, (x >> 32) * (y >> 32)', 'Math.hypot': 'compare x * x + y * y, without a root',
    'Math.log': 'compare with powers', 'Math.log10': 'compare with powers', 'Math.exp': 'another tool makes such a column',
    'Math.pow': 'write the product out, x * x', 'Math.cbrt': 'compare cubes, x * x * x <= n',
}
CONSTANTS = {
    'Long.SIZE': '64', 'Long.BYTES': '8', 'Integer.MAX_VALUE': '2147483647', 'Integer.MIN_VALUE': '-2147483648',
}
TYPES = ('long', 'int', 'var', 'final', 'let', 'const', 'auto', 'double', 'boolean', 'Long', 'LongStream', 'OptionalLong',
         'static', 'public', 'private', 'integer', 'val')
# Operators of reduce and prefix.
OPERATORS = {
    'add': 'sum', 'plus': 'sum', 'total': 'sum', 'addition': 'sum', 'Math::sum': 'sum', 'Integer::sum': 'sum',
    'Long::add': 'sum', 'Math::add': 'sum', 'mul': 'product', 'times': 'product', 'multiply': 'product',
    'prod': 'product', 'Math::multiply': 'product', 'Math::multiplyExact': 'product', 'Integer::max': 'max',
    'Integer::min': 'min', 'maximum': 'max', 'minimum': 'min', 'Long::addExact': 'Math::addExact',
    'addExact': 'Math::addExact', 'right': 'last', 'left': 'first',
}
