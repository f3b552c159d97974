"""Answers that were worked out by hand from the definitions of the language, or come from Java 17; the model has to
give them, and the answers of examples/."""
import os
import re

from running import LANGUAGES, TESTS, Tally, job_files, newest_of, options_beside, read, table_of
from streamrun_language.model import NO_JOBS

REFUSED_TEXTS = os.path.join(TESTS, 'soak', 'refused.txt')
COLUMNS = b'a,b\n3,10\n0,20\n-5,30\n'
# The lines of a file that are skipped, and the one that says its version.
SAYS_VERSION = re.compile(r'((?:[ \t]*(?:(?:#|//).*)?\r?\n)*)[ \t]*version[ \t]+([0-9]+)[ \t]*\r?(?:\n|$)')
DIVISION = 'fault divide-by-zero stage {} item {}'.format

# (what stands after 'j = ', the answer)
ANSWERS = [
    ('column("a").sum()', '-2'),
    ('range(5, 5).toArray()', '[]'),
    ('range(5, 5).min()', 'OptionalLong.empty'),
    ('range(0, 10).map(x -> 10 / (x - 7)).limit(7).toArray()', '[-1, -1, -2, -2, -3, -5, -10]'),
    ('range(0, 10).map(x -> 10 / (x - 7)).limit(8).toArray()', DIVISION(1, 7)),
    ('of(1, 0).map(x -> 1 / x).map(x -> 1 / (x - 1)).toArray()', DIVISION(2, 0)),
    ('of(2, 1, 0, 3).prefix(Long::sum).toArray()', '[2, 3, 3, 6]'),
    ('of(1, 0).map(x -> 1 / x).findFirst()', 'OptionalLong[1]'),
    ('of(1, 0).map(x -> 1 / x).prefix(Long::sum).findFirst()', DIVISION(1, 1)),
    ('of(9223372036854775807, 1).sum()', '-9223372036854775808'),
    ('of(-9223372036854775808).map(x -> x / -1).toArray()', '[-9223372036854775808]'),
    ('of(8589934595, 21474836487).reduce(4294967296, affine)', '42949672982'),
    ('range(0, 5).reduce((a, b) -> b)', 'OptionalLong[4]'),
    ('of(1, 3, 0).takeWhile(x -> 6 / x > 2).toArray()', '[1]'),
    ('of(1, 2, 0, 3).takeWhile(x -> 6 / x > 2).toArray()', DIVISION(1, 2)),
    ('concat(range(0, 3), of(7, 8)).skip(2).toArray()', '[2, 7, 8]'),
    ('of(2, 0, 3).flatMap(x -> range(0, x)).toArray()', '[0, 1, 0, 1, 2]'),
    ('of(1, 2, 3, 4).prefix(1, 3, Long::sum).toArray()', '[1, 2, 5, 4]'),
    ('of(1, 2, 3, 4).prefix(1, 5, Long::sum).toArray()', 'fault out-of-array stage 1 item -'),
    ('of(0).map(x -> 1 / x).limit(0).toArray()', '[]'),
    ('of(0, 1).map(x -> 1 / x).skip(1).toArray()', DIVISION(1, 0)),
    ('of(5, 0).anyMatch(x -> 10 / x > 1)', 'true'),
    ('of(0, 5).anyMatch(x -> 10 / x > 1)', DIVISION(1, 0)),
    ('range(-9223372036854775808, 9223372036854775807).count()', 'fault source-too-long stage 0 item -'),
    ('of(2, 1).flatMap(x -> range(0, x)).map(x -> 1 / (1 - x)).toArray()', DIVISION(2, 0)),
    ('of(-7).map(x -> Math.floorMod(x, 3) * 100 + x % 3 + (x >>> 62)).toArray()', '[202]'),
    ('of(1).map(x -> x << 65).sum()', '2'),
    ('of(9223372036854775807).map(x -> Math.addExact(x, 1)).sum()', 'fault overflow stage 1 item 0'),
    ('empty().anyMatch(x -> true)', 'false'),
    ('empty().allMatch(x -> false)', 'true'),
    ('empty().noneMatch(x -> true)', 'true'),
    ('of(3, 1, 4).dropWhile(x -> x > 2).toArray()', '[1, 4]'),
    ('of(1, 2).toArray()', '[1, 2]'),
    ('of(1, 0).map(x -> 1 / x).limit(5).map(x -> 1 / (x - 1)).toArray()', DIVISION(3, 0)),
    ('of(1, 0).skip(0).map(x -> 1 / x).limit(1).toArray()', '[1]'),
    ('of(3, 4, 5).skip(1).limit(1).findFirst()', 'OptionalLong[4]'),
    ('of(8589934595, 21474836487).prefix(affine).toArray()', '[8589934595, 42949672982]'),
    ('of(4, 5, 6).prefix(first).toArray()', '[4, 4, 4]'),
    ('empty().prefix(0, 0, Long::sum).toArray()', '[]'),
    ('of(2, 1, 0).prefix(Long::sum).map(x -> 1 / (x - 3)).toArray()', DIVISION(2, 1)),
    ('of(1, 0).map(x -> 1 / x).prefix(0, 9, Long::sum).count()', DIVISION(1, 1)),
    ('range(0, 1000).findFirst()', 'OptionalLong[0]'),
    ('of(5, 0, 7).dropWhile(x -> 10 / x > 3).toArray()', '[5, 0, 7]'),
    ('range(0, 100000).filter(x -> x % 3 == 0).prefix(Long::sum).skip(33333).toArray()', '[1666683333]'),
    # Walks that ask for little.
    ('range(Long.MIN_VALUE, Long.MAX_VALUE).limit(0).sum()', '0'),
    ('range(Long.MIN_VALUE, Long.MAX_VALUE).limit(5).skip(5).limit(0).sum()', '0'),
    ('range(Long.MIN_VALUE, Long.MAX_VALUE).limit(5).skip(5).sum()', 'fault source-too-long stage 0 item -'),
    ('of(0).map(x -> 1 / x).prefix(sum).limit(0).toArray()', '[]'),
    ('of(1).prefix(0, 9, sum).limit(0).count()', '0'),
    ('range(0, 4611686018427387904).map(x -> x * 2).skip(3).findFirst()', 'OptionalLong[6]'),
    ('range(0, 4611686018427387904).skip(4611686018427387903).toArray()', '[4611686018427387903]'),
    ('range(0, 4611686018427387905).skip(9).toArray()', 'fault source-too-long stage 0 item -'),
    ('concat(range(0, 4611686018427387904), of(7)).findFirst()', 'fault source-too-long stage 0 item -'),
    ('of(0, 1).flatMap(x -> range(0, 4611686018427387904 + x)).skip(1).findFirst()', 'OptionalLong[1]'),
    ('of(1).flatMap(x -> range(0, 4611686018427387904 + x)).findFirst()', 'fault source-too-long stage 1 item 0'),
    ('of(7, 0).flatMap(x -> of(x, 14 / x)).limit(2).toArray()', '[7, 2]'),
    ('of(7, 0).flatMap(x -> of(x, 14 / x)).limit(3).toArray()', DIVISION(1, 1)),
    # Values.
    ('of(-9223372036854775808).map(x -> x % -1 + Math.abs(x) + Math.floorMod(x, -1)).sum()', '-9223372036854775808'),
    ('of(-7).map(x -> Math.floorDiv(x, 2) * 100 + x / 2).sum()', '-403'),
    ('of(-16).map(x -> (x >> 2) * 100 + (x >>> 60)).sum()', '-385'),
    ('of(12).map(x -> x & 10 | x ^ 3).sum()', '15'),
    ('of(5).map(x -> x > 3 ? x > 4 ? 1 : 2 : 3).sum()', '1'),
    ('of(0).filter(x -> x == 0 || 1 / x > 0).count()', '1'),
    ('of(-9223372036854775808).map(x -> Math.negateExact(x)).sum()', 'fault overflow stage 1 item 0'),
    ('of(3).map(x -> - 9223372036854775808 + x).sum()', '-9223372036854775805'),
    ('of(6, 3).reduce(-1, (long a, long b) -> ((a) & (b)))', '2'),
    ('of(6, 3).reduce((a, b) -> Math.max(a, b))', 'OptionalLong[6]'),
    # Exact sums.
    ('of(-5, 9223372036854775807, 3).reduce(0, Math::addExact)', '9223372036854775805'),
    ('of(9223372036854775807, 1, -5).reduce(0, Math::addExact)', 'fault overflow stage 1 item 1'),
    ('of(9223372036854775807, 2).flatMap(x -> of(x, 1)).reduce(0, Math::addExact)', 'fault overflow stage 2 item 0'),
    ('of(1, 0).map(x -> 1 / x).reduce(0, Math::addExact)', DIVISION(1, 1)),
    ('of(9223372036854775807, 1, 0).filter(x -> 1 / x > -1).reduce(0, (u, v) -> (Math.addExact(u, (v))))',
     'fault overflow stage 2 item 1'),
    ('empty().reduce(0, Math::addExact)', '0'),
]

# (what stands after 'j = ' in a file of version 3, the answer); of the column a 3, 0 and -5 stand in rows 0 to 2, of b 10, 20 and 30
LATER_ANSWERS = [
    # Cells, in each place of a lambda.
    ('column("a").map(x -> x * cell("b")).toArray()', '[30, 0, -150]'),
    ('column("a").map(x -> -cell("b") - cell("a")).toArray()', '[-13, -20, -25]'),
    ('LongStream.column("a").map(x -> cell("b")).sum()', '60'),
    ('column("a").filter(x -> cell("b") >= 20).toArray()', '[0, -5]'),
    ('column("b").filter(x -> !(cell("a") == 0)).map(x -> cell("b") + cell("a")).toArray()', '[13, 25]'),
    ('column("a").flatMap(x -> of(cell("b"), x)).toArray()', '[10, 3, 20, 0, 30, -5]'),
    ('column("a").flatMap(x -> range(cell("b"), cell("b") + x)).toArray()', '[10, 11, 12]'),
    ('column("b").flatMap(x -> rangeClosed(0, cell("a"))).toArray()', '[0, 1, 2, 3, 0]'),
    ('column("a").takeWhile(x -> cell("b") < 30).count()', '2'),
    ('column("a").dropWhile(x -> cell("b") < 30).toArray()', '[-5]'),
    ('column("a").anyMatch(x -> cell("b") == 30)', 'true'),
    ('column("a").allMatch(x -> cell("b") > 10)', 'false'),
    ('column("a").noneMatch(x -> cell("b") + x == 13)', 'false'),
    # An item keeps its row through all stages.
    ('column("a").skip(1).map(x -> cell("b")).toArray()', '[20, 30]'),
    ('column("a").limit(2).filter(x -> x == 0).map(x -> cell("b")).toArray()', '[20]'),
    ('column("a").map(x -> 7).dropWhile(x -> cell("a") > 0).map(x -> cell("b") + x).toArray()', '[27, 37]'),
    ('column("b").prefix(Long::sum).map(x -> x + cell("b")).toArray()', '[20, 50, 90]'),
    ('column("a").flatMap(x -> of(0, 1)).filter(x -> x == 1).map(x -> cell("a")).toArray()', '[3, 0, -5]'),
    ('column("a").filter(x -> x != 0).prefix(0, 2, max).map(x -> x * 100 + cell("b")).toArray()', '[310, 330]'),
    # Their faults are the ones of their operators; of two the left operand's comes first.
    ('column("b").map(x -> x / cell("a")).toArray()', DIVISION(1, 1)),
    ('column("b").map(x -> cell("a") == 0 ? 0 : x / cell("a")).toArray()', '[3, 0, -6]'),
    ('column("b").filter(x -> x > 10 && x / cell("a") < 0).toArray()', DIVISION(1, 1)),
    ('column("b").filter(x -> cell("a") != 0 && x / cell("a") < 0).toArray()', '[30]'),
    ('column("b").map(x -> Math.multiplyExact(x, cell("a") + 9223372036854775800)).toArray()', 'fault overflow stage 1 item 0'),
    ('column("a").flatMap(x -> of(1, 60 / cell("a"))).limit(3).toArray()', DIVISION(1, 1)),
    # Places, over any source.
    ('of(5, 6, 7).map(x -> row()).toArray()', '[0, 1, 2]'),
    ('range(7, 10).filter(x -> row() != 1).toArray()', '[7, 9]'),
    ('concat(of(5, 6), range(0, 2)).map(x -> x * 10 + row()).toArray()', '[50, 61, 2, 13]'),
    ('of(4, 4, 4).skip(1).map(x -> x + row()).toArray()', '[5, 6]'),
    ('of(9, 8).flatMap(x -> of(x, row())).toArray()', '[9, 0, 8, 1]'),
    ('of(9, 8, 7).flatMap(x -> range(0, row())).toArray()', '[0, 0, 1]'),
    ('of(2, 4, 6).prefix(Long::sum).map(x -> x - row()).toArray()', '[2, 5, 10]'),
    ('of(2, 0, 2).takeWhile(x -> row() < 2).toArray()', '[2, 0]'),
    ('of(2, 0, 2).dropWhile(x -> row() < 2).toArray()', '[2]'),
    ('of(2, 0, 2).anyMatch(x -> x == row())', 'true'),
    ('of(7, 7).map(x -> 1 / row()).toArray()', DIVISION(1, 0)),
    ('range(0, 4611686018427387904).skip(4611686018427387903).map(x -> row()).sum()', '4611686018427387903'),
    ('range(0, 4611686018427387904).map(x -> row() * 2).skip(3).findFirst()', 'OptionalLong[6]'),
    ('column("a").map(x -> x + row() * cell("b")).toArray()', '[3, 20, 55]'),
    ('empty().map(x -> row()).toArray()', '[]'),
    # The exact sum by its word.
    ('of(-5, 9223372036854775807, 3).sumExact()', '9223372036854775805'),
    ('of(9223372036854775807, 1, -5).sumExact()', 'fault overflow stage 1 item 1'),
    ('of(9223372036854775807, 1, -5).sumExact().onFault(-4)', '-4'),
    ('of(9223372036854775807, 2).flatMap(x -> of(x, 1)).sumExact()', 'fault overflow stage 2 item 0'),
    ('empty().sumExact()', '0'),
    ('column("a").filter(x -> cell("b") > 10).sumExact();', '-5'),
]

# (a job file of version 3, its report)
LATER_REPORTS = [
    ('version 3\na = column("a").sorted().map(x -> cell("b")).toArray()\nb = column("b").distinct().map(x -> row()).toArray()\n'
     'c = concat(column("a"), column("a")).distinct().count()\nd = of(3, 1, 3, 1).sorted().map(x -> row()).toArray()\n',
     'a = [30, 20, 10]\nb = [0, 1, 2]\nc = 3\nd = [1, 3, 0, 2]\n'),
    ('# c\n\n version \t 3 \r\ncell = of(4).sumExact()\nrow = column("b").map(x -> $cell * row() + cell("a")).toArray()\n'
     'version = result(row).map(x -> x - row()).sum()\n', 'cell = 4\nrow = [3, 4, 3]\nversion = 7\n'),
]

# (a job file, its report)
REPORTS = [
    ('true = of(1).anyMatch(range -> range > 0)\nlong = of(1).allMatch(x -> x > 1)\n', 'true = true\nlong = false\n'),
    ('', ''),
    ('\ufeff# squares\r\ns = LongStream.rangeClosed(1, 4)\r\n  .map((x) -> x * x)\r\n  .sum();\r\n', 's = 30\n'),
    ('t = column("a").sum()\nu = column("b").map(x -> x / $t).toArray()\n', 't = -2\nu = [-5, -10, -15]\n'),
    ('z = of(0).map(x -> 1 / x).sum()\ny = of(1).map(x -> x + $z).sum()\n',
     'z = fault divide-by-zero stage 1 item 0\ny = unusable z\n'),
    ('a = of(2).sum()\nb = of(1).map(x -> x + $a).sum()\nc = of(1).map(x -> x * $a + $b + $a).sum()\n',
     'a = 2\nb = 3\nc = 7\n'),
    ('p = of(1, 2).toArray()\nq = result(p).map(x -> x * 2).sum()\n', 'p = [1, 2]\nq = 6\n'),
    ('z = of(0).map(x -> 1 / x).sum()\nm = of().min()\nu = of(1).map(x -> $m + $z).sum()\n'
     'v = empty().map(x -> x + $u).sum()\n',
     'z = fault divide-by-zero stage 1 item 0\nm = OptionalLong.empty\nu = unusable m\nv = unusable u\n'),
    ('z = of(0).map(x -> 1 / x).toArray()\nr = concat(of(1), result(z)).limit(0).count()\n',
     'z = fault divide-by-zero stage 1 item 0\nr = unusable z\n'),
    ('true = of(2).sum()\nlong = of(3).filter(x -> x > $true).count()\n', 'true = 2\nlong = 1\n'),
    ('version 2\nz = of(0).map(x -> 1 / x).sum().onFault(-1)\ny = of(1).map(x -> x + $z).sum()\n'
     'm = of(1, 0).map(x -> 1 / x).max().onFault(9)\nn = empty().min().onFault(9)\n',
     'z = -1\ny = 0\nm = OptionalLong[9]\nn = OptionalLong.empty\n'),
    ('\ufeff# c\n version\t2 \nq = of(0).map(x -> 1 / x).sum()\nu = of(1).map(x -> x + $q).sum()\n.onFault(7);\n',
     'q = fault divide-by-zero stage 1 item 0\nu = unusable q\n'),
    ('version 2\nr = of(0).map(x -> 1 / x).reduce(1, product).onFault(2)\ns = of(0).map(x -> 1 / x).reduce(product).onFault(3)\n'
     'f = of(0).map(x -> 1 / x).findFirst().onFault(4)\ne = of(9223372036854775807, 1).reduce(0, Math::addExact).onFault(5)\n'
     'l = range(Long.MIN_VALUE, 1).count().onFault(6)\nversion = of(1).prefix(0, 9, sum).min().onFault(7)\n',
     'r = 2\ns = OptionalLong[3]\nf = OptionalLong[4]\ne = 5\nl = 6\nversion = OptionalLong[7]\n'),
    ('version 2', ''),
    ('j0 = of(1).sum()\n' + ''.join(f'j{it} = of(1).map(x -> x + $j{it - 1}).sum()\n' for it in range(1, 256)),
     ''.join(f'j{it} = {it + 1}\n' for it in range(256))),
]

JSON = [
    ('s = of(1, 2).toArray()\nm = of().min()\n', '[{"array":[1,2],"name":"s"},{"name":"m","optional":null}]\n'),
    ('s = of(1, 2).toArray()\n', '[{"array":[1,2],"name":"s"}]\n'),
    ('s = of(-2).sum()\nj = of(1).anyMatch(x -> x > 0)\nm = of(5).max()\nq = of(0).map(x -> 1 / x).sum()\n'
     'n = range(Long.MIN_VALUE, 1).count()\ny = of(1).map(x -> $q).sum()\n',
     '[{"name":"s","number":-2},{"name":"j","truth":true},{"name":"m","optional":5},'
     '{"fault":"divide-by-zero","item":0,"name":"q","stage":1},'
     '{"fault":"source-too-long","item":null,"name":"n","stage":0},{"name":"y","unusable":"q"}]\n'),
    ('', '[]\n'),
]

# (what stands after 'j = ', the cause)
REFUSED = [
    ('range(0, 5).', 'syntax'),
    ('of(1).map(x -> x > 1).sum()', 'wrong type'),
    ('of(1).reduce(0, last)', 'no identity'),
    ('of(1).map(x -> Math.abs()).sum()', 'expression syntax at column 15'),
    ('of(1).map(x -> Math.abs(1, 2)).sum()', 'wrong type'),
    ('of(1).map(x -> -(9223372036854775808)).sum()', 'literal too large'),
    ('of(1).map(x -> -+9223372036854775808).sum()', 'literal too large'),
    ('of(1).map(x -> 5 -9223372036854775808).sum()', 'literal too large'),
    ('of(1).map(x -> Math.PI).sum()', 'expression syntax at column 13'),
    ('of(1).map(x -> Long.PI).sum()', 'unknown name'),
    ('of(1).map(x -> Long.MAX_VALUE(1)).sum()', 'unknown name'),
    ('of(1).map(x -> Long.sum).sum()', 'unknown name'),
    ('of(1).map(x -> Math.true(x)).sum()', 'unknown name'),
    ('of(1).map(x -> Long.long).sum()', 'unknown name'),
    ('of(1).map(x -> long).sum()', 'expression syntax at column 6'),
    ('of(1).reduce((a, a) -> a)', 'expression syntax at column 5'),
    ('of(1).reduce((long a, b) -> a)', 'expression syntax at column 10'),
    ('of(1).reduce((a, long b) -> a)', 'expression syntax at column 5'),
    ('of(1).prefix(1).sum()', 'expression syntax at column 1'),
    ('of(1).reduce(0)', 'expression syntax at column 1'),
    ('of(1).reduce(long)', 'operator not listed'),
    ('of(1).reduce(true)', 'operator not listed'),
    ('of(1).reduce((sum))', 'expression syntax at column 5'),
    ('of(1).reduce((a, b) -> a + $none)', 'operator not listed'),
    ('of(Long.SIZE).sum()', 'syntax'),
    ('of(1).reduce(9223372036854775808, avg)', 'literal too large'),
    ('of(1).reduce(1, avg)', 'operator not listed'),
    ('of(1).reduce(1, first)', 'no identity'),
    ('of(1).prefix(3, 2, avg).sum()', 'bad range'),
    ('of(1).prefix(3, 9223372036854775808, avg).sum()', 'literal too large'),
    ('sum(0)', 'syntax'),
    ('of(1).map(x -> x + $none).sum()', 'unknown job'),
    ('of(1).map(x -> x + $j).sum()', 'unknown job'),
    ('result(none).sum()', 'unknown job'),
    ('column("z").sum()', 'unknown column'),
    ('of(1, 2', 'syntax'),
    ('of(1).map(x -> ' + '(' * 64 + 'x' + ')' * 64 + ').sum()', 'too deep'),
    ('of(1)' + '.skip(0)' * 33 + '.sum()', 'too long'),
    ('concat(' + ', '.join(['of(1)'] * 9) + ').sum()', 'too long'),
    ('of(1).reduce(1, Math::addExact)', 'not identity'),
    ('of(1).reduce(Math::addExact)', 'operator not listed'),
    ('of(1).reduce((a, b) -> Math.addExact(a, b))', 'operator not listed'),
    ('of(1).prefix(Math::addExact).sum()', 'operator not listed'),
    ('of(1).reduce(0, (a, b) -> Math.addExact(b, a))', 'operator not listed'),
    ('of(1).reduce(0, Long::addExact)', 'operator not listed'),
    ('of(1).reduce(0, addExact)', 'operator not listed'),
    ('of(1).reduce(9223372036854775808, Math::addExact)', 'literal too large'),
]

# (a job file, the line and the cause)
REFUSED_FILES = [
    ('# c\n\n .sum()\na = of(1).sum()', '3: syntax'),
    ('a = of(1).sum()\nb = of(1).sum()\na = of(2).sum()\n', '3: same name'),
    ('a = of(1).toArray()\nb = of(1).map(x -> $a).sum()\n', '2: not a number'),
    ('\n' + 'n' * 65 + ' = of(1).sum()\n', '2: too long'),
    (''.join(f'j{it} = of(1).sum()\n' for it in range(257)), '257: too long'),
    ('a = of(1).map(x -> Math\n# c\n .abs(x) +).sum()\n', '1: expression syntax at column 21'),
    ('a = of(1).map(x -> x\n  +).sum()\n', '1: syntax'),
    ('a = of(1).sum()\r', '1: syntax'),
    ('version 2;\na = of(1).sum()\n', '1: syntax'),
    ('version 3\na = of(1).sum()\n', '1: syntax'),
    ('version 2\n# c\n.sum()\n', '3: syntax'),
    ('a = of(1).sum()\nversion 2\n', '2: syntax'),
    ('version 2\nt = of(1).anyMatch(x -> x > 1).onFault(0)\n', '2: not scalar'),
    ('version 2\nt = of(1).toArray().onFault(9223372036854775808)\n', '2: literal too large'),
    ('version 2\nt = of(1).sum().onFault(0).onFault(0)\n', '2: syntax'),
    ('version 2\nt = of(1).onFault(0)\n', '2: syntax'),
    ('version 2\nt = of(1).sum().onFault()\n', '2: syntax'),
    # A part past its limit is too long before any other cause, and so is one job more than 256; an earlier fault comes first.
    ('n' * 65 + ' = of(9223372036854775808).sum()', '1: too long'),
    ('s = of(9223372036854775808' + ',1' * 1024 + ').sum()', '1: too long'),
    ('s = of()' + '.map(x->x)' * 32 + '.map(x->y).sum()', '1: too long'),
    ('s = of()' + '.map(x->x)' * 32 + '.prefix(3, 2, sum).sum()', '1: too long'),
    ('s = of()' + '.map(x->x)' * 31 + '.limit(-1).skip(-1).sum()', '1: negative count'),
    ('s = of()' + '.map(x->x)' * 32 + '.reduce(9223372036854775808, sum)', '1: literal too large'),
    ('s = concat(of(9223372036854775808)' + ',empty()' * 8 + ').sum()', '1: too long'),
    ('s = concat(column("z")' + ', of()' * 7 + ').sum()', '1: unknown column'),
    ('s = concat(column("z"), LongStream.concat(of(), of())' + ', of()' * 6 + ').sum()', '1: too long'),
    ('s = of().sum()\ns = concat(of()' + ', of()' * 8 + ').sum()', '2: same name'),
    ('s = of().sum(0)' + ' ' * 65522, '1: too long'),
    (''.join(f'j{it} = of().sum()\n' for it in range(256)) + 'more (\n', '257: too long'),
    (''.join(f'j{it} = of().sum()\n' for it in range(255)) + 'j0 = of().sum()\nmore (\n', '256: same name'),
    # Operands of an inner stream.
    ('s = of(1).flatMap(x -> of(x' + ', y' * 64 + ')).sum()', '1: too deep'),
    ('s = of(1).flatMap(x -> of(x' + ', 9223372036854775808' * 64 + ')).sum()', '1: literal too large'),
    ('s = of(1).flatMap(x -> of(x, ' + '+ ' * 63 + 'y)).sum()', '1: too deep'),
]

# (a column file, what stands on standard error)
REFUSED_COLUMNS = [
    (b'', 'no header'), (b'\xef\xbb\xbf', 'no header'), (b'\r\n\n', 'no header'),
    (b'a,b\n3\n', 'wrong length of row 1'), (b'a\n3.0\n', 'bad number in row 1 column 1'), (b'a,a\n', 'same name'),
    (b'a,b\n1,2\n3,- 5\n', 'bad number in row 2 column 2'), (b'a\n \n', 'bad number in row 1 column 1'),
    (b'a\n9223372036854775808\n', 'bad number in row 1 column 1'), (b'a,b,a\n', 'same name'), (b',' * 256, 'more than 256 columns'),
    (b'a,b\n1,2\n3,4,5\nx,y\n', 'wrong length of row 2'), (b'a,b\n1,2\n3,-\n', 'bad number in row 2 column 2'),
    (b'a,b\n1,x\n1\n', 'bad number in row 1 column 2'), (b'a\n"1\n"\n', 'bad number in row 1 column 1'),
    (','.join(f'c{it}' for it in range(257)).encode(), 'more than 256 columns'),
]

# (a column file, a source, its values)
CELLS = [
    (b'\xef\xbb\xbfa\n +007 \n', 'column("a")', '[7]'), (b'a\n\n1\r2\r\n\n"3"\n', 'column("a")', '[1, 2, 3]'),
    (b'"a b",\n-9223372036854775808,\t-0\n', 'column("")', '[0]'), (b'a,b\n', 'column("b")', '[]'),
    (b'x\n' + b'0' * 40 + b'5', 'column("x")', '[5]'),
]


NOTES = b'id;note;qty\n1;"pay; later";4\n2;"said ""no""\ntwice";-1\n3;;+10\n'
MIXED = b'a,t,b\n1,"x,2\ry"z,3\n\n4,u"v,5\n'
ORDERS = b'id,day,city,price,qty\n1,2024-01-30,Oslo,12.50,4\n2,2024-01-31,Bergen,9.90,\n4,2024-02-01,Oslo,15.00,-1\n5,2024-02-02,Turku,12.50,10\n'
# (a column file, words of the command line by which it is read, a job file, its report or the line that refuses it)
TABLES = [
    (NOTES, "--only-named --separator ;", 'q = column("qty").toArray()', 'q = [4, -1, 10]'),
    (NOTES, "--only-named --separator ;", 'q = column("qty").toArray()\nn = column("note").count()', 'columns: bad number in row 1 column 2'),
    (NOTES, "--only-named --separator ;", '# column("note")\nq = column("qty").sum()', 'q = 13'),
    (NOTES, "--only-named --separator ;", 'q = column("note").sum(', 'columns: bad number in row 1 column 2'),
    (NOTES, "--only-named --separator ;", 'r = range(0, 3).sum()', 'r = 3'),
    (NOTES, "--only-named", 'q = column("qty").sum()', 'jobs: line 1: unknown column'),
    (NOTES, "", 'q = column("qty").sum()', 'columns: bad number in row 1 column 1'),
    (NOTES, "--separator ;", 'q = column("qty").sum()', 'columns: bad number in row 1 column 2'),
    (NOTES, "--only-named --separator |", 'r = range(0, 3).sum()', 'r = 3'),
    (ORDERS, "--only-named", 'n = column("qty").sum()', 'columns: bad number in row 2 column 5'),
    (ORDERS, "--only-named --blank 0", 'n = column("qty").sum()', 'n = 13'),
    (ORDERS, "--only-named --blank=-9223372036854775808", 'n = column("qty").filter(x -> x != Long.MIN_VALUE).count()', 'n = 3'),
    (ORDERS, "--only-named", 'n = column("qty").sum()\nx x', 'columns: bad number in row 2 column 5'),
    (ORDERS, "--only-named", '.sum()', 'jobs: line 1: syntax'),
    (MIXED, "--only-named", 'a = column("a").toArray()\nb = column("b").toArray()', 'a = [1, 4]\nb = [3, 5]'),
    (b'a,t,b\n1,"x', "--only-named", 'a = column("a").sum()', 'columns: wrong length of row 1'),
    (b'a,t\n1,"x\n2,y', "--only-named", 'a = column("a").toArray()', 'a = [1]'),
    (b'a\n1\n\n\t\n"" \n2', "--blank 7", 'a = column("a").toArray()', 'a = [1, 7, 7, 2]'),
    (b'a\tb\n1\t\n" \t"\t2', "--separator tab --blank=-5", 'a = column("a").toArray()\nb = column("b").toArray()', 'a = [1, -5]\nb = [-5, 2]'),
    (b'a|t,"x"|a2\n1|"|"|2\n', "--only-named --separator |", 'a = column("a2").sum()', 'a = 2'),
    (b't,t,a,\n"",x,5,\n', "--only-named", 'a = column("a").sum()', 'a = 5'),
    (b't,t,a,\n"",x,5,\n', "--only-named", 'a = column("a").sum()\nt = column("t").sum()', 'columns: same name'),
    (b't,a\nx,5\nx\n', "--only-named", 'r = range(0, 3).sum()', 'columns: wrong length of row 2'),
    (b'\n', "--only-named", 'r = range(0, 3).sum()', 'columns: no header'),
    (','.join(f'c{at}' for at in range(3000)).encode() + b'\n' + b',' * 2999 + b'7\n', "--only-named", 'a = column("c2999").sum()', 'a = 7'),
]


def refused_texts():
    """(a job file, a column file or None, the number of --language, the line and the cause) of each row of refused.txt, for each
    language that it stands for"""
    front, columns, languages = '', None, LANGUAGES
    for row in read(REFUSED_TEXTS).decode().splitlines():
        word, _, text = row.partition(' => ')
        # In a text `\\n` and others mean what they mean in Python.
        if row.startswith('front:'):
            front, columns, languages = unescaped(row[len('front: '):]), None, LANGUAGES
        elif row.startswith('language: '):
            languages = [int(row[len('language: '):])]
        elif row.startswith('columns: '):
            columns = unescaped(row[len('columns: '):]).encode()
        elif text and not row.startswith('#'):
            line, _, cause = word.partition(' ') if word[0].isdigit() else (front.count('\n') + 1, '', word)
            yield from ((front + unescaped(text), columns, it, f'{line}: {cause}') for it in languages)


def unescaped(text):
    return text.encode('ascii').decode('unicode_escape')


def of_all_versions(files):
    """(a job file, the number of --language, what it has to give) of these files, as they are and as ones of each later version, in
    each language that reads them."""
    for jobs, wanted in files:
        mark, text = ('\ufeff', jobs[1:]) if jobs.startswith('\ufeff') else ('', jobs)
        said = SAYS_VERSION.match(text)
        without = said[1] + text[said.end():] if said else text
        first = int(said[2]) if said else 1
        later = [f'{mark}version {version}\n{without}' for version in range(first + 1, LANGUAGES[-1] + 1)]
        for file in [jobs, *later]:
            yield from ((file, it, wanted) for it in LANGUAGES if it >= newest_of(file.encode()))


def cases():
    """(a job file, a column file or None, 'text' or 'json', the number of --language, the wanted standard output, standard error
    and status, and the options of the table) of each case."""
    for jobs, columns, form, newest, wanted in plain_cases():
        yield jobs, columns, form, newest, wanted, {}
    for columns, words, jobs, said in TABLES:
        is_refused = said.startswith(('columns:', 'jobs:'))
        yield jobs, columns, 'text', LANGUAGES[0], ('', f'streamrun: {said}\n', 1) if is_refused else (f'{said}\n', '', 0), table_of(words.split())


def plain_cases():
    """The cases whose table is read as it is."""
    for jobs, newest, text in of_all_versions([(f'j = {job}\n', f'j = {answer}\n') for job, answer in ANSWERS] + REPORTS + LATER_REPORTS):
        yield jobs, COLUMNS, 'text', newest, (text, '', 0)
    for jobs, newest, text in of_all_versions(JSON):
        yield jobs, None, 'json', newest, (text, '', 0)
    for job, answer in LATER_ANSWERS:
        yield f'version 3\nj = {job}\n', COLUMNS, 'text', LANGUAGES[-1], (f'j = {answer}\n', '', 0)
    for newest in LANGUAGES:
        for job, cause in REFUSED:
            yield f'j = {job}', None, 'text', newest, ('', f'streamrun: jobs: line 1: {cause}\n', 1)
        for columns, cause in REFUSED_COLUMNS:
            # The job file is not read at all.
            yield 'junk', columns, 'text', newest, ('', f'streamrun: columns: {cause}\n', 1)
    for jobs, cause in REFUSED_FILES:
        yield jobs, None, 'text', LANGUAGES[0], ('', f'streamrun: jobs: line {cause}\n', 1)
        if newest_of(jobs.encode()) == LANGUAGES[0]:
            yield jobs, None, 'text', LANGUAGES[-1], ('', f'streamrun: jobs: line {cause}\n', 1)
    for jobs, columns, newest, cause in refused_texts():
        yield jobs, columns, 'text', newest, ('', f'streamrun: jobs: line {cause}\n', 1)
    for columns, source, values in CELLS:
        yield f'j = {source}.toArray()', columns, 'text', LANGUAGES[0], (f'j = {values}\n', '', 0)


def examples():
    """The files of examples/ and tests/, in each language that they are for."""
    for jobs, table in job_files():
        name, text, columns = jobs[:-len('.jobs')], read(jobs), None if table is None else read(table)
        wanted = ((read(name + '.report').decode(), '', 0) if os.path.exists(name + '.report') else
                  ('', read(name + '.fault').decode(), 1))
        table = options_beside(jobs)
        for newest in LANGUAGES:
            if newest >= newest_of(text):
                yield text.decode(), columns, 'text', newest, wanted, table
        if os.path.exists(name + '.json'):
            yield text.decode(), columns, 'json', newest_of(text), (read(name + '.json').decode(), '', 0), table


def compare_all(outcome_of):
    """Compares outcome_of, which is called as the model's `outcome` is, with all answers; it gives None for a file that takes too
    long."""
    tally = Tally('worked answers')
    for jobs, columns, form, newest, wanted, table in [*cases(), *examples()]:
        got = outcome_of(jobs.encode(), columns, form, newest, table)
        if got is None:
            print(f'worked answers: left out, since they take too long: {jobs[:100]!r}')
        else:
            no_jobs = NO_JOBS.decode() if wanted in (('', '', 0), ('[]\n', '', 0)) else ''
            tally.compare(f'{jobs[:200]!r}', (got[0].decode(), got[1].decode(), got[2]), (wanted[0], wanted[1] or no_jobs, wanted[2]))
    return tally.end()
