"""What others call operations of a job, with the operations to write: {0} and {1} are the operands, {all} is all of them, {x} is the
parameter of a lambda and {body} its expression, {not} its opposite. An empty text says that nothing is to be written."""
from __future__ import annotations

from .lambdas import Want
from .syntax import OPERATIONS

# How operations are called.
SHAPES = {'range': 'range(0, 10)', 'rangeClosed': 'rangeClosed(1, 10)', 'of': 'of(1, 2, 3)', 'limit': 'limit(10)',
          'skip': 'skip(10)', 'prefix': 'prefix(sum) or prefix(0, 10, sum)', 'reduce': 'reduce(0, sum) or reduce(max)',
          'onFault': 'onFault(0)', 'column': 'column("a")', 'result': 'result(NAME)', 'concat': 'concat(of(1), of(2))'}
LAMBDAS = {Want.LONG: 'x -> x * 2', Want.BOOLEAN: 'x -> x > 0', Want.STREAM: 'x -> of(x, -x)'}
FIRST = '.findFirst()'
UP, DOWN = '.sorted()', '.map(x -> ~x).sorted().map(x -> ~x)'
# Operations that put items in an order, and those that take one by its place in it, with the share of the items before it; an operand
# says it, if none stands here.
ORDERS = ('sorted', 'sort', 'order', 'orderBy', 'sort_values', 'sortBy')
RANKS = {'median': '0.5', 'percentile': '', 'quantile': ''}
STAGES = {
    # One for one.
    'where': '.filter({0})', 'keep': '.filter({0})', 'select': '.map({0})', 'apply': '.map({0})', 'transform': '.map({0})',
    'mapToObj': '.map({0})', 'mapToInt': '.map({0})', 'mapToLong': '.map({0})', 'mapToDouble': '.map({0})',
    'flat_map': '.flatMap({0})', 'takewhile': '.takeWhile({0})', 'dropwhile': '.dropWhile({0})', 'take_while': '.takeWhile({0})',
    'drop_while': '.dropWhile({0})', 'skipWhile': '.dropWhile({0})', 'filterNot': '.filter({not})', 'reject': '.filter({not})',
    'removeIf': '.filter({not})', 'takeUntil': '.takeWhile({not})', 'dropUntil': '.dropWhile({not})',
    'head': '.limit({0})', 'take': '.limit({0})', 'drop': '.skip({0})', 'offset': '.skip({0})',
    'scan': '.prefix({all})', 'accumulate': '.prefix({all})', 'fold': '.reduce({all})', 'inject': '.reduce({all})',
    'foldLeft': '.reduce({all})', 'aggregate': '.reduce({all})', 'cumsum': '.prefix(sum)', 'cummax': '.prefix(max)',
    'cummin': '.prefix(min)', 'cumprod': '.prefix(product)',
    # Terminals.
    'any': '.anyMatch({0})', 'some': '.anyMatch({0})', 'exists': '.anyMatch({0})', 'all': '.allMatch({0})', 'every': '.allMatch({0})',
    'none': '.noneMatch({0})', 'contains': '.anyMatch(x -> x == {0})', 'includes': '.anyMatch(x -> x == {0})',
    'product': '.reduce(1, product)', 'prod': '.reduce(1, product)', 'sumExact': '.reduce(0, Math::addExact)',
    'length': '.count()', 'size': '.count()', 'len': '.count()', 'findAny': FIRST, 'findLast': '.reduce(last)',
    'maximum': '.max()', 'minimum': '.min()', 'total': '.sum()', 'collect': '.toArray()', 'toList': '.toArray()',
    'tolist': '.toArray()', 'array': '.toArray()', 'list': '.toArray()', 'iterator': '.toArray()', 'forEach': '.toArray()',
    'forEachOrdered': '.toArray()', 'each': '.toArray()', 'println': '.toArray()', 'print': '.toArray()', 'show': '.toArray()',
    # Lambdas that others have as operations.
    'abs': '.map(x -> Math.abs(x))', 'negate': '.map(x -> -x)', 'neg': '.map(x -> -x)', 'add': '.map(x -> x + {0})',
    'plus': '.map(x -> x + {0})', 'sub': '.map(x -> x - {0})', 'minus': '.map(x -> x - {0})', 'mul': '.map(x -> x * {0})',
    'multiply': '.map(x -> x * {0})', 'times': '.map(x -> x * {0})', 'div': '.map(x -> x / {0})', 'divide': '.map(x -> x / {0})',
    'mod': '.map(x -> Math.floorMod(x, {0}))', 'clip': '.map(x -> Math.min(Math.max(x, {0}), {1}))',
    'clamp': '.map(x -> Math.min(Math.max(x, {0}), {1}))', 'between': '.filter(x -> x >= {0} && x <= {1})',
    'eq': '.filter(x -> x == {0})', 'ne': '.filter(x -> x != {0})', 'gt': '.filter(x -> x > {0})', 'ge': '.filter(x -> x >= {0})',
    'lt': '.filter(x -> x < {0})', 'le': '.filter(x -> x <= {0})', 'sumBy': '.map({0}).sum()', 'countIf': '.filter({0}).count()',
    'find': '.filter({0}).findFirst()', 'firstWhere': '.filter({0}).findFirst()', 'detect': '.filter({0}).findFirst()',
    # In version 3.
    **dict.fromkeys(('unique', 'uniq', 'drop_duplicates', 'nub', 'toSet'), '.distinct()'),
    **dict.fromkeys(('nunique', 'countDistinct'), '.distinct().count()'), 'nsmallest': UP + '.limit({0})',
    **dict.fromkeys(('top', 'topN', 'nlargest'), DOWN + '.limit({0})'),
    **dict.fromkeys(('sortedDescending', 'sortDescending', 'sortDesc', 'orderByDescending', 'orderByDesc'), DOWN),
    # What integers don't need.
    **dict.fromkeys(('boxed', 'parallel', 'sequential', 'unordered', 'asLongStream', 'stream', 'onClose', 'close', 'asDoubleStream',
                     'round', 'floor', 'ceil', 'trunc', 'fillna', 'dropna', 'astype', 'toLong', 'longValue', 'intValue', 'nonNull', 'peek', 'compute', 'values'), ''),
}
GROUPS = ('groupBy', 'groupby', 'group_by')
# What Miller does, by the column and the first operand.
STATISTIC = 'mlr --icsv --opprint stats1 -a {what} -f {column} FILE'
TABLE = 'mlr --csv {what} FILE'
BY_MILLER = {
    **{name: (STATISTIC, what) for name, what in {
        'stddev': 'stddev', 'std': 'stddev', 'stdev': 'stddev', 'var': 'var', 'variance': 'var', 'mode': 'mode', 'skewness': 'skewness', 'describe': 'count,min,mean,p50,max', 'summary': 'count,min,mean,p50,max'}.items()},
    **{name: (TABLE, what) for name, what in {
        **dict.fromkeys(ORDERS, 'sort -n{way} {column}'), 'reversed': 'tac', 'reverse': 'tac', 'shuffle': 'shuffle',
        'sample': 'sample -k {0}',
        'lag': 'step -a shift -f {column} then fill-empty -v 0', 'shift': 'step -a shift -f {column} then fill-empty -v 0',
        'lead': 'step -a shift_lead -f {column} then fill-empty -v 0', 'diff': 'step -a delta -f {column}',
        'delta': 'step -a delta -f {column}', 'rolling': 'step -a slwin_{less}_0 -f {column}',
        'window': 'step -a slwin_{less}_0 -f {column}', 'moving': 'step -a slwin_{less}_0 -f {column}',
        'argmax': 'sort -nr {column} then head -n 1', 'idxmax': 'sort -nr {column} then head -n 1',
        'argmin': 'sort -nf {column} then head -n 1', 'idxmin': 'sort -nf {column} then head -n 1',
        'maxBy': 'sort -nr {column} then head -n 1', 'minBy': 'sort -nf {column} then head -n 1',
        'value_counts': 'count-distinct -f {column}', 'groupBy': 'count-distinct -f {column}', 'groupby': 'count-distinct -f {column}',
        'group_by': 'count-distinct -f {column}', 'histogram': 'count-distinct -f {column}'}.items()},
}
# Operations for which another page has a way.
PAGES = {'zip': 'cell("NAME") for another cell of the row, docs/job-language.md', 'join': 'docs/tables.md', 'merge': 'docs/tables.md',
         'indexOf': 'docs/recipes.md', 'rank': 'docs/tables.md', 'partition': 'docs/tables.md', 'pivot': 'docs/tables.md',
         'corr': 'docs/tables.md', 'average': 'docs/recipes.md', 'mean': 'docs/recipes.md', 'avg': 'docs/recipes.md', 'iterate': 'docs/recipes.md', 'summaryStatistics': 'docs/recipes.md',
         **dict.fromkeys(('tail', 'takeLast', 'dropLast'), '.skip(N), which leaves the first N items out, docs/job-language.md'),
         'mapMulti': 'docs/job-language.md', **dict.fromkeys((*ORDERS, 'distinct', 'unique'), 'docs/tables.md'),
         **dict.fromkeys(RANKS, '.sorted().skip(N).findFirst() of version 3, with N items before it, docs/recipes.md'),
         **dict.fromkeys(('top', 'topN', 'nlargest', 'nsmallest'), 'docs/recipes.md')}


def shape(name: str) -> str:
    """How an operation is called."""
    want = OPERATIONS.get(name)
    return SHAPES.get(name) or (f'{name}({LAMBDAS[want]})' if want in LAMBDAS else f'{name}()')
