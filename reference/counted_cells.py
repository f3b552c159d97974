"""Jobs of version 3 over 3,000 rows, with cells and places in each place of a lambda, and what plain loops count for them.

Each row below has a lambda's text beside its value at x in row i. A filter before it leaves few, many, all or none of the rows.
"""
ROWS = 3000
# The row at which Z is 0.
ZERO = 2345
K = list(range(ROWS))
P = [(7 * i + 3) % 101 - 20 for i in K]
Q = [i * i % 97 for i in K]
R = [i % 10 for i in K]
Z = [0 if i == ZERO else 1 + i % 3 for i in K]
TABLE = {'k': K, 'p': P, 'q': Q, 'r of row': R, 'z': Z}

# (a filter of rows, whether it keeps row i)
KEPT = {'few': ('cell("k") % 701 == 5', lambda i: i % 701 == 5), 'many': ('cell("r of row") != 3', lambda i: R[i] != 3),
        'all': ('row() >= 0', lambda i: True), 'none': ('cell("k") < 0', lambda i: False), 'ends': ('row() < 3 || cell("k") > 2990',
                                                                                                 lambda i: i < 3 or i > 2990)}
NUMBERS = [
    ('cell("q")', lambda x, i: Q[i]), ('row()', lambda x, i: i), ('-cell("p")', lambda x, i: -P[i]), ('~row()', lambda x, i: ~i),
    ('x - cell("q")', lambda x, i: x - Q[i]), ('cell("q") - x', lambda x, i: Q[i] - x), ('cell("q") - cell("p")', lambda x, i: Q[i] - P[i]),
    ('cell("q") * 3 + 1', lambda x, i: Q[i] * 3 + 1), ('7 - cell("q")', lambda x, i: 7 - Q[i]), ('row() * 3 - x', lambda x, i: i * 3 - x),
    ('x * 2 + cell("q") * 3 + cell("p") * 5', lambda x, i: x * 2 + Q[i] * 3 + P[i] * 5),
    ('(x - cell("q")) * (cell("p") + row())', lambda x, i: (x - Q[i]) * (P[i] + i)),
    ('Math.max(x, cell("q"))', lambda x, i: max(x, Q[i])), ('Math.min(cell("q"), 50)', lambda x, i: min(Q[i], 50)),
    ('Math.abs(cell("q") - 50)', lambda x, i: abs(Q[i] - 50)), ('Math.multiplyExact(cell("q"), row())', lambda x, i: Q[i] * i),
    ('Math.floorMod(x, cell("q") + 1)', lambda x, i: x % (Q[i] + 1)), ('1000 / (cell("r of row") + 1)', lambda x, i: 1000 // (R[i] + 1)),
    ('row() / (cell("q") + 1)', lambda x, i: i // (Q[i] + 1)), ('cell("q") % 7', lambda x, i: Q[i] % 7), ('cell("k") / 64', lambda x, i: i // 64),
    ('x << (cell("r of row") & 7)', lambda x, i: x << (R[i] & 7)), ('row() >>> cell("r of row")', lambda x, i: i >> R[i]),
    ('cell("r of row") == 3 ? x : -x', lambda x, i: x if R[i] == 3 else -x), ('x > 30 ? cell("q") : x', lambda x, i: Q[i] if x > 30 else x),
    ('x > 30 ? x : cell("q")', lambda x, i: x if x > 30 else Q[i]), ('x > cell("q") ? row() : cell("p")', lambda x, i: i if x > Q[i] else P[i]),
    ('cell("z") == 0 ? -1 : x / cell("z") * cell("z") + x % cell("z")', lambda x, i: -1 if Z[i] == 0 else x),
    ('x > 30 ? cell("r of row") > 5 ? cell("q") / (cell("r of row") - 5) : cell("p") : row()',
     lambda x, i: (Q[i] // (R[i] - 5) if R[i] > 5 else P[i]) if x > 30 else i),
    ('row() < 1500 && cell("q") > 40 || cell("p") < 0 ? cell("k") : 1', lambda x, i: i if i < 1500 and Q[i] > 40 or P[i] < 0 else 1),
]
TESTS = [
    ('cell("r of row") == 3', lambda x, i: R[i] == 3), ('3 != cell("r of row")', lambda x, i: R[i] != 3), ('cell("q") > x', lambda x, i: Q[i] > x),
    ('x <= cell("q")', lambda x, i: x <= Q[i]), ('cell("q") < cell("p")', lambda x, i: Q[i] < P[i]), ('row() >= 1500', lambda x, i: i >= 1500),
    ('row() % 64 == cell("r of row")', lambda x, i: i % 64 == R[i]), ('!(cell("r of row") > 3)', lambda x, i: R[i] <= 3),
    ('x > 30 || cell("q") > 50', lambda x, i: x > 30 or Q[i] > 50), ('cell("r of row") > 3 && row() / (cell("r of row") - 3) > x',
                                                                     lambda x, i: R[i] > 3 and i // (R[i] - 3) > x),
    ('cell("z") != 0 && 6 / cell("z") > 2', lambda x, i: Z[i] != 0 and 6 // Z[i] > 2), ('cell("q") > 50 ? x > 0 : row() > 9',
                                                                                      lambda x, i: x > 0 if Q[i] > 50 else i > 9),
    ('cell("p") + cell("q") * 2 < 90', lambda x, i: P[i] + Q[i] * 2 < 90),
]
STREAMS = [
    ('of(cell("q"), x, row())', lambda x, i: [Q[i], x, i]), ('range(0, cell("r of row") & 3)', lambda x, i: range(R[i] & 3)),
    ('rangeClosed(cell("p"), cell("p") + x % 2)', lambda x, i: range(P[i], P[i] + (abs(x) % 2 if x >= 0 else -(-x % 2)) + 1)),
    ('range(row(), row() + 2)', lambda x, i: [i, i + 1]), ('of(cell("q") > x ? cell("k") : x)', lambda x, i: [i if Q[i] > x else x]),
]


def rows_of(kept):
    """The rows that a filter leaves, with the cells of the column p, and the job up to it."""
    text, keeps = KEPT[kept]
    return f'column("p").filter(x -> {text})', [(P[i], i) for i in K if keeps(i)]


def folded(values, at):
    """The end of a job, and what it gives for these values."""
    ends = [('toArray()', lambda: '[' + ', '.join(map(str, values)) + ']'), ('sum()', lambda: sum(values)),
            ('max()', lambda: f'OptionalLong[{max(values)}]' if values else 'OptionalLong.empty'), ('sumExact()', lambda: sum(values)),
            ('reduce(last)', lambda: f'OptionalLong[{values[-1]}]' if values else 'OptionalLong.empty'), ('count()', lambda: len(values))]
    text, answer = ends[at % len(ends) if len(values) > 50 or at % 2 else 0]
    return text, answer()


def cells_in_maps():
    """Numbers of cells and places in a map, over all rows in place and after a filter."""
    for at, (text, value) in enumerate(NUMBERS):
        end, answer = folded([value(P[i], i) for i in K], at + 1)
        yield f'm{at}_in_place', f'column("p").map(x -> {text}).{end}', answer
        for kept in KEPT:
            job, rows = rows_of(kept)
            end, answer = folded([value(x, i) for x, i in rows], at)
            yield f'm{at}_{kept}', f'{job}.map(x -> {text}).{end}', answer


def cells_in_tests():
    """Conditions of cells and places in a filter, a slice or a match, over all rows in place and after a filter."""
    for at, (text, test) in enumerate(TESTS):
        for kept in KEPT:
            job, rows = rows_of(kept)
            job = 'column("p")' if kept == 'all' else job
            met = [test(x, i) for x, i in rows]
            front = (met + [False]).index(False)
            end, answer = folded([x for (x, _), is_met in zip(rows, met) if is_met], at)
            yield f'f{at}_{kept}', f'{job}.filter(x -> {text}).{end}', answer
            name, answer = [('anyMatch', any(met)), ('allMatch', all(met)), ('noneMatch', not any(met))][at % 3]
            yield f'e{at}_{kept}', f'{job}.{name}(x -> {text})', str(answer).lower()
            if (at + len(kept)) % 2:
                yield f't{at}_{kept}', f'{job}.takeWhile(x -> {text}).count()', front
            else:
                yield f'd{at}_{kept}', f'{job}.dropWhile(x -> {text}).map(x -> row()).reduce(0, sum)', sum(i for _, i in rows[front:])


def cells_in_streams():
    """Cells and places in inner streams, after them, after slices and running folds, and at faults."""
    for at, (text, stream) in enumerate(STREAMS):
        for kept in KEPT:
            job, rows = rows_of(kept)
            pairs = [(y, i) for x, i in rows for y in stream(x, i)]
            end, answer = folded([y for y, _ in pairs], at + 1)
            yield f's{at}_{kept}', f'{job}.flatMap(x -> {text}).{end}', answer
            end, answer = folded([y * Q[i] + i for y, i in pairs], at + 1)
            yield f'after{at}_{kept}', f'{job}.flatMap(x -> {text}).map(y -> y * cell("q") + row()).{end}', answer
    for at in (0, 1, 63, 64, 1023, 1024, 1500, 2999):
        yield f'skip{at}', f'column("p").skip({at}).map(x -> x * cell("q") - row()).sum()', sum(P[i] * Q[i] - i for i in K[at:])
        yield f'limit{at}', f'column("p").map(x -> x + 1).limit({at}).map(x -> x * cell("q") - row()).sum()', sum((P[i] + 1) * Q[i] - i for i in K[:at])
        running = sum(P[:at + 1])
        yield (f'prefix{at}', f'column("p").prefix(Long::sum).filter(x -> cell("k") == {at}).map(x -> x + row()).findFirst()',
               f'OptionalLong[{running + at}]')
        yield f'zero{at}', f'column("p").skip({at}).map(x -> x / cell("z")).count()', (
            f'fault divide-by-zero stage 2 item {ZERO}' if at <= ZERO else ROWS - at)
    for kept, (text, keeps) in KEPT.items():
        answer = f'fault divide-by-zero stage 2 item {ZERO}' if keeps(ZERO) else sum(map(keeps, K))
        yield f'divided_{kept}', f'column("p").filter(x -> {text}).map(x -> row() / cell("z")).count()', answer
