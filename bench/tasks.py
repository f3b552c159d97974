"""The tasks of the parts peers, cores and tables: their jobs, their table, and these tasks for tools of tables."""
import pathlib

ROWS = 1_000_000

MAP_FILTER_SUM = "map(x -> x * 3 + 1).filter(x -> (x & 4) == 0).sum()"
FIFTEEN = "((((x * 31 + 7) ^ (x >>> 3)) * 13 - 5 ^ (x << 2)) + (x & 255)) * 3 - (x ^ 85) + x | 1"


def twelve(b, c, d, e):
    """Twelve aggregations over these columns."""
    return f'''\
j1 = column("{b}").sum()
j2 = column("{b}").filter(x -> x > 0).count()
j3 = column("{b}").min()
j4 = column("{b}").max()
j5 = column("{c}").map(x -> x % 1000).sum()
j6 = column("{c}").filter(x -> x % 2 == 0).map(x -> x / 2).sum()
j7 = column("{c}").anyMatch(x -> x < 0)
j8 = column("{d}").map(x -> x * x).sum()
j9 = column("{d}").reduce((x, y) -> Math.max(x, y))
j10 = column("{d}").allMatch(x -> x >= 0)
j11 = column("{e}").filter(x -> x > 5000).max()
j12 = column("{e}").map(x -> x < 0 ? -x : x).sum()
'''


SMALL = "".join(f"j{i} = range(0, 100).map(x -> x * {i}).filter(x -> x % 3 == 0).sum()\n" for i in range(256))

# Each job waits for the one before it.
CHAIN = "j0 = range(0, 100).sum()\n" + "".join(f"j{i} = range(0, 100).map(x -> x ^ $j{i - 1}).sum()\n" for i in range(1, 256))

# A title, and a job file.
JOBS = {
    "one_sum": ("the sum of a column of 10^6 rows", 's = column("b").sum()\n'),
    "twelve": ("twelve aggregations over columns of 10^6 rows", twelve(*"bcde")),
    "map_filter_sum": ("`map`, `filter`, `sum` over 10^8 numbers", f"s = range(0, 100000000).{MAP_FILTER_SUM}\n"),
    "fifteen": ("fifteen operators and `sum` over 10^8 numbers", f"s = range(0, 100000000).map(x -> {FIFTEEN}).sum()\n"),
    "to_array": ("`toArray` of 10^6 numbers, printed", "s = range(0, 1000000).map(x -> x * 7).toArray()\n"),
    "to_array_10": ("`toArray` of 10^7 numbers, printed", "s = range(0, 10000000).map(x -> x * 7).toArray()\n"),
    "small_jobs": ("256 jobs over 100 numbers each", SMALL),
    "chain": ("256 jobs, each naming the one above", CHAIN),
    "shallow_find": ("a find after 1,000 of 2^62 numbers", "s = range(0, 4611686018427387904).filter(x -> x % 1001 == 1000).findFirst()\n"),
    "late_find": ("`findFirst` at 90 % of 10^8 numbers", "s = range(0, 100000000).filter(x -> x == 90000000).findFirst()\n"),
    "late_match": ("`anyMatch` at 90 % of 10^8 numbers", "s = range(0, 100000000).anyMatch(x -> x == 90000000)\n"),
}


def long_jobs():
    """256 jobs of 65,536 bytes each over one item: 1,024 values, 30 lambdas of 60 numbers, and one that blanks fill up."""
    value = "9123456789012345678"
    body = "x" + "".join(f" {'*' if at % 2 else '+'} {value}" for at in range(1, 60))
    for number in range(256):
        job = f"j{number} = of({', '.join([value] * 1024)}).limit(1)" + f".map(x -> {body})" * 30
        yield f"{job}.map(x -> {' ' * (65536 - len(job) - len('.map(x -> x).sum()'))}x).sum()\n"


# The tasks that read the table, and the ones of few milliseconds.
OF_COLUMNS = ("one_sum", "twelve")
SHORT = ("small_jobs", "chain", "shallow_find")
# The tasks that the part cores times.
OF_CORES = ("map_filter_sum", "fifteen")

MAWK = {
    "one_sum": 'NR > 1 { s += $2 } END { printf "s = %.0f\\n", s }',
    "twelve": r"""NR > 1 {
    s1 += $2; if ($2 > 0) n2++; if (NR == 2 || $2 < m3) m3 = $2; if (NR == 2 || $2 > m4) m4 = $2
    s5 += $3 % 1000; if ($3 % 2 == 0) s6 += $3 / 2; if ($3 < 0) any = 1
    s8 += $4 * $4; if (NR == 2 || $4 > m9) m9 = $4; if ($4 < 0) some = 1
    if ($5 > 5000 && (n11++ == 0 || $5 > m11)) m11 = $5; s12 += $5 < 0 ? -$5 : $5
} END {
    printf "j1 = %.0f\nj2 = %d\nj3 = OptionalLong[%.0f]\nj4 = OptionalLong[%.0f]\n", s1, n2, m3, m4
    printf "j5 = %.0f\nj6 = %.0f\nj7 = %s\nj8 = %.0f\n", s5, s6, any ? "true" : "false", s8
    printf "j9 = OptionalLong[%.0f]\nj10 = %s\nj11 = OptionalLong[%.0f]\nj12 = %.0f\n", m9, some ? "false" : "true", m11, s12
}""",
}

SQL = {
    "one_sum": "select 's = ' || sum(b) from t;",
    "twelve": """\
select 'j1 = ' || sum(b), 'j2 = ' || sum(b > 0), 'j3 = OptionalLong[' || min(b) || ']', 'j4 = OptionalLong[' || max(b) || ']',
'j5 = ' || sum(c % 1000), 'j6 = ' || sum(case when c % 2 = 0 then c / 2 else 0 end),
'j7 = ' || case when max(c < 0) then 'true' else 'false' end, 'j8 = ' || sum(d * d), 'j9 = OptionalLong[' || max(d) || ']',
'j10 = ' || case when min(d >= 0) then 'true' else 'false' end,
'j11 = OptionalLong[' || max(case when e > 5000 then e end) || ']', 'j12 = ' || sum(abs(e)) from t;""",
}

def sqlite(table, query):
    create = "create table t(a integer, b integer, c integer, d integer, e integer, f integer, g integer, h integer);"
    return ["sqlite3", ":memory:", "-cmd", create, "-cmd", ".mode csv", "-cmd", f".import --skip 1 {table} t", "-cmd",
            ".mode list", "-cmd", '.separator "\\n"', query]


def sums_of(table):
    """The commands of mawk and sqlite3 that sum the column c0 of a table, whose cells may stand in quotes."""
    return {"mawk": ["mawk", "-F,", 'NR > 1 { gsub(/"/, "", $1); s += $1 } END { printf "s = %.0f\\n", s }', table],
            "sqlite3": ["sqlite3", ":memory:", ".mode csv", f".import {table} t", ".mode list", "select 's = ' || sum(cast(c0 as integer)) from t;"]}


# The sums of two columns of a table with text, and what asks other tools for them.
OF_TEXTS = 'q = column("qty").sum()\np = column("price").sum()\n'
SQL_OF_TEXTS = "select 'q = ' || sum(cast(qty as integer)), 'p = ' || sum(cast(price as integer)) from t;"
PANDAS_OF_TEXTS = "import pandas, sys\nt = pandas.read_csv(sys.argv[1], usecols=['qty', 'price'])\nprint(f'q = {t.qty.sum()}\\np = {t.price.sum()}')"


def sums_of_texts(table, program, jobs, has_lines, pandas):
    """The commands of other tools for these sums; has_lines: whether cells hold line feeds, by which mawk would be wrong."""
    cut = f'mlr --csv cut -f qty,price {table} | {program} --columns /dev/stdin {jobs}'
    found = {'mlr cut, then here': ['sh', '-c', cut], 'mlr': ['mlr', '--icsv', '--oxtab', '--ops', ' = ', 'stats1', '-a', 'sum', '-f', 'qty,price',
                                                             'then', 'rename', 'qty_sum,q,price_sum,p', table],
             'sqlite3': ['sqlite3', ':memory:', ".mode csv", f'.import {table} t', '.mode list', '.separator "\\n"', SQL_OF_TEXTS]}
    if not has_lines:
        found['mawk'] = ['mawk', '-F,', 'NR > 1 { q += $3; p += $4 } END { printf "q = %.0f\\np = %.0f\\n", q, p }', table]
    return found | ({'pandas': [pandas, '-c', PANDAS_OF_TEXTS, table]} if pandas else {})


def write_table(path):
    """Eight columns of a million rows; the values of a linear congruence."""
    state = 12345
    with open(path, "w", encoding="ascii") as out:
        out.write("a,b,c,d,e,f,g,h\n")
        for row in range(1, ROWS + 1):
            state = (state * 1103515245 + 12345) % 2147483648
            other = (state * 69069 + 1) % 2147483648
            out.write(f"{row},{state - 1073741824},{other},{state % 100},{other % 20001 - 10000},{state % 7},{other % 1000},{row % 13}\n")


def write_all(folder):
    """The table, and a file of jobs for each task, in a folder."""
    write_table(f"{folder}/table.csv")
    for task, (_, jobs) in JOBS.items():
        pathlib.Path(f"{folder}/{task}.jobs").write_text(jobs, encoding="ascii")
