"""The kinds of random scripts, and the script of a number."""

from __future__ import annotations

from collections import Counter
from random import Random
from typing import Callable, NamedTuple

from . import dense, edits, plans
from .definitions import column_statistics, copy, create, create_index, new_table, sizes
from .faults import broken_statement
from .parts import MOST_INDEXES, Table, gap, new_name, record, spaced
from .queries import advised, distinct_select, grouped_select, is_large, plain_select, queried, window
from .worlds import Planned, catalog_of, is_small, read_select
from .certificates import MOST_ENTRIES, any_entries, kept
from .certificates import edited as edited_certificate


# Statements in error are asked of tables with no more rows, where there are any, since some of them are no faults there.
MOST_ROWS = 100


# -- scripts of all statements

class Mixed:
    """A right script of any statements as it grows."""

    def __init__(self, rng: Random) -> None:
        self.rng, self.tables, self.parts = rng, [], []
        self.tables: list[Table]
        self.parts: list[str]
        self.names: list[str] = []

    def add(self, words: list[str] | None) -> None:
        """Adds a statement of these words."""
        if words:
            self.parts.append(spaced(self.rng, words) + ";")

    def name(self) -> str:
        """A name that is not taken."""
        self.names.append(new_name(self.rng, self.names))
        return self.names[-1]

    def add_table(self) -> None:
        """Makes a table."""
        self.tables.append(new_table(self.rng, self.names))
        self.names.append(self.tables[-1].name)
        self.add(create(self.rng, self.tables[-1]))

    def add_index(self) -> None:
        """Makes an index of the table that was made last, where it has room, else asks a query."""
        if self.tables[-1].indexes < MOST_INDEXES:
            self.add(create_index(self.rng, self.tables[-1], self.name()))
        else:
            self.add_query()

    def add_rows(self) -> None:
        """Loads rows into a table."""
        table, many = self.rng.choice(self.tables), self.rng.choice([0, 1, 2, 3, 3, 10, 99, 100, 101, 250])
        table.rows += many
        self.parts.append(copy(self.rng, table, [record(self.rng, table) for _ in range(many)]))

    def add_statistics(self) -> None:
        """Gives or finds statistics."""
        table, kind = self.rng.choice(self.tables), self.rng.random()
        if kind < 0.3:
            self.add(["ANALYZE", table.name])
        else:
            self.add((sizes if kind < 0.6 else column_statistics)(self.rng, table))

    def add_query(self) -> None:
        """Asks a query, or has candidates advised."""
        if self.rng.random() < 0.1:
            self.add(advised(self.rng, self.tables, self.names))
        else:
            self.add(queried(self.rng, self.tables, self.rng.choice([(1, 1, 2), (2, 2, 3), (3, 4)])))

    def grow(self) -> None:
        """Adds a statement of any kind."""
        kind = self.rng.randrange(14)
        if not self.tables or kind < 2:
            self.add_table()
        elif kind > 9:
            self.add_index()
        elif kind < 5:
            self.add_rows()
        elif kind < 7:
            self.add_statistics()
        elif kind < 9:
            self.add_query()
        else:
            self.parts.append(self.rng.choice([";", " ;", "-- nothing\n;", "\n"]))


def grown(rng: Random, counts: list[int]) -> Mixed:
    """A right script of so many statements."""
    mixed = Mixed(rng)
    for _ in range(rng.choice(counts)):
        mixed.grow()
    return mixed


def mixed(rng: Random) -> str:
    """A right script of any statements; its last one may have no end."""
    parts = grown(rng, [0, 1, 2, 3, 5, 8, 12, 20]).parts
    text = "".join(part + rng.choice(["", "\n", "\n", gap(rng)]) for part in parts)
    if rng.random() < 0.2 and text.rstrip().endswith(";") and "COPY" not in text.upper():
        text = text.rstrip()[:-1]
    return text


def faulty(rng: Random) -> str:
    """A right script, then a statement that is in error, mostly, then a query."""
    script = grown(rng, [0, 1, 3, 5, 8, 12])
    if not script.tables:
        script.add_table()
    script.parts.append(broken_statement(rng, [table for table in script.tables if table.rows <= MOST_ROWS] or script.tables[:1]))
    query, relations = plain_select(rng, script.tables)
    script.add(["EXPLAIN", *query] if is_large(relations) else query)
    return "\n".join(script.parts)


def edited(rng: Random) -> str:
    """A script of any other kind with one or two bytes changed."""
    text = rng.choice([mixed, mixed, mixed, joins, scans, certificates, written_plans, advice, groups])(rng)
    for _ in range(rng.choice([1, 1, 2])):
        text = edits.edited_bytes(rng, text)
    return text


def words(rng: Random) -> str:
    """A table or none, then a statement of the grammar, mostly with some words changed."""
    tables = rng.choice(["", "", "CREATE TABLE t (a int4, b int8, x1 text, count bool);\n", "CREATE TABLE a (a int2, t text, in bool);\n"])
    return tables + edits.grammar_statement(rng)


def groups(rng: Random) -> str:
    """Tables with rows, and queries that group or are DISTINCT."""
    script = Mixed(rng)
    for _ in range(rng.choice([1, 2])):
        script.add_table()
        for _ in range(rng.choice([0, 1, 3])):
            script.add_index()
    for _ in range(3):
        script.add_rows()
        script.add_statistics()
    for _ in range(4):
        make = distinct_select if rng.random() < 0.4 else grouped_select
        query, relations = make(rng, script.tables, (1, 1, 2, 2, 3))
        script.add(["EXPLAIN", *query] if is_large(relations) or rng.random() < 0.2 else query)
    return "\n".join(script.parts)


def advice(rng: Random) -> str:
    """Tables with rows and statistics, and candidates that are advised for queries."""
    script = Mixed(rng)
    for _ in range(rng.choice([1, 2])):
        script.add_table()
        for _ in range(rng.choice([0, 1, 2])):
            script.add_index()
    for _ in range(4):
        script.add_statistics()
    for _ in range(3):
        script.add(advised(rng, script.tables, script.names))
    return "\n".join(script.parts)


def many_relations(rng: Random) -> str:
    """A query of five to eight relations, explained."""
    script = grown(rng, [6, 10])
    if not script.tables:
        script.add_table()
    query, _ = plain_select(rng, script.tables, (5, 5, 5, 6, 6, 7, 8))
    script.add(["EXPLAIN", *query, *(window(rng) if rng.random() < 0.3 else [])])
    return "\n".join(script.parts)


# -- scripts of tables with few values

def shares(rng: Random) -> str:
    """A table of 10^9 rows, so that the estimated rows of a condition are its share in full."""
    out = [dense.table(rng, "t"), "STATISTICS t ROWS 1000000000 PAGES 1;"]
    out += [dense.statistics(rng, "t", c) for c in dense.ALL if rng.random() < 0.7]
    for _ in range(30):
        out.append(f"EXPLAIN SELECT a FROM t WHERE {dense.condition(rng, dense.ALL, rng.choice([0, 0, 0, 1, 2]))};")
    return "\n".join(out) + "\n"


def implied(rng: Random) -> str:
    """Partial indexes, each asked for by a plan that is written out: it is no plan of the query unless its conditions imply the index's."""
    out = []
    for n in range(4):
        columns = rng.sample(dense.ALL, rng.choice([1, 2, 3]))
        clauses = [dense.condition(rng, columns, rng.choice([0, 1, 2])) for _ in range(rng.randint(1, 3))]
        out.append(dense.table(rng, f"t{n}"))
        for i in range(8):
            goal = dense.condition(rng, columns, rng.choice([0, 0, 1, 2]))
            if rng.random() < 0.4:
                part = rng.choice(clauses)
                goal = part if rng.random() < 0.3 else f"{part}{rng.choice([' AND ', ' OR '])}{goal}"
            out.append(f"CREATE INDEX i{n}{i} ON t{n} (a) WHERE {goal};")
        for i in range(8):
            where = " AND ".join(f"({clause})" for clause in clauses)
            out.append(f"USE PLAN SELECT s FROM t{n} WHERE {where};\nIndex Scan using i{n}{i} on t{n}  (cost=1 rows=1)\n\\.")
    return "\n".join(out) + "\n"


def analyzed(rng: Random) -> str:
    """Rows of which many are equal, ANALYZE, and queries with one condition each, whose rows and costs tell what was found."""
    columns = rng.sample(dense.ALL, rng.randint(1, 5))
    out = [f"CREATE TABLE t ({', '.join('%s %s' % dense.COLUMNS[c] for c in columns)});"]
    count = rng.choice([0, 1, 2, 3, 5, 17, 99, 100, 101, 102, 103, 250, 1000])
    values = [column_values(rng, dense.kind_of(c), count) for c in columns]
    before = ["STATISTICS t ROWS 77 PAGES 5;", f"STATISTICS t.{dense.COLUMNS[columns[0]][0]} DISTINCT 7 NULLS 500000;", "ANALYZE t;"]
    out += [part for part in before if rng.random() < 0.3]
    rows, cut = [",".join(row) for row in zip(*values)], rng.randint(0, count)
    for block in (rows[:cut], rows[cut:]):
        out += ["COPY t FROM STDIN WITH (FORMAT CSV, NULL '\\N');", *block, "\\."]
    out += [part for part in before[:2] if rng.random() < 0.3] + ["ANALYZE t;"]
    for _ in range(30):
        n = rng.randrange(len(columns))
        out.append(f"EXPLAIN SELECT * FROM t WHERE {found_condition(rng, columns[n], values[n])};")
    return "\n".join(out) + "\n"


def found_condition(rng: Random, column: int, values: list[str]) -> str:
    """A condition on a column with these values."""
    own, kind = dense.COLUMNS[column][0], dense.kind_of(column)
    if rng.random() < 0.1:
        return own + rng.choice([" IS NULL", " IS NOT NULL"])
    op = "|=|" if kind == "int" and rng.random() < 0.2 else rng.choice(dense.PLAIN)
    value = asked_value(rng, kind, [v for v in values if v != "\\N"])
    word = kind + " " if kind in ("date", "timestamptz", "uuid") and rng.random() < 0.2 else ""
    return f"{own} {op} " + (value if kind == "int" else f"{word}'{value}'")


def asked_value(rng: Random, kind: str, values: list[str]) -> str:
    """A value to compare with: one that occurs, the least or the greatest, a frequent one, often near the 16th place, or any."""
    if not values or rng.random() < 0.15:
        return dense.value(rng, kind, 30_000)
    if rng.random() < 0.3:
        ranked = [v for v, _ in Counter(values).most_common(20)]
        return ranked[min(rng.choice([0, 1, 14, 15, 16, 17]), len(ranked) - 1)]
    if rng.random() < 0.2:
        return dense.in_order(values, kind)[rng.choice([0, -1])]
    return rng.choice(values)


def column_values(rng: Random, kind: str, count: int) -> list[str]:
    """The values of a column: of few different ones, of many, some that are frequent among many, or NULL alone."""
    nulls, part, spread = rng.choice([0, 0, 0.1, 0.5, 0.98, 1]), rng.choice([0, 0, 0.2, 0.6, 1]), rng.choice([1, 2, 9, 17, 40, 300, 30_000])

    def value(limit: int) -> str:
        """A value of about so many different ones."""
        return rng.choice(["k", "K", "k ", "z"]) + str(rng.randrange(limit)) if kind == "text" else dense.value(rng, kind, limit)

    frequent = [value(30_000) for _ in range(rng.choice([1, 2, 15, 16, 17, 18, 30]))]
    return ["\\N" if rng.random() < nulls else frequent[min(int(rng.expovariate(0.3)), len(frequent) - 1)] if rng.random() < part
            else value(spread) for _ in range(count)]


def dense_tables(rng: Random, count: int, rows: int, most_indexes: int) -> list[str]:
    """Tables with indexes, some rows, and statistics."""
    out = []
    for t in ("t", "u")[:count]:
        columns = rng.sample(dense.ALL, rng.choice([2, 3, 4, 6]))
        out.append(dense.table(rng, t))
        out += [f"CREATE INDEX {dense.candidate(rng, f'{t}{n}', t, columns)};" for n in range(rng.randint(0, most_indexes))]
        out.append(dense.data(rng, t, dense.ALL, True, rng.randint(0, rows)))
        if rng.random() < 0.8:
            out.append(rng.choice([dense.sizes(rng, t), f"STATISTICS {t} ROWS 100000 PAGES 1000;"]))
        out += [dense.statistics(rng, t, c) if rng.random() < 0.5 else f"STATISTICS {t}.{dense.COLUMNS[c][0]} DISTINCT 1000 NULLS 0;"
                for c in dense.ALL if rng.random() < 0.7]
    return out


def dense_query(rng: Random, tables: int, count: int) -> str:
    """A SELECT of so many relations, joined by comparisons of their columns."""
    aliases = [f"r{n}" for n in range(count)]
    listed = ", ".join(f"{rng.choice('tu'[:tables])} {alias}" for alias in aliases)
    shown = rng.choice(["*", ", ".join(dense.name(rng, rng.choice(dense.ALL), aliases) for _ in range(rng.choice([1, 2])))])
    parts = [dense.condition(rng, dense.ALL, rng.choice([0, 0, 1, 2]), aliases) for _ in range(rng.choice([0, 1, 2, 3]))]
    for n in range(1, count):
        kind = rng.choice(["int", "int", "int", "text", "bool", "date", "numeric", "uuid"])
        a, b = (rng.choice([c for c in dense.ALL if dense.kind_of(c) == kind]) for _ in range(2))
        op = "=" if rng.random() < 0.85 else rng.choice(["|=|", "<", "<>"] if kind == "int" else ["<", "<>"])
        parts += [f"{aliases[rng.randrange(n)]}.{dense.COLUMNS[a][0]} {op} {aliases[n]}.{dense.COLUMNS[b][0]}"] * (rng.random() < 0.8)
    where = " WHERE " + " AND ".join(f"({part})" for part in parts) if parts else ""
    return f"SELECT {shown} FROM {listed}{where}{dense.order(rng, dense.ALL, aliases)}"


def scans(rng: Random) -> str:
    """A table with up to eight indexes, and queries with all that is kept, and with each scan of each index written out."""
    out = dense_tables(rng, 1, 20, 8)
    catalog = catalog_of("\n".join(out) + "\n")
    for _ in range(4):
        select = dense_query(rng, 1, 1)
        statement = read_select(catalog, select)
        if statement is None:
            continue
        out += [f"EXPLAIN (TABLE) {select}{dense.window(rng)};", f"{select}{dense.window(rng)};"]
        planned = Planned(statement)
        for _ in range(4):
            out.append(f"USE PLAN {select};\n" + "\n".join(planned.lines(planned.scan(rng))) + "\n\\.")
    return "\n".join(out) + "\n"


def joins(rng: Random) -> str:
    """Queries of up to four relations with all that is kept, and with random trees of joins written out."""
    out = dense_tables(rng, rng.choice([1, 2]), 6, 4)
    tables = sum(part.startswith("CREATE TABLE") for part in out)
    catalog = catalog_of("\n".join(out) + "\n")
    for _ in range(2):
        select = dense_query(rng, tables, rng.choice([2, 2, 3, 3, 4]))
        statement = read_select(catalog, select)
        if statement is None:
            continue
        out.append(f"EXPLAIN{rng.choice(['', ' (TABLE)', ' (TABLE)'])} {select}{dense.window(rng)};")
        planned = Planned(statement)
        for _ in range(4):
            out.append(f"USE PLAN {select};\n" + "\n".join(planned.lines(planned.tree(rng))) + "\n\\.")
    return "\n".join(out) + "\n"


def written_plans(rng: Random) -> str:
    """Plans that are written out, most of them with one or two changes."""
    out = dense_tables(rng, rng.choice([1, 2]), 8, 4)
    tables = sum(part.startswith("CREATE TABLE") for part in out)
    catalog = catalog_of("\n".join(out) + "\n")
    names = [*catalog.tables, *catalog.indexes, *"r0 r1 r2 a b s f".split()]
    for _ in range(6):
        select = dense_query(rng, tables, rng.choice([1, 1, 2, 2, 3]))
        statement = read_select(catalog, select)
        if statement is not None:
            planned = Planned(statement)
            lines = list(planned.lines(planned.tree(rng)))
            text = plans.edited(rng, lines, names) if rng.random() < 0.75 else "".join(line + "\n" for line in lines)
            out.append(f"USE PLAN {select};\n{text}\\.")
    return "\n".join(out) + "\n"


def certificates(rng: Random) -> str:
    """Certificates that are supplied: those of kept paths, any entries that are right by themselves, and forged ones."""
    out = dense_tables(rng, rng.choice([1, 2]), 3, 3)
    tables = sum(part.startswith("CREATE TABLE") for part in out)
    catalog = catalog_of("\n".join(out) + "\n")
    for _ in range(5):
        select = dense_query(rng, tables, rng.choice([1, 2, 2, 3])) + dense.window(rng)
        statement = read_select(catalog, select)
        if not is_small(statement) or statement is None:
            continue
        planned = Planned(statement)
        text = kept(planned) if rng.random() < 0.75 else any_entries(rng, planned)
        if text.count("\n") <= MOST_ENTRIES:
            out.append(f"CHECK {select};\n{edited_certificate(rng, text) if rng.random() < 0.6 else text}\\.")
    return "\n".join(out) + "\n"


# -- the script of a number

class Kind(NamedTuple):
    """A kind of scripts: what makes one, how many of each 40 scripts are of it, and whether they are right."""

    make: Callable[[Random], str]
    share: int
    is_right: bool


KINDS = {
    "mixed": Kind(mixed, 6, True), "faulty": Kind(faulty, 7, False), "edited": Kind(edited, 7, False), "words": Kind(words, 7, False),
    "groups": Kind(groups, 2, True), "advice": Kind(advice, 1, True), "shares": Kind(shares, 1, True), "implied": Kind(implied, 1, True),
    "analyzed": Kind(analyzed, 1, True), "scans": Kind(scans, 2, True), "joins": Kind(joins, 2, True), "plans": Kind(written_plans, 1, True),
    "certificates": Kind(certificates, 1, True), "many relations": Kind(many_relations, 1, True),
}
ROUND = [name for name, kind in KINDS.items() for _ in range(kind.share)]


def kind_of(number: int) -> str:
    """The kind of the script of a number."""
    return ROUND[number * 7 % len(ROUND)]


def script(seed: int, number: int, kind: str) -> bytes:
    """The script of a number, of a kind."""
    return KINDS[kind].make(Random(f"{seed} {number} {kind}")).encode()
