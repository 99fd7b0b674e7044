"""Random statements in error: of each kind many texts, one of which is chosen."""

from __future__ import annotations

from random import Random
from typing import Callable, Sequence

from . import typed
from .definitions import copy, create, values_of
from .parts import CLASSES, LIMITS, NO_NUMBERS, NO_TRUTHS, Scope, Table, condition, field, literal_text, record, spaced
from .queries import from_item, from_list, relations_of

PAST = [2**63, 2**64, 10**30]


def literal_of(kind: str) -> str:
    """A literal for a column of this type."""
    if kind in typed.TIMES:
        return "'2024-02-29'"
    return {"text": "'x'", "bool": "TRUE", "uuid": f"'{typed.UUIDS[0]}'", "numeric(3,3)": "'0.5'"}.get(kind, "1")


# -- tables and data

def broken_table(rng: Random, tables: Sequence[Table]) -> str:
    """CREATE TABLE, or a name of a table, in error."""
    table = rng.choice(tables)
    name = table.columns[0][0]
    many = ", ".join(f"c{n} int4" for n in range(rng.choice([33, 40])))
    return rng.choice([
        spaced(rng, create(rng, table)) + ";", spaced(rng, create(rng, Table("fresh", [*table.columns[:3], (name, "int4", False)]))) + ";",
        "CREATE TABLE fresh (a int4, b %s, c money);" % rng.choice(["int9", "varchar", "float8", "numeric"]), f"CREATE TABLE fresh ({many});",
        "".join(f"CREATE TABLE many{n} (a int4);\n" for n in range(65)), f"SELECT * FROM {rng.choice(['missing', 'nowhere n'])};",
        f"SELECT {name}, Missing FROM {table.name};", f"SELECT {table.name}.{name} FROM {table.name} other;",
        f"SELECT other.{name}, other.nothing FROM {table.name} AS other;", f"SELECT missing.* FROM {table.name};",
        "CREATE TABLE " + "n" * 64 + " (a int4);", "CREATE TABLE (a int4);", "CREATE TABLE fresh ();", "CREATE TABLE fresh (a int4,);",
        "CREATE TABLE select (a int4);", "CREATE TABLE fresh (a int4 NOT);", "CREATE INDEX;", "SELECT * FROM;", "foo;", "'open", "/* open", "1a;",
        "#;", f"SELECT * FROM {table.name} x y;", f"SELECT FROM {table.name};", f"SELECT *, FROM {table.name};", f"SELECT a b FROM {table.name};",
        f"SELECT * FROM {table.name}, {table.name};", "ANALYZE missing;", "ANALYZE;", f"ANALYZE {table.name}.{name};", f"ANALYZE {table.name} ({name});",
        f"EXPLAIN ANALYZE {table.name};", f"analyze {table.name}, {table.name};"])


def broken_type(rng: Random, tables: Sequence[Table]) -> str:
    """CREATE TABLE with a type or a modifier in error, alone or before or behind another fault."""
    past = rng.choice(["10485761", "0", "19", "4294967297", "9" * 25])
    types = rng.sample([
        f"varchar({past})", "varchar(1, 2)", "varchar()", "varchar('3')", "varchar(-3)", "varchar(3", "varchar varying", "character", "character(3)",
        "char(3)", f"character varying({past})", "varying", "bpchar", "date(6)", "int4(4)", "text(9)", "bool(1)", "uuid(16)", "timestamp(3)",
        f"timestamp({past})", "timestamp(6, 6)", "timestamptz(7)", "timestamp(0) with time zone", "timestamp with zone", "timestamp with time",
        "timestamp time zone", "timestamptz with time zone", "timestamp with time zone (6)", "timestamp without time", "date without time zone",
        "timestamp(6) with", "time", "time with time zone", "interval", "numeric", "decimal NOT NULL", f"numeric({past})", "numeric(0, 1)",
        "numeric(19, 2)", "numeric(5, 6)", "decimal(5, 2, 1)", "numeric(10, -2)", "numeric(10.2)", "numeric(6 2)", "double precision", "money(10, 2)",
        "uuid uuid", "date NOT", "dates", "decimal(18, 18)", "timestamp(6)", "character varying(7)", "varchar", "numeric(018, 0)"], rng.choice([1, 1, 2, 3]))
    name = rng.choice(["fresh", "fresh", rng.choice(tables).name])
    columns = [f"{rng.choice('aabcde')}{n} {written}" for n, written in enumerate(types)]
    return f"CREATE TABLE {name} ({', '.join(columns)}{rng.choice(['', '', ', a0 int4'])});"


def records_at_fault(rng: Random, table: Table) -> list[str]:
    """One record in error among others."""
    number = rng.randrange(len(table.columns))
    _, kind, not_null = table.columns[number]
    fields = [field(rng, k, n, False) for _, k, n in table.columns]
    choice = rng.randrange(5)
    if choice == 0:
        fields = fields[:-1] if len(fields) > 1 and rng.random() < 0.5 else [*fields, "1"]
    elif choice == 1 and kind in LIMITS:
        fields[number] = str(rng.choice([LIMITS[kind], -LIMITS[kind] - 1, 10**30]))
    elif choice < 3 and kind in typed.KINDS:
        fields[number] = f'"{typed.wrong(rng, kind)}"'
    elif choice == 2 and kind != "text":
        fields[number] = rng.choice(NO_TRUTHS if kind == "bool" else NO_NUMBERS) or '""'
    elif choice == 3 and not_null:
        fields[number] = "\\N"
    elif kind == "text":
        fields[number] = "a" * 8193
    else:
        fields.append("")
    records = [record(rng, table) for _ in range(rng.randint(0, 4))]
    records.insert(rng.randint(0, len(records)), ",".join(fields))
    return records


def broken_copy(rng: Random, tables: Sequence[Table]) -> str:
    """COPY in error: its table, its text for NULL, its end, or its data."""
    table = rng.choice(tables)
    kind = rng.randrange(6)
    if kind == 0:
        return copy(rng, Table("missing", table.columns), [])
    if kind == 1:
        return copy(rng, table, [], rng.choice(["''", "'NULL'", "'\\n'", "'\\N '"]))
    if kind == 2:
        return copy(rng, table, [record(rng, table)])[:-3] + rng.choice(["", " \\.", "\\. \n"])
    return copy(rng, table, records_at_fault(rng, table)) if kind < 5 else "COPY t;"


# -- conditions and statistics

def broken_condition(rng: Random, tables: Sequence[Table]) -> str:
    """A SELECT with a condition in error, alone or among others."""
    table = rng.choice(tables)
    name, kind, _ = rng.choice(table.columns)
    test, whole = f"{name} IS NULL", literal_of(kind)
    parts = [
        "(" * 33 + test + ")" * 33, "NOT " * 33 + test, " AND ".join([test] * 33), " OR ".join([test] * 257), "NOT (" + " OR ".join([test] * 33) + ")",
        " OR ".join([test, "TRUE"] * 129), f"{name} |<| 'x'", f"{name} |=| TRUE", f"{name} = 9223372036854775808", f"{name} = -9223372036854775809",
        f"{name} < 'x y'", f"{name} > '{'9' * 30}'", "missing = 1", f"other.{name} = {whole}", f"{name} = {name} AND missing", f"{name}", f"NOT {name}",
        f"{name} = ", f"{name} IS 1", f"({test}", f"{test})", f"{name} = {whole} {name}", "1 = 'x'", "1 = TRUE", "TRUE = 'maybe'",
        f"{name} < '{'a' * 8193}'", f"{name} = {whole} AND", typed_fault(rng, name, kind), typed_fault(rng, name, kind), "NULL = NULL OR 'a' |<| 'b'", f"{name} == {whole}", f"{name} = '\\N'", "'1' = '2' AND 1 |>| 'z'"]
    tests = [" ".join(condition(rng, Scope([(table.name, table)]), 1)) for _ in range(rng.choice([0, 0, 1, 2]))]
    tests.insert(rng.randint(0, len(tests)), rng.choice(parts))
    shown = rng.choice(["*", name, "missing"] if rng.random() < 0.2 else ["*", name])
    return f"SELECT {shown} FROM {table.name} WHERE {' AND '.join(tests)};"


def typed_fault(rng: Random, name: str, kind: str) -> str:
    """A condition whose typed literal, text, number or operator does not fit a column, or one of two literals."""
    of = rng.choice([kind, rng.choice(typed.KINDS)]) if kind in typed.KINDS else rng.choice(typed.KINDS)
    bad, good = literal_text(typed.wrong(rng, of)), literal_text(typed.right(rng, of))
    word = rng.choice(["date", "timestamp", "timestamptz", "uuid", "varchar", "int4", "numeric", "decimal", "interval", "zz", "char", "timestamp with time zone"])
    op = rng.choice(["=", "<", "<>", "|=|"])
    return rng.choice([
        f"{name} {op} {bad}", f"{name} {op} {good}", f"{bad} {op} {name}", f"{name} {op} {word} {bad}", f"{name} {op} {word} {good}", f"{word} {good} {op} {name}",
        f"{word} {good} {op} {word} {bad}", f"{word} {bad} {op} {rng.choice([good, bad, '5', 'NULL', 'TRUE'])}", f"{good} {op} {word} {good}",
        f"{word} {good}", f"{word} {good} IS NULL", f"{word} {bad} = zz", f"{name} {op} {word} 5", f"{word} = {good}", f"{name} BETWEEN {word} {good} AND {bad}",
        f"{word} {good} NOT BETWEEN {name} AND {word} {good}", f"{name} IN ({good}, {bad})", f"{name} IN ({word} {good})", f"t.{word} {good} = {name}",
        f"{name} {op} {rng.choice([10**8, 10**18, 10**30, 5, 12345])}", f"{rng.choice([99999, 10**17])} {op} {name}", f"{name} {op} 1.5", f"{name} {op} -{10**9}",
        f"{word} {good} {good} = {name}", f"NOT {word} {good} = {word}"])


def broken_membership(rng: Random, tables: Sequence[Table]) -> str:
    """A SELECT whose IN or BETWEEN is in error."""
    table = rng.choice(tables)
    name, kind, _ = rng.choice(table.columns)
    whole = literal_of(kind)
    other = "TRUE" if kind in LIMITS or kind in typed.NUMERICS else "2"
    ones = lambda count: ", ".join([whole] * count)
    return f"SELECT * FROM {table.name} WHERE " + rng.choice([
        f"{name} IN ()", f"{name} IN ({whole},)", f"{name} IN ({name})", f"{name} IN {whole}", f"{name} IN (SELECT {name} FROM {table.name})",
        f"{whole} IN ({whole})", f"{whole} NOT IN ({whole})", f"{name} NOT = {whole}", f"{name} = {name} IN ({whole})", f"{name} IN ({whole}) = TRUE",
        f"{name} BETWEEN {whole} AND {whole} IS NULL", f"{name} BETWEEN {whole} OR TRUE", f"{name} BETWEEN ({whole}) AND {whole}",
        f"{name} BETWEEN SYMMETRIC {whole} AND {whole}", f"{name} BETWEEN {whole} AND {whole} BETWEEN {whole} AND {whole}",
        f"{name} BETWEEN {whole} AND NOT TRUE", f"{name} BETWEEN {whole} AND {whole} AND", f"{name} IN ({whole}, {other})", f"{name} NOT IN ({other})",
        f"{name} BETWEEN {whole} AND {other}", f"{name} IN ({other}, {whole}, {10**20})", f"{name} IN ({whole}, -{10**20})", f"zz IN ({10**20})",
        f"{name} BETWEEN 'q' AND zz", f"{name} BETWEEN zz AND 'q'", f"'q' BETWEEN {name} AND zz", f"{name} IN ({ones(257)})", f"{name} NOT IN ({ones(33)})",
        " AND ".join([f"{name} BETWEEN {whole} AND {whole}"] * 17), "NOT " * 33 + f"{name} IN ({whole})", f"{name} IN ('{'1' * 8193}')",
        f"{name} IN ({whole}, 'q' AND zz = {10**20}", f"{name} NOT BETWEEN {whole}", f"{name} NOT {name}", f"{name} NOT IN", f"{name} NOT NOT IN ({whole})"]) + ";"


def broken_statistics(rng: Random, tables: Sequence[Table]) -> str:
    """STATISTICS in error: a name, a number, a literal, a share or a bound."""
    table = rng.choice(tables)
    name, kind, _ = rng.choice(table.columns)
    past = rng.choice([0, 10**9 + 1, 2**64, 10**30])
    values = [" ".join(v) for v in values_of(rng, kind, 30)]
    bad = rng.choice(["NULL", "'x y'", "TRUE", "1", "-1", "9" * 25, "'" + "9" * 25 + "'", "'a'", "date '2024-02-29'",
                      literal_text(typed.wrong(rng, kind if kind in typed.KINDS else "date"))])
    common = [f"{v} {rng.choice([1, 1000])}" for v in values[:rng.choice([1, 3, 17, 30])]]
    common.insert(rng.randint(0, len(common)), f"{rng.choice([bad, values[0]])} {rng.choice([0, 10**6, 10**6 + 1, 2**32 + 1, 5])}")
    bounds = values[:rng.choice([1, 2, 5, 30])]
    bounds.insert(rng.randint(0, len(bounds)), rng.choice([bad, values[-1], values[0]]))
    bounds = [values[0]] * 102 if rng.random() < 0.1 else bounds
    of, listed = f"STATISTICS {table.name}.{name}", ", ".join(common)
    return rng.choice([
        f"STATISTICS {table.name} ROWS {past} PAGES 1;", f"STATISTICS {table.name} ROWS 1 PAGES {past};",
        f"STATISTICS {table.name} ROWS {past} PAGES {past};", "STATISTICS missing ROWS 1 PAGES 1;",
        f"STATISTICS {table.name}.missing DISTINCT 1 NULLS 0;", f"STATISTICS missing.{name} DISTINCT 1 NULLS 0;", f"{of} DISTINCT {past} NULLS 0;",
        f"{of} DISTINCT 1 NULLS {rng.choice([10**6 + 1, 2**32, 10**30])};",
        f"{of} DISTINCT {rng.choice([1, 2, 100])} NULLS {rng.choice([0, 999_000])} COMMON ({listed});",
        f"{of} DISTINCT 100 NULLS 0 HISTOGRAM ({', '.join(bounds)});",
        f"{of} DISTINCT {past} NULLS 0 COMMON ({listed}) HISTOGRAM ({', '.join(bounds)});",
        f"{of} DISTINCT 1 NULLS 0 HISTOGRAM (1) COMMON (1 1);", f"{of} DISTINCT 1 NULLS 0 COMMON (1);", f"{of} DISTINCT -1 NULLS 0;",
        f"STATISTICS {table.name} ROWS 1;", f"STATISTICS {table.name} PAGES 1 ROWS 1;"])


# -- indexes, orders and windows

def broken_index(rng: Random, tables: Sequence[Table]) -> str:
    """CREATE INDEX in error."""
    table = rng.choice(tables)
    names = [name for name, _, _ in table.columns]
    name, kind, _ = rng.choice(table.columns)
    wrong = rng.choice([c for k in CLASSES for c in CLASSES[k]] + ["nope", "btree", "nulls", "numeric_abs_ops", "datetime_ops", "varchar_ops"])
    on, many = f"ON {table.name}", ", ".join((names * 33)[:33])
    tail = rng.choice(["", " WHERE missing = 1", f" WHERE {name} = 'x y'", f" WHERE {name}", " WHERE"])
    return rng.choice([
        f"CREATE INDEX {table.name} {on} ({name});", f"CREATE INDEX fresh ON missing ({name});", f"CREATE INDEX fresh {on} (missing){tail};",
        f"CREATE INDEX fresh {on} USING gin ({name});", f"CREATE INDEX fresh {on} ({name} {wrong}){tail};", f"CREATE INDEX fresh {on} ({name}, {name});",
        f"CREATE INDEX fresh {on} ({name}) INCLUDE ({name});", f"CREATE INDEX fresh {on} ({name}) INCLUDE (missing){tail};",
        f"CREATE INDEX fresh {on} USING hash ({name} {wrong});", f"CREATE INDEX fresh {on} USING hash ({name} DESC);",
        f"CREATE INDEX fresh {on} USING hash ({', '.join(names)});", f"CREATE INDEX fresh {on} USING hash ({name}) INCLUDE ({names[0]});",
        f"CREATE INDEX fresh {on} USING hash ({name} NULLS FIRST);", f"CREATE INDEX fresh {on} ({many});", f"CREATE INDEX fresh {on} ({name}) INCLUDE ({many});",
        f"CREATE INDEX fresh {on} ({name}){tail};", f"CREATE INDEX fresh {on} ({name}) WHERE {' OR '.join([name + ' IS NULL'] * 257)};",
        f"CREATE INDEX fresh {on} ({name}) WHERE fresh.{name} = {literal_of(kind)};", f"CREATE INDEX fresh {on} {name};", f"CREATE INDEX {on} ({name});",
        f"CREATE INDEX fresh {on} ({name} NULLS);", f"CREATE INDEX fresh {on} ({name} ASC DESC);", f"CREATE INDEX fresh {on} ({name}) USING hash;",
        f"CREATE INDEX fresh {on} ({name}) INCLUDE ();", f"CREATE INDEX {'n' * 64} {on} ({name});",
        "".join(f"CREATE INDEX many{n} {on} ({name});\n" for n in range(9)), f"CREATE INDEX fresh {on} ({name}); CREATE INDEX fresh {on} ({name});",
        f"CREATE INDEX fresh {on} ({name}); CREATE TABLE fresh (a int4);", f"CREATE UNIQUE INDEX fresh {on} ({name});"])


def broken_order(rng: Random, tables: Sequence[Table]) -> str:
    """A SELECT whose ORDER BY, or EXPLAIN, is in error."""
    table = rng.choice(tables)
    name, t = rng.choice(table.columns)[0], table.name
    return rng.choice([
        f"SELECT * FROM {t} ORDER BY missing;", f"SELECT {name} FROM {t} ORDER BY other.{name};", f"SELECT missing FROM {t} ORDER BY nothing;",
        f"SELECT * FROM {t} ORDER {name};", f"SELECT * FROM {t} ORDER BY;", f"SELECT * FROM {t} ORDER BY 1;", f"SELECT * FROM {t} ORDER BY {name} NULLS;",
        f"SELECT * FROM {t} ORDER BY {name} NULLS FIRST DESC;", f"SELECT * FROM {t} ORDER BY {name},;",
        f"SELECT * FROM {t} ORDER BY {name} WHERE {name} IS NULL;", f"EXPLAIN SELECT * FROM {t} ORDER BY missing;",
        f"EXPLAIN SELECT * FROM {t} WHERE {' OR '.join([name + ' IS NULL'] * 257)};", f"EXPLAIN COPY {t} FROM STDIN;", "EXPLAIN;",
        f"EXPLAIN EXPLAIN SELECT * FROM {t};", f"EXPLAIN (TABLE) EXPLAIN SELECT * FROM {t};", f"EXPLAIN (TABLE) SELECT missing FROM {t};",
        "EXPLAIN (TABLE);", f"EXPLAIN (ANALYZE) SELECT * FROM {t};", f"SELECT * FROM {t} GROUP BY {name};", f"EXPLAIN CREATE INDEX fresh ON {t} ({name});",
        f"SELECT * FROM {t} ORDER BY {t}.*;", f"SELECT {name} FROM {t} u ORDER BY {t}.{name};"])


def broken_window(rng: Random, tables: Sequence[Table]) -> str:
    """A SELECT whose LIMIT or OFFSET is in error, or stands behind another fault or before one."""
    table = rng.choice(tables)
    name, past = rng.choice(table.columns)[0], rng.choice(PAST)
    many = " AND ".join([f"{name} IS NULL"] * 33)
    return f"{rng.choice(['', 'EXPLAIN '])}SELECT * FROM {table.name}" + rng.choice([
        f" LIMIT {past}", f" OFFSET {past}", f" LIMIT 1 OFFSET {past}", f" LIMIT {past} OFFSET {past}", f" ORDER BY missing LIMIT {past}",
        f" WHERE {many} LIMIT {past}", f" WHERE {many} LIMIT 1", f" ORDER BY {name} OFFSET {past}", " LIMIT", " OFFSET", " LIMIT ALL", " LIMIT -1",
        " LIMIT '1'", " LIMIT 1 LIMIT 1", " OFFSET 1 LIMIT 1", " LIMIT 1 OFFSET 1 ROWS", " OFFSET 1 OFFSET 1", " LIMIT 1, 1", f" LIMIT 1 ORDER BY {name}",
        f" LIMIT 1 WHERE {name} IS NULL", " FETCH FIRST ROW ONLY", " LIMIT (1)", " LIMIT 1x"]) + ";"


# -- joins, groups and ADVISE

def broken_joins(rng: Random, tables: Sequence[Table]) -> str:
    """A SELECT of several relations in error."""
    relations = relations_of(rng, tables, 3)
    (a, s), (b, t), (c, _) = relations
    x, y = s.columns[0][0], t.columns[0][0]
    one, two, three = (" ".join(from_item(rng, r)) for r in relations)
    many = ", ".join(f"{s.name} n{n}" for n in range(rng.choice([11, 12])))
    joined, test = " CROSS JOIN ".join(f"{s.name} n{n}" for n in range(11)), f"{b}.{y} IS NULL"
    return rng.choice([
        f"SELECT * FROM {many};", f"SELECT * FROM {joined};", f"SELECT * FROM {many}, missing;", f"SELECT * FROM {one}, {s.name} AS {a};",
        f"SELECT * FROM {one}, missing AS {a};", f"SELECT * FROM {one} JOIN {two} ON {c}.{x} IS NULL JOIN {three} ON TRUE;",
        f"SELECT * FROM {one}, {two} JOIN {three} ON {a}.{x} IS NULL;", f"SELECT * FROM {one} JOIN {two} ON missing IS NULL;",
        f"SELECT * FROM {one} JOIN {two};", f"SELECT * FROM {one} CROSS JOIN {two} ON {test};", f"SELECT * FROM {one} INNER {two} ON {test};",
        f"SELECT * FROM {one} JOIN {two} ON {test} ON {test};", f"SELECT * FROM {one} JOIN ON {test};", f"SELECT * FROM {one} CROSS {two};",
        f"SELECT * FROM {one} JOIN {two} ON {'(' * 33}{test}{')' * 33};", f"SELECT * FROM {one}, ;", f"SELECT * FROM , {one};",
        f"SELECT * FROM {one} {rng.choice(['LEFT', 'RIGHT', 'FULL', 'LEFT OUTER', 'OUTER'])} JOIN {two} ON {test};",
        f"SELECT * FROM {one} NATURAL JOIN {two};", f"SELECT * FROM ({one} JOIN {two} ON {test});", f"SELECT {a}.{x} FROM {one}, {two} LEFT;",
        f"SELECT {x} FROM {s.name} AS {a}, {s.name} other;", f"SELECT * FROM {s.name} AS {a}, {s.name} other WHERE {x} IS NULL;",
        f"SELECT * FROM {s.name} AS {a}, {s.name} other ORDER BY {x};", f"SELECT {a}.{x}, other.{x} FROM {s.name} AS {a}, {s.name} other ORDER BY {x};",
        f"SELECT {a}.{x}, {a}.{x} FROM {s.name} AS {a}, {s.name} other ORDER BY {x};", f"SELECT * FROM {one} JOIN {two} ON {a}.{x};",
        f"SELECT * FROM {one} JOIN {two} ON {' AND '.join([test] * 20)} WHERE {' AND '.join([test] * 13)};",
        f"SELECT * FROM {one} JOIN {two} ON {' OR '.join([test] * 200)} WHERE {' OR '.join([test] * 57)};", f"SELECT {c}.* FROM {one}, {two};",
        f"SELECT {c}.{x} FROM {one} CROSS JOIN {two};", f"EXPLAIN SELECT * FROM {one} JOIN {two} ON {b}.missing = 1, missing;",
        spaced(rng, ["select", "*"] + from_list(rng, relations) + ["where", "missing", "=", "1"]) + ";"])


def broken_groups(rng: Random, tables: Sequence[Table]) -> str:
    """A SELECT that groups, or SELECT DISTINCT, in error."""
    (a, s), (b, t) = relations_of(rng, tables, 2)
    x, y = rng.choice(s.columns)[0], rng.choice(t.columns)[0]
    one, two = f"{s.name} AS {a}", f"{t.name} AS {b}"
    many = " AND ".join([f"{a}.{x} IS NULL"] * 33)
    wrong = rng.choice(["sum", "avg", "counts", "array_agg", "count_all"])
    return rng.choice(["", "EXPLAIN "]) + rng.choice([
        f"SELECT {a}.{x}, count(*) FROM {one};", f"SELECT * FROM {one}, {two} GROUP BY {a}.{x};", f"SELECT {b}.*, count(*) FROM {one}, {two} GROUP BY {a}.{x};",
        f"SELECT {a}.{x} FROM {one}, {two} GROUP BY {a}.{x} ORDER BY {b}.{y};", f"SELECT {b}.{y}, {a}.{x} FROM {one}, {two} WHERE {many} GROUP BY {a}.{x};",
        f"SELECT {a}.{x} FROM {one} WHERE {many} GROUP BY {a}.{x};", f"SELECT {wrong}({a}.{x}) FROM {one};", f"SELECT {wrong}(missing) FROM {one};",
        f"SELECT {rng.choice(['min', 'Max', wrong])}(*) FROM {one};", f"SELECT count({a}.{x}), {rng.choice(['min', 'max'])}({a}.{x}) FROM {one};", f"SELECT min({a}.{x}), {a}.missing FROM {one} GROUP BY nothing;",
        f"SELECT {a}.{x} FROM {one} GROUP BY {a}.{x}, missing ORDER BY nothing;", f"SELECT {a}.{x} FROM {one} GROUP BY other.{x};",
        f"SELECT count(*) FROM {one} GROUP BY {a}.{x} LIMIT 1;", f"SELECT count(*) FROM {one} OFFSET 1;",
        f"SELECT {x} FROM {one} GROUP BY {x} HAVING count(*) > 1;", f"SELECT count(DISTINCT {x}) FROM {one};", f"SELECT count() FROM {one};",
        f"SELECT count({x}, {x}) FROM {one};", f"SELECT count(1) FROM {one};", f"SELECT count(*) AS n FROM {one};", f"SELECT count({a}.*) FROM {one};",
        f"SELECT {x} FROM {one} GROUP BY {x} DESC;", f"SELECT {x} FROM {one} GROUP {x};", f"SELECT {x} FROM {one} GROUP BY 1;",
        f"SELECT {x} FROM {one} ORDER BY {x} GROUP BY {x};", f"SELECT {x} FROM {one} GROUP BY count(*);", f"SELECT {x} FROM {one} WHERE count(*) = 1;",
        f"SELECT max({x}) FROM {one} ORDER BY {x};", f"SELECT {x} FROM {one} GROUP BY {x},;", f"SELECT max({a}.{x} FROM {one};",
        f"SELECT count(*) FROM {one}, {s.name} AS {a};", f"SELECT count({x}) FROM {one}, {s.name} other;", f"(TABLE) SELECT count(*) FROM {one};",
        f"SELECT DISTINCT {x} FROM {one} ORDER BY missing;", f"SELECT DISTINCT {a}.{x} FROM {one}, {two} ORDER BY {b}.{y};", f"SELECT DISTINCT FROM {one};",
        f"SELECT DISTINCT ({x}) FROM {one};", f"SELECT DISTINCT ON ({x}) {x} FROM {one};", f"SELECT DISTINCT {x}, count(*) FROM {one};",
        f"SELECT DISTINCT {x} FROM {one} GROUP BY {x};", f"SELECT DISTINCT {x} FROM {one} LIMIT 1;", f"SELECT DISTINCT {x}, FROM {one};",
        f"SELECT {x}, DISTINCT {x} FROM {one};", f"SELECT DISTINCT DISTINCT {x} FROM {one};", f"SELECT DISTINCT missing FROM {one} ORDER BY nothing;"])


def broken_advice(rng: Random, tables: Sequence[Table]) -> str:
    """ADVISE in error: its number, a candidate, a table's indexes, a SELECT, or its syntax."""
    table = rng.choice(tables)
    name, kind, _ = rng.choice(table.columns)
    t, on, asks = table.name, f"fresh ON {table.name} ({name})", f"(SELECT * FROM {table.name})"
    many, deep = " AND ".join([f"{name} IS NULL"] * 33), ", ".join(f"{t} r{n}" for n in range(6))
    listed = lambda n: ", ".join(f"many{k} ON {t} ({name})" for k in range(n))
    return rng.choice([
        f"ADVISE {rng.choice([11, 12, 2**64, 10**30])} ({on}) {asks};", "ADVISE 11 (fresh ON missing (a)) (SELECT);", f"ADVISE -1 ({on}) {asks};",
        f"ADVISE ({on}) {asks};", f"ADVISE 1 () {asks};", f"ADVISE 1 ({on});", f"ADVISE 1 ({on}) ();", f"ADVISE 1 ({on}), {asks};",
        f"ADVISE 1 ({on}) {asks}, {asks};", f"ADVISE 1 ({on},) {asks};", f"ADVISE 1 {on} {asks};", f"ADVISE 1 (CREATE INDEX {on}) {asks};",
        f"ADVISE 1 ({on}) SELECT * FROM {t};", f"ADVISE 1 ({on}) (EXPLAIN SELECT * FROM {t});", f"ADVISE 1 ({on}) {asks} {asks}", f"ADVISE 1 ({on}) (({asks}));",
        f"EXPLAIN ADVISE 1 ({on}) {asks};", f"ADVISE '1' ({on}) {asks};", f"ADVISE 1 (fresh ON missing ({name})) {asks};",
        f"ADVISE 1 (fresh ON {t} (missing)) (SELECT * FROM missing);", f"ADVISE 1 ({t} ON {t} ({name})) {asks};", f"ADVISE 1 ({on}, {on}) {asks};",
        f"ADVISE 1 ({on}, fresh ON missing (a)) {asks};", f"ADVISE 1 ({on}, other ON {t} ({name}, {name})) {asks};",
        f"CREATE INDEX fresh ON {t} ({name}); ADVISE 1 ({on}) {asks};", f"ADVISE 1 (fresh ON {t} USING hash ({name} DESC)) {asks};",
        f"ADVISE 1 (fresh ON {t} USING gin ({name})) {asks};", f"ADVISE 1 (fresh ON {t} ({name}) WHERE missing = 1) {asks};",
        f"ADVISE 1 (fresh ON {t} ({name}) WHERE {' OR '.join([name + ' IS NULL'] * 257)}) {asks};", f"ADVISE 10 ({listed(9)}) {asks};",
        f"ADVISE 10 ({listed(10)}) {asks};", f"ADVISE 10 ({listed(11)}) {asks};", f"ADVISE 10 ({listed(10)}, fresh ON missing (a)) (SELECT * FROM missing);",
        f"ADVISE 1 ({on}) (SELECT * FROM missing);", f"ADVISE 1 ({on}) (SELECT missing FROM {t}) (SELECT * FROM missing);",
        f"ADVISE 1 ({on}) {asks} (SELECT * FROM {t} WHERE {many});", f"ADVISE 1 ({on}) (SELECT * FROM {t} WHERE {name} = 'x y');",
        f"ADVISE 1 ({on}) (SELECT * FROM {t} ORDER BY missing);", f"ADVISE 1 ({on}) (SELECT * FROM {t} WHERE missing = {literal_of(kind)}) (SELECT);",
        f"ADVISE 1 ({on}) (SELECT * FROM {t} LIMIT {2**63});", f"ADVISE 1 ({on}) {asks * 16};", f"ADVISE 1 ({on}) {asks * 17};",
        f"ADVISE 1 ({on}) {asks * 16} (SELECT * FROM missing);", f"ADVISE 1 ({on}) (SELECT * FROM {t} a, {t} a);", f"ADVISE 1 (missing ON missing (a), {on}, {on}) {asks};",
        f"ADVISE 1 ({'n' * 64} ON {t} ({name})) {asks};", f"ADVISE 1 ({on}) (SELECT count(*) FROM {t});", f"ADVISE 1 ({on}) (SELECT DISTINCT {name} FROM {t});",
        f"STATISTICS {t} ROWS 1000000000 PAGES 1000000000; ADVISE 1 ({on}) (SELECT * FROM {deep});"])


def broken_lines(rng: Random, tables: Sequence[Table]) -> str:
    """CHECK or USE PLAN in error, or with lines that are no such text."""
    table = rng.choice(tables)
    begin = rng.choice(["CHECK", "USE PLAN"])
    select = f"SELECT * FROM {table.name}"
    return rng.choice([
        f"{begin} {select};\n", f"{begin} {select}; x\n\\.\n", f"{begin} {select}", f"{begin} {select} LIMIT 1;\n\\.\n", f"{begin} {select};\nbest 1\n",
        f"{begin} SELECT count(*) FROM {table.name};\n\\.\n", f"{begin} SELECT missing FROM {table.name};\n\\.\n", f"{begin} {select};\n\\.\n",
        f"{begin} {select};\nbest 1\n\\.\n", f"{begin} {select};\n1 {{{table.name}}} Seq Scan cost=1 rows=1 keys=()\nbest 1\n\\.\n",
        f"{begin} {select};\nSeq Scan on {table.name}  (cost=1 rows=1)\n\\.", f"{begin} EXPLAIN {select};\n\\.\n", "USE SELECT;", "CHECK;"])


KINDS: list[Callable[[Random, Sequence[Table]], str]] = [
    broken_table, broken_type, broken_copy, broken_condition, broken_membership, broken_statistics, broken_index, broken_order, broken_window, broken_joins,
    broken_groups, broken_advice, broken_lines]


def broken_statement(rng: Random, tables: Sequence[Table]) -> str:
    """A statement in error, of any kind."""
    return rng.choice(KINDS)(rng, tables)
