"""Checks of tools/check_from_postgres.py for dates, times, numerics, UUIDs, and the types that pgplan has in another form."""
from __future__ import annotations

import re
from collections.abc import Callable

from own_server import Checks, Psql
from server.psql import Server
from server.schema import Schema, Table
from server.types import Type

SCHEMA = r"""
CREATE SCHEMA typed;
SET search_path = typed;
CREATE TYPE mood AS ENUM ('sad', 'glad', 'it''s, so', 'a::typed.mood');
ALTER TYPE mood ADD VALUE 'so-so' BEFORE 'glad';
CREATE TYPE "Odd mood" AS ENUM ('x', 'y');
CREATE TABLE t (id int4 NOT NULL, d date, m timestamp, w timestamptz(6), s numeric(8, 2), z numeric(4, 0), e mood, o "Odd mood", u uuid, h char(4), y inet);
INSERT INTO t SELECT g, date '1999-12-01' + g, timestamp '1999-12-31 23:59:59.999999' + g * g * interval '1 microsecond',
    timestamptz '1999-12-31 23:00+00' + g * interval '17 minutes', (g - 60) * 0.25, g % 13 - 4, (enum_range(NULL::mood))[1 + g % 5],
    (enum_range(NULL::"Odd mood"))[1 + g % 2], md5((g % 250)::text)::uuid, chr(97 + g % 5) || chr(98 + g % 3), inet '9.255.255.200' + g
    FROM generate_series(1, 2000) g;
INSERT INTO t (id, d, m, w, s, e, h) VALUES (3001, '2020-02-29', '2000-01-01', '2000-01-01 00:00+00', 99999.99, 'sad', ''), (3002, NULL, NULL, NULL, NULL, NULL, NULL);
ANALYZE t;
CREATE TABLE ends (d date, m timestamp, w timestamptz(3), wide numeric(30, 2), free numeric, fraction numeric(5, 20), small numeric(2, 4), tens numeric(5, -1),
                   money money, f float8, v varchar(7), c character varying, far date, old timestamptz);
INSERT INTO ends SELECT date '2000-01-01' + g, timestamp '2000-01-01' + g * interval '1 day', now(), g, g, 0, g % 90 / 10000.0, g, g, g, g, g,
    date '9999-12-31' - g, timestamptz '0001-01-01 00:00:00+00' + g * interval '1 minute' FROM generate_series(1, 300) g;
INSERT INTO ends (d, m, w, wide, far, old) VALUES ('infinity', '-infinity', 'infinity', 1e25, '10000-01-01', '0001-12-31 23:59+00 BC');
ANALYZE ends;
"""

# Conditions of partial indexes over t, and how each is written: None where its index is left out.
CONDITIONS = [
    ("d >= '2020-02-29'", "(d >= '2020-02-29')"),
    ("d IN ('1999-12-31', '2000-01-02')", "(d IN ('1999-12-31', '2000-01-02'))"),
    ("'2001-03-01'::date > d OR d BETWEEN '2002-01-01' AND '2002-01-31'",
     "(('2001-03-01' > d) OR ((d >= '2002-01-01') AND (d <= '2002-01-31')))"),
    ("d < 'infinity'", None),
    ("d < '10000-01-01'", None),
    ("d > '0044-03-15 BC'", None),
    ("d > '2020-01-01 12:00'::timestamp", None),
    ("d - 5 > '2020-01-01'", None),
    ("m >= '2000-01-01 00:00:00.000001' AND m < '2000-01-01T00:00:01'", "((m >= '2000-01-01 00:00:00.000001') AND (m < '2000-01-01 00:00:01'))"),
    ("w > '2000-01-01 01:00+01' AND w <> '1999-12-31 23:17+00'", "((w > '2000-01-01 00:00:00+00') AND (w <> '1999-12-31 23:17:00+00'))"),
    ("w NOT BETWEEN '2000-01-01 00:00+00' AND '2000-01-02 00:00+00'",
     "((w < '2000-01-01 00:00:00+00') OR (w > '2000-01-02 00:00:00+00'))"),
    ("m > '-infinity'", None),
    ("d < m", None),
    ("s > 1.50", "(s > '1.50')"),
    ("5 >= s", "('5.00' >= s)"),
    ("s > -5", "(s > '-5.00')"),
    ("s < -0.25", "(s < '-0.25')"),
    ("s <= 1.5000", "(s <= '1.50')"),
    ("s > 1.505", None),
    ("s < 999999.99", "(s < '999999.99')"),
    ("s < 1000000", None),
    ("s IN (1, 2.5, -3)", "(s IN ('1.00', '2.50', '-3.00'))"),
    ("s = 'NaN'", None),
    ("s > z", None),
    ("s > id", None),
    ("s > 2.5::numeric(8, 0)", None),
    ("z > 7", "(z > '7')"),
    ("z < 1e3", "(z < '1000')"),
    ("z < 1e30", None),
    ("e = 'glad'", "(e = 3)"),
    ("e > 'so-so' AND e <> 'it''s, so'", "((e > 2) AND (e <> 4))"),
    ("e IN ('sad', 'it''s, so', 'a::typed.mood')", "(e IN (1, 4, 5))"),
    ("o = 'y' OR o IS NULL", "((o = 2) OR (o IS NULL))"),
    ("u = 'C4CA4238-A0B9-2382-0DCC-509A6F75849B'", "(u = 'c4ca4238-a0b9-2382-0dcc-509a6f75849b')"),
    ("u < '80000000-0000-0000-0000-000000000000'", "(u < '80000000-0000-0000-0000-000000000000')"),
    ("h = 'ab'", "(h = 'ab')"),
    ("h IN ('ab', 'cd', '')", "(h IN ('ab', 'cd', ''))"),
    ("h >= 'b'", "(h >= 'b')"),
    ("h::text = 'ab'", None),
    ("h = 'ab'::char(1)", None),
    ("y = '10.0.0.1' OR y IN ('10.0.0.2', '9.255.255.255')", "((y = '10.0.0.1') OR (y IN ('10.0.0.2', '9.255.255.255')))"),
    ("y < '10.0.0.1'", None),
    ("y <<= '10.0.0.0/8'", None),
]

# Lines of the script, each as a regular expression for the whole line.
WANTED = [
    r"CREATE TABLE t \(id int4 NOT NULL, d date, m timestamp, w timestamptz, s numeric\(8,2\), z numeric\(4,0\), e int4, o int4, u uuid, h text, y text\);",
    r"STATISTICS t\.d DISTINCT \d+ NULLS \d+ HISTOGRAM \(('\d{4}-\d\d-\d\d', ){100}'\d{4}-\d\d-\d\d'\);",
    r"STATISTICS t\.m DISTINCT \d+ NULLS \d+ .*HISTOGRAM \(('\d{4}-\d\d-\d\d \d\d:\d\d:\d\d(\.\d+)?'(, )?){101}\);",
    r"STATISTICS t\.w DISTINCT \d+ NULLS \d+ HISTOGRAM \(('\d{4}-\d\d-\d\d \d\d:\d\d:\d\d\+00'(, )?){101}\);",
    r"STATISTICS t\.z DISTINCT 13 NULLS \d+ COMMON \(('-?\d+' \d+(, )?){13}\);",
    r"STATISTICS t\.u DISTINCT 250 NULLS \d+ COMMON \(('[0-9a-f-]{36}' \d+(, )?){16}\) HISTOGRAM \(.*\);",
    r"-- as the rank of its label: column t\.e of type typed\.mood",
    r"-- as text without trailing blanks: column t\.h of type character\(4\)",
    r"-- as text: column t\.y of type inet",
    r"-- left out: the histogram of t\.y \(its bounds are not in the order of their bytes\)",
    r"CREATE TABLE ends \(d date, m timestamp, w timestamptz, wide numeric\(18,2\), free text, fraction text, small numeric\(4,4\), tens text, money text, "
    r"f text, v varchar\(7\), c varchar, far date, old timestamptz\);",
    r"-- left out: the histogram of ends\.d \(a bound has no value in pgplan\)",
    r"-- left out: the histogram of ends\.m \(a bound has no value in pgplan\)",
    r"-- left out: the histogram of ends\.wide \(a bound has no value in pgplan\)",
    r"-- left out: the histogram of ends\.far \(a bound has no value in pgplan\)",
    r"-- left out: the histogram of ends\.old \(a bound has no value in pgplan\)",
    r"-- as numeric\(18,2\): column ends\.wide of type numeric\(30,2\)",
    r"-- as numeric\(4,4\): column ends\.small of type numeric\(2,4\)",
    r"STATISTICS ends\.small DISTINCT 90 NULLS \d+ COMMON \(('0\.\d{4}' \d+(, )?)+\).*",
    r"-- as text, without statistics: column ends\.free of type numeric",
    r"-- as text, without statistics: column ends\.fraction of type numeric\(5,20\)",
    r"-- as text, without statistics: column ends\.tens of type numeric\(5,-1\)",
]

# What no line of the script says: a type that pgplan has needs no comment.
UNWANTED = r"-- as .*: column (t\.[dmwszu]|ends\.[dmwvc]|ends\.far|ends\.old) "

FACTS = """SELECT attname AS name, most_common_vals::text::text[] AS common, histogram_bounds::text::text[] AS bounds FROM pg_stats
    WHERE schemaname = 'typed' AND tablename = 't'"""


def check_values(checks: Checks, table: Table, facts: list[dict]) -> None:
    """The values of the statistics are those that tools/server/types.py makes of what the server prints, and the other way round."""
    for fact in facts:
        column = table.columns[fact["name"]]
        for value in [*(fact["common"] or [])[:16], *(fact["bounds"] or [] if fact["name"] != "y" else [])]:
            literal = column.type.literal(value)
            checks.that(literal in column.known.common or literal in column.known.bounds, f"{column.name}: no {literal} for {value}")
            back = column.type.literal(column.type.value(literal or "0"))
            checks.that(back == literal, f"{column.name}: {literal} comes back as {back}")


def as_csv(of: Type, text: str) -> str:
    """A field of COPY for a value that the server printed."""
    return of.literal(text) or text if of.form == "enum" else text.rstrip(" ")


def check_rows(checks: Checks, psql: Psql, table: Table) -> None:
    """Each condition that is written holds for the same rows in pgplan and on the server."""
    names = list(table.columns)
    rows = psql("postgres", f"SELECT {', '.join(names)} FROM typed.t WHERE h IS NOT NULL", "-t", "-A", "-F", "|", "-P", r"null=\N").splitlines()
    data = "\n".join(",".join(as_csv(table.columns[name].type, field) for name, field in zip(names, row.split("|"))) for row in rows)
    copied = f"{table.create}\nCOPY t FROM STDIN WITH (FORMAT CSV, NULL '\\N');\n{data}\n\\.\n"
    for theirs, ours in CONDITIONS:
        if ours is not None:
            here = re.findall(r"^\d+$", checks.run(f"{copied}SELECT id FROM t WHERE {ours} ORDER BY id"), re.M)
            there = psql("postgres", f"SET search_path = typed; SELECT id FROM t WHERE h IS NOT NULL AND ({theirs}) ORDER BY id", "-t", "-A").split()
            checks.that(bool(here) and here == there, f"{len(here)} rows and not {len(there)}: {theirs}")


def check_types(checks: Checks, psql: Psql, exported: Callable[..., str]) -> None:
    """Columns, statistics and conditions of days, times, numerics, UUIDs, and types that pgplan has in another form."""
    psql("postgres", SCHEMA)
    psql("postgres", "SET search_path = typed;" + "".join(
        f"CREATE TABLE t{n} (LIKE t); CREATE INDEX x{n} ON t{n} (id) WHERE {theirs};\n" for n, (theirs, _) in enumerate(CONDITIONS)))
    script = exported(psql, "typed")
    checks.run(script)
    lines = script.splitlines()
    for wanted in WANTED:
        checks.that(any(re.fullmatch(wanted, line) for line in lines), f"no line {wanted}")
    checks.that(not any(re.match(UNWANTED, line) for line in lines), f"a comment on a type: {[line for line in lines if re.match(UNWANTED, line)]}")
    for n, (theirs, ours) in enumerate(CONDITIONS):
        wanted = f"-- left out: index x{n} on t{n} (its condition " if ours is None else f"CREATE INDEX x{n} ON t{n} (id) WHERE {ours};\n"
        checks.that(f"\n{wanted}" in script, f"{theirs}: {re.findall(f'^.* x{n} .*$', script, re.M)}")
    server = Server("postgres", "typed")
    table = Schema(server).table(None, "t")
    check_values(checks, table, server.rows(FACTS))
    check_rows(checks, psql, table)
