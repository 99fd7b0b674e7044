#!/usr/bin/env python3
"""Tries tools/from_postgres.sql on a PostgreSQL server of its own: exports several schemas and runs pgplan on what it prints.

usage: tools/check_from_postgres.py PROGRAM

PROGRAM is a built pgplan. Needs Debian's package postgresql: the newest server below /usr/lib/postgresql is started on a socket in a
temporary folder, as the user postgres where this user is root, and stopped at the end. It is no part of the gate. Prints each
difference, and last the number of checks that passed and failed. What is checked:

- shop: twelve tables. Each line that is wanted is printed, nothing else is left out, and pgplan plans queries over them.
- conditions: how the condition of a partial index is written, or that its index is left out. Each written one is true for the same
  rows in pgplan and on the server.
- types: dates, times, numerics and UUIDs stay what they are, and enums, fixed-length texts and addresses have the values and the order
  that pgplan can compare, in statistics and in conditions.
- stand-ins: columns of other types are texts, and `*` names them.
- collations: which histograms of texts are written, for databases and columns of several collations.
- encoding: texts are written in the encoding of the database.
- size: statistics of more than 16 MiB.
- names: names and values that contain statements stay inside comments and quotes.
- hostile: another user's functions, operators and views do not run, and neither they nor settings change a byte. They do run, and
  forge a statement, without the tool's setting of search_path.

pgplan ends with status 0 on every script.
"""
import pathlib
import re
import subprocess
import sys
from collections.abc import Callable

sys.dont_write_bytecode = True
from exported_types import check_types
from own_server import Checks, Psql, newest, server

ROOT = pathlib.Path(__file__).resolve().parent.parent

SCHEMA = r"""
CREATE SCHEMA shop;
SET search_path = shop;
CREATE TABLE customers (id serial PRIMARY KEY, name varchar(80) NOT NULL, region int2, since date, mail text COLLATE "C" UNIQUE);
CREATE TABLE orders (id bigserial PRIMARY KEY, customer int NOT NULL REFERENCES customers, status text COLLATE "C" NOT NULL, paid bool, total numeric(10, 2));
CREATE TABLE items (order_id int8 NOT NULL REFERENCES orders, line int2 NOT NULL, article int NOT NULL, price int8, PRIMARY KEY (order_id, line));
CREATE TABLE articles (id int PRIMARY KEY, title text NOT NULL, kind varchar NOT NULL, stock int, "Weight" int, note text COLLATE "C");
CREATE TABLE regions (id int2 PRIMARY KEY, "name" text NOT NULL);
CREATE TABLE prices (article int NOT NULL, valid_from int8 NOT NULL, valid_to int8, amount int8 NOT NULL, EXCLUDE USING btree (article WITH =, valid_from WITH =));
CREATE TABLE empty_one (a int, b text);
CREATE TABLE stops (id int4 NOT NULL, place point, tags text[]);
CREATE TABLE staff (id int PRIMARY KEY, boss int REFERENCES staff, active boolean NOT NULL, "order" int);
CREATE TABLE "Odd" (a int);
CREATE TABLE capitals ("A" int);
CREATE TABLE wide (%s);
CREATE VIEW open_orders AS SELECT * FROM orders WHERE status = 'open';
CREATE INDEX orders_customer ON orders (customer, id DESC) INCLUDE (status);
CREATE INDEX orders_open ON orders (customer) WHERE status = 'open' AND NOT paid;
CREATE INDEX orders_in ON orders (customer) WHERE status IN ('open', 'new');
CREATE INDEX orders_not ON orders (id) WHERE status NOT IN ('it''s late', 'a], b') AND customer IN (1, -2, 3);
CREATE INDEX orders_text ON orders (id) WHERE status = 'x = ANY (ARRAY[1])';
CREATE INDEX orders_hash ON orders USING hash (status);
CREATE INDEX orders_total ON orders (total);
CREATE INDEX customers_lower ON customers (lower(name));
CREATE INDEX customers_mail ON customers (mail text_pattern_ops);
CREATE INDEX customers_region ON customers (region DESC NULLS LAST, name) WHERE region IS NOT NULL AND (region > 0 OR name = 'O''Brien');
CREATE INDEX articles_low ON articles (stock NULLS FIRST) WHERE stock >= '-5'::int AND kind <> 'gone';
CREATE INDEX articles_kinds ON articles (id) WHERE kind IN ('kind 1', 'kind 2') AND NOT stock BETWEEN 5 AND 9;
CREATE INDEX articles_calc ON articles (id) WHERE stock + 1 > 3;
CREATE INDEX articles_true ON articles (id) WHERE (stock > 3) IS TRUE;
CREATE INDEX prices_open ON prices (article, valid_from) WHERE valid_to IS NULL;
CREATE INDEX prices_few ON prices (article) WHERE amount IN (1, 20000000000) AND valid_to NOT IN (5);
CREATE INDEX prices_columns ON prices (article) WHERE amount = ANY (ARRAY[valid_from, 7]);
CREATE INDEX prices_null ON prices (article) WHERE amount IN (1, NULL);
CREATE INDEX stops_place ON stops USING gist (place);
CREATE INDEX staff_active ON staff USING btree (boss, active) WHERE active OR boss = 1;
CREATE INDEX staff_any ON staff (boss) WHERE active IN (true, false) OR boss = ANY ('{1,2}');
CREATE INDEX staff_many ON staff (boss) WHERE boss IN (%s);
CREATE INDEX staff_two ON staff (boss, boss);
CREATE STATISTICS orders_both ON customer, status FROM orders;
INSERT INTO regions SELECT g, 'region ' || g FROM generate_series(1, 12) g;
INSERT INTO customers (name, region, since, mail) SELECT 'name ' || g %% 300, nullif(g %% 13, 0), '2020-01-01', CASE WHEN g %% 10 > 0 THEN 'c' || g || E'\\o''x@example' END FROM generate_series(1, 5000) g;
INSERT INTO orders (customer, status, paid, total) SELECT 1 + g * g %% 5000, CASE WHEN g %% 50 = 0 THEN 'open' WHEN g %% 7 = 0 THEN 'it''s late' ELSE 'done' END, CASE g %% 3 WHEN 0 THEN true WHEN 1 THEN false END, g FROM generate_series(1, 40000) g;
INSERT INTO items SELECT o, l, 1 + (o * l) %% 900, (o * 7919) %% 5000 - 100 FROM generate_series(1, 40000) o, generate_series(1, 3) l;
INSERT INTO articles SELECT g, 'title ' || g, CASE WHEN g %% 20 = 0 THEN 'gone' ELSE 'kind ' || g %% 40 END, g %% 100, g, 'note ' || g FROM generate_series(1, 900) g;
INSERT INTO prices SELECT 1 + g %% 900, g, CASE WHEN g %% 5 > 0 THEN g + 5 END, g * -1000000000000 FROM generate_series(1, 9000) g;
INSERT INTO stops SELECT g FROM generate_series(1, 50) g;
INSERT INTO staff SELECT g, nullif(g / 10, 0), g %% 4 > 0 FROM generate_series(1, 300) g;
INSERT INTO wide (c0) SELECT g FROM generate_series(1, 10) g;
SET default_statistics_target = 400;
ANALYZE articles;
SET default_statistics_target = 100;
ANALYZE regions; ANALYZE customers; ANALYZE orders; ANALYZE items; ANALYZE prices; ANALYZE empty_one; ANALYZE stops; ANALYZE staff;
""" % (", ".join(f"c{n} int" for n in range(40)), ", ".join(map(str, range(300))))

# Lines that stand in the script, each as a regular expression for the whole line.
WANTED = [
    r"CREATE TABLE customers \(id int4 NOT NULL, name varchar\(80\) NOT NULL, region int2, since date, mail text\);",
    r"STATISTICS customers\.since DISTINCT 1 NULLS 0 COMMON \('2020-01-01' 1000000\);",
    r"-- as a plain index: unique index customers_pkey",
    r"CREATE INDEX customers_pkey ON customers \(id\);",
    r"CREATE INDEX customers_mail_key ON customers \(mail\);",
    r"-- left out: index customers_lower on customers \(a key is an expression\)",
    r"-- left out: index customers_mail on customers \(its operator class\)",
    r"CREATE INDEX customers_region ON customers \(region DESC NULLS LAST, name\) WHERE "
    r"\(\(region IS NOT NULL\) AND \(\(region > 0\) OR \(name = 'O''Brien'\)\)\);",
    r"STATISTICS customers ROWS 5000 PAGES \d+;",
    r"STATISTICS customers\.region DISTINCT 12 NULLS \d+ COMMON \(.*\);",
    r"STATISTICS regions\.name DISTINCT 12 NULLS 0 HISTOGRAM \('region 1', 'region 10', .*\);",
    r"STATISTICS customers\.mail DISTINCT \d+ NULLS 100000 HISTOGRAM \('c[^']*''x@example', .*\);",
    r"CREATE TABLE orders \(id int8 NOT NULL, customer int4 NOT NULL, status text NOT NULL, paid bool, total numeric\(10,2\)\);",
    r"CREATE INDEX orders_customer ON orders \(customer, id DESC\) INCLUDE \(status\);",
    r"CREATE INDEX orders_open ON orders \(customer\) WHERE \(\(status = 'open'\) AND \(NOT paid\)\);",
    r"CREATE INDEX orders_in ON orders \(customer\) WHERE \(status IN \('open', 'new'\)\);",
    r"CREATE INDEX orders_not ON orders \(id\) WHERE \(\(status NOT IN \('it''s late', 'a\], b'\)\) AND \(customer IN \(1, -2, 3\)\)\);",
    r"CREATE INDEX orders_text ON orders \(id\) WHERE \(status = 'x = ANY \(ARRAY\[1\]\)'\);",
    r"CREATE INDEX orders_hash ON orders USING hash \(status\);",
    r"CREATE INDEX orders_total ON orders \(total\);",
    r"STATISTICS orders\.total DISTINCT 40000 NULLS 0 HISTOGRAM \(('\d+\.00', ){100}'\d+\.00'\);",
    r"STATISTICS orders\.status DISTINCT 3 NULLS 0 COMMON \('done' \d+, 'it''s late' \d+, 'open' \d+\);",
    r"STATISTICS orders\.paid DISTINCT 2 NULLS \d+ COMMON \((TRUE|FALSE) \d+, (TRUE|FALSE) \d+\);",
    r"-- left out: extended statistics orders_both on orders",
    r"-- left out: column articles\.\"Weight\" of type integer \(its name\)",
    r"CREATE INDEX articles_low ON articles \(stock NULLS FIRST\) WHERE \(\(stock >= -5\) AND \(kind <> 'gone'\)\);",
    r"CREATE INDEX articles_kinds ON articles \(id\) WHERE \(\(kind IN \('kind 1', 'kind 2'\)\) AND \(NOT \(\(stock >= 5\) AND \(stock <= 9\)\)\)\);",
    r"-- left out: index articles_calc on articles \(its condition .*\)",
    r"-- left out: index articles_true on articles \(its condition .*\)",
    r"-- left out: 84 further common values of articles\.stock",
    r"STATISTICS articles\.id DISTINCT 900 NULLS 0 HISTOGRAM \((\d+, ){100}900\);",
    r"-- as a plain index: exclusion constraint prices_article_valid_from_excl",
    r"CREATE INDEX prices_article_valid_from_excl ON prices \(article, valid_from\);",
    r"-- left out: column staff\.\"order\" of type integer \(its name\)",
    r"CREATE INDEX staff_active ON staff \(boss, active\) WHERE \(active OR \(boss = 1\)\);",
    r"-- left out: index staff_any on staff \(its condition .*\)",
    r"-- left out: index staff_many on staff \(its condition .*\)",
    r"-- left out: index staff_two on staff \(a column stands twice\)",
    r"STATISTICS staff\.active DISTINCT 2 NULLS 0 COMMON \(TRUE 750000, FALSE 250000\);",
    r"CREATE INDEX prices_few ON prices \(article\) WHERE \(\(amount IN \(1, 20000000000\)\) AND \(valid_to <> 5\)\);",
    r"-- left out: index prices_columns on prices \(its condition .*\)",
    r"-- left out: index prices_null on prices \(its condition .*\)",
    r"CREATE INDEX prices_open ON prices \(article, valid_from\) WHERE \(valid_to IS NULL\);",
    r"STATISTICS prices\.amount DISTINCT 9000 NULLS 0 HISTOGRAM \(-\d+, .*\);",
    r"STATISTICS empty_one ROWS 1 PAGES 1;",
    r"-- as text, without statistics: column stops\.place of type point",
    r"-- as text, without statistics: column stops\.tags of type text\[\]",
    r"CREATE TABLE stops \(id int4 NOT NULL, place text, tags text\);",
    r"-- left out: index stops_place on stops \(method gist\)",
    r"-- left out: table \"Odd\" \(its name\)",
    r"CREATE TABLE articles \(id int4 NOT NULL, title text NOT NULL, kind varchar NOT NULL, stock int4, note text\);",
    r"-- left out: table capitals \(no column is left\)",
    r"-- left out: view open_orders",
    r"-- left out: column wide\.c32 of type integer \(more than 32 columns\)",
    r"-- no statistics: table wide was never analyzed",
]

QUERIES = [
    "EXPLAIN SELECT c.name, o.id, i.price FROM customers c JOIN orders o ON o.customer = c.id JOIN items i ON i.order_id = o.id"
    " WHERE c.id = 17 AND o.status = 'open' ORDER BY o.id;",
    "EXPLAIN SELECT * FROM articles a, prices p, regions r WHERE p.article = a.id AND p.valid_to IS NULL AND a.kind = 'kind 7' AND r.id = 3;",
    "EXPLAIN SELECT * FROM wide, stops, empty_one WHERE wide.c0 = stops.id AND empty_one.a = stops.id;",
]


# The columns of the table of each condition.
COLUMNS = """id int4 NOT NULL, i int4, s int2, b int8, n text, v varchar(20), f bool, isfinite bool, lower text, d numeric, since date,
until date, mood conditions.mood, amount conditions.amount, pair conditions.pair"""

# Conditions of partial indexes, and how each is written: None where its index is left out.
CONDITIONS = [
    ("i > 99999999999", "(i > 99999999999)"),
    ("s > -40000", "(s > -40000)"),
    ("b > '-9223372036854775808'::int8 AND b < 9223372036854775807", "((b > -9223372036854775808) AND (b < 9223372036854775807))"),
    ("i > 5::int8 AND i < 7::int2", "((i > 5) AND (i < 7))"),
    ("s < 30000::int2", "(s < 30000)"),
    ("i::text = 'abc'", None),
    ("i::text > '5'", None),
    ("f::text = 'maybe'", None),
    ("d::text = '007'", None),
    ("b::text = '(5)::bigint'", None),
    ("n = '(5)::bigint'", "(n = '(5)::bigint')"),
    ("n = '(a)::text (5)::bigint'", "(n = '(a)::text (5)::bigint')"),
    ("v = '(v)::text'", "(v = '(v)::text')"),
    ("v = ANY (ARRAY['(5)::bigint', '''x''::text', 'a'])", "(v IN ('(5)::bigint', '''x''::text', 'a'))"),
    ("n NOT IN ('= ANY (ARRAY[1])', 'b')", "(n NOT IN ('= ANY (ARRAY[1])', 'b'))"),
    ("v::text = ANY (ARRAY['a'::varchar::text, 'b c'::varchar::text])", "(v IN ('a', 'b c'))"),
    (r"n = 'back\slash' OR n = 'THE''S' OR n = E'two\nlines'", "((n = 'back\\slash') OR (n = 'THE''S') OR (n = 'two\nlines'))"),
    (r"n IN ('\', 'E''\''')", r"(n IN ('\', 'E''\'''))"),
    ("v = n AND n < 'b' AND 'a' <= v", "((v = n) AND (n < 'b') AND ('a' <= v))"),
    ("v::varchar(1) = 'a'", None),
    ("v = 'abc'::varchar(2)", None),
    ("n COLLATE \"C\" = 'a'", None),
    ("n LIKE 'a%'", None),
    ("lower(n) = 'a'", None),
    ("lower = 'a'", "(lower = 'a')"),
    ("isfinite AND f IS NULL", "(isfinite AND (f IS NULL))"),
    ("isfinite(since)", None),
    ("f IS TRUE", None),
    ("(i > 5) = f", None),
    ("f = true OR NOT isfinite OR f > isfinite", "((f = TRUE) OR (NOT isfinite) OR (f > isfinite))"),
    ("f IN (true, false)", "(f IN (TRUE, FALSE))"),
    ("true AND i <> s AND 5 = 5", "(TRUE AND (i <> s) AND (5 = 5))"),
    ("i::int8 = b", None),
    ("i IS DISTINCT FROM 5", None),
    ("i IN (1, NULL)", None),
    ("i = ANY ('{1,2}')", None),
    ("i IN (1, s)", "((i = 1) OR (i = s))"),
    ("- i = 5", None),
    ("d > 5", None),
    ("d IS NULL AND since IS NOT NULL", "((d IS NULL) AND (since IS NOT NULL))"),
    ("mood IS NOT NULL OR amount IS NULL", "((mood IS NOT NULL) OR (amount IS NULL))"),
    ("pair IS NULL", None),
    ("since < until", "(since < until)"),
    ("since > '2020-01-01'", "(since > '2020-01-01')"),
    ("mood = 'sad'", "(mood = 1)"),
    ("amount > 5", None),
    ("i OPERATOR(conditions.=) 5", None),
    ("conditions.odd(i)", None),
    ("n = repeat('x', 3)", None),
    (f"n = '{'x' * 8192}'", f"(n = '{'x' * 8192}')"),
    (f"n = '{'x' * 8193}'", None),
    ("n = '" + "''" * 8193 + "'", None),
    (" AND ".join(f"i <> {n}" for n in range(40)), "(" + " AND ".join(f"(i <> {n})" for n in range(40)) + ")"),
    (" OR ".join(f"i = {n}" for n in range(256)), "(" + " OR ".join(f"(i = {n})" for n in range(256)) + ")"),
    (" OR ".join(f"i = {n}" for n in range(257)), None),
    (f"i IN ({', '.join(map(str, range(255)))}) OR f", f"((i IN ({', '.join(map(str, range(255)))})) OR f)"),
    (f"i IN ({', '.join(map(str, range(256)))}) OR f", None),
]


def nested(levels: int) -> str:
    """A condition that the server prints with this number of levels: it flattens AND inside AND and OR inside OR."""
    text = "(i = 0)"
    for level in range(1, levels):
        text = f"((i = {level}) {'AND' if level % 2 else 'OR'} {text})"
    return text


CONDITIONS += [(nested(32), nested(32)), (nested(33), None), (f"NOT {nested(30)}", f"(NOT {nested(30)})"), (f"NOT {nested(31)}", None)]

# Rows on which pgplan and the server evaluate each condition that is written.
ROWS = r"""1,5,5,5,a,a,t,f,a
2,6,-4,9223372036854775807,back\slash,(5)::bigint,f,t,b
3,-5,7,-9223372036854775808,THE'S,(v)::text,\N,\N,\N
4,\N,\N,\N,\N,\N,t,t,\N
5,2147483647,32767,20000000000,(5)::bigint,'x'::text,f,f,a
6,0,0,0,(a)::text (5)::bigint,b c,t,\N,
7,31,31,31,= ANY (ARRAY[1]),B,f,\N,A
8,255,255,255,E'\',\,\N,t,\N
9,256,256,256,\,a,f,f,lower
"""

CONDITION_SCHEMA = """
CREATE SCHEMA conditions;
CREATE TYPE conditions.mood AS ENUM ('sad', 'glad');
CREATE DOMAIN conditions.amount AS int4;
CREATE TYPE conditions.pair AS (x int, y int);
CREATE FUNCTION conditions.odd(int) RETURNS bool LANGUAGE sql IMMUTABLE AS 'SELECT $1 % 2 = 1';
CREATE FUNCTION conditions.never(int, int) RETURNS bool LANGUAGE sql IMMUTABLE AS 'SELECT false';
CREATE OPERATOR conditions.= (LEFTARG = int, RIGHTARG = int, FUNCTION = conditions.never);
"""

STAND_INS = """
CREATE SCHEMA stand_ins;
SET search_path = stand_ins;
CREATE TABLE t (a int NOT NULL, j jsonb, at timetz, k text COLLATE "C");
CREATE INDEX t_a ON t (a);
CREATE INDEX t_a_j ON t (k) INCLUDE (j);
CREATE INDEX t_at ON t (a, at);
CREATE INDEX t_now ON t (a) WHERE at IS NULL;
CREATE INDEX t_then ON t (a) WHERE at > '12:00+00';
CREATE INDEX t_collated ON t (k COLLATE "en-x-icu");
INSERT INTO t SELECT g, '{}', now(), g FROM generate_series(1, 10000) g;
ANALYZE t;
CREATE TABLE many (%s, a int);
CREATE TABLE only_json (j jsonb);
CREATE TABLE "order" (a int);
""" % ", ".join(f"j{n} json" for n in range(32))

STAND_IN_LINES = [
    "-- as text, without statistics: column t.j of type jsonb",
    "CREATE TABLE t (a int4 NOT NULL, j text, at text, k text);",
    "CREATE INDEX t_a_j ON t (k) INCLUDE (j);",
    "-- left out: index t_at on t (a key of type time with time zone)",
    "CREATE INDEX t_now ON t (a) WHERE (at IS NULL);",
    "-- left out: index t_then on t (its condition (at > '12:00:00+00'::time with time zone))",
    "-- left out: index t_collated on t (the collation of a key)",
    "CREATE TABLE only_json (j text);",
    "-- left out: table \"order\" (its name)",
    "-- left out: column many.j31 of type json (more than 32 columns)",
    f"CREATE TABLE many ({', '.join(f'j{n} text' for n in range(31))}, a int4);",
]

COLLATED = """
CREATE SCHEMA collated;
SET search_path = collated;
CREATE COLLATION theirs (locale = 'C.utf8');
CREATE TABLE t (usual text, c text COLLATE "C", posix varchar COLLATE "POSIX", utf text COLLATE "C.utf8", own text COLLATE theirs, basic text COLLATE ucs_basic,
                english text COLLATE "en-x-icu");
INSERT INTO t SELECT w, w, w, w, w, w, w FROM (SELECT chr(65 + g % 60) || chr(225 + g % 30) || g FROM generate_series(1, 500) g) w(w);
ANALYZE t;
"""

# Databases, options of CREATE DATABASE, and the columns of the table above whose histograms are left out there.
DATABASES = [
    ("c_utf8", "LOCALE 'C.UTF-8'", {"english"}),
    ("c", "LOCALE 'C'", {"english"}),
    ("posix", "LOCALE 'POSIX'", {"english"}),
    ("icu", "LOCALE_PROVIDER icu ICU_LOCALE 'en' LOCALE 'C.UTF-8'", {"english", "usual"}),
]

# The order of these two letters in WIN1252 is not that in UTF8.
ENCODED = """
CREATE SCHEMA encoded;
CREATE TABLE encoded.t (a text);
INSERT INTO encoded.t SELECT chr(CASE g % 2 WHEN 0 THEN 128 ELSE 233 END) || g FROM generate_series(1000, 1999) g;
ANALYZE encoded.t;
ALTER DATABASE encoded SET client_encoding = 'UTF8';
"""

SIZE = "CREATE SCHEMA size; SET search_path = size;" + "".join(
    f"CREATE TABLE t{t:02} ({', '.join(f'c{c} text' for c in range(20))});"
    f"INSERT INTO t{t:02} SELECT {', '.join(['w'] * 20)} FROM (SELECT rpad(g::text, 1000, 'x') FROM generate_series(1000, 1119) g) v(w);"
    f"ANALYZE t{t:02};" for t in range(10))

HOSTILE = r"""
CREATE TABLE public.heard (who text, what text);
GRANT INSERT ON public.heard TO PUBLIC;
CREATE ROLE mallory;
GRANT CREATE ON SCHEMA public TO mallory;
SET ROLE mallory;
CREATE FUNCTION public.tell(text) RETURNS void LANGUAGE sql AS 'INSERT INTO public.heard VALUES (current_user, $1)';
CREATE FUNCTION public.cardinality(text[]) RETURNS int LANGUAGE plpgsql AS
    'BEGIN PERFORM public.tell(''cardinality''); RETURN pg_catalog.cardinality($1); END';
CREATE FUNCTION public.forged(text, int8) RETURNS text LANGUAGE plpgsql AS
    'BEGIN PERFORM public.tell(''|| of int8''); RETURN concat($1, $2, ''; CREATE TABLE evil (x int4);''); END';
CREATE FUNCTION public.forged(text, int4) RETURNS text LANGUAGE plpgsql AS
    'BEGIN PERFORM public.tell(''|| of int4''); RETURN concat($1, $2, ''; CREATE TABLE evil (x int4);''); END';
CREATE OPERATOR public.|| (LEFTARG = text, RIGHTARG = int8, FUNCTION = public.forged);
CREATE OPERATOR public.|| (LEFTARG = text, RIGHTARG = int4, FUNCTION = public.forged);
"""

# Objects that hide those of pg_catalog, with a search_path that has public before it, and further settings of the database.
HIDING = r"""
SET ROLE mallory;
CREATE VIEW public.pg_class AS SELECT * FROM pg_catalog.pg_class WHERE relname < 'b';
CREATE FUNCTION public.quote_ident(text) RETURNS text LANGUAGE plpgsql AS
    'BEGIN PERFORM public.tell(''quote_ident''); RETURN ''forged''; END';
CREATE FUNCTION public.getdatabaseencoding() RETURNS name LANGUAGE plpgsql AS
    'BEGIN PERFORM public.tell(''getdatabaseencoding''); RETURN ''UTF8''; END';
CREATE DOMAIN public.int4 AS text;
RESET ROLE;
ALTER DATABASE postgres SET search_path = public, pg_catalog;
ALTER DATABASE postgres SET standard_conforming_strings = off;
ALTER DATABASE postgres SET quote_all_identifiers = on;
ALTER DATABASE postgres SET client_encoding = 'LATIN1';
"""

# Names and values that would be statements if they left their comments and quotes.
NAMES = r"""
CREATE SCHEMA "names
CREATE TABLE evil (x int4);";
SET search_path = "names
CREATE TABLE evil (x int4);";
CREATE TYPE "mood
CREATE TABLE evil (x int4);" AS ENUM ('a');
CREATE TABLE "t
CREATE TABLE evil (x int4);" (a int);
CREATE TABLE t (a int, "b
CREATE TABLE evil (x int4);" int, c "mood
CREATE TABLE evil (x int4);", d text COLLATE "C", nulls int, include int, count int);
CREATE INDEX "i
CREATE TABLE evil (x int4);" ON t (a);
CREATE INDEX i ON t (nulls NULLS FIRST, count DESC) INCLUDE (include) WHERE d = E'x''\nCREATE TABLE evil (x int4); --';
CREATE INDEX j ON t (a) WHERE "b
CREATE TABLE evil (x int4);" = 5;
CREATE STATISTICS "s
CREATE TABLE evil (x int4);" ON a, d FROM t;
INSERT INTO t (a, d) SELECT g, E'x'';\nCREATE TABLE evil (x int4); --' || g / 5 FROM generate_series(1, 5000) g;
ANALYZE t;
"""

def exported(psql: Psql, schema: str, database: str = "postgres", changed: Callable[[str], str] = str) -> str:
    """The script that the tool, or a changed one, prints for a schema."""
    return psql(database, changed((ROOT / "tools" / "from_postgres.sql").read_text()), "-v", f"schema={schema}")


def check_shop(checks: Checks, psql: Psql) -> None:
    """The lines of the schema shop, and plans of queries over it."""
    psql("postgres", SCHEMA)
    script = exported(psql, "shop")
    lines = script.splitlines()
    checks.run(script)
    for query in QUERIES:
        checks.that("cost=" in checks.run(script + query), f"no plan: {query}")
    for wanted in WANTED:
        checks.that(any(re.fullmatch(wanted, line) for line in lines), f"no line {wanted}")
    made = sum(line.startswith("CREATE TABLE") for line in lines)
    checks.that(made == 10, f"{made} tables and not 10")
    further = r"-- left out: (column wide\.c3[3-9] of type integer \(more than 32 columns\)|\d+ further common values of .*)"
    told = [line for line in lines if line.startswith(("-- left out", "-- no statistics", "-- as text"))]
    told = [line for line in told if not any(re.fullmatch(wanted, line) for wanted in [*WANTED, further])]
    checks.that(not told, f"not wanted: {told}")


def check_conditions(checks: Checks, psql: Psql) -> None:
    """How the condition of each partial index is written."""
    psql("postgres", CONDITION_SCHEMA)
    for first in range(0, len(CONDITIONS), 60):
        some = list(enumerate(CONDITIONS))[first:first + 60]
        psql("postgres", "".join(f"CREATE TABLE conditions.t{n} ({COLUMNS}); CREATE INDEX x{n} ON conditions.t{n} (id) WHERE {theirs};\n"
                                 for n, (theirs, _) in some))
        script = exported(psql, "conditions")
        checks.run(script)
        for n, (theirs, ours) in some:
            wanted = f"-- left out: index x{n} on t{n} (its condition " if ours is None else f"CREATE INDEX x{n} ON t{n} (id) WHERE {ours};\n"
            checks.that(f"\n{wanted}" in script, f"{theirs[:300]}: {re.findall(f'^.* x{n} .*$', script, re.M)}")
        psql("postgres", "".join(f"DROP TABLE conditions.t{n};" for n, _ in some))


def check_meaning(checks: Checks, psql: Psql) -> None:
    """Each condition that is written, and that a query can have, holds for the same rows in pgplan and on the server."""
    psql("postgres", f"CREATE TABLE conditions.r ({COLUMNS});\nCOPY conditions.r (id, i, s, b, n, v, f, isfinite, lower) FROM STDIN "
                     f"WITH (FORMAT CSV, NULL '\\N');\n{ROWS}\\.\n")
    copied = ("CREATE TABLE r (id int4, i int4, s int2, b int8, n text, v text, f bool, isfinite bool, lower text, d text, since date, "
              "until date, mood int4, amount text);\nCOPY r FROM STDIN WITH (FORMAT CSV, NULL '\\N');\n"
              + "".join(row + r",\N,\N,\N,\N,\N" + "\n" for row in ROWS.splitlines()) + "\\.\n")
    for theirs, ours in CONDITIONS:
        if ours is not None and ours.count(" AND ") < 32:
            here = re.findall(r"^\d+$", checks.run(f"{copied}SELECT id FROM r WHERE {ours} ORDER BY id"), re.M)
            there = psql("postgres", f"SET search_path = conditions; SELECT id FROM r WHERE {theirs} ORDER BY id", "-t", "-A").split()
            checks.that(here == there, f"rows {here} and not {there}: {theirs[:300]}")


def check_stand_ins(checks: Checks, psql: Psql) -> None:
    """Columns of types that pgplan does not have: `*` names them, so no index-only scan leaves them out."""
    psql("postgres", STAND_INS)
    script = exported(psql, "stand_ins")
    checks.run(script)
    for wanted in STAND_IN_LINES:
        checks.that(wanted in script.splitlines(), f"no line {wanted}")
    checks.that("STATISTICS t.j" not in script and "STATISTICS t.at" not in script, "a stand-in has statistics")
    for columns, scan in [("*", "Index Scan"), ("a", "Index Only Scan"), ("a, j", "Index Scan")]:
        plan = checks.run(f"{script}EXPLAIN SELECT {columns} FROM t WHERE a = 7")
        checks.that(scan in plan and ("Only" in plan) == ("Only" in scan), f"{columns} by {plan}")


def check_collations(checks: Checks, psql: Psql) -> None:
    """Histograms of texts are written where texts are compared by bytes."""
    for database, how, out in DATABASES:
        psql("postgres", f"CREATE DATABASE {database} {how} ENCODING 'UTF8' TEMPLATE template0")
        psql(database, COLLATED)
        script = exported(psql, "collated", database)
        checks.run(script)
        told = set(re.findall(r"^-- left out: the histogram of t\.(\w+) \(its collation is not C\)$", script, re.M))
        made = set(re.findall(r"^STATISTICS t\.(\w+) .* HISTOGRAM ", script, re.M))
        checks.that(told == out, f"{database}: no histograms of {told} and not {out}")
        checks.that(made == {"usual", "c", "posix", "utf", "own", "basic", "english"} - out, f"{database}: histograms of {made}")


def check_encoding(checks: Checks, psql: Psql) -> None:
    """Texts are written in the encoding of the database, whatever the client's."""
    psql("postgres", "CREATE DATABASE encoded LOCALE 'C' ENCODING 'WIN1252' TEMPLATE template0")
    psql("encoded", ENCODED)
    script = exported(psql, "encoded", "encoded")
    checks.run(script)
    bounds = re.findall(r"'(.)(\d+)'", script)
    checks.that(len(bounds) == 101 and bounds[0] == ("\udc80", "1000") and bounds[-1] == ("\udce9", "1999"), f"bounds {bounds}")


def check_size(checks: Checks, psql: Psql) -> None:
    """A schema of more than 16 MiB of statistics."""
    psql("postgres", SIZE)
    script = exported(psql, "size")
    checks.run(script)
    checks.that(14_000_000 < len(script) < 1 << 24, f"{len(script)} bytes")
    checks.that(script.count("\nCREATE TABLE") == 10, "not every table of the large schema")
    checks.that(re.fullmatch(r"-- left out: the last \d+ lines that are no CREATE TABLE \(a script has at most 16 MiB\)", script.splitlines()[-1]),
                f"last line: {script.splitlines()[-1][:200]}")


def trusting(tool: str) -> str:
    """The tool without its first setting, as one that trusts the search_path of the server."""
    return re.sub(r"^SET search_path .*\n", "", tool, flags=re.M)


def check_hostile(checks: Checks, psql: Psql) -> None:
    """Neither another user's objects nor settings change the script, and no function of that user runs."""
    before = exported(psql, "shop")
    psql("postgres", HOSTILE)
    checks.that("CREATE TABLE evil" in exported(psql, "shop", changed=trusting), "the schema is not hostile: no forged statement")
    heard = set(psql("postgres", "SELECT what FROM public.heard", "-t", "-A").split("\n")) - {""}
    checks.that(heard == {"cardinality", "|| of int8", "|| of int4"}, f"the schema is not hostile: only {heard} ran")
    for more in ["", HIDING]:
        psql("postgres", f"DELETE FROM public.heard; {more}")
        checks.that(exported(psql, "shop") == before, f"another script beside {more or HOSTILE}")
        heard = psql("postgres", "SELECT * FROM public.heard", "-t", "-A")
        checks.that(not heard, f"foreign functions ran: {heard}")


def check_names(checks: Checks, psql: Psql) -> None:
    """Names and values stay in their comments and quotes."""
    psql("postgres", NAMES)
    script = exported(psql, "names\nCREATE TABLE evil (x int4);")
    checks.run(script)
    fault = subprocess.run([checks.program, "run"], input=f"{script}EXPLAIN SELECT * FROM evil".encode(), capture_output=True)
    checks.that(b"no table evil" in fault.stderr, "a name or a value made a table")
    checks.that("HISTOGRAM ('x''" in script and "\nCREATE INDEX i ON t (nulls NULLS FIRST, count DESC) INCLUDE (include) WHERE" in script, script)


def main() -> None:
    """Runs all checks on one server."""
    checks = Checks(pathlib.Path(sys.argv[1]).resolve())
    with server(newest()) as psql:
        check_types(checks, psql, exported)
        for check in [check_shop, check_conditions, check_meaning, check_stand_ins, check_collations, check_encoding,
                      check_size, check_names, check_hostile]:
            check(checks, psql)
    print(*checks.failures, sep="\n", end="\n" if checks.failures else "")
    print(f"from_postgres: {checks.passed} passed, {len(checks.failures)} failed")
    sys.exit(bool(checks.failures))


main()
