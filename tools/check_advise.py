#!/usr/bin/env python3
"""Tries tools/advise.py and tools/price.py on a PostgreSQL server of their own.

usage: tools/check_advise.py PROGRAM

PROGRAM is a built pgplan. tools/own_server.py says what is needed. It is no part of the gate, and takes some two minutes. Prints each
difference, and last the number of checks that passed and failed. What is checked:

- queries: how queries are read, what of them is left out, and that the server returns as many rows for what was read.
- schemas: the two schemas of bench/fitness/ with their 24 queries. Each query is planned, the indexes that are named can be made, the
  server's own costs fall with them, and the server's plans of all queries are priced.
- ranges: a range with two ends has as many rows by pgplan's estimate as by the server's.
- statements: the queries of pg_stat_statements, with values for their parameters and their calls as weights.
- unneeded: which indexes no query needs.
- hostile: no function of another user runs, psql obeys no query, and every line is a comment or a statement.
- faults: what is told of a server, a file or a schema that is not there.
"""
from __future__ import annotations

import json
import os
import pathlib
import re
import subprocess
import sys
import tempfile

sys.dont_write_bytecode = True
from advised_queries import check_queries
from own_server import Checks, Psql, newest, server
from server.psql import Server
from server.queries import read_query
from server.schema import Schema
from server.words import split_statements

ROOT = pathlib.Path(__file__).resolve().parent.parent
FITNESS = ROOT / "bench" / "fitness"
STATEMENT = re.compile(r"CREATE INDEX [a-z_0-9]+ ON [a-z_]+\.[a-z_]+ \([^;]*\)[^;]*;")
COSTS = re.compile(r"-- +(\d+)([* ]) +(\d+) +([\d.]+) +([\d.]+) +([\d.]+)   ")
PRICE = re.compile(r" +\d+ +[\d.]+ +[\d.]+ +[\d.]+ +([\d.]+)  SELECT ")

UNNEEDED = """
CREATE SCHEMA spare;
SET search_path = spare;
CREATE TABLE t (id int4 PRIMARY KEY, a int4 NOT NULL, b int4 NOT NULL, c int4 UNIQUE);
CREATE INDEX t_used ON t (a);
CREATE INDEX t_unused ON t (b);
CREATE INDEX t_twice ON t (a, b);
INSERT INTO t SELECT g, g % 1000, g % 17, g FROM generate_series(1, 50000) g;
ANALYZE t;
"""

HOSTILE = r"""
CREATE ROLE mallory;
CREATE SCHEMA theirs;
CREATE TABLE theirs.heard (who text, what text);
GRANT USAGE, CREATE ON SCHEMA theirs TO mallory;
GRANT INSERT ON theirs.heard TO PUBLIC;
GRANT CREATE ON SCHEMA public TO mallory;
SET ROLE mallory;
SET search_path = theirs, public;
CREATE FUNCTION public.tell(text) RETURNS void LANGUAGE sql AS 'INSERT INTO theirs.heard VALUES (current_user, $1)';
CREATE FUNCTION public.evil() RETURNS int4 LANGUAGE plpgsql IMMUTABLE AS 'BEGIN PERFORM public.tell(''evil''); RETURN 5; END';
CREATE FUNCTION public.lower(char) RETURNS text LANGUAGE plpgsql AS 'BEGIN PERFORM public.tell(''lower''); RETURN $1; END';
CREATE FUNCTION public.date_trunc(text, date) RETURNS date LANGUAGE plpgsql AS 'BEGIN PERFORM public.tell(''date_trunc''); RETURN $2; END';
CREATE FUNCTION public.quote_ident(name) RETURNS text LANGUAGE plpgsql AS 'BEGIN PERFORM public.tell(''quote_ident''); RETURN $1; END';
CREATE FUNCTION public.minus(date, int4) RETURNS date LANGUAGE plpgsql AS 'BEGIN PERFORM public.tell(''minus''); RETURN $1; END';
CREATE OPERATOR public.- (LEFTARG = date, RIGHTARG = int4, FUNCTION = public.minus);
CREATE FUNCTION public.small(int4) RETURNS bool LANGUAGE plpgsql AS 'BEGIN PERFORM public.tell(''domain''); RETURN true; END';
CREATE DOMAIN public.amount AS int4 CHECK (public.small(VALUE));
CREATE VIEW public.pg_class AS SELECT * FROM pg_catalog.pg_class WHERE relname < 'b';
CREATE TYPE theirs.mood AS ENUM ('sad', 'it''s; CREATE TABLE evil (x int4);', E'two\nlines');
CREATE TABLE theirs.t (a int4 NOT NULL, m mood, n text COLLATE "C", d date, "line
break" int4);
CREATE TABLE theirs."evil
CREATE TABLE evil (x int4);" (a int4);
CREATE INDEX "i
CREATE TABLE evil (x int4);" ON theirs.t (a);
INSERT INTO theirs.t SELECT g, (enum_range(NULL::mood))[1 + g % 3], E'x'';\nCREATE TABLE evil (x int4); --' || g / 500, '2024-01-01', 1
    FROM generate_series(1, 20000) g;
RESET ROLE;
ANALYZE theirs.t;
ALTER DATABASE postgres SET search_path = public, theirs, pg_catalog;
ALTER DATABASE postgres SET standard_conforming_strings = off;
ALTER DATABASE postgres SET quote_all_identifiers = on;
ALTER DATABASE postgres SET datestyle = 'German';
DELETE FROM theirs.heard;
"""

HOSTILE_QUERIES = r"""
SELECT a FROM t WHERE a = public.evil();
SELECT a FROM t WHERE a = evil() AND m = 'sad'::theirs.mood;
SELECT a FROM theirs.t WHERE d = date_trunc('day', date '2024-01-01') AND n = lower('X') AND d > date '2024-01-05' - 3;
SELECT a FROM t WHERE a = '5'::public.amount OR a = 7::public.amount;
SELECT a FROM t WHERE a = 6 -- \! touch %(mark)s
  AND n = '\! touch %(mark)s';
SELECT a FROM t WHERE n = E'\\! touch %(mark)s\n\\! touch %(mark)s' AND a < 500;
SELECT a FROM t WHERE d > date '2024-01-01' + 1 \! touch %(mark)s
;
SELECT a FROM t WHERE n = 'x'';
CREATE TABLE evil (x int4); --3' ORDER BY m LIMIT 3;
SELECT a FROM t WHERE m = 'it''s; CREATE TABLE evil (x int4);' AND a BETWEEN 3 AND 9;
SELECT a FROM t WHERE d = (SELECT 1; CREATE TABLE evil (x int4));
SELECT a, "line
break" FROM t WHERE a = 1;
SELECT a FROM "evil
CREATE TABLE evil (x int4);" WHERE a = 1;
SELECT a, '(', '*', 'select' FROM t WHERE n = '%(escape)s[2J' AND m = '%(escape)s[2J';
SELECT a FROM t WHERE m = E'two\nlines' AND n > ')';
"""


def called(checks: Checks, tool: str, *words: str, status: int = 0) -> str:
    """What a tool prints, which must end with a status."""
    ran = subprocess.run([sys.executable, str(ROOT / "tools" / tool), *words], capture_output=True, encoding="utf-8", errors="surrogateescape")
    checks.that(ran.returncode == status and "Traceback" not in ran.stderr, f"{tool} {words} ends with {ran.returncode}: {ran.stderr}")
    return ran.stdout + ran.stderr


def statements_of(checks: Checks, advice: str) -> list[str]:
    """The statements of an advice, in which every other line is a comment."""
    others = [line for line in advice.splitlines() if not line.startswith("--")]
    checks.that(all(map(STATEMENT.fullmatch, others)), f"neither a comment nor an index: {others}")
    return others


def server_cost(psql: Psql, schema: str, queries: list[str]) -> float:
    """What the server's own plans of queries cost in all."""
    told = psql("postgres", f"SET search_path = {schema};" + "".join(f"EXPLAIN (FORMAT JSON) {query};\n" for query in queries), "-t", "-A")
    return sum(plan[0]["Plan"]["Total Cost"] for plan in map(json.loads, told.replace("]\n[", "]\0[").split("\0")))


def check_schema(checks: Checks, psql: Psql, name: str) -> None:
    """One schema of bench/fitness/ with its twelve queries."""
    psql("postgres", (FITNESS / f"{name}.sql").read_text())
    psql("postgres", "VACUUM ANALYZE")
    file = FITNESS / f"{name}_queries.sql"
    queries = split_statements(file.read_text())
    before = server_cost(psql, name, queries)
    count = psql("postgres", "SELECT count(*) FROM pg_index")
    advice = called(checks, "advise.py", "postgres", str(file), "--schema", name)
    checks.that(psql("postgres", "SELECT count(*) FROM pg_index") == count, "an index was made")
    checks.that(advice.startswith("-- 12 of 12 queries are planned"), f"{name}: {advice[:60]}")
    made = statements_of(checks, advice)
    checks.that(1 <= len(made) <= 4, f"{name}: {len(made)} indexes")
    costs = [[float(cost) for cost in (found[4], found[5])] for found in map(COSTS.match, advice.splitlines()) if found]
    checks.that(len(costs) == 12 and sum(after for _, after in costs) < 0.7 * sum(cost for cost, _ in costs), f"{name}: {costs}")
    prices = [float(found[1]) for found in map(PRICE.match, called(checks, "price.py", "postgres", str(file), "--schema", name).splitlines()) if found]
    checks.that(len(prices) == 12 and min(prices) >= 1, f"{name}: prices {prices}")
    psql("postgres", "".join(made) + "ANALYZE;")
    after = server_cost(psql, name, queries)
    checks.that(after < 0.8 * before, f"{name}: by the server {before:.0f} before and {after:.0f} after {made}")


def check_ranges(checks: Checks, psql: Psql) -> None:
    """Rows of ranges of 1 % of a table or more, by pgplan and by the server."""
    schema = Schema(Server("postgres", "shop"))
    for condition in ["placed_at BETWEEN '2022-03-01' AND '2022-05-01'", "placed_at >= '2021-06-01' AND placed_at < '2021-06-15'",
                      "total > 100 AND total < 120", "id BETWEEN 100000 AND 150000", "user_id >= '10' || repeat('0', 30)"]:
        sql = f"SELECT id FROM orders WHERE {condition}".replace("'10' || repeat('0', 30)", f"'1{'0' * 31}' AND user_id <= '18{'0' * 30}'")
        query = read_query(sql, schema)
        plan = checks.run("".join(schema.tables[name].script() for name in query.tables()) + f"EXPLAIN {query.text()}")
        ours = int(re.search(r"rows=(\d+)", plan)[1])
        theirs = json.loads(psql("postgres", f"SET search_path = shop; EXPLAIN (FORMAT JSON) {sql}", "-t", "-A"))[0]["Plan"]["Plan Rows"]
        checks.that(0.5 < ours / theirs < 2, f"{ours} rows and not {theirs}: {sql}")


def check_statements(checks: Checks, psql: Psql) -> None:
    """Queries that ran, from pg_stat_statements. The cheaper one of two is called more often, and so gets its index."""
    checks.that("no extension" in called(checks, "advise.py", "postgres", "--statements", "5", "--schema", "shop", status=1), "no extension is there")
    psql("postgres", "CREATE EXTENSION pg_stat_statements SCHEMA public; SELECT pg_stat_statements_reset();")
    psql("postgres", "SELECT a.id, u.email FROM shop.addresses a JOIN shop.users u ON u.id = a.user_id WHERE a.city = 'City7' ORDER BY a.id LIMIT 5")
    psql("postgres", "SELECT count(*) FROM shop.products WHERE price BETWEEN 400 AND 401 AND attrs @> '{\"color\": 3}';" * 60)
    psql("postgres", "UPDATE shop.categories SET name = name")
    advice = called(checks, "advise.py", "postgres", "--statements", "5", "--schema", "shop", "--most", "1")
    made = statements_of(checks, advice)
    found = {found[3]: (found[2], float(found[4])) for found in map(COSTS.match, advice.splitlines()) if found}
    checks.that(advice.startswith("-- 2 of 2 queries") and found.keys() == {"1", "60"} and found["60"] < ("*", found["1"][1]), advice)
    checks.that(len(made) == 1 and "ON shop.products (price" in made[0], f"{made}")
    checks.that(re.search(r"-- query \d: \$1 = 'City\d+', \$2 = 10\n", advice) is not None and "left out: attrs @> $" in advice, advice)


def check_unneeded(checks: Checks, psql: Psql, folder: pathlib.Path) -> None:
    """Of indexes that are there, those that no query needs are named, but none of a constraint. What pgplan was asked is kept."""
    psql("postgres", UNNEEDED)
    file, kept = folder / "spare.sql", folder / "kept"
    file.write_text("SELECT * FROM t WHERE a = 5; SELECT id FROM t WHERE id = 7;")
    advice = called(checks, "advise.py", "postgres", str(file), "--schema", "spare", "--keep", str(kept))
    named = re.findall(r"^-- no query costs more without the index (\w+) on t \(\d+ kB\)$", advice, re.M)
    checks.that(named in (["t_twice", "t_unused"], ["t_unused", "t_used"], ["t_twice", "t_unused", "t_used"]), f"not needed: {named}")
    for name in ("tables.sql", "indexes.sql", "queries.sql"):
        checks.that((kept / name).exists(), f"no {name}")
    plans = checks.run("".join((kept / name).read_text() for name in ("tables.sql", "indexes.sql", "queries.sql")))
    checks.that(plans.count("cost=") >= 2, plans)


def check_hostile(checks: Checks, psql: Psql, folder: pathlib.Path) -> None:
    """Another user's objects beside queries of another user: nothing of theirs runs."""
    psql("postgres", HOSTILE)
    mark, file = folder / "mark", folder / "hostile.sql"
    file.write_text(HOSTILE_QUERIES % {"mark": mark, "escape": "\x1b"})
    advice = called(checks, "advise.py", "postgres", str(file), "--schema", "theirs")
    statements_of(checks, advice)
    checks.that(advice.startswith("-- 11 of 15 queries are planned") and advice.replace("\n", "").isprintable(), advice)
    prices = called(checks, "price.py", "postgres", str(file), "--schema", "theirs")
    checks.that(all(re.match(r"query | +\d+ (no price: |[ \d.]+  SELECT )", line) for line in prices.splitlines()), prices)
    psql("postgres", "SET search_path = theirs, public; SELECT pg_stat_statements_reset(); SELECT a FROM t WHERE a = evil() AND d > date '2024-01-01' - 1;")
    psql("postgres", "DELETE FROM theirs.heard")
    statements_of(checks, called(checks, "advise.py", "postgres", "--statements", "9", "--schema", "theirs"))
    heard = psql("postgres", "SELECT * FROM theirs.heard", "-t", "-A")
    checks.that(not heard.strip() and not mark.exists(), f"foreign code ran: {heard} {mark.exists()}")


def check_faults(checks: Checks, folder: pathlib.Path) -> None:
    """What is told of a server, a file or a schema that is not there, and of a file without a SELECT."""
    file = folder / "fault.sql"
    file.write_text("UPDATE t SET a = 1;")
    for words, told in [(("nowhere", str(file)), 'database "nowhere" does not exist'), (("postgres", "no_such_file", "--schema", "market"), "No such file"),
                        (("postgres", str(file), "--schema", "market"), "0 of 1 queries"), (("postgres", str(file), "--schema", "none"), "the schema none has no table"),
                        (("postgres", str(file), "--nothing"), "usage: ")]:
        status = 2 if told == "usage: " else 1
        checks.that(told in called(checks, "advise.py", *words, status=status), f"{words}: not told {told}")


def main() -> None:
    """Runs all checks on one server."""
    program = pathlib.Path(sys.argv[1]).resolve()
    os.environ["PGPLAN"] = str(program)
    checks = Checks(program)
    with server(newest(), "-c shared_preload_libraries=pg_stat_statements -c autovacuum=off") as psql, tempfile.TemporaryDirectory() as folder:
        check_queries(checks, psql)
        check_faults(checks, pathlib.Path(folder))
        check_unneeded(checks, psql, pathlib.Path(folder))
        for name in ("shop", "tpch"):
            check_schema(checks, psql, name)
        check_ranges(checks, psql)
        check_statements(checks, psql)
        check_hostile(checks, psql, pathlib.Path(folder))
    print(*checks.failures, sep="\n", end="\n" if checks.failures else "")
    print(f"advise: {checks.passed} passed, {len(checks.failures)} failed")
    sys.exit(bool(checks.failures))


if __name__ == "__main__":
    main()
