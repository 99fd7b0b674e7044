"""Queries of tools/check_advise.py: how each is written for pgplan, and what of it is left out."""
from __future__ import annotations

import re

from own_server import Checks, Psql
from server.psql import Left, Server
from server.queries import read_query
from server.schema import Schema

# Every value of a condition is in the tables.
SCHEMA = r"""
CREATE SCHEMA market;
SET search_path = market;
CREATE TYPE state AS ENUM ('new', 'paid', 'it''s sent', 'lost');
CREATE TABLE buyers (id int4 PRIMARY KEY, name varchar(40) NOT NULL, country char(2) NOT NULL, is_staff bool NOT NULL, at inet, notes jsonb,
    code uuid NOT NULL, "Rank" int4);
CREATE TABLE sales (id int8 PRIMARY KEY, buyer int4 NOT NULL REFERENCES buyers, state state NOT NULL, day date NOT NULL, stamp timestamptz NOT NULL,
    total numeric(8, 2) NOT NULL, weight float8, limits int4, note text);
CREATE TABLE lines (sale int8 NOT NULL REFERENCES sales, line int2 NOT NULL, article int4 NOT NULL, PRIMARY KEY (sale, line));
CREATE TABLE "Odd" (a int4);
CREATE VIEW open_sales AS SELECT * FROM sales WHERE state = 'new';
CREATE INDEX buyers_staff ON buyers (id) WHERE is_staff;
INSERT INTO buyers SELECT g, 'name ' || g % 10, chr(65 + g % 5) || 'X', g % 4 = 0, inet '10.0.0.0' + g % 8, '{}', md5((g % 10)::text)::uuid, g
    FROM generate_series(1, 200) g;
INSERT INTO sales SELECT g, 1 + g % 200, (enum_range(NULL::state))[1 + g % 4], date '2024-01-01' + g % 10,
    timestamptz '2024-01-01 00:00+00' + g % 10 * interval '1 day', g % 8 * 0.25, g, g % 7, CASE WHEN g % 3 > 0 THEN 'x\' || g % 5 END
    FROM generate_series(1, 2000) g;
INSERT INTO lines SELECT g, l, g % 9 FROM generate_series(1, 2000) g, generate_series(1, 3) l;
ANALYZE buyers; ANALYZE sales; ANALYZE lines;
"""

# A query, how pgplan gets it, and each thing that is left out; or the reason why the query is left out.
QUERIES = [
    ("SELECT id FROM sales", "SELECT sales.id FROM sales", []),
    ("select S.ID from market.Sales as S where s.TOTAL > 1.5 -- a comment\n", "SELECT s.id FROM sales s WHERE s.total > '1.50'", []),
    ("SELECT * FROM sales s, lines l WHERE l.sale = s.id AND 3 < s.id", "SELECT * FROM sales s, lines l WHERE l.sale = s.id AND s.id > 3", []),
    ("SELECT s.*, l.line FROM sales s JOIN lines l ON (l.sale = s.id) WHERE l.article IN (1, 2, 2)",
     "SELECT s.*, l.line FROM sales s, lines l WHERE l.sale = s.id AND l.article IN (1, 2)", []),
    ("SELECT id FROM sales WHERE day BETWEEN '2024-01-02' AND date '2024-01-02' + 2 AND state NOT IN ('new', 'it''s sent')",
     "SELECT sales.id FROM sales WHERE sales.day BETWEEN '2024-01-02' AND '2024-01-04' AND sales.state NOT IN (1, 3)", []),
    ("SELECT id FROM sales WHERE stamp >= '2024-01-03 00:00:00+00' AND stamp < timestamptz '2024-01-03 00:00+00' + interval '36 hours'",
     "SELECT sales.id FROM sales WHERE sales.stamp >= '2024-01-03 00:00:00+00'"
     " AND sales.stamp < '2024-01-04 12:00:00+00'", []),
    ("SELECT id FROM sales WHERE stamp = '2024-01-03 17:00'::date AND day IN ('2024-01-03', '2024-01-04 12:00'::timestamp::date)",
     "SELECT sales.id FROM sales WHERE sales.stamp = '2024-01-03 00:00:00+00' AND sales.day IN ('2024-01-03', '2024-01-04')", []),
    ("SELECT id FROM buyers WHERE country = 'BXY'::char(2) AND name = ('name 1')::text",
     "SELECT buyers.id FROM buyers WHERE buyers.country = 'BX' AND buyers.name = 'name 1'", []),
    ("SELECT id FROM sales WHERE state = 'paid'::market.state OR (state = $$lost$$ AND NOT day > '2024-01-05')",
     "SELECT sales.id FROM sales WHERE (sales.state = 2 OR (sales.state = 4 AND NOT (sales.day > '2024-01-05')))", []),
    ("SELECT id FROM sales WHERE state = ANY (ARRAY['new', 'paid']::market.state[]) AND buyer = ANY ('{3,4,5}'::int[]) AND limits <> ALL (ARRAY[1, 2])",
     "SELECT sales.id FROM sales WHERE sales.state IN (1, 2) AND sales.buyer IN (3, 4, 5) AND sales.limits NOT IN (1, 2)", []),
    ("SELECT id FROM sales WHERE date '2024-01-05' <= day AND day < DATE '2024-01-08' AND stamp < TIMESTAMP WITH TIME ZONE '2024-01-07 06:00:00+02'",
     "SELECT sales.id FROM sales WHERE sales.day >= '2024-01-05' AND sales.day < '2024-01-08' AND sales.stamp < '2024-01-07 04:00:00+00'", []),
    ("SELECT id FROM sales WHERE total IN (1, 0.5, '1.250') AND total BETWEEN -3 AND 2.0::numeric(8, 2) AND stamp >= '2024-01-02'",
     "SELECT sales.id FROM sales WHERE sales.total IN ('1.00', '0.50', '1.25') AND sales.total BETWEEN '-3.00' AND '2.00'"
     " AND sales.stamp >= '2024-01-02 00:00:00+00'", []),
    (r"SELECT id FROM sales WHERE note = 'x\1' OR note = E'x\\2' OR note IS NULL",
     r"SELECT sales.id FROM sales WHERE (sales.note = 'x\1' OR sales.note = 'x\2' OR sales.note IS NULL)", []),
    ("SELECT id FROM buyers WHERE name LIKE 'name 1%' AND country = 'BX' AND code = 'C4CA4238-A0B9-2382-0DCC-509A6F75849B'",
     "SELECT buyers.id FROM buyers WHERE buyers.name >= 'name 1' AND buyers.name < 'name 2' AND buyers.country = 'BX'"
     " AND buyers.code = 'c4ca4238-a0b9-2382-0dcc-509a6f75849b'", []),
    ("SELECT id FROM buyers WHERE is_staff AND at = '10.0.0.4/32'",
     "SELECT buyers.id FROM buyers WHERE buyers.is_staff AND buyers.at = '10.0.0.4'", []),
    ("SELECT id FROM buyers WHERE NOT is_staff OR is_staff IS NOT TRUE",
     "SELECT buyers.id FROM buyers WHERE (NOT (buyers.is_staff) OR (buyers.is_staff <> TRUE OR buyers.is_staff IS NULL))", []),
    ("SELECT b.name FROM buyers b JOIN sales s ON b.id = s.buyer JOIN lines USING (id)", None, "no column id of both sides"),
    ("SELECT l.line FROM lines l JOIN lines m USING (sale, line) WHERE m.article = 2 + 2 * 3",
     "SELECT l.line FROM lines l, lines m WHERE l.sale = m.sale AND l.line = m.line AND m.article = 8", []),
    ("SELECT s.id FROM sales s LEFT OUTER JOIN lines l ON l.sale = s.id AND l.line = 1 WHERE s.limits = 3",
     "SELECT s.id FROM sales s, lines l WHERE l.sale = s.id AND l.line = 1 AND s.limits = 3", ["LEFT JOIN is planned as an inner join"]),
    ("SELECT DISTINCT b.name FROM buyers b, sales s WHERE s.buyer = b.id", "SELECT b.name FROM buyers b, sales s WHERE s.buyer = b.id",
     ["of the grouping its input alone is planned"]),
    ("SELECT b.country, sum(s.total * 2) AS t FROM buyers b JOIN sales s ON s.buyer = b.id GROUP BY b.country HAVING count(*) > 1"
     " ORDER BY t LIMIT 5",
     "SELECT b.country, s.total FROM buyers b, sales s WHERE s.buyer = b.id",
     ["left out: HAVING count(*) > 1", "of the grouping its input alone is planned"]),
    ("SELECT id, buyer AS who FROM sales ORDER BY who DESC, day ASC NULLS FIRST, id NULLS LAST LIMIT 5 OFFSET 2",
     "SELECT sales.id, sales.buyer FROM sales ORDER BY sales.buyer DESC, sales.day NULLS FIRST, sales.id NULLS LAST LIMIT 5 OFFSET 2", []),
    ("SELECT id FROM sales ORDER BY total * 2 FETCH FIRST 3 ROWS ONLY", "SELECT sales.id FROM sales LIMIT 3", ["left out: ORDER BY total * 2"]),
    ("SELECT id FROM sales OFFSET 3 ROWS FETCH NEXT ROW ONLY", "SELECT sales.id FROM sales LIMIT 1 OFFSET 3", []),
    ("SELECT id, row_number() OVER (PARTITION BY buyer ORDER BY day) FROM sales", "SELECT sales.id, sales.buyer, sales.day FROM sales",
     ["of window functions the columns alone are read"]),
    ("SELECT id, total FROM sales ORDER BY 2", "SELECT sales.id, sales.total FROM sales", ["left out: ORDER BY 2"]),
    ("SELECT count(*) FROM sales WHERE limits > 3", "SELECT sales.limits FROM sales WHERE sales.limits > 3",
     ["of the grouping its input alone is planned"]),
    ("SELECT lower(name), coalesce(at, '10.0.0.0') FROM buyers b WHERE b.id = 5 FOR UPDATE", "SELECT b.name, b.at FROM buyers b WHERE b.id = 5", []),
    ("SELECT id FROM sales AS \"left\" WHERE \"left\".id = 4", "SELECT r0.id FROM sales r0 WHERE r0.id = 4", []),
    ("SELECT id FROM sales WHERE weight > 5 AND id = 7", "SELECT sales.id FROM sales WHERE sales.id = 7",
     ["left out: weight > 5 (the export has no values of type double precision)"]),
    ("SELECT id FROM buyers WHERE lower(name) = 'x' AND notes @> '{}' AND id < 9 AND at > '10.0.0.1'", "SELECT buyers.id FROM buyers WHERE buyers.id < 9",
     ["left out: lower(name) = 'x' (an expression over a column)", "left out: notes @> '{}' (no comparison that pgplan has)",
      "left out: at > '10.0.0.1' (inet has another order in pgplan)"]),
    ("SELECT id FROM sales WHERE total = 1.001 AND id::text = '5' AND id + 1 = 5 AND id = 3.5", "SELECT sales.id FROM sales",
     ["left out: total = 1.001 (1.001 is no value of total in pgplan)", "left out: id::text = '5' (an expression over a column)",
      "left out: id + 1 = 5 (an expression over a column)", "left out: id = 3.5 (3.5 is no value of id in pgplan)"]),
    ("SELECT id FROM sales WHERE day = stamp AND id > now()", "SELECT sales.id FROM sales",
     ["left out: day = stamp (date is compared with timestamp with time zone)",
      "left out: id > now() (the server says: cannot cast type timestamp with time zone to numeric)"]),
    ("SELECT id FROM sales WHERE CASE WHEN id > 3 AND id < 5 THEN true ELSE false END AND id = 8", "SELECT sales.id FROM sales WHERE sales.id = 8",
     ["left out: CASE WHEN id > 3 AND id < 5 THEN true ELSE false END (an expression over a column)"]),
    ("SELECT id FROM sales WHERE id IN (SELECT sale FROM lines)", None, "id IN (SELECT sale FROM lines) (a subquery)"),
    ("SELECT id FROM sales s WHERE NOT EXISTS (SELECT 1 FROM lines)", None, "NOT EXISTS (SELECT 1 FROM lines) (a subquery)"),
    ("SELECT (SELECT 1) FROM sales", None, "a subquery in the select list"),
    ("SELECT 1 FROM (SELECT 1) s", None, "a subquery or parentheses in FROM"),
    ("SELECT 1 FROM generate_series(1, 2)", None, "a function in FROM"),
    ("SELECT id FROM sales UNION SELECT id FROM buyers", None, "UNION"),
    ("SELECT id FROM sales NATURAL JOIN lines", None, "NATURAL JOIN"),
    ("SELECT id FROM sales s, buyers s", None, "two relations are named s"),
    ("SELECT id FROM sales, buyers", None, "id is ambiguous"),
    ("SELECT s.nothing FROM sales s WHERE s.nothing = 1", "SELECT s.id FROM sales s", ["left out: s.nothing = 1 (no column s.nothing)"]),
    ("SELECT \"Rank\" FROM buyers", None, "the export has no column buyers.Rank"),
    ("SELECT a FROM \"Odd\"", None, "the export has no table Odd"),
    ("SELECT id FROM open_sales", None, "the export has no table open_sales"),
    ("SELECT id FROM public.sales", None, "public.sales is of another schema"),
    ("WITH s AS (SELECT 1) SELECT * FROM s", None, "no SELECT but 'WITH s AS (SELECT 1)'"),
    ("UPDATE sales SET total = 1", None, "no SELECT but 'UPDATE sales SET tot'"),
    ("SELECT 1", None, "no FROM"),
]

# Queries with parameters: how pgplan gets each, and what stands for the parameters.
PARAMETERS = [
    ("SELECT id FROM sales WHERE buyer = $1 AND day > now() - interval $2 LIMIT $3 OFFSET $4",
     r"SELECT sales\.id FROM sales WHERE sales\.buyer = \d+ AND sales\.day > '\d{4}-\d\d-\d\d' LIMIT 10",
     ["$1 = ", "now() - interval $2 = ", "$3 = 10", "$4 = 0"]),
    ("SELECT id FROM sales WHERE state IN ($1, $2, $3)", r"SELECT sales\.id FROM sales WHERE sales\.state IN \(\d, \d, \d\)",
     ["$1 = ", "$2 = ", "$3 = "]),
    ("SELECT id FROM buyers WHERE code = ANY ($1) AND name = $2",
     r"SELECT buyers\.id FROM buyers WHERE buyers\.code IN \('[-0-9a-f]{36}'\) AND buyers\.name = 'name \d'", ["$1 = ", "$2 = "]),
]


def counted(psql: Psql, sql: str) -> str:
    """How many rows a query returns."""
    return psql("postgres", f"SET search_path = market; SELECT count(*) FROM ({sql}\n) q", "-t", "-A").strip()


def check_query(checks: Checks, psql: Psql, schema: Schema, case: tuple) -> None:
    """One query. If nothing of it is left out, the server returns as many rows for what is read of it."""
    sql, ours, left = case
    try:
        query = read_query(sql, schema)
    except Left as fault:
        checks.that(ours is None and str(fault) == left, f"{sql} is left out: {fault}")
        return
    checks.that(query.text() == ours, f"{sql} is read as {query.text()}")
    checks.that(query.dropped == left, f"{sql} is read without {query.dropped}")
    script = "".join(table.script() for table in schema.tables.values())
    checks.that("cost=" in checks.run(f"{script}EXPLAIN {query.text()};"), f"no plan: {query.text()}")
    if not left:
        here, there = counted(psql, query.text("theirs")), counted(psql, sql.replace("FOR UPDATE", ""))
        checks.that(here == there != "0", f"{here} rows and not {there}: {sql}")


def check_queries(checks: Checks, psql: Psql) -> None:
    """How queries are read, and that values stand for parameters."""
    psql("postgres", SCHEMA)
    schema = Schema(Server("postgres", "market"))
    for case in QUERIES:
        check_query(checks, psql, schema, case)
    for sql, ours, given in PARAMETERS:
        query = read_query(sql, schema)
        checks.that(bool(re.fullmatch(ours, query.text())), f"{sql} is read as {query.text()}")
        checks.that(len(query.given) == len(given) and all(map(str.startswith, query.given, given)), f"{sql} has {query.given}")
