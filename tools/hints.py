#!/usr/bin/env python3
"""What to write in place of what PostgreSQL has: the table of docs/FROM-POSTGRES.md, and the hints behind a fault.

usage: tools/hints.py --page     writes the table into the page
       tools/hints.py --check    fails if the table on the page is another

A row has what PostgreSQL has, what to write, and the places of a fault by which it is known. A place is a regular expression over the
statement's words in small letters, with a blank between any two, a quoted text as 'x', and a bar before the word in error: `limit ¦ all`
is a fault at ALL. The first row that fits gives the hint.
"""
from __future__ import annotations

import pathlib
import re
import sys
from typing import NamedTuple, Optional

PAGE = pathlib.Path(__file__).resolve().parent.parent / "docs" / "FROM-POSTGRES.md"
HEAD = "| PostgreSQL | pgplan |\n|---|---|\n"
# What stands before a column's type.
TYPED = r"create table .*"
# What stands before FROM.
LISTED = r"^(explain )?select (?:(?!\bfrom\b)[^¦])*"
# A literal.
LITERAL = r"(- )?(\d\w*|'x'|true|false|null)"
SUBQUERY = "put their tables and conditions into one FROM and WHERE"
RESULT = "use a column that holds the result"
WHOLE = "`numeric(18, 6)`, or `int8` in the smallest unit that you need"
RESERVED = "and as asc create cross desc false from group inner is join limit not null offset on or order select table true using where with"
BEGINS = "advise analyze check copy create explain select statistics use"


class Row(NamedTuple):
    """What PostgreSQL has, what to write instead, the places by which a fault is known, and the codes of the faults that it is for."""

    has: str
    write: str
    places: tuple[str, ...] = ()
    codes: tuple[str, ...] = ("42601",)


NAMES = ("42601", "42704", "42883")

# The table of the page. What stands higher is tried first.
POSTGRES = [
    Row("`BETWEEN SYMMETRIC 5 AND 1`", "`BETWEEN 1 AND 5`, with the lower bound first", (r"\bbetween a?symmetric ¦",)),
    Row("`a NOT IN (SELECT ..)`, `NOT EXISTS (SELECT ..)`", "leave the condition out: there are no subqueries and no outer joins",
        (r"\bnot in \( ¦ select", r"\bnot exists ¦ \(")),
    Row("`a IN (SELECT ..)`, `EXISTS (SELECT ..)`, `a = (SELECT ..)`", "use a join, which returns a row for each match",
        (r"\bexists ¦ \(", r"[<=>] (any |all )?¦ \( select", r"\bselect .* \( ¦ select")),
    Row("`a = ANY ('{1,2}')`", "`a IN (1, 2)`", (r"[<=>] (any|all|some) ¦ \(",)),
    Row("`(a, d) = (1, 2)`", "`a = 1 AND d = 2`", (r"\( (\w+ \. )?\w+ ¦ , [^()]*\) =",)),
    Row("`(a, d) < (1, 2)`", "`(a < 1 OR a = 1 AND d < 2)`", (r"\( (\w+ \. )?\w+ ¦ , [^()]*\) [<>]",)),
    Row("`(a, d) IN ((1, 2), (3, 4))`", "`(a = 1 AND d = 2 OR a = 3 AND d = 4)`", (r"\( (\w+ \. )?\w+ ¦ , [^()]*\) (not )?in\b",)),
    Row("`timestamp with time zone '2020-01-01'`", "`timestamptz '2020-01-01'`, with one word", (r"\bwhere .*\btimestamp ¦ (with|without|\()",)),
    Row("`interval '1 day'`, `time '12:00'`", "write a date or a timestamp: there are no intervals and no times alone", (r"¦ (interval|time|timetz) 'x'",), ("42601", "42704")),
    Row("`numeric '5'`", "`'5'`: a quoted literal takes the type of the other operand", (r"¦ (numeric|decimal|dec|float\d?|real|char|character|bpchar) 'x'",), ("42601", "42704")),
    Row("`HISTOGRAM (date '2020-01-01', ..)`, `IN (date '2020-01-01')`", "`'2020-01-01'`: there a quoted literal takes the column's type",
        (r"¦ (date|timestamp|timestamptz|uuid|varchar|text|bool|boolean|int\w*) 'x'",)),
    Row("`a IN (b, 1)`, `1 IN (a, b)`", "`a IN (1, 2)`, or `(a = b OR a = 1)`: IN takes a column and literals",
        (r"\bin \( ([^()]* , )?¦ (?!\w+ \()[a-z_(]", rf"{LITERAL} ¦ in \(", rf"{LITERAL} not ¦ in \(", r"\) (not )?¦ in \(")),
    Row("`(a > 1) IS TRUE`, `a IN (1, 2) = c`", "combine conditions by AND, OR and NOT: a condition is no operand",
        (r"\) ¦ (is|not|[<=>!])", rf"\bbetween {LITERAL} and {LITERAL} ¦ (is|[<=>!])",
         r"([<=>] |\bbetween \S+ and )(\w+ \. )?\S+ (not )?¦ (in|between)\b")),
    Row("`b LIKE 'x%'`", "`b >= 'x' AND b < 'y'`: no other pattern can be written", (r"¦ (not )?(like|ilike|similar)\b", r"¦ !?~")),
    Row("`c IS TRUE`", "`c`", (r"\bis ¦ true\b",)),
    Row("`c IS FALSE`", "`NOT c`", (r"\bis ¦ false\b",)),
    Row("`c IS NOT TRUE`", "`(NOT c OR c IS NULL)`", (r"\bis not ¦ true\b",)),
    Row("`c IS NOT FALSE`", "`(c OR c IS NULL)`", (r"\bis not ¦ false\b",)),
    Row("`a IS DISTINCT FROM 5`", "`(a <> 5 OR a IS NULL)`", (r"\bis ¦ distinct\b",)),
    Row("`a IS NOT DISTINCT FROM 5`", "`a = 5`", (r"\bis not ¦ distinct\b",)),
    Row("`'5'::int4`, `CAST ('5' AS int4)`", "`'5'`: a quoted literal takes the type of the other operand", (r"¦ : ?:", r"\bcast ¦ \(")),
    Row("`1.5`", "`'1.5'`, in quotes, beside a numeric", (r"\d ¦ \. \d", r"[<=>(,] ¦ \. \d")),
    Row("`$1`, `?`, `:name`", "put a value in its place", (r"¦ \$ ?\d", r"¦ \?", r"¦ : ?\w")),
    Row("`E'a\\n'`, `$$a$$`", "`'a'`, with the line break itself and `''` for a quote", (r"¦ [bnex] 'x'", r"\b[bnex] ¦ 'x'", r"¦ \$ ?\$"), ("42601", "42704")),
    Row("`sum(a)`, `avg(a)`", "`count(a)`, `min(a)` or `max(a)`: there are no other functions", (r"¦ (?!(?:in|distinct)\b|(?:min|max) \( \w)\w+ \(",), ("42883",)),
    Row("`count(DISTINCT a)`", "`SELECT DISTINCT a .. WHERE a IS NOT NULL`, which prints the number of rows last", (r"\b\w+ \( ((distinct|all) ¦|¦ (distinct|all)\b)",)),
    Row("`SELECT DISTINCT ON (a)`", "`GROUP BY a`, with `min` or `max` of the other columns", (r"\bselect distinct ¦ on\b",)),
    Row("`SELECT DISTINCT (a)`", "`SELECT DISTINCT a`", (r"\bselect ¦ distinct \(",), ("42883",)),
    Row("`SELECT DISTINCT a, count(*)`", "`SELECT a, count(*) .. GROUP BY a`", (r"\bselect distinct [^¦]*\b(count|min|max|sum|avg) ¦ \(",)),
    Row("`SELECT DISTINCT a .. GROUP BY a, b`", "`SELECT DISTINCT a` without GROUP BY", (r"\bselect distinct [^¦]* ¦ group\b",)),
    Row("`SELECT ALL a`", "`SELECT a`", (r"\bselect all ¦",)),
    Row("`SELECT DISTINCT a .. LIMIT 10`, `GROUP BY a LIMIT 10`", "leave LIMIT and OFFSET out: all groups are printed",
        (r"^(explain )?select (distinct\b|.*\bgroup by\b|.*\b(count|min|max) \().* ¦ (limit|offset|fetch)\b",)),
    Row("`count(*) OVER ()`, `FILTER`", "leave it out: there are no window functions and no filters", (r"\) ¦ (over|filter|within)\b",)),
    Row("`HAVING`", "leave it out: all groups are printed", (r"¦ having\b",)),
    Row("`UNION`, `INTERSECT`, `EXCEPT`", "write a SELECT for each side", (r"\b(union|intersect|except)( all| distinct)? ¦", r"¦ (union|intersect|except)\b")),
    Row("`ORDER BY 1`, `GROUP BY 1`", "use the column's name", (r"\b(order|group) by (.* , )?¦ \d",)),
    Row("`ORDER BY count(*)`", "order by GROUP BY columns only", (r"\border by [^;]*\w ¦ \(",)),
    Row("`LIMIT ALL`", "leave it out", (r"\blimit ¦ all\b",)),
    Row("`OFFSET 5 LIMIT 10`, `OFFSET 5 ROWS`, `FETCH FIRST 10 ROWS ONLY`", "`LIMIT 10 OFFSET 5`, in this order",
        (r"\boffset \d+ ¦ (limit|rows?|fetch)\b", r"\bfetch ¦ (first|next)\b", r"¦ fetch (first|next)\b")),
    Row("`FOR UPDATE`, `TABLESAMPLE`", "leave it out",
        (r"\bfor ¦ (update|share|no|key)\b", r"¦ for (update|share|no|key)\b", r"tablesample ¦", r"¦ tablesample")),
    Row("`LEFT JOIN` and other outer joins", "`JOIN`, which drops rows without a match: there are no outer joins",
        (r"¦ (natural )?(left|right|full|outer)( outer)? join\b",)),
    Row("`JOIN u USING (a)`, `NATURAL JOIN u`", "`JOIN u ON t.a = u.a`", (r"\bjoin .*¦ using\b", r"¦ natural (inner )?join\b")),
    Row("`FROM (SELECT ..) s`, `WITH s AS (..)`, `LATERAL`", SUBQUERY,
        (r"^¦ with\b", r"(\bfrom|\bjoin|,) ¦ \( select", r"(\bfrom|\bjoin|,) lateral ¦", r"\bexplain ¦ with\b")),
    Row("`FROM (a JOIN b ON ..)`", "leave the parentheses out: joins are taken from left to right", (r"\b(from|join) ([^;]* , )?¦ \(",)),
    Row("`SELECT a AS x`, `SELECT a x`", "`SELECT a`: columns have no aliases", (LISTED + r"[\w*)](?<!, distinct) ¦ (as\b|\w+ (,|from\b))",)),
    Row("`SELECT 1`, `SELECT 'x'`", "select a column of a table", (r"\bselect (.* , )?¦ (\d|'x'|true|false|null|-)",)),
    Row("`a + 1 > 5`, `a || b = 'x'`", "`a > 4`, or use a column that holds the result", (r"[\w)'] ¦ ([-+*/%^&|]|\|\|)",)),
    Row("`CASE WHEN ..`", RESULT, (r"\bcase ¦", r"¦ case\b")),
    Row("`PRIMARY KEY`", "`a int4 NOT NULL` and `CREATE INDEX t_a ON t (a)`", (r"¦ primary\b", r"\bprimary key \( ¦")),
    Row("`UNIQUE`, `CREATE UNIQUE INDEX`", "`CREATE INDEX`, and `STATISTICS t.a DISTINCT ..` with the number of rows",
        (r"¦ unique\b", r"\bunique (nulls )?¦")),
    Row("`REFERENCES`, `CHECK`, `DEFAULT`, `GENERATED`, `COLLATE`", "leave it out: plans do not depend on it",
        (r"¦ (references|check|default|generated|collate|constraint|exclude|on (delete|update))\b",
         TYPED + r"(\(|,) (check|exclude|constraint \w+) ¦", TYPED + r"(\(|,) foreign key \( ¦", TYPED + r"(\(|,) constraint \w+ (check|foreign) ¦")),
    Row("`serial`, `bigserial`", "`int4` or `int8`", (TYPED + r"¦ (small|big)?serial",), NAMES),
    Row("`numeric`, `numeric(20, 2)`", "`numeric(18, 2)`, with 1 to 18 digits, and how many of them stand behind the point",
        (TYPED + r"¦ (numeric|decimal)\b", TYPED + r"\b(numeric|decimal) \( (\d+ , )?¦"), ("42601", "42704", "22023")),
    Row("`timestamp(3)`, `timestamptz(0)`", "`timestamp` or `timestamptz`: they have microseconds", (TYPED + r"\btimestamp(tz)? \( ¦ \d",), ("22023",)),
    Row("`real`, `double precision`, `money`, `time`, `interval`", WHOLE,
        (TYPED + r"\b(dec|time|timetz|interval|float) ¦ \(", TYPED + r"\b(double ¦ precision|time ¦ with)",
         TYPED + r"¦ (dec|time|timetz|real|double|float\d?|money|interval)\b"), NAMES),
    Row("`json`, `bytea`, arrays", "leave the column out: there are no such types",
        (TYPED + r"¦ (jsonb?|bytea|xml|tsvector|tsquery|point|polygon|int\drange|hstore)\b", TYPED + r"¦ \[", TYPED + r"\barray ¦"), NAMES),
    Row("`varchar(0)`", "`varchar`, or with a number from 1 to 10485760, which limits nothing",
        (TYPED + r"\b(varchar|varying) \( ¦ \d",), ("22023",)),
    Row("`int4(4)`, `date(6)`", "leave the number out: this type takes none", (TYPED + r"\( ¦ \d",), ("22023",)),
    Row("`char(20)`, enums", "`text`", (TYPED + r"\b(char|bpchar|nchar|bit|citext) ¦ \(", TYPED + r"¦ \w"), ("42704",)),
    Row("`CREATE TABLE IF NOT EXISTS`, `CREATE TEMP TABLE`", "`CREATE TABLE t (..)`",
        (r"\bcreate table if ¦", r"\bcreate ¦ (temp|temporary|unlogged|local|global)\b")),
    Row("`CREATE TABLE t AS`, `PARTITION BY`, `INHERITS`", "`CREATE TABLE t (..)` with its columns",
        (r"\bcreate table \w+ (\(.*\) )?¦ (as|partition|inherits|with|like|of|using)\b", r"\bcreate table .*partition ¦", r"\( like ¦")),
    Row("`CREATE INDEX ON t (a)`, `IF NOT EXISTS`, `CONCURRENTLY`", "`CREATE INDEX t_a ON t (a)`, with a name",
        (r"\bcreate index ¦ on\b", r"\bcreate index (if|concurrently) ¦")),
    Row("`CREATE INDEX` on an expression", "index columns only", (r"\bcreate index .* \( (.* , )?¦ \(", r"\bcreate index [^()]* \( (.* , )?\w+ ¦ \(")),
    Row("`USING gin`, `gist`, `brin`", "`btree` or `hash`: there are no other methods", (r"\busing ¦ (gin|gist|brin|sp|spgist|bloom|ivfflat|hnsw)\b",), ("42704",)),
    Row("`WITH (fillfactor = 90)`, `TABLESPACE x`", "leave it out", (r"\bcreate (index|table) .*¦ (with|tablespace)\b",)),
    Row("`CREATE VIEW`", "put its tables and conditions into the query", (r"\bcreate ¦ (or|view|materialized|recursive)\b",)),
    Row("`CREATE TYPE`, `SCHEMA`, `EXTENSION`, ..", "leave it out",
        (r"^create ¦ (type|schema|extension|sequence|function|procedure|trigger|domain|role|user|database|policy|rule|aggregate|statistics|foreign|server|publication)\b",)),
    Row("`public.users`", "use the table's name without a schema", (r"(\b(from|join|table|on|copy|into|analyze)|,) (.* , )?\w+ ¦ \.", r"\b\w+ \. \w+ ¦ \.")),
    Row("`\"Users\"`, `\"a text\"`", "`users`, `'a text'`: names are not quoted, and texts take single quotes", (r'¦ "',)),
    Row("`INSERT`, `COPY t FROM STDIN`, `\\copy`", "`COPY t FROM STDIN WITH (FORMAT CSV, NULL '\\N');`, then the data and a line `\\.`",
        (r"^¦ insert\b", r"^copy .*¦", r"^¦ \\ ?copy\b"), ("42601", "22023")),
    Row("`EXPLAIN ANALYZE SELECT ..`", "`SELECT ..`, which prints the plan and the rows", (r"^explain (\( (.* , )?)?¦ analy[sz]e\b",)),
    Row("`EXPLAIN VERBOSE`, `EXPLAIN (FORMAT JSON)`", "`EXPLAIN SELECT ..`",
        (r"^explain (\( )?¦ (verbose|format|costs|buffers|settings|timing|summary|generic_plan|wal)\b", r"^explain \( ((?!table \)).*)?¦", r"^explain \( table ¦")),
    Row("`EXPLAIN` of another statement than SELECT", "`EXPLAIN SELECT ..`", (r"^explain ¦ (insert|update|delete|merge|create|execute|values|table)\b",)),
    Row("`ANALYZE`, `ANALYZE t (a)`, `VACUUM`",
        "`ANALYZE t`, which reads every row; or `STATISTICS t ROWS .. PAGES ..` and `STATISTICS t.a DISTINCT .. NULLS ..` without data",
        (r"^analyze( \w+)? ¦", r"^¦ vacuum\b")),
    Row("`UPDATE`, `DELETE`, `DROP`, `ALTER`", "write another script: a script only adds to its tables", (r"^¦ (update|delete|drop|alter|truncate|merge|rename|reindex|cluster)\b",)),
    Row("`SET`, `SHOW`, `BEGIN`, `COMMIT`, `GRANT`, ..", "leave it out",
        (r"^¦ (set|reset|show|begin|start|commit|end|rollback|savepoint|release|abort|grant|revoke|comment|do|call|declare|lock|listen|notify|prepare|execute|deallocate"
         r"|discard|refresh|checkpoint|security|load)\b",)),
    Row("`TABLE t`, `VALUES (1)`", "`SELECT * FROM t`", (r"^¦ (table|values)\b",)),
    Row("`\\d`, `\\timing` of psql", "run `./pgplan` without arguments: its shell has `\\d`", (r"^¦ (\\|help|quit|exit)",)),
    Row("`now()`, `coalesce(a, 0)`, `lower(b) = 'x'`", "use a column that holds the result: there are no functions",
        (r"\b(?!(?:count|min|max|advise|between|and)\b)\w+ ¦ \(", r"\bin \( ([^()]* , )?¦ \w+ \(", r"\b(?!in\b)\w+ \( ¦ \)")),
    Row("`b = 5` for a text `b`, `a = b` for different types", "`b = '5'`, or compare columns of the same kind", (r"¦ ([|<=>!]|in\b|between\b)",), ("42883",)),
    Row("`SELECT a, count(*)` without GROUP BY", "`GROUP BY a`, with every column that is shown or ordered by", (r"^(explain )?select (?!distinct\b).*¦",), ("42803",)),
    Row("HypoPG's `hypopg_create_index`", "`CREATE INDEX` in a script without data"),
    Row("the suggestions of dexter and other advisers", "`tools/advise.py` for the queries of a server, `ADVISE k (candidates) (query) ..` in a script"),
]

# Slips that are none of PostgreSQL's. They stand on no page.
SLIPS = [
    Row("a byte order mark", "save the script without a byte order mark", (r"¦ \ufeff",)),
    Row("a blank that is none", "write a plain space: this is another character", (r"¦ [\u00a0\u2000-\u200b\u202f\u3000]",)),
    Row("curved quotes", "write straight single quotes, 'x'", (r"¦ [\u2018-\u201f\u00ab\u00bb`´]",)),
    Row("another letter", "names have the letters a to z, digits, _ and $", (r"¦ [^\x00-\x7f]",)),
    Row("`#`", "a comment begins with --", (r"¦ #",)),
    Row("`==`", "write =", (r"= ¦ =",)),
    Row("a quote that is not closed", "close the quote; a quote in a text is written twice", (r"¦ '(?!x')",)),
    Row("a comma too many", "leave the comma out", (r", ¦ (\)|from\b|where\b|;)",)),
    Row("a candidate with its first words", "a candidate is the text behind CREATE INDEX: ADVISE 3 (t_a ON t (a)) (SELECT ..)", (r"^advise \d+ \( (.* , )?¦ create\b",)),
    Row("a query without parentheses", "put each query in parentheses, without a ;", (r"^advise .*\) ¦ (select|explain)\b", r"^advise .*¦ ;")),
    Row("a query that groups", "ADVISE, CHECK, USE PLAN and EXPLAIN (TABLE) take no DISTINCT, GROUP BY, count, min or max",
        (r"^(advise|check|use|explain \( table) .*\b(count|min|max) ¦ \(", r"^(advise|check|use|explain \( table) .*¦ group\b",
         r"^(advise|check|use|explain \( table) .*\bselect distinct ¦")),
    Row("ADVISE otherwise", "write ADVISE 3 (t_a ON t (a), ..) (SELECT ..) ..", (r"^advise ",)),
    Row("STATISTICS of a table", "write STATISTICS t ROWS 1000 PAGES 10", (r"^statistics \w+ (rows .*)?¦",)),
    Row("STATISTICS of a column", "write STATISTICS t.a DISTINCT 50 NULLS 0, then COMMON (value share, ..) and HISTOGRAM (value, ..) if known",
        (r"^statistics \w+ \. .*¦",)),
    Row("a join without ON", "write JOIN u ON t.a = u.a, or CROSS JOIN u", (r"\bjoin \w+( (as )?\w+)? ¦ (;|\)|where|order|group|limit|join|inner|cross|,)",)),
    Row("a word of outer joins as an alias", "write AS before this alias: full, left, natural, outer and right need it", (r"¦ (left|right|full|natural|outer)\b",)),
    Row("DISTINCT without columns", "name the columns behind DISTINCT", (r"\bselect ¦ distinct from\b",), ("42703",)),
    Row("DISTINCT behind a column", "write DISTINCT right behind SELECT", (r", distinct ¦",)),
    Row("ORDER BY of a column that DISTINCT does not show", "order by columns that are shown: SELECT DISTINCT a, b .. ORDER BY b", (r"\bselect distinct .*¦",), ("42803",)),
    Row("a value in parentheses", "leave the parentheses around the value out", (r"([<=>]|\bbetween|\bbetween \S+ and) ¦ \(",)),
    Row("BETWEEN without AND", "write a BETWEEN 1 AND 5", (r"\bbetween ((?!\band\b)[^¦])*¦", r"\bbetween \S+ and ¦")),
    Row("IN without a list", "write IN (1, 2), with one literal at least", (r"\bin ¦ [^(]", r"\bin \( ¦ \)")),
    Row("a list that is not closed", "close the list with )", (r"\bin \( [^()]* ¦ (?![,)])",)),
    Row("NOT before an operator", "write a <> 1, or NOT a = 1", (r"\w not ¦ [<=>!]",)),
    Row("no condition", "write a condition here", (r"\b(where|on|and|or|not) ¦ (;|\)|order\b|group\b|limit\b|$)",)),
    Row("GROUP or ORDER without BY", "write GROUP BY or ORDER BY", (r"\b(group|order) ¦",)),
    Row("no FROM", "name a table: SELECT a FROM t", (LISTED + r"¦ (;|where|order|group|limit|$)",)),
    Row("no `;`", "a ; ends each statement: is one missing before this word?",
        (r"\w .*¦ (select|explain|create|copy|statistics|advise|analyze|check)\b", rf"\b({BEGINS.replace(' ', '|')}) ¦ (select|table|index|\w+ (from|rows|on)\b)")),
    Row("a reserved word", f"choose another name; these words are reserved: {RESERVED}", (rf"[\w(,] ¦ ({RESERVED.replace(' ', '|')})\b",)),
    Row("another word behind IS", "write IS NULL or IS NOT NULL; a value is compared by = or <>", (r"\bis (not )?¦",)),
    Row("a number outside its type", "int2 goes to 32767, int4 to 2147483647, int8 to 9223372036854775807, numeric(p, s) to p digits, s of them behind the point", (r"¦ (- )?\d", r"^copy .*; ¦"), ("22003",)),
    Row("a text out of range", "days exist, from 0001-01-01 to 9999-12-31, hours go to 23; a number has the digits of its type", (r"¦",), ("22003",)),
    Row("min or max of a bool or a uuid", "order by the column, with LIMIT 1: min and max take neither bool nor uuid", (r"¦ (min|max) \( \w",), ("42883",)),
    Row("one alias twice", "give one of the two another alias: FROM t a JOIN t b ON ..", (r"¦",), ("42712",)),
    Row("one name twice", "choose another name: tables and indexes share their names", (r"¦",), ("42P07",)),
    Row("one column twice", "leave one of the two out", (r"¦",), ("42701",)),
    Row("a field that is no value", "write a value of the column's type, or \\N for NULL", (r"^copy .*; ¦",), ("22P02",)),
    Row("fields too many or too few", "write as many fields as the table has columns, with commas between them", (r"^copy .*; ¦",), ("22P04",)),
    Row("a NULL that is not allowed", "write a value in place of \\N: the column is NOT NULL", (r"^copy .*; ¦",), ("23502",)),
    Row("a value of another type", "a column alone is a condition only if it is bool; a value of STATISTICS has its column's type", (r"¦",), ("42804",)),
    Row("a number of STATISTICS or ADVISE", "ROWS, PAGES and DISTINCT are 1 to 1000000000, shares parts per million, bounds rise; ADVISE takes at most 10",
        (r"^(statistics|advise) .*¦",), ("22023",)),
    Row("a hash index", "a hash index has one key and no INCLUDE, DESC or NULLS FIRST", (r"\busing ¦ hash\b",), ("22023",)),
    Row("plans that are too dear", "every plan costs 10^18 or more: give smaller sizes, or an index", (r"¦",), ("54001",)),
    Row("a literal of another type", "write a value of the column's type: digits, true or false, 2024-02-29 for a date, 2024-02-29 13:05:00 for a timestamp", (r"¦ (\w+ )?'",), ("22P02",)),
    Row("a word before a text", "date, timestamp, timestamptz, uuid, varchar, text, bool, int2, int4 and int8 may stand before a text", (r"¦ \w+ 'x'",), ("42704",)),
    Row("an operator class", "there are int2_ops, int4_ops, int8_ops, numeric_ops, text_ops, bool_ops, uuid_ops, date_ops, timestamp_ops, timestamptz_ops, and int2_abs_ops, int4_abs_ops, int8_abs_ops; methods are btree and hash",
        (r"^(create index|advise) .*¦",), ("42704",)),
    # If nothing else is known, the form of the statement.
    Row("CREATE", "write CREATE TABLE t (a int4 NOT NULL, b text) or CREATE INDEX t_a ON t (a)", (r"^create ¦",)),
    Row("CREATE TABLE", "write CREATE TABLE t (a int4 NOT NULL, b text); types are int2, int4, int8, numeric(10, 2), text, varchar, bool, uuid, date, timestamp and timestamptz", (r"^create table ",)),
    Row("CREATE INDEX", "write CREATE INDEX t_a ON t USING btree (a DESC NULLS LAST) INCLUDE (b) WHERE c; only ON t (a) is required", (r"^create index ",)),
    Row("SELECT", "write SELECT a FROM t JOIN u ON t.a = u.a WHERE .. GROUP BY a ORDER BY a DESC NULLS LAST LIMIT 10 OFFSET 5, in this order",
        (r"^(explain )?(\( table \) )?select ", r"^explain ")),
    Row("CHECK, USE PLAN", "write CHECK SELECT .. or USE PLAN SELECT .., then the lines to be checked or run and one that is exactly \\.", (r"^(check|use) ",)),
]

# What a fault `limit WORD` names.
LIMITS = {
    "name": "a name has at most 63 bytes",
    "text": "a quoted text has at most 8,192 bytes",
    "depth": "parentheses and NOT nest to at most 32 levels",
    "columns": "a table or an index has at most 32 columns",
    "relations": "a query has at most 10 relations",
    "tables": "a script makes at most 64 tables",
    "indexes": "a table has at most 8 indexes, with the candidates of ADVISE",
    "candidates": "ADVISE takes at most 10 candidates",
    "queries": "ADVISE takes at most 16 queries",
    "conjuncts": "a query has at most 32 conditions joined by AND; NOT IN counts as one for each literal, BETWEEN as two",
    "atoms": "a query has at most 256 comparisons, null tests and boolean columns; IN counts as one for each literal, BETWEEN as two",
    "rows": "a table has at most 100,000 rows",
}


def plain(cell: str) -> str:
    """A cell of the table without its backquotes."""
    return cell.replace("`", "")


def hint_of(row: Row) -> str:
    """The hint of a row: its right side, behind the word `write` if it begins with what to write."""
    return ("write " if row.write.startswith("`") else "") + plain(row.write)


def row_at(place: str, code: str) -> Optional[Row]:
    """The first row that fits a fault of this code at a place."""
    return next((row for row in POSTGRES + SLIPS if code in row.codes and any(re.search(form, place, re.S) for form in row.places)), None)


def table() -> str:
    """The table of the page."""
    return HEAD + "".join(f"| {row.has.replace('|', chr(92) + '|')} | {row.write.replace('|', chr(92) + '|')} |\n" for row in POSTGRES)


def page_with_table() -> tuple[str, str]:
    """The page, and the page as it has to be."""
    page = PAGE.read_text()
    before, head, rest = page.partition(HEAD)
    if not head:
        sys.exit(f"{PAGE.name} has no line {HEAD.splitlines()[0]}")
    rows = re.match(r"(?:\|.*\n)*", rest)[0]
    return page, before + table() + rest[len(rows):]


def main() -> None:
    """Runs the command line."""
    page, wanted = page_with_table()
    if sys.argv[1:] == ["--page"]:
        PAGE.write_text(wanted)
    elif sys.argv[1:] == ["--check"]:
        if page != wanted:
            sys.exit("docs/FROM-POSTGRES.md has another table: run tools/hints.py --page")
    else:
        sys.exit(__doc__)


if __name__ == "__main__":
    main()
