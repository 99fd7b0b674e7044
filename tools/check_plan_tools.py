#!/usr/bin/env python3
"""Tries tools/plan_hints.py and tools/viewplan.py on a PostgreSQL server of its own, with plans of every kind.

usage: tools/check_plan_tools.py [PROGRAM]

PROGRAM is a built pgplan, dist/'s where none is given. tools/forced_plans.py says what the server and the extension need. The tool fills
a schema, exports it, and plans each query below with pgplan, with several sets of indexes. Of each plan it is checked that

- the server, given the hints, says nothing and has the same scans, indexes and joins; so it does with queries of its own;
- viewplan's JSON has the same conditions as the server's at each scan and join, the same Sort Key or Group Key on top, and at each
  node the keys that the server's node has;
- its text has the form of the server's, line by line, and its numbers those of pgplan's own text;
- its picture is read by Graphviz, where dot is installed.

Of each plan of the stored scripts it is checked that no node starts after it has ended, and last that plans of every kind were seen. It
is no part of the gate. Prints each difference, and how many checks of each tool passed and failed.
"""
from __future__ import annotations

import json
import pathlib
import re
import shutil
import subprocess
import sys
from collections import Counter
from typing import Iterator

from explained import SHIPPED, Explained, explained
from forced_plans import Session, built_extension
from own_server import Checks, newest, server as started
from plan_hints import comment_of, comment_on_server
from plan_nodes import Node, plan_node
from reference.pg_value import COMMUTATOR
from same_plan import JOINS, SCANS, server_shape, shape
from server.program import UNIT
from server.psql import Server
from server.schema import Schema
from viewplan import as_dot, as_json, as_text, lines

ROOT = pathlib.Path(__file__).resolve().parent.parent
SETTINGS = "-c jit=off -c autovacuum=off -c max_parallel_workers_per_gather=0"

SCHEMA = """
CREATE SCHEMA depot;
SET search_path = depot;
CREATE TABLE parts (id int4 NOT NULL, kind text NOT NULL, size int2, stock int8, active bool NOT NULL, shelf int4);
CREATE TABLE moves (id int8 NOT NULL, part int4 NOT NULL, place int4, day int4 NOT NULL, amount int8, done bool);
CREATE TABLE places (id int4 NOT NULL, name text NOT NULL, region int2 NOT NULL, shelf int4);
INSERT INTO parts SELECT g, 'kind ' || g % 40, nullif(g % 30, 0), g * 7919 % 5000 - 100, g % 3 > 0, g % 500
    FROM generate_series(1, 20000) g;
INSERT INTO moves SELECT g, 1 + g * 7919 % 20000, nullif(g % 301, 0), g / 50, g % 1000 - 3,
    CASE g % 5 WHEN 0 THEN NULL WHEN 1 THEN false ELSE true END FROM generate_series(1, 100000) g;
INSERT INTO places SELECT g, 'place ' || g, g % 12, g % 500 FROM generate_series(1, 300) g;
"""

# Sets of indexes, each with queries that are planned with it.
CASES = [
    ([], [
        "SELECT id FROM parts WHERE kind = 'kind 7' AND size > 5",
        "SELECT * FROM places WHERE name >= 'place 2' AND name < 'place 3' ORDER BY region DESC, name",
        "SELECT id FROM parts WHERE active AND NOT (size = 3 OR size IS NULL)",
        "SELECT id FROM moves WHERE done = FALSE AND amount = -3 LIMIT 7 OFFSET 2",
        "SELECT id FROM moves WHERE NOT done AND place IS NOT NULL",
        "SELECT p.id FROM parts p JOIN moves m ON m.part = p.id WHERE m.day = 77",
        "SELECT p.id, m.id FROM parts p JOIN moves m ON m.part = p.id ORDER BY p.id",
        "SELECT a.id FROM places a, places b WHERE a.region < b.region AND b.name = 'place 7'",
        "SELECT p.id FROM parts p, places q WHERE p.shelf = q.shelf AND (p.size = 1 OR q.region = 2)",
        "SELECT DISTINCT kind FROM parts ORDER BY kind",
        "SELECT count(*) FROM moves WHERE day < 30",
        "SELECT kind, count(*) FROM parts GROUP BY kind ORDER BY kind DESC",
    ]),
    (["parts_id ON parts (id)", "moves_part ON moves (part)", "moves_day ON moves (day DESC)", "places_id ON places (id)",
      "parts_kind ON parts (kind)", "parts_shelf ON parts (shelf)", "moves_id ON moves (id)"], [
        "SELECT * FROM moves WHERE id = 4711",
        "SELECT id FROM moves ORDER BY id DESC LIMIT 3",
        "SELECT * FROM moves ORDER BY day LIMIT 5",
        "SELECT * FROM parts WHERE kind = 'kind 7'",
        "SELECT * FROM parts WHERE kind = 'kind 7' AND shelf = 247",
        "SELECT * FROM parts WHERE kind = 'kind 7' OR shelf = 12",
        "SELECT * FROM parts WHERE (kind = 'kind 7' OR shelf = 12) AND size = 7",
        "SELECT * FROM parts p JOIN moves m ON m.part = p.id WHERE p.kind = 'kind 7' AND p.size = 7 AND p.stock < 0",
        "SELECT * FROM parts p JOIN moves m ON m.part = p.id WHERE m.day = 12 AND p.active",
        "SELECT p.id FROM parts p JOIN moves m ON m.part = p.id ORDER BY p.id",
        "SELECT m.id FROM moves m JOIN places q ON q.id = m.place WHERE q.name = 'place 7'",
        "SELECT m.id FROM parts p JOIN moves m ON m.part = p.id JOIN places q ON q.id = m.place WHERE p.id = 77",
        "SELECT m.id FROM parts p JOIN moves m ON m.part = p.id JOIN places q ON q.id = m.place WHERE m.day = 77 AND q.shelf = p.shelf",
        "SELECT a.id FROM moves a JOIN moves b ON b.id = a.id WHERE a.id = 12 AND b.day < a.day",
        "SELECT q.id FROM places q JOIN parts p ON p.shelf = q.shelf AND p.size = q.region WHERE q.id < 4",
        "SELECT * FROM parts WHERE id > 19990 AND id <= 19995",
        "SELECT m.id FROM places q, parts p, moves m WHERE p.shelf = q.shelf AND m.part = p.id AND m.place < q.id AND q.name = 'place 7'",
    ]),
    (["parts_low ON parts (stock) WHERE stock < 0", "parts_cover ON parts (kind, id) INCLUDE (shelf)",
      "moves_hash ON moves USING hash (part)", "moves_open ON moves (day) INCLUDE (part) WHERE done IS NULL",
      "places_shelf ON places (shelf, region)", "parts_size ON parts (size NULLS FIRST)", "moves_both ON moves (part, day)"], [
        "SELECT id FROM parts WHERE stock < 0 AND stock = -50",
        "SELECT stock, id FROM parts WHERE stock < -90",
        "SELECT kind, id FROM parts WHERE kind = 'kind 3' ORDER BY id",
        "SELECT kind, id FROM parts WHERE kind = 'kind 3' ORDER BY id DESC",
        "SELECT id FROM parts WHERE size IS NULL",
        "SELECT m.id FROM parts p JOIN moves m ON m.part = p.id WHERE p.kind = 'kind 3' AND p.size = 3 AND p.stock = 8",
        "SELECT m.id FROM moves m WHERE m.part = 5",
        "SELECT kind, count(*) FROM parts WHERE kind > 'kind 8' GROUP BY kind",
        "SELECT m.day, m.part FROM moves m WHERE m.done IS NULL AND m.day < 40",
        "SELECT p.id FROM places q JOIN parts p ON p.shelf = q.shelf WHERE q.shelf = 7",
        "SELECT m.id FROM parts p JOIN moves m ON m.part = p.id AND m.day > p.size WHERE p.stock < -98",
        "SELECT p.id, q.id FROM parts p JOIN places q ON q.shelf = p.shelf AND q.region = p.size WHERE p.kind = 'kind 9'",
    ]),
]
# Queries of the server, which plan_hints reads with --database, with how many lines it writes before each.
SERVER_QUERIES = [
    ('SELECT "The P".id FROM parts AS "The P" JOIN moves m ON m.part = "The P".id '
     'WHERE m.day IN (12, 13) AND "The P".kind LIKE \'kind 1%\'', 1),
    ("SELECT p.kind, count(*) FROM parts p JOIN places q ON q.shelf = p.shelf WHERE p.size BETWEEN 3 AND 4 "
     "GROUP BY p.kind HAVING count(*) > 1", 3),
    ('SELECT "*/ q".id FROM parts AS "*/ q"', 1),
    ("SELECT p.id FROM parts p LEFT JOIN places q ON q.shelf = p.shelf WHERE p.id < 4", 1),
    ("SELECT id FROM depot.moves WHERE day = (SELECT max(day) FROM moves)", 1),
]
# The kinds of nodes that the plans of these queries have.
KINDS = {"Seq Scan", "Index Scan Forward", "Index Scan Backward", "Index Only Scan Forward", "Index Only Scan Backward", "Bitmap Heap Scan",
         "Bitmap Index Scan", "BitmapAnd", "BitmapOr", "Nested Loop", "Merge Join", "Sort", "Limit", "Aggregate Plain", "Aggregate Sorted",
         "Aggregate Hashed"}
# What the conditions of the partial indexes imply, with what each says.
IMPLIED = {"(stock < 0)", "(done IS NULL)"}
TITLES = ("Index Cond", "Recheck Cond", "Filter", "Merge Cond", "Join Filter")
LINE = re.compile(r"( *(?:->  )?)\S.*?  \(cost=(\d+\.\d\d)\.\.(\d+\.\d\d) rows=\d+ width=\d+\)| +[A-Z][a-z]+ [A-Z][a-z]+: .*| +Filter: .*")


def closes_at(text: str) -> int:
    """The place behind the parenthesis that closes the first one."""
    depth = 0
    for found in re.finditer(r"'(?:[^']|'')*'|[()]", text):
        depth += (found[0] == "(") - (found[0] == ")")
        if depth == 0:
            return found.end()
    return len(text)


def conjuncts(text: str) -> Iterator[str]:
    """The conditions that AND joins in one."""
    if text.startswith("(") and closes_at(text) == len(text):
        inner, begin, depth = text[1:-1], 0, 0
        for found in re.finditer(r"'(?:[^']|'')*'|[()]| AND ", inner):
            depth += (found[0] == "(") - (found[0] == ")")
            if found[0] == " AND " and depth == 0:
                yield from conjuncts(inner[begin:found.start()])
                begin = found.end()
        if begin:
            yield from conjuncts(inner[begin:])
            return
    yield text


def plain(text: str) -> str:
    """A condition as both programs write it: without casts of numbers, and the lesser of two columns first."""
    text = re.sub(r"'(-?\d+)'::(?:integer|bigint|smallint)", r"\1", text)
    between = re.fullmatch(r"\(([a-z_.]+) (<|<=|=|>=|>) ([a-z_.]+)\)", text)
    if between and between[1] > between[3]:
        return f"({between[3]} {COMMUTATOR[between[2]]} {between[1]})"
    return text


def conditions(node: Node, *titles: str) -> set[str]:
    """The conditions of a node under some titles."""
    return {plain(part) for title in titles if title in node for part in conjuncts(node[title])}


def proper(node: Node) -> Node:
    """A node, or the first scan, join or bitmap below it."""
    while node["Node Type"] not in {*JOINS, *SCANS, "BitmapAnd", "BitmapOr", "Bitmap Index Scan"}:
        node = node["Plans"][0]
    return node


def keys_on_top(node: Node) -> dict[str, list[str]]:
    """The first Sort Key and Group Key above all scans and joins."""
    found: dict[str, list[str]] = {}
    while node is not proper(node):
        for key in {"Sort Key", "Group Key"} & node.keys():
            found.setdefault(key, node[key])
        node = node["Plans"][0]
    return found


def below(node: Node) -> list[Node]:
    """The nodes right below one. The server lists the parts of a bitmap by what they cost there."""
    children = node.get("Plans", [])
    return sorted(children, key=lambda child: child.get("Index Name", "")) if node["Node Type"] in ("BitmapAnd", "BitmapOr") else children


def differences(ours: Node, theirs: Node) -> Iterator[str]:
    """What two plans of the same shape say differently."""
    ours, theirs = proper(ours), proper(theirs)
    kind = ours["Node Type"]
    if kind != theirs["Node Type"]:
        yield f"{kind} and {theirs['Node Type']}"
        return
    groups = [("Merge Cond", "Join Filter")] if kind in JOINS else [("Index Cond",), ("Recheck Cond", "Filter")]
    for titles in groups:
        mine, others = conditions(ours, *titles), conditions(theirs, *titles)
        # The server tests the condition of a partial index again above a bitmap, and nowhere else what that condition implies.
        if not mine ^ others <= IMPLIED:
            yield f"{kind} {titles}: {sorted(mine)} and {sorted(others)}"
    for mine_below, theirs_below in zip(below(ours), below(theirs)):
        yield from differences(mine_below, theirs_below)


def nodes(node: Node) -> Iterator[Node]:
    """A node and all below it."""
    yield node
    for child in node.get("Plans", []):
        yield from nodes(child)


def kind_of(node: Node) -> str:
    """The kind of a node, with what tells it from others of its type."""
    return " ".join([node["Node Type"], *(node[key] for key in ("Scan Direction", "Strategy") if key in node)])


class Trial:
    """Plans of pgplan beside those of a server."""

    def __init__(self, program: pathlib.Path, session: Session) -> None:
        self.program, self.session = program, session
        self.hints, self.views = Checks(program), Checks(program)
        self.kinds: Counter[str] = Counter()
        self.keys: dict[str, set[str]] = {}
        self.server_keys: dict[str, set[str]] = {}

    def case(self, tables: str, indexes: list[str], queries: list[str]) -> None:
        """Plans queries with a set of indexes, which is dropped again."""
        definitions = [f"CREATE INDEX {index};" for index in indexes]
        self.session.run("".join(definitions) + "ANALYZE;")
        script = tables + "\n".join([*definitions, *(f"EXPLAIN {query};" for query in queries)])
        found, fault = explained(self.program, script.encode())
        self.views.that(fault is None and len(found) == len(queries), f"fault {fault}")
        for each in found:
            self.plan(each)
        self.pictures(found)
        self.session.run("".join(f"DROP INDEX {index.split()[0]};" for index in indexes))

    def plan(self, found: Explained) -> None:
        """Forces a plan, and compares what is said of it."""
        hints = comment_of(found)
        forced, said = self.session.explain(found.sql, hints)
        ours, theirs = shape(found.plan.plan, [alias for _, alias in found.space.q.rels]), server_shape(forced)
        self.hints.that(not said and ours == theirs, f"{found.sql}\n  {hints}\n  {said or theirs}")
        node = json.loads(as_json([(1, found)]))[0]["Plan"]
        self.kinds.update(map(kind_of, nodes(node)))
        for keys, plan in ((self.keys, node), (self.server_keys, forced)):
            for each in nodes(plan):
                keys.setdefault(each["Node Type"], set()).update(each.keys() - set(TITLES))
        if ours == theirs:
            self.views.that(not list(differences(node, forced)), f"{found.sql}\n  " + "\n  ".join(differences(node, forced)))
        mine, others = keys_on_top(node), keys_on_top(forced)
        self.views.that(all(mine[key] == others[key] for key in mine.keys() & others.keys()), f"{found.sql}\n  {mine} and {others}")
        self.text(found, node)

    def text(self, found: Explained, node: Node) -> None:
        """Compares the form of the text with that of the server's, and its costs with those that pgplan printed."""
        own = list(lines(node))
        theirs = self.session.run(f"{comment_of(found)} EXPLAIN {found.sql};").splitlines()
        bad = [line for line in own + theirs if not LINE.fullmatch(line)]
        self.views.that(not bad and as_text([(1, found)]).splitlines()[1:] == own, f"lines of another form: {bad}")
        numbered = [line for line in own if not re.match(r" *->  Bitmap(?! Heap)", line)]
        shown = [match[3] for match in map(LINE.fullmatch, numbered) if match and match[3]]
        printed = [head.cost for head in found.heads] + list(costs(found))
        self.views.that(shown == [f"{cost / UNIT:.2f}" for cost in printed], f"{found.sql}: costs {shown} and {printed}")

    def pictures(self, found: list[Explained]) -> None:
        """Has Graphviz read the pictures."""
        if shutil.which("dot"):
            ran = subprocess.run(["dot", "-Tsvg"], input=as_dot(list(enumerate(found, 1))), capture_output=True, text=True)
            self.views.that(ran.returncode == 0 and not ran.stderr, f"dot: {ran.stderr}")
            self.views.that(ran.stdout.count("<svg ") == len(found), "a picture is missing")

    def server_queries(self) -> None:
        """Forces plans of the server's own queries."""
        schema = Schema(Server("postgres", "depot"))
        for sql, count in SERVER_QUERIES:
            said = comment_on_server(self.program, sql, schema).splitlines()
            self.hints.that(len(said) == count and all(line.startswith("-- ") for line in said[:-1]), f"{sql}\n  {said}")
            if said[-1].startswith("/*+ "):
                tables = re.findall(r"\w+Scan\((\w+|\"[^\"]*\")", said[-1])
                forced, warned = self.session.explain(sql, said[-1])
                self.hints.that(not warned and len(tables) == 2, f"{sql}\n  {said}\n  {warned}")

    def stored(self, script: pathlib.Path) -> None:
        """Makes the nodes of all plans of a script."""
        for found in explained(self.program, script.read_bytes())[0]:
            bad = [node for node in nodes(plan_node(found)) if not 0 <= node["Startup Cost"] <= node["Total Cost"]]
            self.views.that(not bad, f"{script}: {found.sql}: {bad}")

    def end(self) -> None:
        """Checks what all plans together show."""
        self.views.that(set(self.kinds) == KINDS, f"kinds: {sorted(KINDS ^ set(self.kinds))}")
        for kind, keys in self.server_keys.items():
            if kind in self.keys:
                self.views.that(keys <= self.keys[kind], f"{kind} has no {sorted(keys - self.keys[kind])}")


def costs(found: Explained) -> Iterator[int]:
    """The costs of the plan of the relations, from the top, in the order of its lines."""
    todo = [found.plan]
    while todo:
        written = todo.pop()
        yield written.cost
        todo += reversed(written.children)


def main() -> None:
    """Runs the command line."""
    if len(sys.argv) > 2:
        sys.exit(__doc__)
    program = pathlib.Path(sys.argv[1]) if len(sys.argv) == 2 else SHIPPED
    with started(newest(), SETTINGS) as psql:
        psql("postgres", SCHEMA + "ANALYZE;")
        session = Session(built_extension(newest()), "depot")
        session.allow_other_nodes(False)
        trial = Trial(program, session)
        tables = psql("postgres", (ROOT / "tools" / "from_postgres.sql").read_text(), "-v", "schema=depot")
        for indexes, queries in CASES:
            trial.case(tables, indexes, queries)
        trial.server_queries()
        session.close()
    for script in sorted([*ROOT.glob("examples/*.sql"), *ROOT.glob("scripts/*.sql")]):
        trial.stored(script)
    trial.end()
    tools = {"plan_hints": trial.hints, "viewplan": trial.views}
    for name, checks in tools.items():
        print(*(f"{name}: {failure}\n" for failure in checks.failures), sep="", end="")
        print(f"{name}: {checks.passed} passed, {len(checks.failures)} failed")
    sys.exit(1 if any(checks.failures for checks in tools.values()) else 0)


if __name__ == "__main__":
    main()
