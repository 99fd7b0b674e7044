"""The SELECTs of a script, each with the plan that pgplan prints for it, as a tree whose names are resolved by the reference."""
from __future__ import annotations

import pathlib
import subprocess
import sys

if sys.version_info < (3, 11):
    sys.exit("this tool needs Python 3.11")

from typing import Iterator, NamedTuple, Optional

ROOT = pathlib.Path(__file__).resolve().parent.parent
SHIPPED = ROOT / "dist" / "pgplan-x86_64-linux"
sys.path.append(str(ROOT))

from reference.catalog import Catalog
from reference.explain import Texts
from reference.pg_base import NO_PLAN, Fault
from reference.plan_reader import PlanReader, Written
from reference.plan_space import Space
from reference.sql_query import Query
from reference.statements import Statement, read_statement

# The statements that print a plan of the program's own choice.
PLANNED = ("select", "explain", "explain_table")


class Head(NamedTuple):
    """A line above the plan of the relations: that of LIMIT, a grouping node, or a sort of groups."""

    text: str
    cost: int
    rows: int


class Explained(NamedTuple):
    """A SELECT as it is written, its plan space with its texts, the lines above the plan of its relations, and that plan."""

    sql: str
    space: Space
    texts: Texts
    heads: list[Head]
    plan: Written

    @property
    def rows(self) -> int:
        """The rows that the whole plan is estimated to return."""
        return self.heads[0].rows if self.heads else self.plan.rows


def read_statements(script: bytes, catalog: Catalog) -> Iterator[Statement]:
    """The statements of a script, read against a catalog that they change in turn. A fault ends them."""
    at = 0
    while at < len(script):
        statement = read_statement(catalog, script, at)
        yield statement
        if statement.change:
            statement.change()
        at = statement.next


def as_explain(script: bytes) -> tuple[bytes, list[int], Optional[Fault]]:
    """The script with EXPLAIN before each SELECT and nothing else that prints, where each SELECT stands, and the script's first fault."""
    parts, places, at = [], [], 0
    try:
        for statement in read_statements(script, Catalog()):
            if statement.kind in PLANNED:
                parts.append(b"EXPLAIN " + script[statement.query.at:statement.next])
                places.append(statement.query.at)
            elif statement.change:
                parts.append(script[at:statement.next])
            at = statement.next
    except Fault as fault:
        return b"\n".join(parts), places, fault
    return b"\n".join(parts), places, None


def as_it_is(query: Query) -> Query:
    """A query over its tables as they are now, whatever the statements behind it change."""
    tables = {table.name: table.with_indexes([]) for table, _ in query.rels}
    for table in tables.values():
        table.stats = dict(table.stats)
        table.given_rows, table.given_pages = table.row_count(), table.page_count()
    return query.over_tables(tables)


def read_printed(sql: str, query: Query, lines: list[str]) -> Explained:
    """The plan of a query from the lines that were printed for it."""
    space = Space(as_it_is(query))
    texts = Texts(space)
    reader, heads = PlanReader(space, texts, lines), []
    above = ("Limit ",) if query.window else ("Aggregate", "GroupAggregate ", "HashAggregate ") if query.groups else ()
    while above and not (heads and heads[-1].text.startswith(above)):
        text, cost, rows = lines[reader.at].lstrip(" ->").rsplit("  (cost=", 1)[0], *numbers(lines[reader.at])
        heads.append(Head(text, cost, rows))
        reader.at += 1
    return Explained(sql, space, texts, heads, reader.node(len(heads)))


def numbers(line: str) -> tuple[int, int]:
    """The cost and the rows at the end of a line."""
    cost, rows = line.rsplit("  (cost=", 1)[1].rstrip(")").split(" rows=")
    return int(cost), int(rows)


def plan_lines(output: str) -> list[list[str]]:
    """The lines of each plan of an output that has nothing but plans. The first line of a plan alone is not indented."""
    plans: list[list[str]] = []
    for line in output.splitlines():
        if not line.startswith(" "):
            plans.append([])
        plans[-1].append(line)
    return plans


def explained(program: pathlib.Path, script: bytes) -> tuple[list[Explained], Optional[Fault]]:
    """The SELECTs of a script with their plans, up to its first fault, and that fault."""
    asked, places, fault = as_explain(script)
    ran = subprocess.run([program, "run"], input=asked, capture_output=True)
    plans, found = plan_lines(ran.stdout.decode("latin-1")), []
    if ran.stderr.startswith(f"ERROR {NO_PLAN} ".encode()):
        fault = Fault(NO_PLAN, places[len(plans)])
    elif ran.returncode:
        sys.exit(f"{program}: status {ran.returncode}: {ran.stderr.decode(errors='replace').strip()}")
    for statement in read_statements(asked, Catalog()):
        if len(found) == len(plans):
            break
        if statement.kind == "explain":
            sql = asked[statement.query.at:statement.next].decode(errors="replace").strip().rstrip(";")
            found.append(read_printed(sql, statement.query, plans[len(found)]))
    return found, fault
