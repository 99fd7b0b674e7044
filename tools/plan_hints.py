#!/usr/bin/env python3
"""Prints SELECTs, each with pgplan's plan before it as a comment of pg_hint_plan, so that a server runs that plan.

usage: tools/plan_hints.py [--program PROGRAM] SCRIPT..
       tools/plan_hints.py [--program PROGRAM] --database DATABASE [--schema SCHEMA] QUERIES..

Without --database the files are one script of pgplan. With it they are a server's SELECTs, which are planned over the export of a schema
(public); PGHOST, PGPORT and PGUSER say where the server is. A line before a query tells what of it was not planned.

The hints tell the order and the sides of the joins (Leading), how each is joined and how each table is scanned, with the indexes.
pg_hint_plan has no hint for the rest, which the server chooses: the columns of a merge, sorts, grouping, the direction of an index
scan, and the rows whose values an inner scan takes. Set enable_material and enable_memoize to off, or the server may put such a node on
an inner side. Needs Python 3.11. See docs/PLAN-TOOLS.md.
"""
from __future__ import annotations

import argparse
import pathlib
import re
import sys
from typing import Iterator

from explained import Explained, explained
from reference.plan_tree import Plan
from same_plan import inputs, leaves
from server.program import program
from server.psql import Left, Server, Unreachable, identifier
from server.queries import read_query
from server.schema import PLAIN, Schema
from server.words import one_line, split_statements

# Aliases that hints can name. Any other might end the comment.
SPELT = re.compile(r"[\w$ .-]+")


def order(plan: Plan, aliases: list[str]) -> str:
    """The order of the joins of a plan, as Leading writes it."""
    below = [order(part, aliases) for part in inputs(plan)]
    return aliases[plan[1]] if not below else below[0] if plan[0] == "sort" else f"({' '.join(below)})"


def relations(plan: Plan) -> list[int]:
    """The relations of a plan, from the outermost."""
    return [r for part in inputs(plan) for r in relations(part)] or [plan[1]]


def hints(plan: Plan, aliases: list[str]) -> Iterator[str]:
    """The hints of the scans and joins of a plan."""
    for part in inputs(plan):
        yield from hints(part, aliases)
    if plan[0] in ("nest", "merge"):
        yield f"{'NestLoop' if plan[0] == 'nest' else 'MergeJoin'}({' '.join(aliases[r] for r in relations(plan))})"
    elif plan[0] == "seq":
        yield f"SeqScan({aliases[plan[1]]})"
    elif plan[0] == "bitmap":
        yield f"BitmapScan({' '.join([aliases[plan[1]], *dict.fromkeys(leaves(plan[3]))])})"
    elif plan[0] != "sort":
        yield f"{'IndexOnlyScan' if plan[0] == 'indexonly' else 'IndexScan'}({aliases[plan[1]]} {plan[2].name})"


def comment(plan: Plan, aliases: list[str]) -> str:
    """A plan as a comment of hints. The aliases are those of the relations, in the order of FROM."""
    leading = [f"Leading({order(plan, aliases)})"] if len(aliases) > 1 else []
    return f"/*+ {' '.join([*leading, *hints(plan, aliases)])} */"


def comment_of(found: Explained) -> str:
    """The plan of a SELECT as a comment of hints."""
    return comment(found.plan.plan, [alias for _, alias in found.space.q.rels])


def spelt(alias: str) -> str:
    """An alias of the server as pg_hint_plan reads it."""
    return alias if PLAIN.fullmatch(alias) else identifier(alias)


def comment_on_server(planner: pathlib.Path, sql: str, schema: Schema) -> str:
    """What stands before a SELECT of a server: its plan as a comment of hints, behind what of it was not planned, line by line."""
    try:
        query = read_query(sql, schema)
    except Left as reason:
        return f"-- no plan: {one_line(str(reason))}"
    outer = [part for part in query.dropped if part.endswith("JOIN is planned as an inner join")]
    if outer:
        return f"-- no plan: {outer[0].split(' is ')[0]}"
    odd = [relation.alias for relation in query.relations if not SPELT.fullmatch(relation.alias)]
    if odd:
        return f"-- no plan: no hint can name {one_line(odd[0])}"
    tables = "".join(schema.tables[name].script() for name in query.tables())
    found, fault = explained(planner, f"{tables}EXPLAIN {query.text()};".encode(errors="surrogateescape"))
    if not found:
        return f"-- no plan: {fault.line().strip() if fault else 'none was printed'}"
    notes = [*(f"-- not planned: {part}" for part in query.dropped), *(f"-- planned with {part}" for part in query.given)]
    return "\n".join([*map(one_line, notes), comment(found[0].plan.plan, [spelt(relation.alias) for relation in query.relations])])


def of_server(words: argparse.Namespace) -> None:
    """Prints the SELECTs of a server."""
    schema = Schema(Server(words.database, words.schema))
    queries = [sql for file in words.files for sql in split_statements(file.read_text())]
    print("\n\n".join(f"{comment_on_server(words.program, sql, schema)}\n{sql};" for sql in queries))


def of_script(words: argparse.Namespace) -> None:
    """Prints the SELECTs of a script of pgplan."""
    found, fault = explained(words.program, b"".join(file.read_bytes() for file in words.files))
    print("\n\n".join(f"{comment_of(each)}\n{each.sql};" for each in found))
    if fault:
        sys.exit(fault.line().strip())


def main() -> None:
    """Runs the command line."""
    parser = argparse.ArgumentParser(usage=__doc__.split("usage: ")[1].split("\n\n")[0])
    parser.add_argument("--program", type=pathlib.Path)
    parser.add_argument("--database")
    parser.add_argument("--schema", default="public")
    parser.add_argument("files", nargs="+", type=pathlib.Path)
    words = parser.parse_args()
    try:
        words.program = words.program or pathlib.Path(program())
        of_server(words) if words.database else of_script(words)
    except (OSError, Left, Unreachable) as reason:
        sys.exit(f"plan_hints.py: {reason}")


if __name__ == "__main__":
    main()
