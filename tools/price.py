#!/usr/bin/env python3
"""Prices the plans that a PostgreSQL server chooses by pgplan's rules, beside pgplan's own plans.

usage: tools/price.py DATABASE QUERIES.sql [--schema NAME] [--plans]

For each SELECT the server is asked for its plan in pgplan's plan space. The plan is supplied with USE PLAN, over tables without rows, and
its numbers are corrected line by line as the replies say. LIMIT is left out, since USE PLAN has none. --plans prints both plans. Nothing
runs on the server, but planning there evaluates immutable functions in the conditions of its indexes: ask as a role that may.
"""
from __future__ import annotations

import argparse
import os
import re
import sys

sys.dont_write_bytecode = True
from server.program import COST, UNIT, run
from server.psql import Left, Server, Unreachable
from server.queries import Query, read_query
from server.schema import Schema
from server.server_plans import PlanWriter, explained
from server.words import one_line
from server.workload import from_file

WRONG = re.compile(r"invalid: P3 line (\d+) (cost|rows) \d+ is (\d+)")


def corrected(script: str, text: str, lines: list[str]) -> list[str]:
    """A plan with its own numbers, as USE PLAN says them: two for each line at most."""
    for _ in range(2 * len(lines) + 1):
        reply = run(f"{script}USE PLAN {text};\n{chr(10).join(lines)}\n\\.\n".encode(errors="surrogateescape"))
        wrong = WRONG.match(reply)
        if not wrong and reply.startswith("invalid"):
            raise Left(f"pgplan has no such plan ({reply.strip()[9:]})")
        if not wrong:
            return lines
        at = int(wrong[1]) - 1
        lines[at] = re.sub(rf"{wrong[2]}=\d+", f"{wrong[2]}={wrong[3]}", lines[at])
    raise Left("the numbers of its plan do not settle")


def cost_of(line: str) -> int:
    """The cost on a line of a plan."""
    found = COST.search(line)
    if not found:
        raise Left(f"no cost in {line!r}")
    return int(found[1])


def show(number: int, query: Query, schema: Schema, with_plans: bool) -> None:
    """The line of one query, and both plans if that is asked."""
    plan = explained(schema.server, query)
    script = "".join(schema.tables[name].script() for name in query.tables())
    text = query.text(with_window=False)
    theirs = corrected(script, text, PlanWriter(query, schema).lines(plan))
    ours = run(f"{script}EXPLAIN {text};\n".encode(errors="surrogateescape")).splitlines()
    price, best = cost_of(theirs[0]), cost_of(ours[0])
    title = one_line(query.sql)[:70]
    print(f"{number:5} {plan['Total Cost']:11.1f} {price / UNIT:11.1f} {best / UNIT:11.1f} {price / best:6.2f}  {title}")
    for title, lines in (("server", theirs), ("pgplan", ours)) if with_plans else ():
        print("".join(f"      {title}: {line}\n" for line in lines), end="")


def main() -> None:
    """Prints a line for each query of the file."""
    parser = argparse.ArgumentParser(usage=(__doc__ or "").split("usage: ")[1].split("\n\n")[0])
    parser.add_argument("database")
    parser.add_argument("queries")
    parser.add_argument("--schema", default="public")
    parser.add_argument("--plans", action="store_true")
    asked = parser.parse_args()
    schema = Schema(Server(asked.database, asked.schema))
    print(f"{'query':>5} {'server':>11} {'its plan':>11} {'pgplan':>11}  ratio")
    for number, (sql, _) in enumerate(from_file(asked.queries), 1):
        try:
            show(number, read_query(sql, schema), schema, asked.plans)
        except Left as fault:
            print(f"{number:5} no price: {one_line(str(fault))}")


if __name__ == "__main__":
    try:
        main()
    except (Left, Unreachable, OSError, UnicodeError) as fault:
        sys.exit(f"{os.path.basename(sys.argv[0])}: {fault}")
