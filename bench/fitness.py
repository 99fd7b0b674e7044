#!/usr/bin/env python3
"""Forces pgplan's plans on a PostgreSQL server and compares them with the server's own: processor time, and estimated rows.

usage: bench/fitness.py [--program PROGRAM].. [--runs RUNS] [QUERY ..]

PROGRAM is a built pgplan, dist/'s where none is given; of several each is compared, on the same tables and statistics. QUERY is a name
such as t7; without one all 24 queries are taken. The tool starts a server of its own (tools/forced_plans.py says what that needs),
makes the schemas of bench/fitness/, exports their sizes and values, and plans each query with pgplan. The plan is forced on the server
by hints. Each query is taken twice: with the indexes of the schema alone, then with those that its file names for it.

Prints a table for each program, then means and worst cases:

- rows: how many rows the query's joins and conditions give, and how many the server and pgplan estimate. Off is the factor between;
- own and forced: milliseconds of the server's processor for its own plan and for pgplan's, medians of RUNS runs (5) after one more, or
  of two where the first takes more than 400 ms. Their ratio is exactly 1 where both plans are the same. A run is cancelled after two
  minutes. A ratio with ! stands for a plan that the server could not be made to run as it is.

Everything is in memory. Parallel plans, JIT and autovacuum are off; the server's own plan may have hash joins and all else.
"""
from __future__ import annotations

import argparse
import math
import pathlib
import re
import statistics
import sys
from typing import Iterator, NamedTuple, Optional

ROOT = pathlib.Path(__file__).resolve().parent.parent
sys.path.append(str(ROOT / "tools"))

from explained import SHIPPED, Explained, explained
from forced_plans import Session, built_extension
from own_server import newest, server as started
from plan_hints import comment_of
from same_plan import server_shape, shape
from server.psql import Server
from server.queries import read_query
from server.schema import Schema

FOLDER = ROOT / "bench" / "fitness"
SCHEMAS = ("shop", "tpch")
SETTINGS = ("shared_buffers=1GB", "work_mem=64MB", "effective_cache_size=4GB", "max_wal_size=4GB", "jit=off", "autovacuum=off",
            "max_parallel_workers_per_gather=0", "statement_timeout=120s")
# A plan that takes longer than this, in milliseconds, is run fewer times.
LONG = 400
QUERY = re.compile(r"^-- (\w+): .*\n((?:-- index: .*\n)*)((?:(?!--).+\n)+)", re.M)


class Query(NamedTuple):
    """A query of a schema, with the indexes that serve it."""

    name: str
    indexes: list[str]
    sql: str

    def definitions(self) -> list[str]:
        """The statements that make its indexes."""
        return [f"CREATE INDEX fitness_{n} ON {index};" for n, index in enumerate(self.indexes)]


class Times(NamedTuple):
    """The milliseconds of the server's own plan and of the forced one, and whether the server ran it as it is."""

    own: Optional[float]
    forced: Optional[float]
    as_it_is: bool

    @property
    def ratio(self) -> float:
        """The forced time over the own one. A run that was cancelled counts as two minutes."""
        return (self.forced or 120e3) / (self.own or 120e3)


class Measured(NamedTuple):
    """What was found of a query with one program: rows, both estimates, and the times without and with further indexes."""

    name: str
    rows: int
    server: int
    pgplan: int
    times: list[Times]


def queries(schema: str, wanted: list[str]) -> Iterator[Query]:
    """The queries of a schema that are wanted, or all."""
    for name, indexes, sql in QUERY.findall((FOLDER / f"{schema}_queries.sql").read_text()):
        if not wanted or name in wanted:
            yield Query(name, re.findall(r"-- index: (.*)", indexes), sql.strip().rstrip(";"))


def joined(sql: str) -> str:
    """The FROM and WHERE of a query."""
    return re.split(r"\b(?:GROUP BY|ORDER BY|LIMIT)\b", sql[re.search(r"\bFROM\b", sql).start():])[0]


class Bench:
    """The queries of one schema on a server, planned by several programs."""

    def __init__(self, session: Session, schema: Schema, programs: list[pathlib.Path], runs: int) -> None:
        self.session, self.schema, self.programs, self.runs = session, schema, programs, runs

    def measured(self, query: Query) -> list[Measured]:
        """What is found of a query with each program."""
        rows = int(self.session.run(f"SELECT count(*) {joined(query.sql)};"))
        server = self.session.explain(f"SELECT 1 {joined(query.sql)}")[0]["Plan Rows"]
        asked = read_query(query.sql, self.schema)
        tables = "".join(self.schema.tables[name].script() for name in asked.tables())
        rounds = []
        for definitions in ([], query.definitions()):
            self.session.run("".join(definitions))
            script = "\n".join([tables, *definitions, f"EXPLAIN {asked.text()};"])
            plans = [explained(program, script.encode())[0][0] for program in self.programs]
            rounds.append(self.times(query.sql, plans))
        self.session.run("".join(f"DROP INDEX fitness_{n};" for n in range(len(query.indexes))))
        return [Measured(query.name, rows, server, plan.plan.rows, [times[n] for times in rounds]) for n, plan in enumerate(plans)]

    def times(self, sql: str, plans: list[Explained]) -> list[Times]:
        """The times of the server's own plan beside those of each program's plan."""
        own, hints = self.session.explain(sql)[0], [comment_of(plan) for plan in plans]
        self.session.allow_other_nodes(False)
        forced = [self.session.explain(sql, comment) for comment in hints]
        as_they_are = [not said and server_shape(made) == shape(plan.plan.plan, aliases(plan)) for plan, (made, said) in zip(plans, forced)]
        # A plan that is the server's own is not run a second time.
        run = ["" if made == own else comment for comment, (made, _) in zip(hints, forced)]
        found = self.medians(sql, list(dict.fromkeys(["", *run])))
        return [Times(found[""], found[comment], as_it_is) for comment, as_it_is in zip(run, as_they_are)]

    def medians(self, sql: str, hints: list[str]) -> dict[str, Optional[float]]:
        """The median milliseconds of plans, which are run in turn, each with its hints, after a first run of each."""
        times: dict[str, list[Optional[float]]] = {comment: [] for comment in hints}
        for turn in range(self.runs + 1):
            for comment, found in times.items():
                if None not in found and not (turn > 2 and found[0] > LONG):
                    self.session.allow_other_nodes(not comment)
                    found.append(self.session.timed(sql, comment))
        self.session.allow_other_nodes(True)
        return {comment: None if None in found else statistics.median(found[1:]) for comment, found in times.items()}


def aliases(plan: Explained) -> list[str]:
    """The aliases of a query's relations, in the order of FROM."""
    return [alias for _, alias in plan.space.q.rels]


def off(estimated: int, rows: int) -> float:
    """The factor between estimated rows and those that there are, each taken to be at least one."""
    return max(max(estimated, 1) / max(rows, 1), max(rows, 1) / max(estimated, 1))


def mean(values: list[float]) -> float:
    """The geometric mean."""
    return math.exp(sum(map(math.log, values)) / len(values))


def milliseconds(time: Optional[float]) -> str:
    """A time as the table has it."""
    return "over 120 s" if time is None else f"{time:.1f}"


def line_of(found: Measured) -> str:
    """The line of a query."""
    cells = [found.name, f"{found.rows:,}", f"{found.server:,}", f"{found.pgplan:,}", f"{off(found.server, found.rows):.2f}",
             f"{off(found.pgplan, found.rows):.2f}"]
    for times in found.times:
        cells += [milliseconds(times.own), milliseconds(times.forced), f"{times.ratio:.2f}{'' if times.as_it_is else ' !'}"]
    return f"| {' | '.join(cells)} |"


def summary(name: str, values: dict[str, float], much: float) -> str:
    """The line of a mean, with how many values are above a measure, and the worst."""
    worst = max(values, key=values.__getitem__)
    above = sum(value > much for value in values.values())
    middle = statistics.median(values.values())
    return f"| {name} | {mean(list(values.values())):.2f} | {middle:.2f} | {above} above {much} | {values[worst]:.2f} ({worst}) |"


def report(program: pathlib.Path, found: list[Measured]) -> None:
    """Prints the tables of one program."""
    print(f"\n{program.relative_to(ROOT) if program.is_relative_to(ROOT) else program}\n")
    print("| query | rows | server | pgplan | server off | pgplan off | own ms | forced ms | forced / own "
          "| own ms, indexes | forced ms, indexes | forced / own, indexes |")
    print("|---" * 12 + "|")
    print("\n".join(map(line_of, found)))
    print(f"\n| {len(found)} queries | geometric mean | median | much | worst |\n|---|---|---|---|---|")
    for n, which in enumerate(("the schema's indexes alone", "with the query's indexes")):
        print(summary(f"forced / own, {which}", {each.name: each.times[n].ratio for each in found}, 1.5))
    print(summary("rows, the server's estimate is off by", {each.name: off(each.server, each.rows) for each in found}, 2))
    print(summary("rows, pgplan's estimate is off by", {each.name: off(each.pgplan, each.rows) for each in found}, 2))
    not_run = [each.name for each in found if not all(times.as_it_is for times in each.times)]
    print(f"\nplans that the server could not be made to run: {', '.join(not_run) or 'none'}", flush=True)


def measure(programs: list[pathlib.Path], runs: int, wanted: list[str]) -> list[list[Measured]]:
    """What is found of each query, and of it with each program."""
    with started(newest(), " ".join(f"-c {setting}" for setting in SETTINGS)) as psql:
        extension, found = built_extension(newest()), []
        for name in SCHEMAS:
            psql("postgres", (FOLDER / f"{name}.sql").read_text())
        psql("postgres", "VACUUM ANALYZE;")
        for name in SCHEMAS:
            session = Session(extension, name)
            bench = Bench(session, Schema(Server("postgres", name)), programs, runs)
            for query in queries(name, wanted):
                found.append(bench.measured(query))
                print(query.name, file=sys.stderr, flush=True)
            session.close()
        return found


def main() -> None:
    """Runs the command line."""
    parser = argparse.ArgumentParser(usage=__doc__.split("usage: ")[1].split("\n")[0])
    parser.add_argument("--program", type=pathlib.Path, action="append")
    parser.add_argument("--runs", type=int, default=5)
    parser.add_argument("queries", nargs="*")
    words = parser.parse_args()
    unknown = set(words.queries) - {query.name for schema in SCHEMAS for query in queries(schema, [])}
    if unknown or words.runs < 1:
        parser.error(f"no query {', '.join(sorted(unknown))}" if unknown else "at least one run")
    programs = words.program or [SHIPPED]
    found = measure(programs, words.runs, words.queries)
    for n, program in enumerate(programs):
        report(program, [each[n] for each in found])


if __name__ == "__main__":
    main()
