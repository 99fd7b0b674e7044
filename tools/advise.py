#!/usr/bin/env python3
"""Says which indexes the queries of a PostgreSQL server would gain from, as CREATE INDEX statements.

usage: tools/advise.py DATABASE QUERIES.sql [--schema NAME] [--most K] [--keep FOLDER]
       tools/advise.py DATABASE --statements N [--schema NAME] [--most K] [--keep FOLDER]

QUERIES.sql has SELECTs, each ended by `;`. With --statements they are the N SELECTs of pg_stat_statements that took longest in all, each
with its calls as its weight. The server is asked for its catalogue, its statistics and the values of constants: no table is read, nothing
is made, and no code of another user runs. PGHOST and the like say where the server is, as for psql, and PGPLAN names another program than
./pgplan. --most says how many indexes may be named (4). --keep writes tables.sql, indexes.sql and queries.sql for pgplan into a folder.
"""
from __future__ import annotations

import argparse
import os
import pathlib
import sys

sys.dont_write_bytecode = True
from server.advice import MOST_CANDIDATES, PREFIX, Work, advise, served, unneeded
from server.candidates import Candidate
from server.program import UNIT
from server.psql import Left, Server, Unreachable
from server.queries import read_query
from server.schema import Schema
from server.words import one_line
from server.workload import from_file, from_statements


def said(text: str) -> None:
    """A comment on one line."""
    print("-- " + one_line(text))


def show_indexes(picked: list[Candidate], works: list[Work], schema: Schema) -> None:
    """The statements, each with its size and the queries that cost more without it."""
    taken = {*schema.index_names}
    for one, numbers in zip(picked, served(works, schema, picked)):
        name, number = one.name(), 1
        while name in taken:
            number += 1
            name = f"{one.name()}{number}"
        taken.add(name)
        print(one.theirs(name, schema))
        said(f"about {max(1, round(one.megabytes()))} MB, for query {', '.join(map(str, numbers))}")


def show_costs(works: list[Work]) -> None:
    """The cost of each query before and after, in PostgreSQL's units."""
    print("--\n-- query    calls      before       after   ratio   costs as the server prints them, by pgplan's rules")
    for work in works:
        mark = "*" if work.query.dropped else " "
        print(f"-- {work.number:5}{mark} {work.calls:7} {work.before / UNIT:11.1f} {work.after / UNIT:11.1f} "
              f"{work.before / max(1, work.after):7.1f}   {one_line(work.query.sql)[:70]}")
    before, after = sum(work.before * work.calls for work in works), sum(work.after * work.calls for work in works)
    print(f"--   all          {before / UNIT:12.1f}{after / UNIT:12.1f} {before / max(1, after):7.1f}   each query times its calls")


def show_notes(works: list[Work], schema: Schema) -> None:
    """What of the queries and of their tables is left out, and what stands for parameters."""
    for work in works:
        for dropped in work.query.dropped:
            said(f"query {work.number} *: {dropped}")
        if work.query.given:
            said(f"query {work.number}: {', '.join(work.query.given)}")
    for name in dict.fromkeys(name for work in works for name in work.query.tables()):
        for comment in schema.comments_on(name):
            said(comment[2:])
        if not schema.tables[name].room():
            said(f"table {name} has eight indexes, so no candidate on it is weighed")


def keep(folder: pathlib.Path, works: list[Work], picked: list[Candidate], schema: Schema) -> None:
    """Writes what pgplan was asked."""
    folder.mkdir(parents=True, exist_ok=True)
    names = dict.fromkeys(name for work in works for name in work.query.tables())
    for name, text in [("tables.sql", "".join(schema.tables[table].script() for table in names)),
                       ("indexes.sql", "".join(f"CREATE INDEX {one.ours(PREFIX + str(at))};\n" for at, one in enumerate(picked))),
                       ("queries.sql", "".join(f"EXPLAIN {work.query.text()};\n" for work in works))]:
        (folder / name).write_text(text, encoding="utf-8", errors="surrogateescape")


def words_of_call() -> argparse.Namespace:
    """What the command line asks."""
    parser = argparse.ArgumentParser(usage=(__doc__ or "").split("usage: ")[1].split("\n\n")[0])
    parser.add_argument("database")
    parser.add_argument("queries", nargs="?")
    parser.add_argument("--statements", type=int, default=0)
    parser.add_argument("--schema", default="public")
    parser.add_argument("--most", type=int, choices=range(1, MOST_CANDIDATES + 1), metavar="K", default=4)
    parser.add_argument("--keep", type=pathlib.Path)
    asked = parser.parse_args()
    if bool(asked.queries) == bool(asked.statements):
        parser.error("a file of queries, or --statements N")
    return asked


def main() -> None:
    """Prints the advice."""
    asked = words_of_call()
    schema = Schema(Server(asked.database, asked.schema))
    listed = from_statements(schema.server, asked.statements) if asked.statements else from_file(asked.queries)
    taken, refused = [], []
    for number, (sql, calls) in enumerate(listed, 1):
        try:
            taken.append((number, read_query(sql, schema), calls))
        except Left as fault:
            refused.append(f"query {number} is left out: {fault}: {sql[:70]}")
    works, picked, more = advise(taken, schema, asked.most)
    said(f"{len(works)} of {len(listed)} queries are planned, {sum(len(work.candidates) for work in works)} candidates are weighed, "
         f"at most {asked.most} indexes are named")
    show_indexes(picked, works, schema)
    show_costs(works)
    for table, index in unneeded(works, schema, picked):
        said(f"no query costs more without the index {index.name} on {table.name} ({index.pages * 8} kB)")
    for note in [*refused, *more]:
        said(note)
    show_notes(works, schema)
    if asked.keep:
        keep(asked.keep, works, picked, schema)
    sys.exit(0 if works else 1)


if __name__ == "__main__":
    try:
        main()
    except (Left, Unreachable, OSError, UnicodeError) as fault:
        sys.exit(f"{os.path.basename(sys.argv[0])}: {fault}")
