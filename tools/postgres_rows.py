#!/usr/bin/env python3
"""Compares the rows of random queries of up to four relations, some of which group, as bags, with those of a PostgreSQL server.

usage: tools/postgres_rows.py PROGRAM [COUNT [SEED]]

PROGRAM is a built pgplan. The server is the local one to whose database postgres this user may connect (Debian's package postgresql).
COUNT scripts (200 where it is not given) have tables with data, indexes in pgplan alone, statistics, and queries without the
operators of absolute value, which the server has not. Prints each difference, and last how many queries agreed and did not.
"""
import collections
import csv
import random
import subprocess
import sys

sys.dont_write_bytecode = True
from random_scripts import typed
from random_scripts.definitions import column_statistics, create, create_index, sizes
from random_scripts.parts import Table, spaced
from random_scripts.queries import grouped_select, is_large, plain_select


def table_of(rng, name):
    names = ["a", "b", "c", "d"][:rng.choice([1, 2, 3, 4])]
    kinds = ["int2", "int4", "int8", "int4", "text", "bool", *typed.KINDS] if rng.random() < 0.5 else ["int4", "date", "numeric(10,2)", "uuid"]
    return Table(name, [(n, rng.choice(kinds), rng.random() < 0.2) for n in names])


def value(rng, kind, not_null):
    if not not_null and rng.random() < 0.15:
        return "\\N"
    if kind in typed.KINDS:
        return typed.right(rng, kind)
    if kind == "bool":
        return rng.choice("tf")
    return str(rng.choice(["x", "ab", "Ann", "z"])) if kind == "text" else str(rng.choice([-1, 0, 1, 2, 3, 7, rng.randrange(100)]))


def records(rng, table, count):
    return [",".join(value(rng, kind, not_null) for _, kind, not_null in table.columns) for _ in range(count)]


def without_sizes(words):
    """The words of a query, where it has no operator of absolute value and no text at a limit."""
    return None if any("|" in w or len(w) > 100 for w in words) else words


def script(rng):
    """What pgplan and the server are given first, and the queries."""
    mine, theirs, tables = [], [], []
    for number in range(rng.choice([1, 2, 3])):
        table = table_of(rng, f"t{number}")
        rows = records(rng, table, rng.choice([0, 1, 3, 8, 12]))
        table.rows = len(rows)
        tables.append(table)
        plain = " ".join(create(rng, table)) + ";\n"
        data = f"COPY {table.name} FROM STDIN WITH (FORMAT CSV, NULL '\\N');\n" + "".join(r + "\n" for r in rows) + "\\.\n"
        mine += [plain, data]
        theirs += ["CREATE TEMP " + plain.split(None, 1)[1], data]
        for n in range(rng.choice([0, 1, 2, 3])):
            mine.append(spaced(rng, create_index(rng, table, f"i{number}{n}")) + ";\n")
        mine += [spaced(rng, s(rng, table)) + ";\n" for s in rng.sample([sizes, column_statistics], rng.choice([0, 1, 2]))]
    queries = []
    while len(queries) < 5:
        made, relations = grouped_select(rng, tables) if rng.random() < 0.4 else plain_select(rng, tables, (1, 2, 2, 2, 3, 3, 4))
        words = without_sizes(made)
        if words and not is_large(relations):
            queries.append(" ".join(words))
    return "".join(mine), "".join(theirs), queries


def mine_of(program, head, queries):
    """The rows of each query by pgplan, None where it has no admissible plan or is past a limit."""
    found = []
    for query in queries:
        ran = subprocess.run([program, "run"], input=(head + query + ";\n").encode(), capture_output=True)
        if ran.stderr.startswith((b"ERROR 54001", b"ERROR 54000")):
            found.append(None)
            continue
        assert ran.returncode == 0, (ran.stderr, query)
        lines = ran.stdout.decode().split("\n")
        plan = sum("(cost=" in line or line.lstrip(" ->").startswith(("Bitmap", "BitmapAnd", "BitmapOr")) for line in lines)
        found.append(collections.Counter(map(tuple, csv.reader(lines[plan:-2]))))
    return found


def theirs_of(head, queries):
    """The rows of each query by the server."""
    text = "SET datestyle = ISO; SET timezone = UTC;\n" + head
    for number, query in enumerate(queries):
        text += f"COPY ({query}) TO STDOUT WITH (FORMAT CSV, NULL '\\N');\n\\echo == {number}\n"
    ran = subprocess.run(["psql", "-X", "-q", "-v", "ON_ERROR_STOP=1", "postgres"], input=text, capture_output=True, text=True)
    assert ran.returncode == 0, (ran.stderr, text)
    parts, found = ran.stdout, []
    for number in range(len(queries)):
        rows, parts = parts.split(f"== {number}\n", 1)
        found.append(collections.Counter(map(tuple, csv.reader(rows.splitlines()))))
    return found


def main():
    program = sys.argv[1]
    count = int(sys.argv[2]) if len(sys.argv) > 2 else 200
    rng = random.Random(int(sys.argv[3]) if len(sys.argv) > 3 else 1)
    agreed = failed = 0
    for _ in range(count):
        head, other, queries = script(rng)
        for query, a, b in zip(queries, mine_of(program, head, queries), theirs_of(other, queries)):
            if a is None:
                continue
            if a == b:
                agreed += 1
            else:
                failed += 1
                print(f"{head}{query}\n  {dict(a - b)} more here, {dict(b - a)} more there")
    print(f"{agreed} queries agreed, {failed} did not")
    sys.exit(1 if failed else 0)


main()
