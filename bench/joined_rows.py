#!/usr/bin/env python3
"""Times pgplan's joins of many rows beside sqlite3's on the same random rows, each in one run of the same machine.

usage: bench/joined_rows.py PROGRAM [ROWS]

PROGRAM is the built pgplan_main. What is compared, each from the start of the process to its end, over tables in memory of
(int8, int8):

- load of both tables without an index, and no query;
- a merge join of ROWS (100,000) by ROWS rows without an index, in ORDER BY of its key;
- a nested loop of a tenth as many outer rows with an index scan inside, over ROWS rows; the statistics say that these are a
  thousand times as many, since a merge join would cost less else.

The plans are printed by an EXPLAIN before the times, so that it is seen that they are these. Of each program the least wall time of
five runs (to 10 ms) and the peak memory by GNU time, with their ratios. Nothing is promised of either.
"""
import pathlib
import random
import subprocess
import sys
import tempfile

from measuring import measure

COPY = "COPY {} FROM STDIN WITH (FORMAT CSV, NULL '\\N');\n{}\\.\n"
MERGED = "SELECT t.a, u.b FROM t, u WHERE t.a = u.a ORDER BY t.a;\n"
NESTED = "SELECT t.b, u.b FROM t, u WHERE t.a = u.a;\n"


def table(name, typed):
    return f"CREATE TABLE {name} (a {typed}, b {typed});\n"


def statistics(name, rows):
    return f"STATISTICS {name} ROWS {rows} PAGES {rows // 200 + 1};\nSTATISTICS {name}.a DISTINCT {rows} NULLS 0;\n"


def rows_of(rng, keys):
    return "".join(f"{key},{rng.randrange(10**6)}\n" for key in keys)


def cases(rng, rows):
    """The name of a case, the rows of the outer table, those that the inner one is said to have, its index and the query, if any."""
    yield "load of two tables", rows, rows, "", ""
    yield "merge join in ORDER BY", rows, rows, "", MERGED
    yield "nested loop with an index scan inside", rows // 10, rows * 1000, "CREATE INDEX u_a ON u (a);\n", NESTED


def main():
    program, rows = sys.argv[1], int(sys.argv[2]) if len(sys.argv) > 2 else 100_000
    version = subprocess.run(["sqlite3", "--version"], capture_output=True, text=True, check=True).stdout.split()[0]
    print(f"{rows} rows, beside sqlite3 {version}")
    rng = random.Random(1)
    keys = rng.sample(range(-10**12, 10**12), rows)
    for name, outer, inner, index, query in cases(rng, rows):
        shuffled = rng.sample(keys, rows)
        data = {"t": rows_of(rng, shuffled[:outer]), "u": rows_of(rng, keys)}
        own = table("t", "int8") + table("u", "int8") + index + "".join(COPY.format(*it) for it in data.items())
        own += statistics("t", outer) + statistics("u", inner)
        if query:
            shown = subprocess.run([program, "run"], input=own + "EXPLAIN " + query, capture_output=True, text=True, check=True).stdout
            print("\n".join(f"    {line}" for line in shown.splitlines()))
        other = table("t", "INTEGER") + table("u", "INTEGER") + index + ".mode csv\n"
        with tempfile.TemporaryDirectory() as folder:
            for at, records in data.items():
                csv = pathlib.Path(folder, f"{at}.csv")
                csv.write_text(records)
                other += f".import {csv} {at}\n"
            ours = measure([program, "run"], own + query)
            theirs = measure(["sqlite3", ":memory:"], other + query)
        print(f"{name}, {sum(map(len, data.values()))} bytes of records")
        print(f"  pgplan:  {ours[0]} s, {ours[1]} KiB")
        print(f"  sqlite3: {theirs[0]} s, {theirs[1]} KiB")
        print(f"  ratio:   {ours[0] / theirs[0]:.2f} of the time, {ours[1] / theirs[1]:.2f} of the memory")


main()
