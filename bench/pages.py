#!/usr/bin/env python3
"""Times pgplan's indexes beside sqlite3's on the same 100,000 int8 values, each in one run of the same machine.

usage: bench/pages.py PROGRAM [ROWS]

PROGRAM is the built pgplan_main. An index stands on an empty table in memory, a B-tree or a hash index of pgplan beside the
B-tree of sqlite3. Compared, each from the start of the process to its end, with rising, falling and random values:

- at once: one COPY of all rows, beside one INSERT of as many;
- in pieces: a COPY of each 100 rows, beside an INSERT of as many;
- at once, then each value sought by a SELECT of its own.

Prints which sqlite3 it is, and of each program the least wall time of five runs (to 10 ms) and the peak memory by GNU time, with
their ratios. Nothing is promised of either.
"""
import random
import subprocess
import sys

from measuring import measure

PIECE = 100


def pieces(values, size):
    return [values[first:first + size] for first in range(0, len(values), size)]


def copied(values):
    """The COPY of so many rows."""
    return "COPY t FROM STDIN WITH (FORMAT CSV, NULL '\\N');\n" + "".join(f"{value}\n" for value in values) + "\\.\n"


def inserted(values):
    return "INSERT INTO t VALUES " + ",".join(f"({value})" for value in values) + ";\n"


def sought(values):
    return "".join(f"SELECT a FROM t WHERE a = {value};\n" for value in values)


def cases(values):
    """The name of a case, and for both programs what comes behind the empty table and its index."""
    known = f"STATISTICS t ROWS {len(values)} PAGES {len(values) // 100};\nSTATISTICS t.a DISTINCT {len(values)} NULLS 0;\n"
    asked = sought(random.Random(2).sample(values, len(values)))
    few = pieces(values, PIECE)
    yield "at once", copied(values), inserted(values)
    yield f"in pieces of {PIECE}", "".join(map(copied, few)), "BEGIN;\n" + "".join(map(inserted, few)) + "COMMIT;\n"
    yield "at once, then each sought", copied(values) + known + asked, inserted(values) + asked


def orders(rows):
    """Values by the order in which they come."""
    rising = sorted(random.Random(1).sample(range(-10**18, 10**18), rows))
    yield "rising", rising
    yield "falling", rising[::-1]
    yield "random", random.Random(3).sample(rising, rows)


def main():
    program, rows = sys.argv[1], int(sys.argv[2]) if len(sys.argv) > 2 else 100_000
    version = subprocess.run(["sqlite3", "--version"], capture_output=True, text=True, check=True).stdout.split()[0]
    print(f"{rows} rows, beside sqlite3 {version}")
    for order, values in orders(rows):
        for name, own_text, other_text in cases(values):
            other = measure(["sqlite3", ":memory:"], "CREATE TABLE t (a INTEGER);\nCREATE INDEX t_a ON t (a);\n" + other_text)
            print(f"{order} values, {name}")
            print(f"  sqlite3:      {other[0]} s, {other[1]} KiB")
            for method in ("btree", "hash"):
                own = measure([program, "run"], f"CREATE TABLE t (a int8);\nCREATE INDEX t_a ON t USING {method} (a);\n" + own_text)
                print(f"  {method + ':':<13} {own[0]} s, {own[1]} KiB; {own[0] / other[0]:.2f} of the time, {own[1] / other[1]:.2f} of the memory")


main()
