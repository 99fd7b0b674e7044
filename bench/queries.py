#!/usr/bin/env python3
"""Times pgplan with indexes and orders beside sqlite3 on the same 100,000 random rows, each in one run of the same machine.

usage: bench/queries.py PROGRAM [ROWS]

PROGRAM is the built pgplan_main. What is compared, each from the start of the process to its end, over a table in memory of
(int8, int8, text):

- load with three indexes, which stand before the rows come;
- 1,000 SELECTs of one value each, by an index, after such a load with that index;
- ORDER BY of all rows without an index, and with one that has every column that is named.

Prints which sqlite3 it is, and of each program the least wall time of five runs (to 10 ms) and the peak memory by GNU time, with
their ratios. Nothing is promised of either.
"""
import pathlib
import random
import subprocess
import sys
import tempfile

from measuring import measure

HEAD = "COPY t FROM STDIN WITH (FORMAT CSV, NULL '\\N');\n"
TABLE = "CREATE TABLE t (a int8, b int8, c text);\n"
OTHER = "CREATE TABLE t (a INTEGER, b INTEGER, c TEXT);\n"


def index(column):
    return f"CREATE INDEX t_{column} ON t ({column});\n"


def known(rows):
    """Statistics by which a value is sought in an index."""
    return f"STATISTICS t ROWS {rows} PAGES {rows // 100};\nSTATISTICS t.a DISTINCT {rows} NULLS 0;\n"


def cases(rng, rows, values):
    """The name of a case, and for both programs what stands before the records and after them."""
    three = "".join(map(index, "abc"))
    yield "load with three indexes", TABLE + three, "", OTHER + three, ""
    seek = "".join(f"SELECT * FROM t WHERE a = {value};\n" for value in rng.sample(values, min(1000, rows)))
    yield "1,000 SELECTs of a value", TABLE + index("a"), known(rows) + seek, OTHER + index("a"), seek
    order = "SELECT a FROM t ORDER BY a;\n"
    yield "ORDER BY without an index", TABLE, order, OTHER, order
    yield "ORDER BY with an index", TABLE + index("a"), known(rows) + order, OTHER + index("a"), order


def main():
    program, rows = sys.argv[1], int(sys.argv[2]) if len(sys.argv) > 2 else 100_000
    version = subprocess.run(["sqlite3", "--version"], capture_output=True, text=True, check=True).stdout.split()[0]
    print(f"{rows} rows, beside sqlite3 {version}")
    rng = random.Random(1)
    values = [rng.randrange(-10**18, 10**18) for _ in range(rows)]
    data = "".join(f"{value},{rng.randrange(10**6)},w{rng.randrange(10**5)}\n" for value in values)
    print(f"{len(data)} bytes of records")
    for name, before, after, other_before, other_after in cases(rng, rows, values):
        with tempfile.TemporaryDirectory() as folder:
            csv = pathlib.Path(folder, "rows.csv")
            csv.write_text(data)
            own = measure([program, "run"], before + HEAD + data + "\\.\n" + after)
            other = measure(["sqlite3", ":memory:"], f"{other_before}.mode csv\n.import {csv} t\n{other_after}")
        print(name)
        print(f"  pgplan:  {own[0]} s, {own[1]} KiB")
        print(f"  sqlite3: {other[0]} s, {other[1]} KiB")
        print(f"  ratio:   {own[0] / other[0]:.2f} of the time, {own[1] / other[1]:.2f} of the memory")


main()
