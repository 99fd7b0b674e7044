#!/usr/bin/env python3
"""Times pgplan beside sqlite3 on the same 100,000 random rows, each in one run of the same machine.

usage: bench/rows.py PROGRAM [ROWS]

PROGRAM is the built pgplan_main. What is compared, each from the start of the process to its end:

- load: a script of CREATE TABLE and COPY of (int4, int8, text) with a tenth of NULLs, beside sqlite3's `.import` of the same
  records from a file into a table in memory;
- load and select: CREATE TABLE, COPY of one int8 column and SELECT of all rows, beside `.import` and SELECT with their count.

Prints which sqlite3 it is, and of each program the least wall time of five runs (to 10 ms) and the peak memory by GNU time, with
their ratios. Nothing is promised of either.
"""
import pathlib
import random
import subprocess
import sys
import tempfile

from measuring import measure

HEAD = "COPY t FROM STDIN WITH (FORMAT CSV, NULL '\\N');\n"


def record(rng):
    word = "".join(rng.choice("abcdefgh ,\"") for _ in range(rng.randint(0, 20)))
    fields = (str(rng.randint(-2**31, 2**31 - 1)), str(rng.randint(-2**63, 2**63 - 1)), '"' + word.replace('"', '""') + '"')
    return ",".join("\\N" if rng.random() < 0.1 else field for field in fields) + "\n"


def cases(rng, rows):
    """The name of a case, its records, and for both programs what stands before them and after them."""
    three = "".join(record(rng) for _ in range(rows))
    yield "load", three, "CREATE TABLE t (a int4, b int8, c text);\n", "", "CREATE TABLE t (a INTEGER, b INTEGER, c TEXT);\n", ""
    one = "".join(f"{rng.randrange(10 ** 18)}\n" for _ in range(rows))
    both = "SELECT * FROM t;\n"
    yield "load and select", one, "CREATE TABLE t (a int8);\n", both, "CREATE TABLE t (a INTEGER);\n", both + "SELECT count(*) FROM t;\n"


def main():
    program, rows = sys.argv[1], int(sys.argv[2]) if len(sys.argv) > 2 else 100_000
    version = subprocess.run(["sqlite3", "--version"], capture_output=True, text=True, check=True).stdout.split()[0]
    print(f"{rows} rows, beside sqlite3 {version}")
    for name, data, before, after, other_before, other_after in cases(random.Random(1), rows):
        with tempfile.TemporaryDirectory() as folder:
            csv = pathlib.Path(folder, "rows.csv")
            csv.write_text(data)
            own = measure([program, "run"], before + HEAD + data + "\\.\n" + after)
            other = measure(["sqlite3", ":memory:"], f"{other_before}.mode csv\n.import {csv} t\n{other_after}")
        print(f"{name}: {len(data)} bytes of records")
        print(f"  pgplan:  {own[0]} s, {own[1]} KiB")
        print(f"  sqlite3: {other[0]} s, {other[1]} KiB")
        print(f"  ratio:   {own[0] / other[0]:.2f} of the time, {own[1] / other[1]:.2f} of the memory")


main()
