#!/usr/bin/env python3
"""Times the whole run of a script of three tables, a join of them among its statements, beside psql and a PostgreSQL server.

usage: bench/script.py PROGRAM [SEED]

PROGRAM is the built pgplan_main. The server is the local one to whose database postgres this user may connect (Debian's package
postgresql), with the settings that it comes with. Customers, their orders and the lines of these are defined with an index each,
loaded, and joined for one customer, with ORDER BY. What is compared:

- the script as it stands, with six records;
- the same with as many random records as its statistics tell of, 31,000;
- this with the query of 100 customers.

Both are given the same statements but for STATISTICS, in place of which the server runs ANALYZE, and for its tables, which are
temporary ones. What both write goes to /dev/null: rows, and of pgplan the plan of each query too. Of pgplan the time is that of its
process; of psql that of its process too, with the start of psql, its connection to the running server and the server's work, but
without the start of the server. Memory is that of pgplan's process alone.

Prints which server it is, the seconds of one run of each, the least of five, and their ratio. Nothing is promised of either.
"""
import pathlib
import random
import shlex
import subprocess
import sys
import tempfile

from measuring import measure

PSQL = ["psql", "-X", "-q", "--csv", "-t", "-v", "ON_ERROR_STOP=1"]
COLUMNS = {
    "customers": "id int4 NOT NULL, region int4, name text",
    "orders": "id int4 NOT NULL, customer int4, total int8",
    "lines": "order_id int4, qty int4, item text",
}
INDEXES = {"customers": "id", "orders": "customer", "lines": "order_id"}
ROWS = {"customers": 1_000, "orders": 10_000, "lines": 20_000}
DISTINCT = {"customers.id": 1_000, "orders.customer": 1_000, "orders.id": 10_000, "lines.order_id": 10_000}
SMALL = {"customers": ["7,1,Ann"], "orders": ["1,7,100", "2,7,50"], "lines": ["1,3,pen", "1,1,ink", "2,2,cap"]}
# A run is timed as one of so many in turn, since a time is told to 10 ms: of six records, and of many.
SHORT_TURNS, TURNS = 50, 5


def query(customer):
    return ("SELECT c.name, o.total, l.qty FROM customers c JOIN orders o ON o.customer = c.id JOIN lines l ON l.order_id = o.id "
            f"WHERE c.id = {customer} ORDER BY l.qty;\n")


def many(rng):
    """Random records of each table, as many as the statistics tell of."""
    count = ROWS["customers"]
    return {
        "customers": [f"{n},{rng.randrange(10)},name {n}" for n in range(count)],
        "orders": [f"{n},{n % count},{rng.randrange(10_000)}" for n in rng.sample(range(ROWS["orders"]), ROWS["orders"])],
        "lines": [f"{n % ROWS['orders']},{rng.randrange(1, 100)},item {rng.randrange(500)}" for n in range(ROWS["lines"])],
    }


def statistics():
    yield from (f"STATISTICS {table} ROWS {rows} PAGES {rows // 100};\n" for table, rows in ROWS.items())
    yield from (f"STATISTICS {column} DISTINCT {distinct} NULLS 0;\n" for column, distinct in DISTINCT.items())


def script(records, customers, create, known):
    """The statements, with tables made by these words and with these words of what is known of them."""
    return "".join([
        *(f"{create} {table} ({columns});\n" for table, columns in COLUMNS.items()),
        *(f"CREATE INDEX {table}_{column} ON {table} ({column});\n" for table, column in INDEXES.items()),
        *(f"COPY {table} FROM STDIN WITH (FORMAT CSV, NULL '\\N');\n" + "\n".join([*rows, "\\.\n"]) for table, rows in records.items()),
        *known, *map(query, customers)])


def timed(command, file, turns):
    """Seconds of one of so many runs in turn on this file, and the peak memory in KiB."""
    seconds, peak = measure(["sh", "-c", f"for n in $(seq {turns}); do {shlex.join(command)} <{shlex.quote(str(file))} || exit 1; done"], "")
    return seconds / turns, peak


def main():
    program = str(pathlib.Path(sys.argv[1]).resolve())
    rng = random.Random(int(sys.argv[2]) if len(sys.argv) > 2 else 1)
    version = subprocess.run([*PSQL, "-c", "SHOW server_version", "postgres"], capture_output=True, text=True, check=True)
    print(f"beside psql and PostgreSQL {version.stdout.strip()}")
    scaled = many(rng)
    some = rng.sample(range(ROWS["customers"]), 100)
    for name, records, customers, turns in (("as it stands", SMALL, [7], SHORT_TURNS), ("31,000 records", scaled, [7], TURNS),
                                            ("31,000 records and 100 queries", scaled, some, TURNS)):
        with tempfile.TemporaryDirectory() as folder:
            mine, theirs = pathlib.Path(folder, "mine.sql"), pathlib.Path(folder, "theirs.sql")
            mine.write_text(script(records, customers, "CREATE TABLE", statistics()))
            theirs.write_text(script(records, customers, "CREATE TEMP TABLE", [f"ANALYZE {table};\n" for table in COLUMNS]))
            own, peak = timed([program, "run"], mine, turns)
            other, _ = timed([*PSQL, "-f", "-", "postgres"], theirs, turns)
        print(f"{name}: {1000 * own:.1f} ms and {peak} KiB beside {1000 * other:.1f} ms, ratio {own / other:.3f}")


main()
