#!/usr/bin/env python3
"""Times an ADVISE that weighs ten candidates for sixteen queries, each a join of four tables.

usage: bench/advise.py PROGRAM

PROGRAM is a built pgplan. The tables are orders, items, articles and customers of 10,000 to 1,000,000 rows, told by STATISTICS; the
queries join all four and differ in their conditions. Every query reads each table, so that each is priced with all 1,024 sets of
candidates, and planned with those at which the plan of another set does not serve. Printed are the seconds of the whole run and its peak memory, for several numbers of candidates. Nothing is promised of it.
"""
import sys

from measuring import measure

TABLES = {
    "customers": (10_000, ["id", "region", "since", "kind"]),
    "orders": (100_000, ["id", "customer", "placed", "status"]),
    "items": (1_000_000, ["orderid", "article", "price", "amount"]),
    "articles": (20_000, ["id", "maker", "class", "weight"]),
}
CANDIDATES = [("customers", "id"), ("customers", "region"), ("orders", "customer"), ("orders", "placed"), ("orders", "id"),
              ("items", "orderid"), ("items", "article"), ("items", "price"), ("articles", "id"), ("articles", "maker")]
TESTS = ["c.region = 3", "c.since > 900", "o.placed > 990", "o.status = 2", "i.price < 10", "i.amount = 7", "a.maker = 5", "a.class = 1"]


def statistics():
    for name, (rows, columns) in TABLES.items():
        yield f"CREATE TABLE {name} ({', '.join(column + ' int4 NOT NULL' for column in columns)});"
        yield f"STATISTICS {name} ROWS {rows} PAGES {rows // 100};"
        for place, column in enumerate(columns):
            yield f"STATISTICS {name}.{column} DISTINCT {rows if place == 0 else 1000} NULLS 0;"


def query(n):
    tests = {TESTS[n % 8], TESTS[(3 * n + 1) % 8], TESTS[(n // 8 + 5 * n + 2) % 8]}
    return ("SELECT c.id, i.price FROM customers c, orders o, items i, articles a WHERE o.customer = c.id AND i.orderid = o.id AND "
            f"a.id = i.article AND {' AND '.join(sorted(tests))}")


def main():
    program = sys.argv[1]
    print("candidates  queries   seconds       MB")
    for candidates, queries in ((0, 16), (4, 16), (7, 16), (10, 1), (10, 16)):
        listed = ", ".join(f"i{n} ON {table} ({column})" for n, (table, column) in enumerate(CANDIDATES[:max(candidates, 1)]))
        asked = " ".join(f"({query(n)})" for n in range(queries))
        text = "\n".join(statistics()) + f"\nADVISE {candidates} ({listed}) {asked};\n"
        seconds, kibibytes = measure([program, "run"], text)
        print(f"{candidates:10}  {queries:7}  {seconds:8.2f} {kibibytes / 1024:8.1f}")


if __name__ == "__main__":
    main()
