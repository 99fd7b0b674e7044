#!/usr/bin/env python3
"""Times the planning of the joins of TPC-H's queries 2, 3, 5, 7, 8, 9 and 10 beside a PostgreSQL server, as ratios of one run.

usage: bench/tpch.py PROGRAM [TURNS [PART]]

PROGRAM is a built pgplan. The server is that of bench/joins.py, with the same settings. Both are given the eight tables of TPC-H with the
columns that the queries name, an index on each primary key, each foreign key and the two dates, and the same queries, each with LIMIT 10
too: the joins, conditions and orders of TPC-H's, without its subqueries, sums and groups, with days for dates and a range for a LIKE.
pgplan is told the sizes of scale 1 (TPC-H specification, section 4.2.5); the server's tables have one row in PART of these (100 where
it is not given), which its ANALYZE reads. Of pgplan the processor time of a run with so many EXPLAINs is taken beside that of one without them, each the
least of three, of the server the least planning time that so many EXPLAINs tell, so that other work on the machine counts for little.
With --script it prints pgplan's script alone. Nothing is promised of it.
"""
import sys

from measuring import planned, planned_by_server

NATIONS = ("ALGERIA ARGENTINA BRAZIL CANADA EGYPT ETHIOPIA FRANCE GERMANY INDIA INDONESIA IRAN IRAQ JAPAN JORDAN KENYA MOROCCO"
           " MOZAMBIQUE PERU CHINA ROMANIA ARABIA VIETNAM RUSSIA KINGDOM STATES").split()
REGIONS = "AFRICA AMERICA ASIA EUROPE MIDEAST".split()
SEGMENTS = "AUTOMOBILE BUILDING FURNITURE HOUSEHOLD MACHINERY".split()
TYPES = [f"{size} {coat} {metal}" for size in "STANDARD SMALL MEDIUM LARGE ECONOMY PROMO".split()
         for coat in "ANODIZED BURNISHED PLATED POLISHED BRUSHED".split() for metal in "TIN NICKEL BRASS STEEL COPPER".split()]
COLORS = "almond azure blue brown coral cream frosted green honey ivory khaki lemon lime linen maroon navy olive peach plum rose".split()

# Each table: its rows and their bytes at scale 1, and its columns. A column is a key, a reference to a table, a number of
# different numbers from 0 on, or a list of texts of equal shares.
TABLES = {
    "region": (5, 124, {"r_regionkey": "key", "r_name": REGIONS}),
    "nation": (25, 128, {"n_nationkey": "key", "n_name": NATIONS, "n_regionkey": "region"}),
    "supplier": (10_000, 159, {"s_suppkey": "key", "s_name": 10_000, "s_nationkey": "nation", "s_acctbal": 9_955}),
    "part": (200_000, 155, {"p_partkey": "key", "p_name": COLORS, "p_type": TYPES, "p_size": 50}),
    "partsupp": (800_000, 144, {"ps_partkey": "part", "ps_suppkey": "supplier", "ps_supplycost": 99_865}),
    "customer": (150_000, 179, {"c_custkey": "key", "c_name": 150_000, "c_nationkey": "nation", "c_mktsegment": SEGMENTS}),
    "orders": (1_500_000, 104, {"o_orderkey": "key", "o_custkey": "customer", "o_orderdate": 2_406}),
    "lineitem": (6_001_215, 112, {"l_orderkey": "orders", "l_partkey": "part", "l_suppkey": "supplier", "l_shipdate": 2_526,
                                  "l_returnflag": ["A", "N", "R"], "l_extendedprice": 933_900}),
}
INDEXES = ["region (r_regionkey)", "nation (n_nationkey)", "nation (n_regionkey)", "supplier (s_suppkey)", "supplier (s_nationkey)",
           "part (p_partkey)", "partsupp (ps_partkey, ps_suppkey)", "partsupp (ps_suppkey)", "customer (c_custkey)",
           "customer (c_nationkey)", "orders (o_orderkey)", "orders (o_custkey)", "orders (o_orderdate)", "lineitem (l_orderkey)",
           "lineitem (l_partkey, l_suppkey)", "lineitem (l_suppkey)", "lineitem (l_shipdate)"]
QUERIES = {
    2: "SELECT s_acctbal, s_name, n_name, p_partkey FROM part, supplier, partsupp, nation, region WHERE p_partkey = ps_partkey"
       " AND s_suppkey = ps_suppkey AND p_size = 15 AND p_type = 'LARGE PLATED BRASS' AND s_nationkey = n_nationkey"
       " AND n_regionkey = r_regionkey AND r_name = 'EUROPE' ORDER BY s_acctbal DESC, n_name, s_name, p_partkey",
    3: "SELECT l_orderkey, l_extendedprice, o_orderdate FROM customer, orders, lineitem WHERE c_mktsegment = 'BUILDING'"
       " AND c_custkey = o_custkey AND l_orderkey = o_orderkey AND o_orderdate < 1170 AND l_shipdate > 1170 ORDER BY o_orderdate",
    5: "SELECT n_name, l_extendedprice FROM customer, orders, lineitem, supplier, nation, region WHERE c_custkey = o_custkey"
       " AND l_orderkey = o_orderkey AND l_suppkey = s_suppkey AND c_nationkey = s_nationkey AND s_nationkey = n_nationkey"
       " AND n_regionkey = r_regionkey AND r_name = 'ASIA' AND o_orderdate >= 731 AND o_orderdate < 1096 ORDER BY n_name",
    7: "SELECT n1.n_name, n2.n_name, l_shipdate, l_extendedprice FROM supplier, lineitem, orders, customer, nation n1, nation n2"
       " WHERE s_suppkey = l_suppkey AND o_orderkey = l_orderkey AND c_custkey = o_custkey AND s_nationkey = n1.n_nationkey"
       " AND c_nationkey = n2.n_nationkey AND (n1.n_name = 'FRANCE' AND n2.n_name = 'GERMANY'"
       " OR n1.n_name = 'GERMANY' AND n2.n_name = 'FRANCE') AND l_shipdate >= 1096 AND l_shipdate <= 1826"
       " ORDER BY n1.n_name, n2.n_name, l_shipdate",
    8: "SELECT o_orderdate, l_extendedprice, n2.n_name FROM part, supplier, lineitem, orders, customer, nation n1, nation n2, region"
       " WHERE p_partkey = l_partkey AND s_suppkey = l_suppkey AND l_orderkey = o_orderkey AND o_custkey = c_custkey"
       " AND c_nationkey = n1.n_nationkey AND n1.n_regionkey = r_regionkey AND r_name = 'AMERICA' AND s_nationkey = n2.n_nationkey"
       " AND o_orderdate >= 1096 AND o_orderdate <= 1826 AND p_type = 'ECONOMY ANODIZED STEEL' ORDER BY o_orderdate",
    9: "SELECT n_name, o_orderdate, l_extendedprice, ps_supplycost FROM part, supplier, lineitem, partsupp, orders, nation"
       " WHERE s_suppkey = l_suppkey AND ps_suppkey = l_suppkey AND ps_partkey = l_partkey AND p_partkey = l_partkey"
       " AND o_orderkey = l_orderkey AND s_nationkey = n_nationkey AND p_name >= 'green' AND p_name < 'greeo'"
       " ORDER BY n_name, o_orderdate DESC",
    10: "SELECT c_custkey, c_name, l_extendedprice, n_name FROM customer, orders, lineitem, nation WHERE c_custkey = o_custkey"
        " AND l_orderkey = o_orderkey AND o_orderdate >= 639 AND o_orderdate < 731 AND l_returnflag = 'R'"
        " AND c_nationkey = n_nationkey ORDER BY c_custkey",
}


def is_text(column, what):
    return isinstance(what, list) or column in ("s_name", "c_name")


def definitions(temporary=""):
    for table, (_, _, columns) in TABLES.items():
        listed = ", ".join(f"{name} {'text' if is_text(name, what) else 'int4'}" for name, what in columns.items())
        yield f"CREATE {temporary}TABLE {table} ({listed});"
    for number, on in enumerate(INDEXES):
        yield f"CREATE INDEX i{number} ON {on};"


def distinct(table, what):
    """How many different values a column has at scale 1."""
    return TABLES[table][0] if what == "key" else TABLES[what][0] if isinstance(what, str) else what if isinstance(what, int) else len(what)


def statistics():
    """What is known of the tables at scale 1, with 28 bytes beside each row's and 8,168 of them to a page."""
    for table, (rows, width, columns) in TABLES.items():
        yield f"STATISTICS {table} ROWS {rows} PAGES {-(-rows // (8168 // (width + 28)))};"
        for name, what in columns.items():
            told = f"STATISTICS {table}.{name} DISTINCT {distinct(table, what)} NULLS 0"
            if isinstance(what, list) and len(what) <= 16:
                told += f" COMMON ({', '.join(f'{text!r} {1_000_000 // len(what)}' for text in what)})"
            elif isinstance(what, list):
                bounds = sorted(what)
                told += f" HISTOGRAM ({', '.join(repr(bounds[len(bounds) * n // 20]) for n in range(20))}, {bounds[-1]!r})"
            elif isinstance(what, int) and not is_text(name, what):
                told += f" HISTOGRAM ({', '.join(str((what - 1) * n // 100) for n in range(101))})"
            yield told + ";"


def filled(part):
    """The rows of the server's tables, and what it knows of them."""
    rows = {table: size if size < 100 else size // part for table, (size, _, _) in TABLES.items()}
    for table, (_, _, columns) in TABLES.items():
        values = []
        for number, (name, what) in enumerate(columns.items()):
            mixed = f"g::int8 * {[7919, 104729, 1299709, 15485863, 32452843, 49979687][number]} / 7"
            if what == "key":
                values.append("g")
            elif isinstance(what, str):
                values.append(f"1 + {mixed} % {rows[what]}")
            elif isinstance(what, list):
                values.append(f"(ARRAY[{', '.join(map(repr, what))}])[1 + {mixed} % {len(what)}]")
            else:
                values.append(f"({mixed} % {what})" + ("::text" if is_text(name, what) else ""))
        yield f"INSERT INTO {table} SELECT {', '.join(values)} FROM generate_series(1, {rows[table]}) g;"
        yield f"ANALYZE {table};"


def ours(program, query, turns):
    """Seconds of one plan."""
    return planned(program, "\n".join([*definitions(), *statistics()]) + "\n", query, turns)


def main():
    if sys.argv[1] == "--script":
        print(*definitions(), *statistics(), *(f"-- query {n}\nEXPLAIN {query};" for n, query in QUERIES.items()), sep="\n")
        return
    turns, part = [*map(int, sys.argv[2:]), *[20, 100][len(sys.argv) - 2:]]
    asked = [(number, query + tail) for number, query in QUERIES.items() for tail in ("", " LIMIT 10")]
    others = planned_by_server("\n".join([*definitions("TEMP "), *filled(part)]) + "\n", [query for _, query in asked], turns)
    for (number, query), other in zip(asked, others):
        mine, relations = ours(sys.argv[1], query, turns), query.split(" WHERE ")[0].count(",") - query.split(" FROM ")[0].count(",") + 1
        window = "with LIMIT 10" if query.endswith(" LIMIT 10") else ""
        print(f"query {number:2}, {relations} relations {window:13}: {1000 * mine:8.2f} ms beside {1000 * other:7.2f} ms, ratio {mine / other:6.2f}")


if __name__ == "__main__":
    main()
