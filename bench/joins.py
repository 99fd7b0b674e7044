#!/usr/bin/env python3
"""Times the planning of chains and stars of 4, 6, 8 and 10 relations, and of cliques up to 8, beside a PostgreSQL server.

usage: bench/joins.py PROGRAM [TURNS]

PROGRAM is a built pgplan. The server is the local one to whose database postgres this user may connect (Debian's package postgresql),
with hash joins, materialisation, memoisation, incremental sorts, parallel plans and the genetic search off, and collapse limits of 12.
Each table has 1,000 rows and an index on each column that joins. Each query is planned as it stands, with LIMIT 10, and with ORDER BY
and LIMIT 10. Of pgplan the processor time of a run with so many EXPLAINs is taken beside that of one without them, each the least of
three, of the server the least planning time that so many EXPLAINs tell, so that other work on the machine counts for little. Nothing is
promised of it.
"""
import resource
import sys

from measuring import planned, planned_by_server

SIZES = (4, 6, 8, 10)
# A clique of more has more conditions than a query may have.
LARGEST_CLIQUE = 8
TAILS = ("", " LIMIT 10", " ORDER BY t0.id LIMIT 10")


def joins(shape, count):
    """The pairs of relations that a shape joins."""
    if shape == "chain":
        return [(n, n + 1) for n in range(count - 1)]
    if shape == "star":
        return [(0, n) for n in range(1, count)]
    return [(a, b) for a in range(count) for b in range(a + 1, count)]


def column(a, b):
    return f"c{a}{b}"


def columns_of(pairs, n):
    return ["id"] + [column(a, b) for a, b in pairs if n in (a, b)]


def query(pairs, count):
    tests = " AND ".join(f"t{a}.{column(a, b)} = t{b}.{column(a, b)}" for a, b in pairs)
    return f"SELECT t0.id FROM {', '.join(f't{n}' for n in range(count))} WHERE {tests}"


def tables(pairs, count):
    for n in range(count):
        names = columns_of(pairs, n)
        yield f"CREATE TABLE t{n} ({', '.join(name + ' int4' for name in names)});"
        for name in names[1:9]:
            yield f"CREATE INDEX t{n}{name} ON t{n} ({name});"


def ours(program, pairs, count, turns):
    """Seconds of one plan, with each of the tails."""
    script = "\n".join(tables(pairs, count)) + "\n"
    for n in range(count):
        script += f"STATISTICS t{n} ROWS 1000 PAGES 10;\n"
        script += "".join(f"STATISTICS t{n}.{name} DISTINCT 1000 NULLS 0;\n" for name in columns_of(pairs, n))
    return [planned(program, script, query(pairs, count) + tail, turns) for tail in TAILS]


def theirs(pairs, count, turns):
    """Seconds of one plan by the server, with each of the tails."""
    text = "\n".join(tables(pairs, count)).replace("CREATE TABLE", "CREATE TEMP TABLE") + "\n"
    for n in range(count):
        names = columns_of(pairs, n)
        text += f"INSERT INTO t{n} SELECT {', '.join('g' for _ in names)} FROM generate_series(1, 1000) g;\nANALYZE t{n};\n"
    return planned_by_server(text, [query(pairs, count) + tail for tail in TAILS], turns)


def main():
    program = sys.argv[1]
    turns = int(sys.argv[2]) if len(sys.argv) > 2 else 5
    for shape in ("chain", "star", "clique"):
        for count in SIZES:
            if shape == "clique" and count > LARGEST_CLIQUE:
                continue
            pairs = joins(shape, count)
            for tail, mine, other in zip(TAILS, ours(program, pairs, count, turns), theirs(pairs, count, turns)):
                print(f"{shape:6} {count} relations{tail:24}: {1000 * mine:9.2f} ms beside {1000 * other:8.2f} ms, ratio {mine / other:6.2f}",
                      flush=True)
    print(f"most memory of a run: {resource.getrusage(resource.RUSAGE_CHILDREN).ru_maxrss // 1024} MB")


if __name__ == "__main__":
    main()
