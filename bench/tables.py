#!/usr/bin/env python3
"""Times EXPLAIN (TABLE) of chains, stars and cliques of 4, 6 and 8 relations, and CHECK of its lines, beside EXPLAIN of the same.

usage: bench/tables.py PROGRAM [SIZE ..]

PROGRAM is a built pgplan. Tables and queries are those of bench/joins.py: 1,000 rows each and an index on each column that joins.
For each query it tells the entries of the certificate, its bytes, the wall time of EXPLAIN (TABLE), of EXPLAIN alone and of CHECK, all
with the tables' own statements, and the peak memory so far. CHECK has to print `valid`. Nothing is promised of a time.
"""
import resource
import subprocess
import sys
import time

import joins


def script_of(pairs, count):
    script = "\n".join(joins.tables(pairs, count)) + "\n"
    for n in range(count):
        script += f"STATISTICS t{n} ROWS 1000 PAGES 10;\n"
        script += "".join(f"STATISTICS t{n}.{name} DISTINCT 1000 NULLS 0;\n" for name in joins.columns_of(pairs, n))
    return script


def timed(program, text):
    start = time.perf_counter()
    ran = subprocess.run([program, "run"], input=text.encode(), capture_output=True)
    assert ran.returncode == 0, ran.stderr
    return ran.stdout, time.perf_counter() - start


def main():
    program, sizes = sys.argv[1], [int(size) for size in sys.argv[2:]] or [4, 6, 8]
    for shape in ("chain", "star", "clique"):
        for count in sizes:
            pairs = joins.joins(shape, count)
            script, query = script_of(pairs, count), joins.query(pairs, count)
            plain, short = timed(program, script + f"EXPLAIN {query};\n")
            out, long = timed(program, script + f"EXPLAIN (TABLE) {query};\n")
            lines = out.split(b"\n")
            entries = [line for line in lines if line[:1].isdigit()]
            block = b"".join(line + b"\n" for line in [*entries, *lines[-3:-1]])
            verdict, checked = timed(program, script + f"CHECK {query};\n" + block.decode())
            assert verdict == b"valid\n", verdict[:200]
            peak = resource.getrusage(resource.RUSAGE_CHILDREN).ru_maxrss // 1024
            print(f"{shape:6} {count} relations: {len(entries):7} entries, {len(out) / 1024:9.1f} KiB, table {1000 * long:9.1f} ms, plan alone "
                  f"{1000 * short:8.1f} ms, check {1000 * checked:9.1f} ms, at most {peak} MB so far", flush=True)


main()
