#!/usr/bin/env python3
"""Runs small scripts that were made to stop a machine, each within the processor time and the memory that it may take.

usage: bench/hostile.py PROGRAM [WORD]

PROGRAM is a built pgplan; with WORD only the scripts whose name has it are run. Each script is of at most 100 KB but for those of 2
and of 16 MiB, and is run in an address space of 2 GiB. Prints a line for each: its bytes, the seconds of a processor and the megabytes
at the peak, and what it may take. Status 1 where one takes more or ends with another status than it should. The bounds are about three
times what the proved program takes on a machine that does nothing else, and at most 10 s and 1,000 MB.
"""
import itertools
import os
import resource
import sys
import tempfile
from typing import Iterator, NamedTuple

SPACE = 2 << 30
LEAST_MEGABYTES = 16
MASK = (1 << 64) - 1
# The multipliers and shifts of splitmix64, by which a hash index mixes the bits of a number.
MULTIPLIERS = (13787848793156543929, 10723151780598845931)
COPY = "COPY t FROM STDIN WITH (FORMAT CSV, NULL '\\N');\n"


class Case(NamedTuple):
    """A script with the seconds of a processor, the megabytes and the status that it may end with."""

    name: str
    script: str
    seconds: float
    megabytes: int
    status: int = 0


def joined_tables(count: int, shape: str) -> tuple[str, str]:
    """Tables of growing size with an index on either column, and a SELECT that joins them as a chain or a star."""
    script = ""
    for n in range(count):
        rows = 1000 * (n + 1)
        script += (f"CREATE TABLE t{n} (id int8, fk int8, x int8);\nCREATE INDEX t{n}_id ON t{n} (id);\nCREATE INDEX t{n}_fk ON t{n} (fk);\n"
                   f"STATISTICS t{n} ROWS {rows} PAGES {rows // 100};\nSTATISTICS t{n}.id DISTINCT {rows} NULLS 0;\n"
                   f"STATISTICS t{n}.fk DISTINCT 500 NULLS 0;\n")
    tests = [f"t{n}.id = t{n + 1}.fk" for n in range(count - 1)]
    if shape == "star":
        tests = [f"t0.{'id' if n % 2 else 'fk'} = t{n + 1}.fk" for n in range(count - 1)]
    return script, f"SELECT * FROM {', '.join(f't{n}' for n in range(count))} WHERE {' AND '.join(tests)}"


def one_table(rows: int, indexes: list[str]) -> str:
    """A table of twelve columns with these indexes."""
    columns = ", ".join(f"c{n} int8" for n in range(12))
    script = f"CREATE TABLE t ({columns});\nSTATISTICS t ROWS {rows} PAGES {max(1, rows // 100)};\n"
    return script + "".join(f"CREATE INDEX i{n} ON t ({keys});\n" for n, keys in enumerate(indexes))


def self_joins(count: int, tests: list[str], tail: str = "", head: str = "EXPLAIN") -> str:
    """A SELECT over so many aliases of the table."""
    return f"{head} SELECT r0.c0 FROM {', '.join(f't r{n}' for n in range(count))} WHERE {' AND '.join(tests)}{tail};\n"


def own_columns(count: int, most: int) -> list[str]:
    """Equalities of pairs of aliases, each on columns of its own."""
    used, tests = [0] * count, []
    for a, b in list(itertools.combinations(range(count), 2))[:most]:
        tests.append(f"r{a}.c{used[a] % 12} = r{b}.c{used[b] % 12}")
        used[a], used[b] = used[a] + 1, used[b] + 1
    return tests


def star_of_equalities(count: int, each: int) -> list[str]:
    """Equalities of one alias with each other, so many with each."""
    return [f"r0.c{(n * each + k) % 12} = r{n + 1}.c{k}" for n in range(count - 1) for k in range(each)]


def nested(levels: int) -> str:
    """A partial index whose condition and a WHERE that alternate AND and OR to this depth."""
    where, condition = "x = 1", "z = 9"
    for _ in range(levels):
        where, condition = f"x = 1 AND (y = 5 OR {where})", f"y > 0 OR x > 0 AND ({condition})"
    return f"CREATE TABLE t (x int8, y int8, z int8);\nCREATE INDEX i ON t (x) WHERE {condition};\nEXPLAIN SELECT * FROM t WHERE {where};\n"


def unshifted(number: int, shift: int) -> int:
    """The number that gives this one when it is joined with itself shifted."""
    found = number
    for _ in range(64 // shift + 1):
        found = number ^ (found >> shift)
    return found & MASK


def unmixed(hashed: int) -> int:
    """The int8 that a hash index mixes to this number."""
    number = unshifted(hashed, 31)
    for multiplier, shift in ((MULTIPLIERS[1], 27), (MULTIPLIERS[0], 30)):
        number = unshifted(number * pow(multiplier, -1, 1 << 64) & MASK, shift)
    return number - (1 << 64) if number >> 63 else number


def flood(rows: int) -> str:
    """Values that one bucket of a hash index takes all of."""
    values = "".join(f"{unmixed(n << 20)}\n" for n in range(rows))
    return f"CREATE TABLE t (a int8);\nCREATE INDEX h ON t USING hash (a);\n{COPY}{values}\\.\n"


def wide_groups(stars: int) -> str:
    """GROUP BY all 320 columns of ten relations, with so many stars."""
    columns = ", ".join(f"c{n} int8" for n in range(32))
    keys = ", ".join(f"r{r}.c{n}" for r in range(10) for n in range(32))
    relations = ", ".join(f"t r{r}" for r in range(10))
    return f"CREATE TABLE t ({columns});\nEXPLAIN SELECT {', '.join(['*'] * stars)} FROM {relations} GROUP BY {keys};\n"


def planning() -> Iterator[Case]:
    """Scripts that make a plan dear."""
    for count, shape, seconds in ((8, "chain", 0.5), (10, "chain", 1), (8, "star", 0.5), (10, "star", 2)):
        script, select = joined_tables(count, shape)
        yield Case(f"{shape} of {count} with LIMIT", f"{script}EXPLAIN {select} LIMIT 10;\n", seconds, LEAST_MEGABYTES)
    pairs = [f"c{n}, c{(n + 1) % 8}" for n in range(8)]
    keys = " ORDER BY r0.c0, r1.c1, r2.c2 LIMIT 1"
    for count in (6, 7):
        yield Case(f"self-joins of {count} with LIMIT", one_table(10000, pairs) + self_joins(count, own_columns(count, 32), keys), 10, 100)
    ones = [f"c{n}" for n in range(8)]
    yield Case("star of ten tables of one row", one_table(1, ones) + self_joins(10, star_of_equalities(10, 3)), 10, 100)
    yield Case("table of nine relations", one_table(10000, ones) + self_joins(9, own_columns(9, 32), head="EXPLAIN (TABLE)"), 10, 1000)
    for levels in (22, 31):
        yield Case(f"implication of {levels} levels", nested(levels), 3, LEAST_MEGABYTES)
    tests = " AND ".join(f"c{n} = {n}" for n in range(8))
    many = f"EXPLAIN SELECT * FROM t WHERE {tests};\n" * 100
    yield Case("100 plans over 8 indexes", one_table(10000, ones) + many, 0.5, LEAST_MEGABYTES)


def reading() -> Iterator[Case]:
    """Scripts that make reading dear."""
    yield Case("GROUP BY with 10 stars", wide_groups(10), 0.5, 32)
    yield Case("GROUP BY with 10,000 stars", wide_groups(10000), 3, 300)
    names = "b, " * 24999 + "b"
    keys = "a, " * 24999 + "a, b"
    yield Case("GROUP BY of 25,000 names", f"CREATE TABLE t (a int8, b int8);\nEXPLAIN SELECT {names} FROM t GROUP BY {keys};\n", 1, 64)
    yield Case("8,000,000 literals of IN", f"CREATE TABLE t (a int8);\nSELECT a FROM t WHERE a IN ({'1,' * 7999999}1);\n", 15, 1200, 3)
    yield Case("2,700,000 parts of OR", f"CREATE TABLE t (c bool);\nSELECT c FROM t WHERE {'c OR ' * 2699999}c;\n", 10, 1000, 3)
    yield Case("8,000,000 bounds", f"CREATE TABLE t (a int8);\nSTATISTICS t.a DISTINCT 9 NULLS 0 HISTOGRAM ({'1,' * 7999999}1);\n", 10, 1000, 3)


def loading() -> Iterator[Case]:
    """Scripts that make rows dear."""
    yield Case("flood of a hash index", flood(10000), 3, 64)
    each = "".join(f"{COPY}{n}\n\\.\n" for n in range(1500))
    yield Case("1,500 COPYs under an index", f"CREATE TABLE t (a int8);\nCREATE INDEX i ON t (a);\n{each}", 1, 32)


def run(program: str, script: str) -> tuple[int, float, int]:
    """The status, seconds of a processor and megabytes at the peak of a run."""
    with tempfile.TemporaryFile() as text:
        text.write(script.encode())
        text.seek(0)
        child = os.fork()
        if child == 0:
            resource.setrlimit(resource.RLIMIT_AS, (SPACE, SPACE))
            resource.setrlimit(resource.RLIMIT_CPU, (120, 120))
            nothing = os.open(os.devnull, os.O_WRONLY)
            os.dup2(text.fileno(), 0)
            os.dup2(nothing, 1)
            os.dup2(nothing, 2)
            os.execv(program, [program, "run"])
    _, status, used = os.wait4(child, 0)
    return os.waitstatus_to_exitcode(status), used.ru_utime + used.ru_stime, used.ru_maxrss >> 10


def main() -> int:
    """Runs each case and tells which took too much."""
    if len(sys.argv) not in (2, 3):
        print(__doc__, file=sys.stderr)
        return 2
    program, word = os.path.realpath(sys.argv[1]), sys.argv[2] if len(sys.argv) == 3 else ""
    wrong = 0
    for case in itertools.chain(planning(), reading(), loading()):
        if word not in case.name:
            continue
        status, seconds, megabytes = run(program, case.script)
        within = status == case.status and seconds <= case.seconds and megabytes <= case.megabytes
        wrong += not within
        print(f"{case.name:32} {len(case.script):9} bytes  {seconds:6.2f} s of {case.seconds:4}  {megabytes:5} MB of {case.megabytes:4}"
              f"{'' if within else f'  TOO MUCH, status {status}'}", flush=True)
    print(f"hostile: {wrong} took too much")
    return 1 if wrong else 0


if __name__ == "__main__":
    sys.exit(main())
