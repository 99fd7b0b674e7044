#!/usr/bin/env python3
"""Compares the texts of dates, timestamps, numerics and uuids that pgplan takes and prints with those of a PostgreSQL server.

usage: tools/check_texts.py PROGRAM [COUNT [SEED]]

PROGRAM is a built pgplan. tools/own_server.py says what is needed. It is no part of the gate. Of each type COUNT random texts (3,000 where
it is not given) are asked of both, right ones and many that are nearly so. What is checked:

- Each text that pgplan takes the server takes too, and prints in the same way.
- Both sort the values in the same order.
- Each text that pgplan refuses as out of range the server refuses too, but for the differences that docs/FROM-POSTGRES.md lists: hour 24,
  second 60, a value in UTC outside of the years 1 to 9999, and digits behind the point that a numeric does not have.
- 100,000 days from the first to the last come back as the texts that they went in as, and in order.

Prints each difference, how many texts were taken and refused on both sides with an example of each, and last the number of checks that
passed and failed.
"""
from __future__ import annotations

import collections
import pathlib
import random
import re
import subprocess
import sys

sys.dont_write_bytecode = True
sys.path.insert(0, str(pathlib.Path(__file__).resolve().parent.parent))
from own_server import Checks, Psql, newest, server
from random_scripts import typed

TYPES = ("date", "timestamp", "timestamptz", "uuid", "numeric(10,2)", "numeric(4,0)", "numeric(18,9)", "numeric(3,3)", "numeric(18,0)")
FAULT = re.compile(rb"ERROR (\w{5}) at \d+: .*, record (\d+) column a\n")
FUNCTION = """CREATE FUNCTION pg_temp.reads(kind text, x text) RETURNS text LANGUAGE plpgsql AS $$
DECLARE printed text;
BEGIN
    EXECUTE 'SELECT ' || quote_literal(x) || '::' || kind || '::text' INTO printed;
    RETURN 'ok ' || printed;
EXCEPTION WHEN OTHERS THEN RETURN SQLSTATE;
END $$;"""
COPY = "COPY {} FROM STDIN WITH (FORMAT CSV, NULL '\\N');\n"
OUT_OF_RANGE = b"22003"
REFUSED_RANGES = ("22003", "22008", "22009")
LETTERS = "0123456789" * 2 + " -:.TZ+/xtz\te,_"
DAYS = 100_000


def alternatives(rng: random.Random, kind: str) -> str:
    """A text of parts that are right, at an end of their range or past it, written in one of the ways in which people write them."""
    year, month, day = rng.choice([0, 1, 4, 100, 1582, 1900, 2000, 2023, 2024, 9999, 10000]), rng.randrange(14), rng.choice([0, 1, 28, 29, 30, 31, 32])
    hour, minute, second = rng.choice([0, 9, 12, 23, 24, 25]), rng.choice([0, 5, 59, 60]), rng.choice([0, 7, 59, 60, 61])
    date = rng.choice([f"{year:04}-{month:02}-{day:02}"] * 8 + [
        f"{year}-{month}-{day}", f"{year:04}{month:02}{day:02}", f"{month:02}/{day:02}/{year:04}", f"{day:02}-Feb-{year}", f"{year:04}-{month:02}",
        f"{year:04}-{month:02}-{day:02} BC", f"{year:05}-{month:02}-{day:02}", f"+{year:04}-{month:02}-{day:02}", f"{year:04}-{day + 200}"])
    fraction = "." + "".join(rng.choice("0123459") for _ in range(rng.choice([0, 1, 2, 3, 5, 6, 6, 7, 9])))
    time = rng.choice([f"{hour:02}:{minute:02}:{second:02}"] * 5 + [f"{hour:02}:{minute:02}"] * 2 + [
        f"{hour}:{minute}", f"{hour:02}{minute:02}", f"{hour:02}", f"{hour:02}:{minute:02}:{second}", f"{hour:02}:{minute:02} PM", f"{hour:02}:{minute:02}{fraction}"])
    if time.count(":") == 2 and rng.random() < 0.5:
        time += fraction
    sign, hours = rng.choice("+-"), rng.choice([0, 2, 12, 14, 15, 16])
    offset = rng.choice(["", "", "Z", "z", f"{sign}{hours:02}", f"{sign}{hours:02}", f"{sign}{hours:02}:{minute:02}", f"{sign}{hours:02}{minute:02}", f"{sign}{hours}",
                         " +02", " UTC", f"{sign}{hours:02}:30:15"])
    if kind == "date":
        return date if rng.random() < 0.9 else f"{date} {time}"
    if kind in typed.TIMES:
        return date if rng.random() < 0.1 else date + rng.choice("  TTt_") + time + (offset if kind == "timestamptz" or rng.random() < 0.2 else "")
    if kind == "uuid":
        return rng.choice([str.upper, str.lower, lambda text: text.replace("-", ""), lambda text: f"{{{text}}}", lambda text: text[:-1]])(rng.choice(typed.UUIDS))
    digits = "".join(rng.choice("0012345") for _ in range(rng.choice([0, 1, 2, 3, 9, 17, 18, 19, 60])))
    part = rng.choice(["", ".", ".0", ".5", ".25", ".000", ".125", ".123456789", ".1234567891", "." + "0" * 30])
    return rng.choice(["", "", "-", "+", "--", "- ", ".", "$", "0x"]) + digits + part + rng.choice([""] * 6 + ["e2", "E-1", "%", "_0"])


def text_of(rng: random.Random, kind: str) -> str:
    """A text: a right one, one with a character changed, one of other parts, or one that is known to be wrong."""
    chance = rng.random()
    if chance < 0.3 or kind not in typed.KINDS and chance < 0.4:
        return typed.right(rng, kind) if kind in typed.KINDS else str(rng.randrange(-10**18, 10**18))
    if chance < 0.35:
        return typed.wrong(rng, kind if kind in typed.KINDS else "numeric(4,0)")
    text = alternatives(rng, kind) if chance < 0.85 or kind not in typed.KINDS else typed.right(rng, kind)
    if chance > 0.7:
        at, way = rng.randrange(len(text) + 1), rng.randrange(3)
        text = text[:at] + (rng.choice(LETTERS) if way else "") + text[at + (way < 2):]
    return rng.choice(["", " ", "\n"]) + text + rng.choice(["", " ", "\f"]) if rng.random() < 0.05 else text


def in_quotes(text: str) -> str:
    """A text as a field of COPY."""
    return '"' + text.replace('"', '""') + '"'


def answered(program: pathlib.Path, script: str) -> tuple[bytes, bytes]:
    """What a program prints, and what it tells of a fault."""
    ran = subprocess.run([program, "run"], input=script.encode(), capture_output=True)
    return ran.stdout, ran.stderr


def refusals(program: pathlib.Path, kind: str, texts: list[str]) -> dict[int, bytes]:
    """The texts that COPY refuses, by their places, each with its SQLSTATE. COPY tells of the first one alone, so it is asked again without it."""
    found: dict[int, bytes] = {}
    first = 0
    while first < len(texts):
        rows = "".join(in_quotes(text) + "\n" for text in texts[first:])
        told = FAULT.fullmatch(answered(program, f"CREATE TABLE t (a {kind});\n{COPY.format('t')}{rows}\\.\n")[1])
        if told is None:
            break
        first += int(told[2])
        found[first - 1] = told[1]
    return found


def printed(program: pathlib.Path, kind: str, rows: list[tuple[int, str]]) -> list[tuple[int, str]]:
    """The numbers and values of rows as pgplan prints them, in the order of the values."""
    data = "".join(f"{number},{in_quotes(text)}\n" for number, text in rows)
    out, _ = answered(program, f"CREATE TABLE t (n int4, a {kind});\n{COPY.format('t')}{data}\\.\nSELECT n, a FROM t ORDER BY a, n;\n")
    lines = [line.split(",", 1) for line in out.decode().splitlines() if "," in line and not line.startswith((" ", "Sort"))]
    return [(int(number), value) for number, value in lines]


def quoted(text: str) -> str:
    """A text as a literal of the server."""
    return "E'" + text.replace("\\", "\\\\").replace("'", "''").replace("\n", "\\n").replace("\f", "\\f").replace("\t", "\\t") + "'"


def asked(psql: Psql, kind: str, texts: list[str]) -> list[str]:
    """What the server makes of texts: `ok` and what it prints, or an SQLSTATE."""
    values = ", ".join(f"({number}, {quoted(text)})" for number, text in enumerate(texts))
    told = psql("postgres", f"{FUNCTION} SELECT n, pg_temp.reads('{kind}', x) FROM (VALUES {values}) v(n, x) ORDER BY n;", "-t", "-A", "-F", "\t")
    return [line.split("\t", 1)[1] for line in told.splitlines()]


def in_order(psql: Psql, kind: str, rows: list[tuple[int, str]]) -> list[int]:
    """The numbers of rows in the order in which the server sorts their values."""
    values = ", ".join(f"({number}, {quoted(text)}::{kind})" for number, text in rows)
    return [int(line) for line in psql("postgres", f"SELECT n FROM (VALUES {values}) v(n, x) ORDER BY x, n", "-t", "-A").split()]


def is_meant(kind: str, text: str, theirs: str) -> bool:
    """Whether a text that pgplan refuses as out of range is one that the server takes on purpose."""
    if kind in ("timestamp", "timestamptz") and re.search(r"[ T]24:00|:60", text):
        return True
    return kind.startswith("numeric") and "." in text or kind == "timestamptz" and bool(re.match(r"ok (\d{5}|.* BC$)", theirs))


def check_type(checks: Checks, psql: Psql, kind: str, texts: list[str]) -> None:
    """The texts of one type."""
    refused, theirs = refusals(checks.program, kind, texts), asked(psql, kind, texts)
    taken = [(number, text) for number, text in enumerate(texts) if number not in refused]
    for number, value in (ours := printed(checks.program, kind, taken)):
        checks.that(theirs[number] == f"ok {value}", f"{kind} {texts[number]!r}: {value} and not {theirs[number]}")
    checks.that(len(ours) == len(taken), f"{kind}: {len(ours)} rows of {len(taken)}")
    if all(theirs[number].startswith("ok") for number, _ in taken):
        checks.that([number for number, _ in ours] == in_order(psql, kind, taken), f"{kind}: another order")
    for number, code in refused.items():
        if code == OUT_OF_RANGE:
            checks.that(theirs[number] in REFUSED_RANGES or is_meant(kind, texts[number], theirs[number]),
                        f"{kind} {texts[number]!r}: out of range and not {theirs[number]}")
    pairs = collections.defaultdict(list)
    for number, text in enumerate(texts):
        pairs[refused.get(number, b"ok").decode(), theirs[number][:5].strip().split(" ")[0]].append(text)
    for (here, there), found in sorted(pairs.items()):
        print(f"{kind:14} pgplan {here:6} server {there:6} {len(found):6}  {min(found, key=lambda text: (len(text), text))!r}")


def check_days(checks: Checks, psql: Psql) -> None:
    """Days at equal distances from the first to the last."""
    days = psql("postgres", f"SELECT date '0001-01-01' + (3652058::int8 * g / {DAYS - 1})::int4 FROM generate_series(0, {DAYS - 1}) g", "-t", "-A").split()
    mixed = list(enumerate(days))
    random.Random(1).shuffle(mixed)
    checks.that(printed(checks.program, "date", mixed) == list(enumerate(days)), "days do not come back in order")


def main() -> None:
    """Runs all checks on one server."""
    checks = Checks(pathlib.Path(sys.argv[1]).resolve())
    count, seed = (int(word) for word in (*sys.argv[2:4], *("3000", "1")[len(sys.argv) - 2:]))
    with server(newest()) as psql:
        for kind in TYPES:
            rng = random.Random(f"{seed} {kind}")
            check_type(checks, psql, kind, [text_of(rng, kind) for _ in range(count)])
        check_days(checks, psql)
    print(*checks.failures, sep="\n", end="\n" if checks.failures else "")
    print(f"texts: {checks.passed} passed, {len(checks.failures)} failed")
    sys.exit(bool(checks.failures))


if __name__ == "__main__":
    main()
