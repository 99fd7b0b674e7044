"""Runs pgplan and reads its replies: costs, and the sets of ADVISE."""
from __future__ import annotations

import functools
import os
import pathlib
import re
import subprocess

from .psql import Left, Unreachable

ROOT = pathlib.Path(__file__).resolve().parent.parent.parent
PROGRAM = os.environ.get("PGPLAN", str(ROOT / "pgplan"))

# A unit of PostgreSQL's costs.
UNIT = 400
MOST_SECONDS = 300

BUILT = re.compile(r"^program: (/.*?)(?:, sha256 [0-9a-f]+)?$", re.M)
FAULT = re.compile(r"ERROR (\S+) at (\d+): (.*)")
COST = re.compile(r"  \(cost=(?:\d+\.\.)?(\d+) rows=\d+\)$")


@functools.lru_cache(maxsize=None)
def program() -> str:
    """The program that the launcher runs, without its checks of the sources at each call; or the launcher, if none is built."""
    try:
        told = subprocess.run([PROGRAM, "--version"], capture_output=True, text=True, check=False).stdout
    except OSError as fault:
        raise Unreachable(f"{PROGRAM}: {fault.strerror}") from fault
    built = BUILT.search(told)
    return built[1] if built else PROGRAM


def run(script: bytes) -> str:
    """What pgplan prints for a script. If it rejects the script, the reason is raised with the place."""
    try:
        ran = subprocess.run([program(), "run"], input=script, capture_output=True, timeout=MOST_SECONDS, check=False)
    except subprocess.TimeoutExpired as fault:
        raise Left(f"pgplan takes more than {MOST_SECONDS} seconds") from fault
    if ran.returncode:
        said = ran.stderr.decode(errors="replace").strip()
        fault = FAULT.match(said)
        place = script[max(0, int(fault[2]) - 30):int(fault[2]) + 30].decode(errors="replace") if fault else ""
        raise Left(f"pgplan says: {fault[3]} at .. {place}" if fault else f"pgplan says: {said}")
    return ran.stdout.decode(errors="surrogateescape")


def costs(script: bytes, queries: list[str]) -> list[int]:
    """The cost of each query's best plan over the tables of a script: under LIMIT that of the rows asked for."""
    told = run(script + "".join(f"EXPLAIN {query};\n" for query in queries).encode(errors="surrogateescape"))
    found = [COST.search(line) for line in told.splitlines() if line[:1] not in ("", " ")]
    return [int(cost[1]) for cost in found if cost]


def advised(script: bytes, statements: list[str]) -> list[tuple[list[str], int]]:
    """For each ADVISE statement the names that it says to use, and the total."""
    replies, names = [], []
    for line in run(script + "\n".join(statements).encode(errors="surrogateescape")).splitlines():
        if line.startswith("use "):
            names.append(line[4:])
        elif line.startswith("cost="):
            replies.append((names, int(line[5:])))
            names = []
    return replies
