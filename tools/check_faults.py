#!/usr/bin/env python3
"""Runs each script of scripts/hints.json by a built program and compares how tools/fault.py explains its fault with what is stored.

usage: tools/check_faults.py PROGRAM            compares
       tools/check_faults.py PROGRAM --store    stores what is told now, to be read before it is committed

The list has what stands before each script; `faults`, for each the last statements, the first line of the explanation, the line with the
caret, and the hint; and `accepted`, statements that hints and the table of docs/FROM-POSTGRES.md say to write, none of which has a
fault. Each row of hints is given by one script at least, and the table is the one of tools/hints.py. Prints a line for each difference,
and last the number of scripts and of failures.
"""
from __future__ import annotations

import json
import pathlib
import subprocess
import sys
from typing import Iterator

sys.dont_write_bytecode = True
import fault
import hints

LIST = pathlib.Path(__file__).resolve().parent.parent / "scripts" / "hints.json"
MEND = "where what is told now is right, run tools/check_faults.py PROGRAM --store and read the change; else mend tools/hints.py or tools/fault.py"


def ran(program: str, script: bytes) -> subprocess.CompletedProcess[bytes]:
    """A run of the program on a script."""
    return subprocess.run([program, "run"], input=script, capture_output=True, timeout=120)


def told(program: str, script: bytes) -> list[str]:
    """The first line, the line with the caret, and the hint of what is told of a script."""
    found = fault.explained(fault.Parts(["script"], [script]), ran(program, script).stderr)
    lines = str(found).split("\n") if found else ["no fault", "", ""]
    return [lines[0], lines[2], found.hint if found else ""]


def unused(given: set[str]) -> list[str]:
    """The rows that are known by a place and whose hint no script was given."""
    return [row.has for row in hints.POSTGRES + hints.SLIPS if row.places and hints.hint_of(row) not in given]


def store(program: str, listed: dict[str, list]) -> None:
    """Writes the list with what is told of each script now, a line for each script."""
    faults = [[statement, *told(program, (listed["before"] + statement).encode())] for statement, *_ in listed["faults"]]
    parts = [f'"before": {json.dumps(listed["before"])}']
    parts += [f'"{name}": [\n' + ",\n".join(map(json.dumps, rows)) + "\n]" for name, rows in (("faults", faults), ("accepted", listed["accepted"]))]
    LIST.write_text("{" + ",\n".join(parts) + "}\n")


def differences(program: str, listed: dict[str, list]) -> Iterator[str]:
    """A line for each script, row or page that is not as it should be."""
    for statement, *wanted in listed["faults"]:
        got = told(program, (listed["before"] + statement).encode())
        if got != wanted or got[0] == "no fault":
            yield f"{statement!r}: told {got} and not {wanted}"
    for statement in listed["accepted"]:
        run = ran(program, (listed["before"] + statement).encode())
        if run.returncode:
            yield f"{statement!r} is not accepted: {run.stderr.decode().strip()}"
    for has in unused({hint for *_, hint in listed["faults"]}):
        yield f"no script has the hint for {has}"
    page, wanted = hints.page_with_table()
    if page != wanted:
        yield "docs/FROM-POSTGRES.md has another table than tools/hints.py: run tools/hints.py --page"


def main() -> None:
    """Runs the command line."""
    listed = json.loads(LIST.read_text())
    if len(sys.argv) == 3 and sys.argv[2] == "--store":
        store(sys.argv[1], listed)
    elif len(sys.argv) != 2:
        sys.exit(__doc__)
    else:
        found = list(differences(sys.argv[1], listed))
        for line in found:
            print(f"faults: {line}")
        print(f"faults: {len(listed['faults']) + len(listed['accepted'])} scripts, {len(found)} failed")
        if found:
            sys.exit(f"faults: {MEND}")


main()
