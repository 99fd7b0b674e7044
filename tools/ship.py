#!/usr/bin/env python3
"""The shipped program: dist/pgplan-x86_64-linux, and dist/SOURCES, the checksum of it and of every file that its bytes depend on.

usage: tools/ship.py put        puts both there from the program that the gate has built
       tools/ship.py --check    fails if the program that the gate has built is another, or a checksum is

A program's bytes depend on its crates' sources, on crates.txt and on the kit. They do not depend on proofs, definitions and pages.
"""
from __future__ import annotations

import hashlib
import os
import pathlib
import shutil
import subprocess
import sys
from typing import Callable, Iterator, Optional

ROOT = pathlib.Path(__file__).resolve().parent.parent
BUILT = ROOT / "crates" / "pgplan_main" / "out" / "pgplan_main"
SHIPPED = ROOT / "dist" / "pgplan-x86_64-linux"
SOURCES = ROOT / "dist" / "SOURCES"
BUILD = "run .ci/run first, which builds it"
MEND = "run tools/ship.py put, commit dist/, and run .ci/run again"
# How many differences are printed.
SHOWN = 20


def crates_of_program() -> list[str]:
    """The crates that the program uses, itself among them."""
    lines = [line for line in (ROOT / "crates.txt").read_text().splitlines() if ":" in line and not line.startswith("#")]
    uses = {name.strip(): used.split() for name, _, used in (line.partition(":") for line in lines)}
    found = ["pgplan_main"]
    for name in found:
        found += [used for used in uses[name] if used in uses and used not in found]
    return sorted(found)


def sources_of_program() -> list[pathlib.Path]:
    """The files that the program's bytes depend on."""
    folders = [ROOT / "crates" / name / "src" for name in crates_of_program()]
    return [ROOT / "crates.txt"] + [path for folder in folders for path in sorted(folder.rglob("*")) if path.is_file()]


def name_of(path: pathlib.Path) -> str:
    """A file's name below the top of the repository."""
    return str(path.relative_to(ROOT))


def checksum(path: pathlib.Path) -> str:
    """The sha256 of a file."""
    return hashlib.sha256(path.read_bytes()).hexdigest()


def identity_of_kit() -> str:
    """The line by which the kit names itself."""
    try:
        return subprocess.run(["rt", "version"], capture_output=True, text=True, check=True).stdout.strip()
    except (OSError, subprocess.CalledProcessError) as error:
        sys.exit(f"ship: rt version: {error}")


def sources_with(program: pathlib.Path) -> str:
    """The text of dist/SOURCES for a program of these sources, in the form of sha256sum."""
    lines = [f"# {identity_of_kit()}", f"{checksum(program)}  {name_of(SHIPPED)}"]
    return "\n".join(lines + [f"{checksum(path)}  {name_of(path)}" for path in sources_of_program()]) + "\n"


def newer_than_built() -> Optional[pathlib.Path]:
    """A source that is newer than the built program, or None."""
    return next((path for path in sources_of_program() if path.stat().st_mtime > BUILT.stat().st_mtime), None)


def write(path: pathlib.Path, fill: Callable[[pathlib.Path], object]) -> None:
    """Puts a file in place at once, so that no reader meets half of it."""
    beside = path.with_name(f".{path.name}.{os.getpid()}")
    try:
        fill(beside)
        beside.replace(path)
    finally:
        beside.unlink(missing_ok=True)


def copied(beside: pathlib.Path) -> None:
    """Copies the built program, to be executable."""
    shutil.copyfile(BUILT, beside)
    beside.chmod(0o755)


def put() -> None:
    """Writes dist/ from the built program."""
    if not BUILT.exists():
        sys.exit(f"ship: {name_of(BUILT)} is not there: {BUILD}")
    if newer := newer_than_built():
        sys.exit(f"ship: {name_of(newer)} is newer than the built program: {BUILD}")
    SHIPPED.parent.mkdir(exist_ok=True)
    text = sources_with(BUILT)
    write(SHIPPED, copied)
    write(SOURCES, lambda beside: beside.write_text(text))
    print(f"ship: {name_of(SHIPPED)} {checksum(SHIPPED)}")


def differences() -> Iterator[str]:
    """What of dist/ is not as the built program and its sources have it."""
    missing = [path for path in (BUILT, SHIPPED, SOURCES) if not path.exists()]
    if missing:
        yield from (f"{name_of(path)} is not there" for path in missing)
        return
    if BUILT.read_bytes() != SHIPPED.read_bytes():
        yield f"{name_of(SHIPPED)} is not the program that was built, {checksum(BUILT)}"
    if not os.access(SHIPPED, os.X_OK):
        yield f"{name_of(SHIPPED)} is not executable"
    found, wanted = SOURCES.read_text().splitlines(), sources_with(BUILT).splitlines()
    yield from (f"{name_of(SOURCES)} has the line {line}" for line in found if line not in wanted)
    yield from (f"{name_of(SOURCES)} lacks the line {line}" for line in wanted if line not in found)


def check() -> None:
    """Prints each difference, and fails if there is one."""
    found = list(differences())
    for line in found[:SHOWN]:
        print(f"ship: {line}")
    if found:
        sys.exit(f"ship: dist/ is not of these sources: {MEND}")
    print(f"ship: {name_of(SHIPPED)} is the program that was built")


def main() -> None:
    """Runs the command line."""
    if sys.argv[1:] == ["put"]:
        put()
    elif sys.argv[1:] == ["--check"]:
        check()
    else:
        sys.exit(__doc__)


main()
