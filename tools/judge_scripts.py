#!/usr/bin/env python3
"""Runs a program on random scripts of every statement, right and in error, and has the reference judge its answers.

usage: tools/judge_scripts.py [--program PROGRAM] [--seed SEED] [--first NUMBER] [--kind KIND] [--jobs JOBS] [--keep FOLDER] [COUNT]

COUNT scripts are made (1,000 where it is not given), from number 0 on or from --first, each by the seed (1) and its number alone.
Their kinds take turns, or all are of one (random_scripts/scripts.py says what each is). PROGRAM is the one that was built here where
none is named. JOBS processes run at a time (1).

Prints a line for each script whose answer is not allowed, for each right script that is refused, and the name under which it is
kept in FOLDER; then how many statements of each kind were judged, how many faults of each kind and reasons of CHECK and USE PLAN were
told, and how many scripts passed. Exits with 1 where a script failed.
"""
import argparse
import collections
import multiprocessing
import pathlib
import re
import subprocess
import sys
import tempfile
from typing import NamedTuple

sys.dont_write_bytecode = True
ROOT = pathlib.Path(__file__).resolve().parent.parent
sys.path.insert(0, str(ROOT))
from random_scripts.scripts import KINDS, kind_of, script
from reference.judge import judge

BUILT = ROOT / "crates" / "pgplan_main" / "out" / "pgplan_main"
REASON = re.compile(rb"^(?:invalid: )?(valid|[CP]\d)\b", re.M)
# A right script may end so: no plan is below the limit of costs, or its conditions are more than a statement may have.
REFUSALS = ("54001", "54000")


class Task(NamedTuple):
    """A script to run: the program, the seed, the number and the kind."""

    program: str
    seed: int
    number: int
    kind: str


class Outcome(NamedTuple):
    """What came of a script: its name, the complaint where there is one, and what was seen."""

    task: Task
    complaint: str
    seen: collections.Counter
    told: collections.Counter


def fault_of(errors: bytes) -> str:
    """The kind of a fault by its line: the SQLSTATE, and of a limit its name."""
    found = re.match(rb"ERROR (\w{5})(?: at \d+: (limit \w+)?)?", errors)
    return " ".join(part.decode() for part in found.groups() if part) if found else errors.decode("latin-1")[:40]


def outcome(task: Task) -> Outcome:
    """Makes a script, runs the program on it, and judges the answer."""
    text = script(task.seed, task.number, task.kind)
    seen: collections.Counter = collections.Counter()
    try:
        ran = subprocess.run([task.program, "run"], input=text, capture_output=True, timeout=120)
    except subprocess.TimeoutExpired:
        return Outcome(task, "no answer within two minutes", seen, seen)
    verdict = judge(text, ran.stdout, ran.stderr, ran.returncode, (), seen)
    refused = KINDS[task.kind].is_right and ran.returncode and not fault_of(ran.stderr).startswith(REFUSALS)
    complaint = verdict if verdict != "ok" else f"a right script is refused: {ran.stderr!r}" if refused else ""
    told = collections.Counter(reason.decode() for reason in REASON.findall(ran.stdout))
    if ran.returncode == 3:
        told[fault_of(ran.stderr)] += 1
    return Outcome(task, complaint, seen, told)


def kept(folder: pathlib.Path, task: Task) -> pathlib.Path:
    """Keeps a script, and gives its name."""
    folder.mkdir(parents=True, exist_ok=True)
    path = folder / f"{task.kind.replace(' ', '_')}_{task.seed}_{task.number}.sql"
    path.write_bytes(script(task.seed, task.number, task.kind))
    return path


def counted(title: str, counts: collections.Counter) -> str:
    """A line of counts."""
    return f"{title}: " + ", ".join(f"{name} {times:,}" for name, times in sorted(counts.items()))


def asked() -> argparse.Namespace:
    """The words of the command line."""
    words = argparse.ArgumentParser(usage=__doc__)
    words.add_argument("--program", default=str(BUILT))
    words.add_argument("--seed", type=int, default=1)
    words.add_argument("--first", type=int, default=0)
    words.add_argument("--kind", choices=KINDS)
    words.add_argument("--jobs", type=int, default=1)
    words.add_argument("--keep", type=pathlib.Path, default=pathlib.Path(tempfile.gettempdir(), "pgplan-differences"))
    words.add_argument("count", type=int, nargs="?", default=1000)
    return words.parse_args()


def main() -> None:
    """Runs all scripts and tells what came of them."""
    said = asked()
    if not pathlib.Path(said.program).is_file():
        sys.exit(f"judge_scripts: no program {said.program}: build it, or name one by --program")
    program = str(pathlib.Path(said.program).resolve())
    tasks = [Task(program, said.seed, n, said.kind or kind_of(n)) for n in range(said.first, said.first + said.count)]
    seen: collections.Counter = collections.Counter()
    told: collections.Counter = collections.Counter()
    failed = 0
    with multiprocessing.Pool(said.jobs) as pool:
        for found in pool.imap(outcome, tasks) if said.jobs > 1 else map(outcome, tasks):
            seen += found.seen
            told += found.told
            if found.complaint:
                failed += 1
                print(f"judge_scripts: {kept(said.keep, found.task)} is answered otherwise than the rules allow: {found.complaint}", flush=True)
    print(counted("statements", seen), counted("told", told), sep="\n")
    print(f"judge_scripts: {said.count - failed} passed, {failed} failed")
    sys.exit(1 if failed else 0)


if __name__ == "__main__":
    main()
