#!/usr/bin/env python3
"""Refuses what a built program asks of the system, one thing at a time: each allocation, each read, each write.

usage: tools/refusals.py PROGRAM [SCRIPT.sql ..]

It wants a C compiler `cc` and Linux, since it loads tools/refusals.c before the C library. Without scripts it takes those of
examples/ and scripts/ of at most 64 KiB. For each script the program is first run as it is, and then:

- once for each allocation that this run made, with that one refused, and once more with all later ones refused too: it ends
  with status 5 and the line of memory, and its output is a first part of the whole; where a growth was only for speed, it ends as
  the whole run did;
- once for each read, which fails: status 2, its line, and no output;
- once for each write of output, which fails: status 4, its line, and a first part of the output;
- where errors are written, once for each write of them, which fails: the status and the output stay, and the line is cut;
- with reads and writes of at most 1 and at most 7 bytes: everything stays;
- with each read and each write interrupted once and three times before it is done: everything stays.

Prints a line for each difference and last the numbers of runs by kind, and how many failed.
"""
import collections
import os
import pathlib
import subprocess
import sys
import tempfile

ROOT = pathlib.Path(__file__).resolve().parent.parent
NO_MEMORY, NO_READ, NO_WRITE = (b"ERROR 53200 out of memory\n", b"ERROR read failed\n", b"ERROR write failed\n")
LONGEST = 65536


class Program:
    """The program with the shim before it, and what came of its runs."""

    def __init__(self, path, folder):
        self.path, self.counts = pathlib.Path(path).resolve(), folder / "counts"
        self.shim = folder / "refusals.so"
        subprocess.run(["cc", "-O2", "-shared", "-fPIC", "-o", self.shim, ROOT / "tools" / "refusals.c", "-ldl"], check=True)
        self.runs, self.failed = collections.Counter(), 0

    def run(self, script, **asked):
        env = {**os.environ, "LD_PRELOAD": str(self.shim), "COUNTS": str(self.counts), **{name: str(value) for name, value in asked.items()}}
        ran = subprocess.run([self.path, "run"], input=script, capture_output=True, env=env, timeout=120)
        return ran.stdout, ran.stderr, ran.returncode

    def counted(self, script):
        """The whole run, and how often it took memory, read, and wrote to its output and to its errors."""
        whole = self.run(script)
        return whole, [int(it) for it in self.counts.read_text().split()]

    def judge(self, kind, name, is_right, got, asked):
        self.runs[kind] += 1
        if not is_right:
            self.failed += 1
            print(f"refusals: {name}: {asked}: status {got[2]}, errors {got[1]!r}, output of {len(got[0])} bytes")


def refuse_memory(program, name, script, whole, times):
    for later in (0, 1):
        for number in range(1, times + 1):
            asked = {"REFUSE_MEMORY": number, "REFUSE_LATER": later}
            got = program.run(script, **asked)
            is_first_part = whole[0].startswith(got[0])
            is_cut = is_first_part and got[1:] == (NO_MEMORY, 5)
            program.judge("memory" if is_cut else "memory not missed", name, is_cut or got == whole, got, asked)


def fail_reads(program, name, script, times):
    for number in range(1, times + 1):
        got = program.run(script, FAIL_READ=number)
        program.judge("reads", name, got == (b"", NO_READ, 2), got, {"FAIL_READ": number})


def fail_writes(program, name, script, whole, times):
    for number in range(1, times + 1):
        got = program.run(script, FAIL_OUT=number)
        is_right = whole[0].startswith(got[0]) and got[0] != whole[0] and got[1:] == (NO_WRITE, 4)
        program.judge("writes", name, is_right, got, {"FAIL_OUT": number})


def fail_errors(program, name, script, whole, times):
    for number in range(1, times + 1):
        got = program.run(script, FAIL_ERROR=number)
        is_right = (got[0], got[2]) == (whole[0], whole[2]) and whole[1].startswith(got[1]) and got[1] != whole[1]
        program.judge("errors", name, is_right, got, {"FAIL_ERROR": number})


def give_little(program, name, script, whole):
    for most in (1, 7):
        asked = {"SHORT_READ": most, "SHORT_WRITE": most}
        program.judge("short reads and writes", name, (got := program.run(script, **asked)) == whole, got, asked)


def interrupt(program, name, script, whole):
    """Interrupts each read and each write so many times."""
    for times in (1, 3):
        asked = {"INTERRUPT": times}
        program.judge("interrupted reads and writes", name, (got := program.run(script, **asked)) == whole, got, asked)


def scripts_of(words):
    if words:
        return [pathlib.Path(word) for word in words]
    found = sorted([*(ROOT / "examples").glob("*.sql"), *(ROOT / "scripts").glob("*.sql")])
    return [script for script in found if script.stat().st_size <= LONGEST]


def main():
    with tempfile.TemporaryDirectory() as folder:
        program = Program(sys.argv[1], pathlib.Path(folder))
        for path in scripts_of(sys.argv[2:]):
            script = path.read_bytes()
            whole, (memory, reads, outs, errors) = program.counted(script)
            refuse_memory(program, path.name, script, whole, memory)
            fail_reads(program, path.name, script, reads)
            fail_writes(program, path.name, script, whole, outs)
            fail_errors(program, path.name, script, whole, errors)
            give_little(program, path.name, script, whole)
            interrupt(program, path.name, script, whole)
    told = ", ".join(f"{number} of {kind}" for kind, number in sorted(program.runs.items()))
    print(f"refusals: {told}; {program.failed} failed")
    sys.exit(program.failed != 0 or not program.runs)


main()
