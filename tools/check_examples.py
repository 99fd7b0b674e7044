#!/usr/bin/env python3
"""Runs a built program on stored scripts and compares its output, errors and status with what is stored beside them.

usage: tools/check_examples.py PROGRAM

A script NAME.sql of examples/ and of scripts/ has NAME.out, NAME.err and NAME.status beside it. The other files of scripts/ are
lists. faults.json has scripts that print nothing, each with the line of its fault, empty where there is none. limits.json has
scripts at a limit and one past it: `script` and `out` are lists of texts, each with how often it stands, and `{n}` in such a text is
the number of the time, from 1 on; where several plans cost the least, `begins` and `ends` stand in place of `out`; `line` is as
above. best_plans.json has scripts that end with an EXPLAIN, each with how the first line of its output ends. words.json has words
of the command line, each with its output, its errors and its status; the others are run by the word `run`. hints.json is for
check_faults.py.

Each script comes to the program whole, and a short one once more a byte at a time. Prints a line for each difference, and last
the number of runs that passed and failed.
"""
import json
import pathlib
import subprocess
import sys

ROOT = pathlib.Path(__file__).resolve().parent.parent
# A script of at most so many bytes comes byte by byte too.
SHORT = 4096
MEND = "if a new answer is right, store it in the files beside the script or in the list of scripts/; else mend the program"


def exactly(wanted):
    return lambda out: out == wanted


def between(begins, ends):
    return lambda out: out.startswith(begins) and out.endswith(ends)


def headed(ends):
    return lambda out: out.partition(b"\n")[0].endswith(ends)


def stored(script):
    """What a script has to give, from the files beside it."""
    out, err, status = (script.with_suffix(ending).read_bytes() for ending in (".out", ".err", ".status"))
    return script.relative_to(ROOT), script.read_bytes(), exactly(out), err, int(status)


def ended(line):
    """The errors and the status of a script whose fault is told by this line, or that has none."""
    return ((line + "\n").encode(), 3) if line else (b"", 0)


def text_of(parts):
    return "".join(text.replace("{n}", str(n)) for text, times in parts for n in range(1, times + 1)).encode()


def listed(name):
    return json.loads((ROOT / "scripts" / name).read_text())


def cases():
    """Each case by the word `run`: its name, its script, what its output has to be, its errors and its status."""
    for folder in ("examples", "scripts"):
        for script in sorted((ROOT / folder).glob("*.sql")):
            yield stored(script)
    for script, line in listed("faults.json"):
        yield f"fault {script!r}", script.encode(), exactly(b""), *ended(line)
    for case in listed("limits.json"):
        told = exactly(text_of(case["out"])) if "out" in case else between(case["begins"].encode(), case["ends"].encode())
        yield f"limit {case['what']}", text_of(case["script"]), told, *ended(case["line"])
    for script, ends in listed("best_plans.json"):
        yield f"plan {script!r}", script.encode(), headed(ends.encode()), *ended("")


def worded():
    """Each case by other words: its words, and what its output has to be, its errors and its status."""
    for words, out, err, status in listed("words.json"):
        yield words, exactly(out.encode()), err.encode(), status


def answer(program, words, script, piece):
    """Output, errors and status of a run whose input comes in pieces of so many bytes."""
    run = subprocess.Popen([program, *words], stdin=subprocess.PIPE, stdout=subprocess.PIPE, stderr=subprocess.PIPE, bufsize=0)
    last = max(0, len(script) - piece)
    try:
        for at in range(0, last, piece):
            run.stdin.write(script[at:min(at + piece, last)])
        out, err = run.communicate(script[last:], timeout=60)
    except BrokenPipeError:
        out, err = run.communicate(timeout=60)
    return out, err, run.returncode


def runs():
    """Each run: its name, its words, its input, by how many bytes that comes, and what it has to give."""
    for name, script, *wanted in cases():
        whole = max(1, len(script))
        for piece in (whole, 1) if 1 < whole <= SHORT else (whole,):
            yield f"{name}, by {piece} bytes", ["run"], script, piece, *wanted
    for words, *wanted in worded():
        yield f"words {words}", words, b"no statement", 1, *wanted


def main():
    program = pathlib.Path(sys.argv[1]).resolve()
    passed = failed = 0
    for name, words, script, piece, told, errors, status in runs():
        out, err, ran = answer(program, words, script, piece)
        if told(out) and (err, ran) == (errors, status):
            passed += 1
            continue
        failed += 1
        print(f"examples: {name}: status {ran}, errors {err!r}, output {out!r}"[:2000])
    print(f"examples: {passed} passed, {failed} failed")
    if failed or not passed:
        sys.exit(f"examples: {MEND}")


if __name__ == "__main__":
    main()
