#!/usr/bin/env python3
"""Compares the reference with what is stored beside the scripts of examples/ and scripts/. Needs no program.

usage: tools/check_reference.py

Each stored answer has to be one that the reference allows, and the reference has to answer with the stored errors and status, and
with the stored output but for a plan among several of equal cost. Of words of the command line it has to give what is stored.
Prints a line for each difference, and last how many cases passed and failed.
"""
import pathlib
import sys
from typing import Callable, Iterator

sys.dont_write_bytecode = True
ROOT = pathlib.Path(__file__).resolve().parent.parent
sys.path.insert(0, str(ROOT))
from check_examples import cases, worded
from reference.judge import judge
from reference.pgplan import answer, answer_to_words


def differences(script: bytes, told: Callable[[bytes], bool], errors: bytes, status: int, stored: bytes | None) -> Iterator[str]:
    """What is wrong with a script: the reference's own answer, and its judgement of that and of the stored output."""
    out, err, ended = answer(script)
    if (err, ended) != (errors, status):
        yield f"status {ended}, errors {err!r}"
    own = judge(script, out, err, ended, ())
    if own != "ok":
        yield f"its own answer is {own}"
    if not told(out) and stored is None:
        yield f"output {out[:400]!r}"
    verdict = "ok" if stored is None else judge(script, stored, errors, status, ())
    if verdict != "ok":
        yield f"the stored answer is {verdict}"


def stored_output(name: object) -> bytes | None:
    """The stored output of a script with a file of its own."""
    return (ROOT / name).with_suffix(".out").read_bytes() if isinstance(name, pathlib.PurePath) else None


def main() -> None:
    """Compares all cases."""
    passed = failed = 0
    for name, script, told, errors, status in cases():
        found = list(differences(script, told, errors, status, stored_output(name)))
        passed, failed = passed + (not found), failed + bool(found)
        for said in found:
            print(f"reference: {name}: {said}"[:2000])
    for words, told, errors, status in worded():
        out, err, ended = answer_to_words(words, lambda: b"no statement")
        is_right = told(out) and (err, ended) == (errors, status)
        passed, failed = passed + is_right, failed + (not is_right)
        if not is_right:
            print(f"reference: words {words}: status {ended}, errors {err!r}, output {out!r}"[:2000])
    print(f"reference: {passed} passed, {failed} failed")
    sys.exit(failed != 0 or not passed)


if __name__ == "__main__":
    main()
