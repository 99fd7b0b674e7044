"""The reference by itself.

usage: python3 -m reference run [--last] < SCRIPT          answers as the program does
       python3 -m reference sample [--last] N
       python3 -m reference judge [--allow 2,4,5] SCRIPT OUT ERRORS STATUS
       python3 -m reference compare PROGRAM SCRIPT..       runs a program on scripts and judges its answers

Among plans of equal cost the first one met is printed, or with --last the last one. `judge` prints `ok`, `ok (status N)` or
`WRONG at statement K: reason`, and exits with 0 or 1; the statuses 2, 4 and 5, which tell of the system, are taken where --allow
names them. `compare` prints a line for each script that is answered otherwise than the rules allow, and last how many were not.
"""

from __future__ import annotations

import pathlib
import subprocess
import sys

from .judge import judge
from .pgplan import answer_to_words


def take_option(words: list[str], name: str, default: str) -> str:
    """Takes an option and what stands behind it out of the words."""
    if name not in words:
        return default
    at = words.index(name)
    value = "".join(words[at + 1:at + 2])
    del words[at:at + 2]
    return value


def judged(words: list[str], allow: str) -> int:
    """Judges stored files."""
    script, out, err = (pathlib.Path(word).read_bytes() for word in words[:3])
    verdict = judge(script, out, err, int(words[3]), {int(a) for a in allow.split(",") if a})
    print(verdict)
    return 0 if verdict.startswith("ok") else 1


def compared(program: str, scripts: list[str]) -> int:
    """Runs a program on scripts and judges its answers."""
    failed = 0
    for name in scripts:
        script = pathlib.Path(name).read_bytes()
        ran = subprocess.run([program, "run"], input=script, capture_output=True)
        verdict = judge(script, ran.stdout, ran.stderr, ran.returncode, ())
        if verdict != "ok":
            failed += 1
            print(f"{name}: {verdict}")
    print(f"{len(scripts)} scripts, {failed} failed")
    return 1 if failed else 0


def main(words: list[str]) -> int:
    """Does what the words of the command line ask for, and gives the status."""
    allow = take_option(words, "--allow", "")
    last = "--last" in words
    words = [word for word in words if word != "--last"]
    if words[:1] == ["judge"] and len(words) == 5:
        return judged(words[1:], allow)
    if words[:1] == ["compare"] and len(words) > 2:
        return compared(words[1], words[2:])
    if words[:1] not in (["run"], ["sample"]):
        sys.exit(__doc__)
    out, err, status = answer_to_words(words, sys.stdin.buffer.read, last)
    for stream, data in ((sys.stdout.buffer, out), (sys.stderr.buffer, err)):
        stream.write(data)
        stream.flush()
    return status


if __name__ == "__main__":
    sys.exit(main(sys.argv[1:]))
