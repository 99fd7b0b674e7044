"""A program over crates of the repository, in a copy of these and of all below them, run by `rt try` without a proof."""
import pathlib
import shutil
import subprocess
import sys
import tempfile
from typing import Sequence

ROOT = pathlib.Path(__file__).resolve().parent.parent


def below(names: Sequence[str]) -> list[str]:
    """The lines of crates.txt of these crates and of all that they use, in its order."""
    lines = [line for line in (ROOT / "crates.txt").read_text().splitlines() if not line.startswith("#")]
    uses = {line.split(":")[0]: line.split(":")[1].split() for line in lines}
    found, left = set(), list(names)
    while left:
        name = left.pop()
        if name in uses and name not in found:
            found.add(name)
            left += uses[name]
    return [line for line in lines if line.split(":")[0] in found]


def try_over(names: Sequence[str], source: str, words: Sequence[str] = (), files: Sequence[str] = (), **run) -> subprocess.CompletedProcess:
    """Runs a program of one file over these crates, with these files of other crates beside it. The words go to `rt try`."""
    listed = below(names)
    crates = [line.split(":")[0] for line in listed]
    with tempfile.TemporaryDirectory() as folder:
        copy = pathlib.Path(folder)
        for crate in crates:
            shutil.copytree(ROOT / "crates" / crate, copy / "crates" / crate, ignore=shutil.ignore_patterns("out", "must-fail"))
        inside = copy / "crates" / "tried" / "src"
        inside.mkdir(parents=True)
        (inside / "main.rt").write_text(source)
        for other in files:
            shutil.copy(ROOT / "crates" / other, inside)
        (copy / "crates.txt").write_text("\n".join([*listed, "tried: " + " ".join(crates)]) + "\n")
        shutil.copy(ROOT / "HANDLES", copy / "HANDLES")
        return subprocess.run(["rt", "try", *words], cwd=inside.parent, text=True, **run)


def answers(lines: Sequence[str], program: str, crates: Sequence[str], files: Sequence[str] = ()) -> list[str]:
    """The lines of numbers that a program over these crates prints, one for each of these lines."""
    ran = try_over(crates, program, ["--steps", "100000000000", "--seconds", "600"], files,
                   input="".join(line + "\n" for line in lines), capture_output=True)
    found = [line for line in ran.stdout.splitlines() if line and all(word.isdigit() for word in line.split())]
    if len(found) != len(lines):
        print(ran.stdout[-2000:], ran.stderr[-4000:], file=sys.stderr)
    return found
