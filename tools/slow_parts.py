#!/usr/bin/env python3
"""Says which parts of a crate's check took longest, by the times at which the prover saved them.

usage: tools/slow_parts.py CRATE [COUNT]

After `tools/quick_rt.py check --jobs 1` in the folder of a crate without out/incremental: each module that was checked is a file there,
saved as it ended, and the time since the one before is what it took. Prints the COUNT longest (20 where it is not given) with their
seconds by the clock. `Lts` of a function are its places and what they own or have lent, `Proof` its goals; --progress of the prover tells
less, since a line there has all that was checked since the line before. What a later check saved anew is told as of that check.
"""
import pathlib
import sys

ROOT = pathlib.Path(__file__).resolve().parent.parent


def saved(crate):
    """The times at which modules were saved, with their names, in order."""
    files = (ROOT / "crates" / crate / "out" / "incremental").rglob("*.oantt")
    return sorted((file.stat().st_mtime, file.stem.replace("Rattle-", "")) for file in files if "records" not in file.parts)


def main():
    words = sys.argv[1:]
    if not words or len(words) > 2:
        print(__doc__, end="", file=sys.stderr)
        return 2
    times = saved(words[0])
    if not times:
        print(f"{words[0]}: no check was kept", file=sys.stderr)
        return 1
    took = sorted(((at - before, name) for (before, _), (at, name) in zip(times, times[1:])), reverse=True)
    for seconds, name in took[: int(words[1]) if len(words) > 1 else 20]:
        print(f"{seconds:7.1f}  {name}")
    return 0


if __name__ == "__main__":
    sys.exit(main())
