#!/usr/bin/env python3
"""Tries all wrong bodies of some crates: the prover must refuse each by the crate's own contracts.

usage: tools/wrong_bodies.py [CRATE ..]

At the top, over libraries that are proved (`tools/quick_rt.py seed`). A crate's must-fail/ has the wrong bodies that each run of the
gate tries; its wrong-bodies/ has more of the same form, which cost the gate a second proof of the crate and are tried where the
crate changes. Without a name those of every crate are tried. Prints a line for each and last how many were refused and how many not.
"""
import os
import pathlib
import sys

sys.dont_write_bytecode = True

import quick_rt


def edits(crate):
    """The files of the crate's wrong bodies."""
    return [str(it) for part in ("must-fail", "wrong-bodies") for it in sorted(pathlib.Path(crate.folder, part).glob("*.edit"))]


def main():
    rt = quick_rt.quick()
    rt.rtlib.guarded()
    names, refused, failed = sys.argv[1:], 0, 0
    rt.Crate.allowed = rt.handles_of(os.getcwd())
    rt.rtlib.Crate = rt.Crate
    for crate in rt.rtlib.crates_below(os.getcwd()):
        if names and crate.name not in names:
            continue
        tried = edits(crate)
        if tried and any(below.build_rlib(["--jobs", "1"], anew=False) for below in crate.below()):
            print(f"{crate.name}: what it stands on is not proved", flush=True)
            return 1
        for edit in tried:
            kind, text = rt.must_fail(crate, edit, ["--jobs", "1"])
            well = kind in (rt.REFUSED, rt.AT_LIMIT)
            print(text, flush=True)
            refused, failed = refused + well, failed + (not well)
    print(f"{refused} refused, {failed} not")
    return 1 if failed else 0


if __name__ == "__main__":
    sys.exit(main())
