#!/usr/bin/env python3
"""Runs `rt` with what `rt ci` proved on this machine, and without working out again what it knows.

usage: tools/quick_rt.py seed [CHECKOUT]      at the top: libraries alone
       tools/quick_rt.py check [FLAG ..]      in a crate's folder: any command of rt, as check, lib, tidy or must-fail

`rt ci` leaves each library that it proved in its checkout, and some kits keep it on the machine too, by the sum of all that it was
made from; `rt check` builds its own. `seed` puts those that fit this checkout's text into the crates' out/rlib, with rt's stamp, so
that a check in a high crate does not prove what is below; it says which are not kept yet. They are taken from what the kit keeps,
or from another CHECKOUT in which `rt ci` runs or has run: those of crates whose text, and that of all below, is the same in both.
A later command of rt works out a crate's sum and the crates below it anew along every path, which takes minutes above fifty crates;
here each is kept. No verdict of the gate rests on this: it is for the time between two runs of `rt ci`.
"""
import hashlib
import importlib.machinery
import importlib.util
import json
import os
import pathlib
import shutil
import sys


def load():
    """The command rt as a module."""
    kit = pathlib.Path(shutil.which("rt")).resolve()
    loader = importlib.machinery.SourceFileLoader("rt", str(kit))
    made = importlib.util.module_from_spec(importlib.util.spec_from_loader("rt", loader))
    sys.modules["rt"] = made
    loader.exec_module(made)
    return made


def keep(kind, name):
    """Has a method without arguments worked out once for each crate."""
    if name not in kind.__dict__:
        return
    made, kept = kind.__dict__[name], {}

    def call(crate):
        if crate.folder not in kept:
            kept[crate.folder] = made(crate)
        return kept[crate.folder]

    setattr(kind, name, call)


class Kept:
    """What `rt ci` kept, as it looks for it itself."""

    def __init__(self, rt):
        self.rt = rt
        self.store = rt.Kept.__new__(rt.Kept)
        self.store.at, self.store.anew, self.store.rlibs, self.store.marks = rt.STORE, False, {}, {}

    def fits(self, crate):
        """The folder of the crate's library, if one is kept over the libraries below as they are kept."""
        if any(below.name not in self.store.rlibs for below in crate.below()):
            return None
        at = self.store.place(crate, False, self.store.key(crate))
        return at if os.path.isdir(at) else None

    def put(self, crate, at):
        """Gives the crate this library, unless it has it."""
        files = [tuple(file) for file in json.loads(pathlib.Path(at, "made.json").read_text())["files"]]
        self.store.rlibs[crate.name] = hashlib.sha256(repr(files).encode()).hexdigest()
        to = pathlib.Path(crate.folder, "out", "rlib")
        seed = to / "seed"
        if crate.is_built() and seed.is_file() and seed.read_text() == os.path.basename(at):
            return False
        shutil.rmtree(to, ignore_errors=True)
        for number, (path, _) in enumerate(files):
            file = pathlib.Path(crate.folder, "out", path)
            file.parent.mkdir(parents=True, exist_ok=True)
            self.rt.link_or_copy(os.path.join(at, str(number)), str(file))
        seed.write_text(os.path.basename(at))
        (to / "stamp").write_text(crate.stamp())
        return True


class Lent:
    """What `rt ci` left in another checkout, of crates with the same text here and there."""

    def __init__(self, checkout):
        self.checkout, self.same = pathlib.Path(checkout), set()

    def fits(self, crate):
        """The folder of the crate's library in the other checkout, if all that it was made from is the same."""
        at = self.checkout / "crates" / crate.name / "out" / "rlib"
        here, there = (texts(pathlib.Path(folder)) for folder in (crate.folder, at.parent.parent))
        if here != there or any(below.name not in self.same for below in crate.below()) or not (at / f"{crate.name}.rlib").exists():
            return None
        self.same.add(crate.name)
        return at

    def put(self, crate, at):
        """Gives the crate this library, unless it has it."""
        to = pathlib.Path(crate.folder, "out", "rlib")
        if crate.is_built():
            return False
        shutil.rmtree(to, ignore_errors=True)
        shutil.copytree(at, to)
        (to / "stamp").write_text(crate.stamp())
        return True


def texts(folder):
    """The files that a crate is made from, by their path in it."""
    return {str(file.relative_to(folder)): file.read_bytes() for part in ("src", "specs", "proofs") for file in folder.glob(f"{part}/**/*.*")
            if file.is_file()}


def seed(rt, checkout):
    root = os.getcwd()
    if not checkout and not hasattr(rt, "Kept"):
        print("this kit keeps no libraries: name a checkout in which `rt ci` has run", file=sys.stderr)
        return 2
    rt.Crate.allowed = rt.handles_of(root)
    kept, given, lacking = Lent(checkout) if checkout else Kept(rt), [], []
    for crate in sorted(rt.rtlib.crates_below(root), key=lambda it: len(it.below())) if checkout else rt.crates_of(root):
        if crate.is_program:
            continue
        at = kept.fits(crate)
        if at is None:
            lacking.append(crate.name)
        elif kept.put(crate, at):
            given.append(crate.name)
    print(f"seeded: {' '.join(given) or 'nothing new'}; not kept yet: {' '.join(lacking) or 'none'}")
    return 0


def quick():
    """The command rt as a module that works out what stands below a crate once."""
    sys.dont_write_bytecode = True
    rt = load()
    for kind in {rt.rtlib.Crate, rt.Crate}:
        keep(kind, "below")
        keep(kind, "stamp")
    return rt


def main():
    rt = quick()
    words = sys.argv[1:]
    if not words:
        print(__doc__, end="", file=sys.stderr)
        return 2
    return seed(rt, *(words[1:] or [None])) if words[0] == "seed" and len(words) < 3 else rt.main(words)


if __name__ == "__main__":
    sys.exit(main())
