#!/usr/bin/env python3
"""Checks a crate over crates that are not proved yet: these stand below it as hollow sources.

usage: tools/hollow.py make FOLDER NAME..        at the top: makes FOLDER/NAME, a hollow copy of each crate
       tools/hollow.py check FOLDER [FLAG ..]    in a crate's folder: rattle check --allow-holes, with the hollow copies below it

Rattle builds a library only of a proved crate, so a crate above one whose proof is not done cannot be checked by `rt check`. But it also
takes a library as source, and a declaration with a hole by its signature. A hollow copy has a crate's src/, specs/ and files of
lemmas, and one hole in the place of each function's proof. A function that seems to call itself keeps its own proof. The other
crates below have to be built (`tools/quick_rt.py seed`). FLAG is one of rattle's, as --only F.

Of the functions of the checked crate, those that read `no holes` or `depends on a hole in ..` are done, and those that read `not proved`
or `no proof` are not. That is no verdict: the gate proves all.
"""
import importlib.util
import os
import pathlib
import re
import shutil
import subprocess
import sys
from typing import Iterator, NamedTuple

sys.dont_write_bytecode = True
ROOT = pathlib.Path(__file__).resolve().parent.parent
PROOFS = ("Answers.antt", "Invariants.antt", "Proof.antt")
FN = re.compile(r"( *)(?:pub(?:\([^)]*\))? )?(?:const )?(?:unsafe )?fn (\w+)")
IMPL = re.compile(r"impl(?:<[^{]*?>)? +(?!.*\bfor )(\w+)")
TYPE = re.compile(r"(?:pub(?:\([^)]*\))? )?(?:struct|enum) (\w+)")
CYCLE = re.compile(r" *#\[cycle\((\w+)\)\]")


class Function(NamedTuple):
    """A function with a body: the modules that it or its type stands in, its type if it is a method, its name and its cycle of calls."""

    modules: tuple[str, ...]
    owner: str | None
    name: str
    cycle: str | None

    def folder(self) -> pathlib.Path:
        """Where its proof stands below proofs/."""
        own = [] if self.cycle or not self.owner else [self.owner]
        return pathlib.Path(*self.modules, *own, f"+{self.cycle}" if self.cycle else self.name)

    def hole(self, crate: str) -> str:
        """A proof of it that is a hole."""
        word = self.folder().name
        module = ".".join(["Rattle", crate, "proofs", *self.folder().parts] + ([] if self.cycle else ["Statement"]))
        return f"use {module}.{{statement}}\n\npub {word}_spec : {{M : Type 1}} → statement M\n{word}_spec = ?\n"


def body_of(lines: list[str], at: int) -> str:
    """The text of the function whose head stands in a line, without comments."""
    indent = FN.match(lines[at])[1]
    end = next((n for n in range(at + 1, len(lines)) if lines[n].startswith(indent + "}")), len(lines))
    return "\n".join(line.partition("//")[0] for line in lines[at + 1:end])


def modules_of(src: pathlib.Path, file: pathlib.Path) -> tuple[str, ...]:
    """The modules that a file below src/ is."""
    return tuple(part for part in file.relative_to(src).with_suffix("").parts if part not in ("lib", "mod"))


def homes(src: pathlib.Path) -> dict[str, tuple[str, ...]]:
    """Each type declared below src/ with the modules that it stands in."""
    return {found[1]: modules_of(src, file) for file in src.rglob("*.rt") for found in map(TYPE.match, file.read_text().split("\n")) if found}


def functions(src: pathlib.Path) -> Iterator[tuple[Function, bool]]:
    """Each function below src/ but those of impls of traits, and whether it seems to call itself outside of a named cycle."""
    types = homes(src)
    for file in sorted(src.rglob("*.rt")):
        modules = modules_of(src, file)
        lines, owner, cycle = file.read_text().split("\n"), None, None
        for at, line in enumerate(lines):
            if re.match(r"(unsafe )?impl\b", line):
                found = IMPL.match(line.removeprefix("unsafe "))
                owner = found[1] if found else ""
            elif line.startswith("}"):
                owner = None
            if found := CYCLE.match(line):
                cycle = found[1]
            if (found := FN.match(line)) and (not found[1] or owner):
                calls = re.search(rf"(?<!\w){found[2]}\(", body_of(lines, at)) is not None
                home = types.get(owner, modules) if found[1] and not cycle else modules
                yield Function(home, owner if found[1] else None, found[2], cycle), calls and not cycle
                cycle = None


def copy_hollow(crate: pathlib.Path, to: pathlib.Path) -> None:
    """Makes a hollow copy of a crate."""
    shutil.rmtree(to, ignore_errors=True)
    for part in ("src", "specs"):
        shutil.copytree(crate / part, to / part)
    shutil.copytree(crate / "proofs", to / "proofs")
    kept = {function.folder() for function, calls_itself in functions(crate / "src") if calls_itself}
    for file in [file for file in (to / "proofs").rglob("*.antt") if file.name in PROOFS]:
        if file.parent.relative_to(to / "proofs") not in kept and not file.parent.name.startswith("+"):
            file.unlink()
    for function, calls_itself in functions(crate / "src"):
        if not calls_itself:
            folder = to / "proofs" / function.folder()
            folder.mkdir(parents=True, exist_ok=True)
            for name in PROOFS[:2]:
                (folder / name).unlink(missing_ok=True)
            (folder / PROOFS[2]).write_text(function.hole(crate.name))


def quick_rt() -> object:
    """The command rt as a module that works out what stands below a crate once."""
    made = importlib.util.module_from_spec(importlib.util.spec_from_file_location("quick_rt", ROOT / "tools" / "quick_rt.py"))
    made.__spec__.loader.exec_module(made)
    return made.quick()


def words(rt: object, folder: pathlib.Path, name: str) -> list[str]:
    """The words of rattle check for a crate over what is hollow and what is built."""
    kit, crate = rt.rtlib.KIT, next(it for it in rt.crates_of(str(ROOT)) if it.name == name)
    hollow = [it for it in crate.below() if (folder / it.name).is_dir()]
    built = [it for it in crate.below() if it not in hollow]
    named = {it.name for of in [crate, *hollow] for it in of.deps}
    out = ["--crate-name", name, "src/main.rt" if crate.is_program else "src/lib.rt"]
    for kits in sorted({"core", *(it for of in [crate, *hollow] for it in of.of_kit)}):
        out += ["--extern", f"{kits}={kit}/rlibs/{kits}.rlib"]
    for it in hollow:
        uses = dict.fromkeys(["core", *it.of_kit, *(below.name for below in it.deps)])
        out += ["--lib", f"{it.name}:{','.join(uses)}={folder}/{it.name}/src/lib.rt"]
    for it in built:
        out += ["--extern", f"{it.name}={it.rlib}"] if it.name in named else []
        out += ["-L", f"dependency={os.path.dirname(it.rlib)}"]
    out += ["-L", f"dependency={kit}/rlibs", "--antt-project", f"{kit}/rattle/logic/antt-project.json", "--logic-built", f"{kit}/logic_built"]
    return [*out, "--links", f"{name}=", "--allow-holes", "--incremental", "out/hollow"]


def check(folder: pathlib.Path, flags: list[str]) -> int:
    """Checks the crate of the current folder."""
    here, rt = pathlib.Path.cwd(), quick_rt()
    os.chdir(ROOT)
    rt.Crate.allowed = rt.handles_of(str(ROOT))
    command = [*words(rt, folder, here.name), *flags]
    os.chdir(here)
    os.makedirs("out", exist_ok=True)
    return subprocess.call([f"{rt.rtlib.KIT}/bin/rattle", "check", *command])


def main() -> int:
    """Does what the command line asks for."""
    if len(sys.argv) > 3 and sys.argv[1] == "make":
        for name in sys.argv[3:]:
            copy_hollow(ROOT / "crates" / name, pathlib.Path(sys.argv[2]).resolve() / name)
        return 0
    if len(sys.argv) > 2 and sys.argv[1] == "check":
        return check(pathlib.Path(sys.argv[2]).resolve(), sys.argv[3:])
    print(__doc__.strip().split("\n\n")[1], file=sys.stderr)
    return 2


if __name__ == "__main__":
    sys.exit(main())
