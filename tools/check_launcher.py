#!/usr/bin/env python3
"""Tries the launcher `pgplan` beside stand-ins of `rt` and of the program: it never runs a program of other sources than those there.

usage: tools/check_launcher.py

Prints a line for each case that is not as it should be, and last the number of cases that passed and failed.
"""
from __future__ import annotations

import hashlib
import os
import pathlib
import re
import shutil
import signal
import subprocess
import sys
import tempfile
import time
from typing import Callable, Iterator, Optional, Tuple

ROOT = pathlib.Path(__file__).resolve().parent.parent
LAUNCHER = ROOT / "pgplan"
SOURCE = "crates/pgplan_main/src/main.rt"
BUILT = "crates/pgplan_main/out/pgplan_main"
SHIPPED = "dist/pgplan-x86_64-linux"
# How long anything is waited for, on a machine that does much else.
SECONDS = 120
MEND = "mend pgplan, or what is wanted in tools/check_launcher.py"
NOBODY = 65534
# The commands that a small machine has.
COMMANDS = """awk cat chmod cut date dirname env find getconf git grep head kill ls mkdir mkfifo mktemp mv python3 readlink rm sed setsid sh sha256sum
sleep tail touch uname""".split()

# --- Stand-ins ---

OLD, NEW = "#!/bin/sh\necho old\n", "#!/bin/sh\necho \"new $*\"\nexit 3\n"
BUILDS = f"cat >out/pgplan_main <<'P'\n{NEW}P\nchmod +x out/pgplan_main\n"
# Proves what is asked: `low` was proved before, so nothing is said of it.
PROVES = """case "$*" in
'all check --jobs '[1-9]*) printf '== low\\n== middle\\nfn middle::f: proved\\nlogic=proved functions=1\\n'
    printf '== pgplan_main\\nlogic=proved functions=1\\n== summary\\nlow: ok\\n3 of 3 crates ok\\n'; exit 0 ;;
'run -- run') ;;
*) exit 1 ;;
esac
"""
FAILS = "printf '== low\\nlogic=proved functions=2\\n== middle\\nfn middle::f: not proved\\n== summary\\nlow: ok\\nmiddle: failed (1)\\n'\nexit 1\n"
TRIES = """[ "$*" = 'try -- run' ] || exit 1
read -r line
echo "tried $line"
echo 'ERROR its own' >&2
echo 'checked: ended status=3' >&2
echo 'run=ended status=3 runners=1 proved=no' >&2
exit 3
"""
# Answers a script by its size, ends with a fault if the script has the word `fault`, and sleeps if it has the word `sleep`.
PROGRAM = """#!/bin/sh
[ "$1" = run ] || { echo "words $*"; exit 0; }
script=$(cat)
case $script in
*sleep*) echo $$ >"$SLEEPS"; exec sleep 600 ;;
*fault*) before=${script%%fault*}; echo "ERROR 42601 at ${#before}: syntax error" >&2; exit 3 ;;
esac
echo "shipped ${#script}"
"""
SLEEPS = "#!/bin/sh\nsleep 600 & echo $! >\"$SLEEPS\"\nwait\n"

TOLD = "pgplan: {} of 3 crates proved ({}), 0 min\n"
FIRST = ("pgplan: proving the 3 crates of the program, N at a time: about N minutes if none was proved before; the first line comes after "
         "about four\n")
NONE = "pgplan: no program was built here, and dist/ has none\n"
UNPROVED = "pgplan: nothing is proved of this run; the build takes about two minutes\n"
NOT_RUN = "pgplan: nothing is run: the sources are not proved and built (status {} of rt)\n"
# The name of a case; what `rt` does; whether a program was built, and its sources are newer; the words; the output and the status
# wanted; and what is told on standard error.
BUILDING = [
    ("a program as new as its sources is run", "exit 1\n", True, False, ["run"], "old\n", 0, ""),
    ("a program older than its sources is not run if rt fails", "exit 1\n", True, True, ["run"], "", 70, NONE + FIRST + NOT_RUN.format(1)),
    ("nor if rt stops without a verdict", "exit 2\n", True, True, ["run"], "", 70, NONE + FIRST + NOT_RUN.format(2)),
    ("nor if there is no rt", None, True, True, ["run"], "", 70, NONE + "pgplan: nothing can be built: rt, the kit of Rattle, is not on the path\n"),
    ("nor if rt builds and then fails", BUILDS + "exit 1\n", True, True, ["run"], "", 70, NONE + FIRST + NOT_RUN.format(1)),
    ("a missing program is not run", "exit 0\n", False, False, ["run"], "", 70, NONE + FIRST + NOT_RUN.format(0)),
    ("a built program is run, with its status, and each crate is reported as it is proved", PROVES + BUILDS + "exit 0\n", True, True, ["run"],
     "new run\n", 3, NONE + FIRST + TOLD.format(1, "low") + TOLD.format(2, "middle") + TOLD.format(3, "pgplan_main")),
    ("--prove proves and builds, and runs nothing without words", PROVES + BUILDS + "exit 0\n", True, True, ["--prove"], "", 0,
     FIRST + TOLD.format(1, "low") + TOLD.format(2, "middle") + TOLD.format(3, "pgplan_main") + "pgplan: proved and built: ROOM/" + BUILT + "\n"),
    ("--prove of what is proved runs the program", "exit 1\n", True, False, ["--prove", "run"], "old\n", 0, ""),
    ("a crate that is not proved is not reported as proved", FAILS, True, True, ["run"], "", 70,
     NONE + FIRST + TOLD.format(1, "low") + FAILS.split("'")[1].replace("\\n", "\n") + NOT_RUN.format(1)),
    ("a run without a proof says so, and the program that was built is not run", TRIES, True, True, ["--unproved", "run"], "tried input\n", 3,
     UNPROVED + "ERROR its own\n"),
    ("nothing is run if the sources are not built", "echo 'x.rt:1: error' >&2\necho 'run=none proved=no' >&2\nexit 1\n", True, False,
     ["--unproved", "run"], "", 70,
     UNPROVED + "x.rt:1: error\nrun=none proved=no\npgplan: nothing is run: the sources are not built (status 1 of rt)\n"),
    ("the word stands before the program's own words alone", "exit 1\n", True, False, ["run", "--unproved"], "old\n", 0, ""),
]

# --- What the cases use ---

Ran = Tuple[str, str, int]
Case = Callable[[pathlib.Path], None]


class Differs(Exception):
    """What was got, and what was wanted."""


def expect(got: object, wanted: object) -> None:
    """Ends a case in which another thing was got than was wanted."""
    if got != wanted:
        raise Differs(f"{got!r} and not {wanted!r}")


def put(path: pathlib.Path, text: str, mode: int = 0o644) -> None:
    """Writes a file, and its folders."""
    path.parent.mkdir(parents=True, exist_ok=True)
    path.write_text(text)
    path.chmod(mode)


def checkout(room: pathlib.Path, program: str = PROGRAM) -> pathlib.Path:
    """A checkout with a shipped program of its sources."""
    folder = room / "checkout"
    shutil.copytree(ROOT / "tools", folder / "tools", ignore=shutil.ignore_patterns("__pycache__"))
    put(folder / "pgplan", LAUNCHER.read_text(), 0o755)
    put(folder / "crates.txt", "low:\npgplan_main: low\n")
    put(folder / SOURCE, "fn main() {}\n")
    put(folder / "crates/low/src/lib.rt", "fn low() {}\n")
    put(folder / SHIPPED, program, 0o755)
    named = [SHIPPED, "crates.txt", SOURCE, "crates/low/src/lib.rt"]
    sums = [f"{hashlib.sha256((folder / name).read_bytes()).hexdigest()}  {name}\n" for name in named]
    put(folder / "dist/SOURCES", "# a kit\n" + "".join(sums))
    return folder


def path_without(room: pathlib.Path, names: tuple) -> str:
    """A folder with the commands that a small machine has, but for these."""
    folder = room / "commands"
    folder.mkdir(exist_ok=True)
    for name in COMMANDS:
        where = shutil.which(name)
        (folder / name).unlink(missing_ok=True)
        if where and name not in names:
            (folder / name).symlink_to(os.path.realpath(sys.executable) if name == "python3" else where)
    return str(folder)


def environment(room: pathlib.Path, without: tuple = (), **more: str) -> dict[str, str]:
    """An environment with little in it, and a folder for temporary files that any user can write."""
    (room / "tmp").mkdir(exist_ok=True)
    (room / "tmp").chmod(0o777)
    return {"PATH": path_without(room, without), "TMPDIR": str(room / "tmp"), "SLEEPS": str(room / "sleeps"), "HOME": str(room), **more}


def ran(room: pathlib.Path, *words: object, without: tuple = (), text: str = "", more: Optional[dict[str, str]] = None, **how) -> Ran:
    """Output, errors and status of a command."""
    done = subprocess.run(list(map(str, words)), input=text, capture_output=True, text=True, timeout=SECONDS,
                          env=environment(room, without, **more or {}), **how)
    return done.stdout, done.stderr, done.returncode


def other_user() -> dict[str, int]:
    """How a command is run by another user, if this one is root and may do that."""
    how = {"user": NOBODY, "group": NOBODY} if os.getuid() == 0 else {}
    try:
        subprocess.run(["true"], check=True, **how)
    except (OSError, TypeError, ValueError, subprocess.SubprocessError):
        return {}
    return how


def expect_refused(got: Ran, says: str = "") -> None:
    """A run that says this, has no output and ends with the status for no program."""
    expect((got[0], got[2], says in got[1]), ("", 70, True))


def expect_no_file(room: pathlib.Path) -> None:
    """No temporary file is left."""
    expect(sorted(path.name for path in (room / "tmp").iterdir()), [])


# --- Which program is run ---

def shipped_is_run(room: pathlib.Path) -> None:
    """The shipped program is run, and a stamp is set."""
    folder = checkout(room)
    for _ in range(2):
        expect(ran(room, folder / "pgplan", "run", text="abc"), ("shipped 3\n", "", 0))
    expect((folder / "dist/.checked").exists(), True)


def words_are_handed_on(room: pathlib.Path) -> None:
    """The program's own words are handed on."""
    expect(ran(room, checkout(room) / "pgplan", "sample", "7")[0], "words sample 7\n")


def changed_source(room: pathlib.Path) -> None:
    """The shipped program is not run for a changed source, whatever time that has."""
    folder = checkout(room)
    ran(room, folder / "pgplan", "run")
    put(folder / SOURCE, "fn main() { }\n")
    os.utime(folder / SOURCE, (1000, 1000))
    for _ in range(2):
        expect_refused(ran(room, folder / "pgplan", "run"), f"was built from other sources ({SOURCE})")


def mended_source(room: pathlib.Path) -> None:
    """The shipped program is run again for a source that was changed back."""
    folder = checkout(room)
    put(folder / SOURCE, "fn main() { }\n")
    expect_refused(ran(room, folder / "pgplan", "run"))
    put(folder / SOURCE, "fn main() {}\n")
    expect(ran(room, folder / "pgplan", "run")[0], "shipped 0\n")


def lost_source(room: pathlib.Path) -> None:
    """The shipped program is not run without one of its sources."""
    folder = checkout(room)
    ran(room, folder / "pgplan", "run")
    (folder / "crates/low/src/lib.rt").unlink()
    expect_refused(ran(room, folder / "pgplan", "run"))


def lost_folders(room: pathlib.Path) -> None:
    """The shipped program is not run without one of its crates, and is once that is back."""
    folder = checkout(room)
    for lost in ("crates/low/src", "crates/low"):
        ran(room, folder / "pgplan", "run")
        shutil.move(folder / lost, room / "lost")
        expect_refused(ran(room, folder / "pgplan", "run"))
        shutil.move(room / "lost", folder / lost)
    expect(ran(room, folder / "pgplan", "run")[0], "shipped 0\n")


def stale_dist(room: pathlib.Path) -> None:
    """A shipped program that is not the one of dist/SOURCES is not run."""
    folder = checkout(room)
    ran(room, folder / "pgplan", "run")
    put(folder / SHIPPED, PROGRAM + "# another\n", 0o755)
    expect_refused(ran(room, folder / "pgplan", "run"), f"({SHIPPED})")


def copied_stamp(room: pathlib.Path) -> None:
    """A stamp in a copied folder does not count."""
    folder = checkout(room)
    ran(room, folder / "pgplan", "run")
    put(folder / SOURCE, "fn main() { }\n")
    shutil.copytree(folder, room / "copy", copy_function=shutil.copy)
    (room / "copy/dist/.checked").touch()
    shutil.rmtree(folder)
    (room / "copy").rename(folder)
    expect_refused(ran(room, folder / "pgplan", "run"))


def changed_proof(room: pathlib.Path) -> None:
    """The shipped program is run for changed proofs and definitions."""
    folder = checkout(room)
    ran(room, folder / "pgplan", "run")
    put(folder / "crates/low/proofs/Lib.antt", "-- a lemma\n")
    expect(ran(room, folder / "pgplan", "run")[0], "shipped 0\n")


def built_comes_first(room: pathlib.Path) -> None:
    """A program that was built here is run, unless a source or a folder of sources is newer."""
    folder = checkout(room)
    put(folder / BUILT, NEW, 0o755)
    later = time.time() + 5
    for newer in ("crates", "crates.txt", "crates/low/src", SOURCE):
        expect(ran(room, folder / "pgplan", "run")[0], "new run\n")
        os.utime(folder / newer, (later, later))
        expect(ran(room, folder / "pgplan", "run")[0], "shipped 0\n")
        os.utime(folder / newer, (1000, 1000))


def unreadable_source(room: pathlib.Path) -> None:
    """A program that was built here is not run if its sources cannot be read."""
    folder = checkout(room)
    put(folder / BUILT, NEW, 0o755)
    room.chmod(0o755)
    (folder / "crates/low/src").chmod(0o700 if other_user() else 0)
    try:
        if other_user() or os.getuid():
            expect_refused(ran(room, folder / "pgplan", "run", **other_user()))
    finally:
        (folder / "crates/low/src").chmod(0o755)


def not_executable(room: pathlib.Path) -> None:
    """A shipped program that is not executable is told."""
    folder = checkout(room)
    (folder / SHIPPED).chmod(0o644)
    expect_refused(ran(room, folder / "pgplan", "run"), "chmod +x")


# --- Where it is run ---

def links(room: pathlib.Path) -> None:
    """Symbolic links are followed, from any folder."""
    folder = checkout(room)
    (room / "bin").mkdir()
    for name, target in (("absolute", folder / "pgplan"), ("relative", "../checkout/pgplan"), ("twice", "relative")):
        (room / "bin" / name).symlink_to(target)
        expect(ran(room, room / "bin" / name, "run", cwd="/")[0], "shipped 0\n")
    expect(ran(room, "sh", "-c", f"PATH={room}/bin:$PATH && twice run", cwd="/")[0], "shipped 0\n")


def read_only(room: pathlib.Path) -> None:
    """Another user runs it in a folder that cannot be written, and no stamp is set."""
    folder = checkout(room)
    for path in (folder / "dist", folder):
        path.chmod(0o555)
    room.chmod(0o755)
    for _ in range(2):
        expect(ran(room, folder / "pgplan", "run", **other_user()), ("shipped 0\n", "", 0))
    expect((folder / "dist/.checked").exists(), not other_user() and os.getuid() == 0)
    for path in (folder / "dist", folder):
        path.chmod(0o755)


def many_at_once(room: pathlib.Path) -> None:
    """Twelve at once in a new checkout all answer, and leave one stamp."""
    folder, here = checkout(room), environment(room)
    runs = [subprocess.Popen([folder / "pgplan", "run"], stdin=subprocess.DEVNULL, stdout=subprocess.PIPE, stderr=subprocess.STDOUT, env=here)
            for _ in range(12)]
    expect({run.communicate(timeout=SECONDS)[0] for run in runs}, {b"shipped 0\n"})
    expect(sorted(path.name for path in (folder / "dist").iterdir()), [".checked", "SOURCES", "pgplan-x86_64-linux"])


def clone_answers(room: pathlib.Path) -> None:
    """The shipped program itself answers in a copy of what is shipped and nothing else, without rt, git and Python on the path."""
    folder = room / "clone"
    for name in ("pgplan", "crates.txt", SHIPPED, "dist/SOURCES", "examples/whatif.sql"):
        (folder / name).parent.mkdir(parents=True, exist_ok=True)
        shutil.copy(ROOT / name, folder / name)
    shutil.copytree(ROOT / "crates", folder / "crates", ignore=lambda _, names: {"out", "specs", "proofs", "wrong-bodies"} & set(names))
    got = ran(room, folder / "pgplan", "examples/whatif.sql", cwd=folder, without=("rt", "python3", "git"))
    expect(got, ((ROOT / "examples/whatif.out").read_text(), "", 0))


# --- Files ---

def files(room: pathlib.Path) -> None:
    """Several files and standard input are one script, and no file is left."""
    folder = checkout(room)
    put(room / "a b.sql", "12345")
    put(room / "c.sql", "678\n")
    expect(ran(room, folder / "pgplan", "a b.sql", cwd=room), ("shipped 5\n", "", 0))
    expect(ran(room, folder / "pgplan", "a b.sql", "c.sql", "-", cwd=room, text="xy"), ("shipped 17\n", "", 0))
    expect_no_file(room)


def fault(room: pathlib.Path) -> None:
    """A fault is shown with its file, line and column."""
    folder = checkout(room)
    put(room / "a.sql", "SELECT 1;\n")
    put(room / "b.sql", "\nSELECT fault;\n")
    out, errors, status = ran(room, folder / "pgplan", "a.sql", "b.sql", cwd=room)
    wanted = 'ERROR 42601 at 21: syntax error\nb.sql:2:8: error: syntax error at "fault"\nSELECT fault;\n       ^~~~~\n'
    expect((out, errors[:len(wanted)], status), ("", wanted, 3))
    expect_no_file(room)


def fault_without_python(room: pathlib.Path) -> None:
    """Without Python, or with one that is too old, a fault has the program's line alone."""
    folder = checkout(room)
    put(room / "a.sql", "SELECT fault;\n")
    wanted = ("", "ERROR 42601 at 7: syntax error\n", 3)
    expect(ran(room, folder / "pgplan", "a.sql", cwd=room, without=("python3",)), wanted)
    put(room / "old/python3", "#!/bin/sh\nexit 1\n", 0o755)
    expect(ran(room, "sh", "-c", f"PATH={room}/old:$PATH; {folder}/pgplan a.sql", cwd=room), wanted)


def missing_file(room: pathlib.Path) -> None:
    """A missing file, a folder and an unknown option are told."""
    folder = checkout(room)
    expect(ran(room, folder / "pgplan", "nix.sql", cwd=room), ("", "pgplan: nix.sql: no such file and no command; pgplan --help lists the commands\n", 1))
    expect(ran(room, folder / "pgplan", "/"), ("", "pgplan: /: cannot be read\n", 2))
    expect(ran(room, folder / "pgplan", "--nix"), ("", "pgplan: --nix: no such option; pgplan --help lists the options\n", 1))


def no_room_for_files(room: pathlib.Path) -> None:
    """Files are run without room for temporary ones."""
    folder = checkout(room)
    put(room / "a.sql", "123")
    expect(ran(room, folder / "pgplan", "a.sql", "-", cwd=room, text="45", more={"TMPDIR": "/nonexistent"}), ("shipped 8\n", "", 0))


def closed_input(room: pathlib.Path) -> None:
    """A closed standard input does no harm to a command and to a file."""
    folder = checkout(room)
    put(room / "a.sql", "123")
    expect(ran(room, "sh", "-c", f"{folder}/pgplan sample 7 <&-"), ("words sample 7\n", "", 0))
    expect(ran(room, "sh", "-c", f"{folder}/pgplan {room}/a.sql {room}/a.sql <&-"), ("shipped 9\n", "", 0))


def blanks_in_names(room: pathlib.Path) -> None:
    """Names of files and of the folder for temporary ones may have blanks and signs."""
    folder = checkout(room)
    (room / "a =tmp").mkdir()
    put(room / "a = b.sql", "fault;\n")
    out, errors, status = ran(room, folder / "pgplan", "-", "a = b.sql", cwd=room, text="45", more={"TMPDIR": str(room / "a =tmp")})
    expect((out, "\na = b.sql:1:1: error" in errors, status), ("", True, 3))


# --- Pages, and the end ---

def pages(room: pathlib.Path) -> None:
    """Help and version are printed, and say which program is run."""
    folder = checkout(room)
    expect(ran(room, folder / "pgplan", "--help")[0].startswith("usage: pgplan FILE.."), True)
    expect(f"program: {folder}/{SHIPPED}, sha256 " in ran(room, folder / "pgplan", "--version")[0], True)
    expect("by the gate that built the program, with a kit;" in ran(room, folder / "pgplan", "--version")[0], True)
    put(folder / SOURCE, "fn main() { }\n")
    expect("program: none of these sources" in ran(room, folder / "pgplan", "--version")[0], True)
    put(folder / BUILT, NEW, 0o755)
    expect(f"program: {folder}/{BUILT}\n" in ran(room, folder / "pgplan", "--version")[0], True)


def no_words(room: pathlib.Path) -> None:
    """Without words and without a terminal the program says how it is called."""
    expect(ran(room, checkout(room) / "pgplan")[0], "words \n")


def lives(number: str) -> bool:
    """Whether a process runs."""
    stat = pathlib.Path("/proc") / number / "stat"
    try:
        return stat.read_text().rpartition(")")[2].split()[0] != "Z"
    except OSError:
        return False


def waited(holds: Callable[[], bool], seconds: float = SECONDS) -> bool:
    """Whether something holds within a time."""
    end = time.monotonic() + seconds
    while not holds() and time.monotonic() < end:
        time.sleep(0.02)
    return holds()


def expect_ended(room: pathlib.Path, words: list, stopped: signal.Signals) -> None:
    """A signal ends the launcher and what it started, by the number in the file `sleeps`, and leaves no file."""
    run = subprocess.Popen(list(map(str, words)), stdout=subprocess.DEVNULL, stderr=subprocess.DEVNULL, stdin=subprocess.DEVNULL, env=environment(room))
    sleeps = room / "sleeps"
    expect(waited(lambda: sleeps.exists() and sleeps.read_text().endswith("\n")), True)
    run.send_signal(stopped)
    # Some shells end by the signal, some by a status that stands for it.
    expect(run.wait(timeout=SECONDS) in (-stopped, 128 + stopped), True)
    expect(waited(lambda: not lives(sleeps.read_text().strip()), 30), True)
    sleeps.unlink()
    expect_no_file(room)


def signals_end_a_script(room: pathlib.Path) -> None:
    """Signals end a running script."""
    folder = checkout(room)
    put(room / "a.sql", "sleep\n")
    for stopped in (signal.SIGTERM, signal.SIGINT, signal.SIGHUP, signal.SIGQUIT):
        expect_ended(room, [folder / "pgplan", room / "a.sql"], stopped)


def signals_end_a_build(room: pathlib.Path) -> None:
    """Signals end a build with all that it started, proved or not."""
    folder = checkout(room)
    put(folder / SOURCE, "changed\n")
    environment(room)
    put(room / "commands/rt", SLEEPS, 0o755)
    for words in (["run"], ["--prove"], ["--unproved", "run"]):
        expect_ended(room, [folder / "pgplan", *words], signal.SIGTERM)


def signals_end_a_wait(room: pathlib.Path) -> None:
    """A signal ends the launcher while it waits for a pipe."""
    folder = checkout(room)
    read, write = os.pipe()
    run = subprocess.Popen([folder / "pgplan", "-", "-"], stdin=read, stdout=subprocess.DEVNULL, stderr=subprocess.DEVNULL, env=environment(room))
    expect(waited(lambda: any((room / "tmp").glob("*/1"))), True)
    run.send_signal(signal.SIGTERM)
    expect(run.wait(timeout=SECONDS), -signal.SIGTERM)
    expect_no_file(room)
    os.close(read)
    os.close(write)


CASES = [
    shipped_is_run, words_are_handed_on, changed_source, mended_source, lost_source, lost_folders, stale_dist, copied_stamp, changed_proof,
    built_comes_first, unreadable_source, not_executable, links, read_only, many_at_once, clone_answers, files, fault, fault_without_python,
    missing_file, no_room_for_files, closed_input, blanks_in_names, pages, no_words, signals_end_a_script, signals_end_a_build,
    signals_end_a_wait,
]


def building(room: pathlib.Path, does: Optional[str], stands: bool, newer: bool, words: list[str]) -> Ran:
    """The launcher's output, status and errors in a folder without dist/, beside a stand-in of rt. Crate `other` is none of the program's."""
    shutil.copy(LAUNCHER, room / "pgplan")
    put(room / "crates.txt", "# crates\nlow:\nmiddle: low thiserror\nother: low\npgplan_main: middle low\n")
    put(room / SOURCE, "")
    (room / BUILT).parent.mkdir()
    if stands:
        put(room / BUILT, OLD, 0o755)
        os.utime(room / BUILT, (2000, 2000))
    for path in (room / SOURCE, (room / SOURCE).parent, room / "crates", room / "crates.txt"):
        os.utime(path, (1000, 1000))
    if newer:
        os.utime(room / SOURCE, (3000, 3000))
    here = environment(room)
    if does is not None:
        put(room / "commands/rt", "#!/bin/sh\n" + does, 0o755)
    done = subprocess.run([room / "pgplan", *words], input="input\n", capture_output=True, text=True, timeout=SECONDS, env=here)
    told = re.sub(r"\d+ at a time: about \d+ minutes", "N at a time: about N minutes", done.stderr).replace(str(room.resolve()), "ROOM")
    return done.stdout, done.returncode, told


def outcome(case: Case, room: pathlib.Path) -> Optional[str]:
    """What is not as it should be in a case, or None."""
    try:
        case(room)
    except (Differs, OSError, subprocess.SubprocessError) as error:
        return f"{error}"[:2000] or type(error).__name__
    return None


def all_cases() -> Iterator[tuple[str, Case]]:
    """Each case with its name."""
    for name, does, stands, newer, words, *wanted in BUILDING:
        yield name, lambda room, how=(does, stands, newer, words), wanted=tuple(wanted): expect(building(room, *how), wanted)
    for case in CASES:
        yield case.__doc__.rstrip("."), case


def main() -> None:
    """Runs every case in a folder of its own."""
    passed = failed = 0
    for name, case in all_cases():
        with tempfile.TemporaryDirectory() as folder:
            told = outcome(case, pathlib.Path(folder))
        failed += told is not None
        passed += told is None
        if told is not None:
            print(f"launcher: {name}: {told}")
    print(f"launcher: {passed} passed, {failed} failed")
    if failed:
        sys.exit(f"launcher: {MEND}")


main()
