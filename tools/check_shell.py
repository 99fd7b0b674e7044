#!/usr/bin/env python3
"""Tries the shell in a terminal of its own: what it answers to each line and each command, its completion, and how it ends.

usage: tools/check_shell.py PROGRAM

Each answer is waited for up to the next prompt. Prints a line for each answer that is not as it should be, and last the number of those
that passed and failed.
"""
from __future__ import annotations

import os
import pathlib
import pty
import re
import select
import signal
import subprocess
import sys
import tempfile
import time
from typing import Callable, Iterator, Optional

ROOT = pathlib.Path(__file__).resolve().parent.parent
SHELL = str(ROOT / "tools" / "shell.py")
PROMPTS = ("pgplan> ", "   ...> ", " lines> ")
ESCAPES = re.compile(r"\x1b\[[?0-9;]*[a-zA-Z]|\x07")
# How long an answer is waited for, on a machine that does much else.
SECONDS = 120
MEND = "mend tools/shell.py or tools/fault.py, or what is wanted in tools/check_shell.py or in tools/hints.py"

try:
    import readline
except ImportError:
    readline = None

PLAN_BEFORE = "Sort by e.at  (cost=450775000 rows=25000)\n  ->  Seq Scan on events e  (cost=450000000 rows=25000)\n"
PLAN_AFTER = "Sort by e.at  (cost=38786148 rows=25000)\n  ->  Bitmap Heap Scan on events e  (cost=38011148 rows=25000)\n        ->  Bitmap Index Scan on events_kind\n"
COPY = "COPY t FROM STDIN WITH (FORMAT CSV, NULL '\\N');"
# What each word with a tab behind it is completed to.
COMPLETED = {"eve\t": "events", "exp\t": "explain ", "sel\t": "select ", "scr\t": "script"}
# What is typed, and what has to be answered.
TYPED = [
    ("CREATE TABLE events (device int4 NOT NULL, kind text NOT NULL, at timestamp(6) with time zone NOT NULL);", ""),
    ("STATISTICS events ROWS 50000000 PAGES 500000; STATISTICS events.kind DISTINCT 12 NULLS 0", ""),
    ("  COMMON ('tick' 950000, 'alarm' 500);", ""),
    ("\\d", "events  3 columns, 0 indexes, 50000000 rows on 500000 pages\n"),
    ("\\d eve\t", "events  50000000 rows on 500000 pages\n  device  int4 not null\n  kind    text not null                         12 distinct values\n  at      timestamp(6) with time zone not null\n"),
    ("\\d nix", "There is no table nix.\n"),
    ("\\whatif", "There is no index yet: \\whatif plans the last query without and with the last index.\n"),
    ("exp\tsel\tat from eve\t e where kind = 'alarm' order by at;", PLAN_BEFORE),
    ("CREATE INDEX events_kind ON events (kind);", ""),
    ("\\whatif", f"without events_kind:\n{PLAN_BEFORE}with events_kind:\n{PLAN_AFTER}cost 450775000 -> 38786148: 11.6 times cheaper\n"),
    ("SELECT at FROM events", ""),
    (" WHERE kind LIKE 'a%';",
     "ERROR 42601 in line 2: syntax error at \"LIKE\"\n WHERE kind LIKE 'a%';\n            ^~~~\nhint: write b >= 'x' AND b < 'y': no other pattern can be written\n"),
    ("\\undo", "undone: CREATE INDEX events_kind ON events (kind);\n"),
    ("EXPLAIN SELECT at FROM events e WHERE kind IN ('alarm') ORDER BY at;", PLAN_BEFORE),
    ("COPY events FROM STDIN;",
     "ERROR 42601: syntax error at \";\"\nCOPY events FROM STDIN;\n                      ^\nhint: write COPY t FROM STDIN WITH (FORMAT CSV, NULL '\\N');, then the data and a line \\.\n"),
    ("CREATE TABLE t (a int4, b text);", ""),
    (COPY + " 1,2",
     f"ERROR 42601: syntax error at \"1\"\n{COPY} 1,2\n{' ' * len(COPY)} ^\nhint: {COPY.replace('COPY', 'write COPY')}, then the data and a line \\.\n"),
    (COPY, ""),
    ("1,it's;", ""),
    ("2,\\N", ""),
    ("\\.", ""),
    ("SELECT a, b FROM t;", "Seq Scan on t  (cost=408 rows=2)\n1,it's;\n2,\\N\n(2 rows)\n"),
    (COPY, ""),
    ("x,y", ""),
    ("\\.", "ERROR 22P02 in line 2: invalid input, record 1 column a\nx,y\n^\nhint: write a value of the column's type, or \\N for NULL\n"),
    ("SELECT a -- it's", ""),
    ("\\d t", "t  no statistics\n  a  int4\n  b  text\n"),
    (" FROM t WHERE b = '", ""),
    ("\\d t", ""),
    ("' OR /* '", ""),
    ("\\q", ""),
    ("*/ a = 1;", "Seq Scan on t  (cost=412 rows=2)\n1\n(1 row)\n"),
    ("\\o reply", ""),
    ("SELECT a FROM t;", ""),
    ("\\o", ""),
    ("\\w script", ""),
    ("\\new", ""),
    ("\\d", "There is no table.\n"),
    ("\\undo", "There is nothing to undo.\n"),
    ("\\i scr\t", f"{PLAN_BEFORE * 2}Seq Scan on t  (cost=408 rows=2)\n1,it's;\n2,\\N\n(2 rows)\nSeq Scan on t  (cost=412 rows=2)\n1\n(1 row)\n"
     "Seq Scan on t  (cost=408 rows=2)\n1\n2\n(2 rows)\n"),
    ("\\i nix", "nix: No such file or directory\n"),
    ("\\i script", "script:1:14: error: duplicate name events\nCREATE TABLE events (device int4 NOT NULL, kind text NOT NULL, at timestamp(6) with time zone NOT NULL);\n             ^~~~~~\n"
     "hint: choose another name: tables and indexes share their names\nNo statement of script is kept.\n"),
    ("\\nix", "\\nix: no such command; \\h lists them\n"),
]


def is_answer(text: str) -> bool:
    """Whether a text ends with a prompt at the start of a line, behind a whole line."""
    return text.rpartition("\n")[2] in PROMPTS and "\n" in text


class Terminal:
    """The shell at a terminal of its own."""

    def __init__(self, program: pathlib.Path, folder: str) -> None:
        environment = {"PATH": os.environ["PATH"], "HOME": folder, "TERM": "dumb", "LANG": "C.UTF-8", "COLUMNS": "500", "LINES": "50", "INPUTRC": os.devnull}
        self.child, self.main = pty.fork()
        if self.child == 0:
            os.chdir(folder)
            os.execve(sys.executable, [sys.executable, SHELL, str(program)], environment)

    def read(self, is_whole: Callable[[str], bool], seconds: float = SECONDS) -> str:
        """What is printed until it is whole, or the shell ends, or it takes too long."""
        text, end = "", time.monotonic() + seconds
        while not is_whole(text) and time.monotonic() < end:
            if select.select([self.main], [], [], 0.1)[0]:
                try:
                    printed = os.read(self.main, 65536)
                except OSError:
                    break
                if not printed:
                    break
                text = ESCAPES.sub("", text + printed.decode("utf-8", "replace")).replace("\r\n", "\n")
        return text

    def type(self, keys: str) -> None:
        """Types keys. A shell that has ended answers nothing."""
        try:
            os.write(self.main, keys.encode())
        except OSError:
            pass

    def answer(self, line: str) -> str:
        """What is answered to a line, without the line itself, which the terminal repeats, and without the next prompt."""
        self.type(line + "\n")
        text = self.read(is_answer)
        return text[text.find("\n") + 1:text.rfind("\n") + 1]

    def ends(self) -> Optional[int]:
        """The status with which the shell ends. One that does not is killed, and has none."""
        end = time.monotonic() + SECONDS
        while time.monotonic() < end:
            done, status = os.waitpid(self.child, os.WNOHANG)
            if done:
                return os.WEXITSTATUS(status) if os.WIFEXITED(status) else -os.WTERMSIG(status)
            self.read(lambda _: False, 0.1)
        os.kill(self.child, signal.SIGKILL)
        os.waitpid(self.child, 0)
        return None


def completed(line: str) -> str:
    """A line without tabs, as a Python without readline wants it."""
    for beginning, whole in COMPLETED.items():
        line = line.replace(beginning, whole)
    return line


def typed_lines(terminal: Terminal) -> Iterator[str]:
    """A line for each answer that is another than it should be. After two that take too long no more is typed."""
    late = 0
    for line, wanted in TYPED:
        begun = time.monotonic()
        got = terminal.answer(line if readline else completed(line))
        if got != wanted:
            yield f"{line!r} was answered by {got!r} and not by {wanted!r}"
        late += time.monotonic() - begun >= SECONDS
        if late == 2:
            yield "no more was typed, since no prompt came"
            return


def is_interrupted(terminal: Terminal) -> bool:
    """Whether an interrupt drops what was typed. One that comes while readline still works is heeded at the end of the line, and the prompt
    behind one may come with the next answer, so a query is typed until it is answered: a quote that was not dropped has it never be."""
    terminal.type("SELECT 'a")
    terminal.read(lambda text: text.endswith("SELECT 'a"))
    terminal.type("\x03")
    return any(terminal.answer("SELECT a FROM t;").endswith("(2 rows)\n") for _ in range(4))


def others(terminal: Terminal, folder: pathlib.Path) -> Iterator[tuple[str, bool]]:
    """Whether files, interrupts, help and the end are as they should be."""
    reply = folder / "reply"
    yield "\\o keeps the reply", reply.exists() and reply.read_text() == "Seq Scan on t  (cost=408 rows=2)\n1\n2\n(2 rows)\n"
    page = terminal.answer("\\h")
    yield "\\h has each command", all(f"\\{name}" in page for name in ("d", "i", "o", "w", "undo", "new", "whatif", "q"))
    yield "an interrupt drops what was typed", is_interrupted(terminal)
    terminal.type("\\q\n")
    yield "\\q ends it", terminal.ends() == 0
    history = folder / ".pgplan_history"
    yield "its lines are kept", not readline or history.exists() and "\\whatif" in history.read_text()


def without_a_terminal(program: pathlib.Path) -> Iterator[tuple[str, bool]]:
    """Whether answers to a pipe are as they should be, without prompts and without a greeting."""
    ran = subprocess.run([sys.executable, SHELL, program], input=b"CREATE TABLE t (a int4);\nSELECT b FROM t;\nSELECT a FROM t",
                         capture_output=True, timeout=SECONDS, env={"PATH": os.environ["PATH"], "HOME": "/nonexistent"})
    wanted = "ERROR 42703: no column b\nSELECT b FROM t;\n       ^\nhint: the columns are a\nSeq Scan on t  (cost=404 rows=1)\n(0 rows)\n"
    yield "a pipe is answered", (ran.returncode, ran.stdout.decode()) == (3, wanted)


def main() -> None:
    """Runs the command line."""
    if len(sys.argv) != 2:
        sys.exit(__doc__)
    program = pathlib.Path(sys.argv[1]).resolve()
    with tempfile.TemporaryDirectory() as folder:
        try:
            terminal = Terminal(program, folder)
        except OSError as error:
            sys.exit(f"shell: no terminal could be opened ({error}): mount /dev/pts")
        terminal.read(is_answer)
        faults = list(typed_lines(terminal))
        checks = [*others(terminal, pathlib.Path(folder)), *without_a_terminal(program)]
    faults += [f"{what}: it is not so" for what, holds in checks if not holds]
    for fault in faults:
        print(f"shell: {fault}")
    print(f"shell: {len(TYPED) + len(checks) - len(faults)} passed, {len(faults)} failed")
    if faults:
        sys.exit(f"shell: {MEND}")


main()
