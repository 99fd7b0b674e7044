#!/usr/bin/env python3
"""The shell of pgplan: runs each statement when its `;` is typed.

usage: tools/shell.py PROGRAM       (`./pgplan` at a terminal calls it)

The program reads a whole script, so each statement is run behind the earlier ones that changed anything, which print nothing. A statement
with an error changes nothing. \\h lists the commands. Without a terminal the status is 3 if a statement had an error.
"""
from __future__ import annotations

import atexit
import glob
import os
import pathlib
import re
import subprocess
import sys
from typing import BinaryIO, Callable, NamedTuple, Optional

sys.dont_write_bytecode = True
from fault import Parts, explained, words
from statements import HAS_LINES, blanked, end_of_statement, ends_inside, statements

try:
    import readline
except ImportError:
    readline = None

HISTORY = os.path.expanduser("~/.pgplan_history")
PROMPT, GOES_ON, DATA = "pgplan> ", "   ...> ", " lines> "
GREETING = "End statements with ;  \\h shows help, \\q quits."
KEYWORDS = """advise analyze and as asc between bool btree by check copy count create cross csv date desc distinct explain false first format
from group hash histogram common in include index inner int2 int4 int8 is join last limit max min not null nulls numeric offset on or order pages
plan rows select statistics stdin table text timestamp timestamptz true use using uuid varchar where with""".split()
STATEMENTS = r"""
CREATE TABLE t (a int4 NOT NULL, b text)          int2, int4, int8, numeric(10, 2), text, bool, uuid, date, timestamp, timestamptz
CREATE INDEX t_a ON t (a) [INCLUDE (b)] [WHERE ..]
STATISTICS t ROWS 1000000 PAGES 10000             sizes without data
STATISTICS t.a DISTINCT 5000 NULLS 0 [COMMON (value share, ..)] [HISTOGRAM (value, ..)]
COPY t FROM STDIN WITH (FORMAT CSV, NULL '\N')    then the rows, and a line \.
ANALYZE t                                         statistics from the rows
EXPLAIN SELECT ..                                 the plan; SELECT .. prints the rows too
ADVISE 3 (x ON t (a), y ON t (b)) (SELECT ..) ..  which of these indexes to create
docs/GRAMMAR.md describes them all, docs/FROM-POSTGRES.md what to write in place of what PostgreSQL has.
"""
OTHER_NAMES = {"dt": "d", "di": "d", "?": "h", "help": "h", "quit": "q", "exit": "q", "u": "undo"}
QUERY = re.compile(rb"\s*(?:explain\b\s*(?:\(\s*table\s*\))?\s*)?(?=select\b)", re.I)
COST = re.compile(rb"cost=(?:\d+\.\.)?(\d+)")


class Table(NamedTuple):
    """A table: its columns with their types, its indexes, and what is known of it and of each column."""

    name: str
    columns: list[tuple[str, str]]
    indexes: list[str]
    facts: dict[str, str]


def kind_of(text: bytes) -> str:
    """Whether a statement changes anything, asks a query, or does neither."""
    first = (re.findall(rb"\w+", blanked(text)) or [b""])[0].lower()
    if first in (b"create", b"copy", b"statistics", b"analyze"):
        return "change"
    return "query" if first in (b"select", b"explain") else "other"


def ended(text: bytes) -> bytes:
    """A statement as a script has it: with its `;` and a line end."""
    text = text.strip(b" \t\r\n")
    whole = text if HAS_LINES.match(blanked(text)) or text.endswith(b";") else text + b"\n;"
    return whole + b"\n"


def columns_of(said: list[str]) -> list[tuple[str, str]]:
    """Names and types of the columns in the words behind the `(` of CREATE TABLE."""
    columns, column, depth = [], [], 0
    for word in said:
        if word in (",", ")") and not depth:
            columns.append((column[0], re.sub(r" ([(),])", r"\1", " ".join(column[1:])).replace("( ", "(")))
            column = []
        elif word != ";":
            depth += (word == "(") - (word == ")")
            column.append(word)
    return columns


def tables_of(changes: list[bytes]) -> dict[str, Table]:
    """The tables that these statements make, by name."""
    tables = {}
    for text in changes:
        said = [word.lower() for word in words(text)]
        if said[:2] == ["create", "table"]:
            tables[said[2]] = Table(said[2], columns_of(said[4:]), [], {})
        elif said[:2] == ["create", "index"]:
            tables[said[4]].indexes.append(" ".join(text.decode("utf-8", "replace").split()[2:]).rstrip("; "))
        elif said[0] == "statistics" and said[2] == "rows":
            tables[said[1]].facts[""] = f"{said[3]} rows on {said[5]} pages"
        elif said[0] == "statistics":
            tables[said[1]].facts[said[3]] = f"{said[5]} distinct values"
        elif said[0] == "analyze":
            tables[said[1]].facts[""] = "analyzed"
    return tables


class Conversation:
    """The statements that were taken, and where replies go."""

    def __init__(self, program: str, screen: BinaryIO) -> None:
        self.program, self.screen = program, screen
        self.taken: list[bytes] = []
        self.file: Optional[BinaryIO] = None
        self.faults = 0

    def changes(self) -> list[bytes]:
        """The statements that changed anything."""
        return [text for text in self.taken if kind_of(text) == "change"]

    def run(self, script: bytes) -> tuple[bytes, bytes, int]:
        """Output, errors and status of the program for a script. An interrupt ends it."""
        run = subprocess.Popen([self.program, "run"], stdin=subprocess.PIPE, stdout=subprocess.PIPE, stderr=subprocess.PIPE)
        try:
            output, errors = run.communicate(script)
            return output, errors, run.returncode
        except KeyboardInterrupt:
            run.kill()
            run.communicate()
            raise

    def reply(self, output: bytes) -> None:
        """Writes a reply to the screen or to the file of `\\o`."""
        out = self.file or self.screen
        out.write(output)
        out.flush()

    def say(self, text: str) -> None:
        """Writes a line to the screen."""
        self.screen.write(text.encode("utf-8", "replace") + b"\n")
        self.screen.flush()

    def take(self, piece: bytes, name: Optional[str] = None) -> bool:
        """Runs statements behind those that were taken, and takes them if none has an error."""
        before = b"".join(self.changes())
        output, errors, status = self.run(before + piece)
        self.reply(output)
        if status:
            self.faults += 1
            self.say(self.told(Parts(["", name or "line"], [before, piece], b""), errors, name))
            return False
        self.taken += [ended(piece[one.begin:one.lines_end]) for one in statements(piece)]
        return True

    def told(self, parts: Parts, errors: bytes, name: Optional[str]) -> str:
        """An error as the shell shows it: with its file if it has one."""
        found = explained(parts, errors)
        if not found:
            return errors.decode("utf-8", "replace").rstrip()
        if name:
            return f"{found}\nNo statement of {name} is kept."
        line = f" in line {found.line}" if parts.texts[1].strip().count(b"\n") else ""
        return "\n".join([f"ERROR {found.code}{line}: {found.said}", found.picture, *found.hint_line()])

    def has_fault_before_lines(self, head: bytes) -> bool:
        """Whether a statement that lines follow is refused before they are read. If so, that is shown."""
        before = b"".join(self.changes())
        _, errors, status = self.run(before + head + b"\\.\n")
        found = re.match(rb"ERROR \w+ at (\d+)", errors)
        if status != 3 or not found or int(found[1]) >= len(before) + len(head):
            return False
        self.faults += 1
        self.say(self.told(Parts(["", "line"], [before, head], b""), errors, None))
        return True


class Commands:
    """The commands that begin with a backslash: a method for each, with its line of help as its docstring."""

    def __init__(self, conversation: Conversation) -> None:
        self.conversation = conversation

    def all(self) -> dict[str, Callable[[str], None]]:
        """The commands by name, in the order of the help."""
        return {name: getattr(self, name) for name in ("d", "i", "o", "w", "undo", "new", "whatif", "h")}

    def obey(self, line: str) -> bool:
        """Runs a line that begins with a backslash. False ends the shell."""
        name, _, rest = line[1:].strip().rstrip(";").partition(" ")
        name = OTHER_NAMES.get(name, name)
        if name == "q":
            return False
        command = self.all().get(name)
        if command:
            command(rest.strip())
        else:
            self.conversation.say(f"\\{name}: no such command; \\h lists them")
        return True

    def d(self, name: str) -> None:
        r"""\d [TABLE]   lists the tables, or the columns and indexes of one"""
        tables = tables_of(self.conversation.changes())
        if not name:
            self.list(list(tables.values()))
        elif name.lower() in tables:
            self.describe(tables[name.lower()])
        else:
            self.conversation.say(f"There is no table {name}.")

    def list(self, tables: list[Table]) -> None:
        """Shows a line for each table."""
        wide = max((len(table.name) for table in tables), default=0)
        for table in tables:
            indexes = f"{len(table.indexes)} index{'' if len(table.indexes) == 1 else 'es'}"
            self.conversation.say(f"{table.name:{wide}}  {len(table.columns)} columns, {indexes}, {table.facts.get('', 'no statistics')}")
        if not tables:
            self.conversation.say("There is no table.")

    def describe(self, table: Table) -> None:
        """Shows the columns and indexes of a table."""
        wide = max(len(name) for name, _ in table.columns)
        typed = max(len(type_) for _, type_ in table.columns)
        self.conversation.say(f"{table.name}  {table.facts.get('', 'no statistics')}")
        for name, type_ in table.columns:
            self.conversation.say(f"  {name:{wide}}  {type_:{typed}}  {table.facts.get(name, '')}".rstrip())
        for index in table.indexes:
            self.conversation.say(f"  index {index}")

    def i(self, name: str) -> None:
        r"""\i FILE      runs a file; if it has an error, none of its statements is kept"""
        if not name:
            return self.conversation.say("\\i needs a file")
        try:
            self.conversation.take(pathlib.Path(name).expanduser().read_bytes(), name)
        except OSError as error:
            self.conversation.say(f"{name}: {error.strerror}")

    def o(self, name: str) -> None:
        r"""\o [FILE]    sends replies to a file; without a name, to the screen again"""
        if self.conversation.file:
            self.conversation.file.close()
            self.conversation.file = None
        if name:
            try:
                self.conversation.file = open(pathlib.Path(name).expanduser(), "wb")
            except OSError as error:
                self.conversation.say(f"{name}: {error.strerror}")

    def w(self, name: str) -> None:
        r"""\w [FILE]    writes the script so far to a file, or to the screen"""
        script = b"".join(self.conversation.taken)
        if not name:
            return self.conversation.say(script.decode("utf-8", "replace").rstrip("\n"))
        try:
            pathlib.Path(name).expanduser().write_bytes(script)
        except OSError as error:
            self.conversation.say(f"{name}: {error.strerror}")

    def undo(self, _: str) -> None:
        r"""\undo        takes back the last statement that changed anything"""
        taken = self.conversation.taken
        last = next((at for at in reversed(range(len(taken))) if kind_of(taken[at]) == "change"), None)
        if last is None:
            return self.conversation.say("There is nothing to undo.")
        self.conversation.say(f"undone: {taken.pop(last).decode('utf-8', 'replace').splitlines()[0]}")

    def new(self, _: str) -> None:
        r"""\new         starts again, without any table"""
        self.conversation.taken.clear()

    def whatif(self, _: str) -> None:
        r"""\whatif      shows the plan of the last query without the last index, and with it"""
        changes = self.conversation.changes()
        index = next((text for text in reversed(changes) if re.match(rb"\s*create\s+index\b", blanked(text), re.I)), None)
        query = next((text for text in reversed(self.conversation.taken) if QUERY.match(blanked(text, False))), None)
        if not index or not query:
            return self.conversation.say(f"There is no {'query' if index else 'index'} yet: \\whatif plans the last query without and with the last index.")
        asked = b"EXPLAIN " + QUERY.sub(b"", blanked(query, False), 1)
        costs = []
        for what, script in (("without", [text for text in changes if text is not index]), ("with", changes)):
            output, errors, status = self.conversation.run(b"".join(script) + asked)
            if status:
                return self.conversation.say(errors.decode("utf-8", "replace").rstrip())
            self.conversation.reply(f"{what} {words(index)[2]}:\n".encode() + output)
            costs.append(int(COST.search(output)[1]))
        self.conversation.reply(compared(*costs).encode() + b"\n")

    def h(self, _: str) -> None:
        r"""\h           shows this page"""
        self.conversation.say(STATEMENTS.strip("\n"))
        self.conversation.say("\n".join(command.__doc__ for command in self.all().values()) + "\n\\q           quits")


def compared(before: int, after: int) -> str:
    """What an index does to a cost."""
    if before == after:
        return f"cost {before} with and without it: no plan that uses it is cheaper"
    least, most, word = (after, before, "cheaper") if after < before else (before, after, "dearer")
    return f"cost {before} -> {after}: {most / max(1, least):.3g} times {word}"


def files_from(beginning: str) -> list[str]:
    """The files whose names begin so, folders with a `/`."""
    return [path + "/" * os.path.isdir(path) for path in sorted(glob.glob(glob.escape(beginning) + "*"))]


class Completer:
    """What a word may be completed to: words of statements, tables, columns and indexes, commands, and files behind a command."""

    def __init__(self, conversation: Conversation, commands: Commands) -> None:
        self.conversation, self.commands, self.found = conversation, commands, []

    def names(self) -> list[str]:
        """The names of tables, of their columns and of their indexes."""
        tables = tables_of(self.conversation.changes()).values()
        return [name for table in tables for name in [table.name, *(column for column, _ in table.columns), *(index.split()[0] for index in table.indexes)]]

    def candidates(self, line: str, word: str) -> list[str]:
        """What the word at the end of a line may become."""
        if re.match(r"\\[iow]\s", line):
            path = line.split(None, 1)[-1] if " " in line.strip() else ""
            return [found[len(path) - len(word):] for found in files_from(path)]
        if line.startswith("\\") and " " not in line:
            return sorted(f"\\{name} " for name in [*self.commands.all(), "q"] if f"\\{name}".startswith(word))
        if line.startswith("\\"):
            return [name for name in tables_of(self.conversation.changes()) if name.startswith(word.lower())]
        keywords = [key.upper() if word[:1].isupper() or not word else key for key in KEYWORDS]
        return sorted({name for name in self.names() if name.startswith(word.lower())}) + [f"{key} " for key in keywords if word and key.lower().startswith(word.lower())]

    def complete(self, word: str, state: int) -> Optional[str]:
        """The completion of a number, as readline asks for them in turn."""
        if state == 0:
            self.found = self.candidates(readline.get_line_buffer().lstrip(), word)
        return self.found[state] if state < len(self.found) else None


def use_readline(conversation: Conversation, commands: Commands) -> None:
    """Completes words and keeps the history of lines, if this Python has readline."""
    if not readline:
        return
    readline.set_completer(Completer(conversation, commands).complete)
    readline.set_completer_delims(" \t\n(),;.=<>|'")
    readline.parse_and_bind("bind ^I rl_complete" if "libedit" in (readline.__doc__ or "") else "tab: complete")
    try:
        readline.read_history_file(HISTORY)
    except OSError:
        pass
    readline.set_history_length(1000)
    atexit.register(keep_history)


def keep_history() -> None:
    """Writes the history of lines."""
    try:
        readline.write_history_file(HISTORY)
    except OSError:
        pass


class Shell:
    """Reads lines, runs each statement when it is whole, and obeys commands."""

    def __init__(self, program: str, at_terminal: bool) -> None:
        self.conversation = Conversation(program, sys.stdout.buffer)
        self.commands = Commands(self.conversation)
        self.at_terminal = at_terminal
        self.drop()

    def drop(self) -> None:
        """Forgets what was typed of a statement."""
        self.typed, self.in_lines = b"", False

    def is_between(self) -> bool:
        """Whether nothing of a statement was typed."""
        return not self.in_lines and not blanked(self.typed).strip()

    def is_command(self, line: str) -> bool:
        """Whether a line is a command: it begins with a backslash, also within a statement, or is a word by which others end."""
        if self.in_lines or ends_inside(self.typed):
            return False
        return line.lstrip().startswith("\\") or self.is_between() and line.strip().rstrip(";") in ("help", "quit", "exit")

    def prompt(self) -> str:
        """The prompt for the next line."""
        if not self.at_terminal:
            return ""
        return DATA if self.in_lines else PROMPT if self.is_between() else GOES_ON

    def line(self, line: str) -> bool:
        """Takes a line that was typed. False ends the shell."""
        if self.is_command(line):
            return self.commands.obey("\\" + line.strip().lstrip("\\"))
        self.typed += line.encode("utf-8", "surrogateescape") + b"\n"
        if not self.in_lines:
            self.take_whole()
            self.look_for_lines()
        elif line.rstrip("\r") == "\\.":
            self.in_lines = False
            self.take_whole()
        return True

    def look_for_lines(self) -> None:
        """Reads lines of data next if a statement that lines follow was typed, and has no error itself."""
        self.in_lines = bool(HAS_LINES.match(blanked(self.typed)) and end_of_statement(self.typed, 0))
        if self.in_lines and self.conversation.has_fault_before_lines(self.typed):
            self.drop()

    def take_whole(self) -> None:
        """Runs each statement that is whole, up to the first error: then the rest of what was typed is dropped."""
        while first := next(statements(self.typed), None):
            if not first.is_whole:
                return
            piece, self.typed = self.typed[:first.lines_end], self.typed[first.lines_end:]
            if blanked(piece).strip(b" \t\r\n;") and not self.conversation.take(piece.lstrip(b" \t\r\n")):
                break
        self.drop()

    def loop(self) -> None:
        """Reads lines up to the end."""
        while True:
            try:
                if not self.line(input(self.prompt())):
                    return
            except KeyboardInterrupt:
                self.drop()
                self.conversation.say("" if self.at_terminal else "^C")
            except EOFError:
                if self.at_terminal:
                    self.conversation.say("")
                elif blanked(self.typed).strip():
                    self.conversation.take(self.typed)
                return


def main() -> None:
    """Runs the command line."""
    if len(sys.argv) != 2:
        sys.exit(__doc__)
    at_terminal = sys.stdin.isatty() and sys.stdout.isatty()
    shell = Shell(sys.argv[1], at_terminal)
    if at_terminal:
        use_readline(shell.conversation, shell.commands)
        print(GREETING, flush=True)
    try:
        shell.loop()
    except BrokenPipeError:
        os.dup2(os.open(os.devnull, os.O_WRONLY), sys.stdout.fileno())
    sys.exit(3 if shell.conversation.faults and not at_terminal else 0)


if __name__ == "__main__":
    main()
