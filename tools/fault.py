#!/usr/bin/env python3
"""Explains the fault of a script: its file, line and column, the line with a caret, the word in error, and what to write instead.

usage: tools/fault.py ERRORS SCRIPT..            the file ERRORS has what the program wrote on standard error
       tools/fault.py --place SCRIPT OFFSET      prints the line at a byte offset with a caret

Each SCRIPT is FILE or FILE=NAME, the file to read and the name to show. Several are one script, joined as `pgplan FILE..` joins them.
Lines and columns count from 1; columns are characters if the line is UTF-8, else bytes.
"""
from __future__ import annotations

import csv
import difflib
import pathlib
import re
import sys
import unicodedata
from typing import Iterable, NamedTuple, Optional

sys.dont_write_bytecode = True
import hints
from statements import blanked, statement_at

# What the launcher writes between two files.
BETWEEN_FILES = b"\n;\n"
# The columns that are shown of a longer line.
SHOWN = 110
# How many words before a fault, and behind it, are looked at.
NEAR = 120
# How many names a hint lists.
LISTED = 20
TOKEN = re.compile(r"'(?:[^']|'')*'|\w+|<=|>=|<>|!=|\|<=?\||\|>=?\||\|=\||[^ \t\n\r\f\v]", re.S)
ERROR = re.compile(rb"ERROR (\w{5}) at (\d+): ([^\n]*)")
RECORD = re.compile(r"record (\d+)")


def text_of(line: bytes) -> str:
    """A line as UTF-8, or byte by byte if it is not."""
    try:
        return line.decode()
    except UnicodeDecodeError:
        return line.decode("latin-1")


def place(script: bytes, offset: int) -> tuple[int, int, str]:
    """The number of the line at an offset, the column, and the line."""
    begin = script.rfind(b"\n", 0, offset) + 1
    end = script.find(b"\n", offset)
    line = script[begin:end if end >= 0 else len(script)]
    return script.count(b"\n", 0, offset) + 1, len(text_of(line[:offset - begin])) + 1, text_of(line).rstrip("\r")


def words(text: bytes) -> list[str]:
    """The words and signs of a text, without comments."""
    return TOKEN.findall(blanked(text, False).decode("utf-8", "replace"))


def bare(word: str) -> str:
    """A word in small letters; every quoted text is the same."""
    return "'x'" if len(word) > 1 and word[0] == word[-1] == "'" else word.lower()


def near(before: list[str], behind: list[str]) -> list[str]:
    """The words around a fault with a bar between: the first few of the statement, those close before it, and those close behind it."""
    return (before if len(before) <= NEAR else before[:8] + before[8 - NEAR:]) + ["¦"] + behind[:NEAR]


def marked(script: bytes, offset: int) -> str:
    """The words of the statement at an offset with a bar before the word that stands there, as the rows of hints know it."""
    begin, end = statement_at(script, offset)
    before, behind = words(script[begin:offset]), words(script[offset:max(end, offset)])
    return " ".join(near([bare(word) for word in before], [bare(word) for word in behind]))


def word_at(script: bytes, offset: int) -> str:
    """The word at an offset as it is written, or nothing."""
    found = TOKEN.match(script[offset:offset + 200].decode("utf-8", "replace"))
    return found[0] if found else ""


def names_in(script: bytes, what: str) -> list[str]:
    """The names of the tables of a script, or of all their columns, each once."""
    text = blanked(script).decode("utf-8", "replace").lower()
    if what == "table":
        names = re.findall(r"create\s+table\s+(\w+)", text)
    else:
        names = [name for made in re.findall(r"create\s+table\s+\w+\s*\(([^;]*)\)", text) for name in re.findall(r"(?:^|,)\s*(\w+)", made)]
    return list(dict.fromkeys(names))


def closest(word: str, names: Iterable[str]) -> Optional[str]:
    """The name that is most like a word, if one is."""
    return next(iter(difflib.get_close_matches(word.lower(), names, 1, 0.7)), None)


def hint_for_name(script: bytes, what: str, name: str) -> str:
    """The hint for a table or a column that does not exist."""
    names = names_in(script, what)
    if what == "table" and name in names:
        return "a table that has an alias in the query goes by its alias"
    if closest(name, names):
        return f"did you mean {closest(name, names)}?"
    return f"the {what}s are {', '.join(names[:LISTED])}{', ..' * (len(names) > LISTED)}" if names else f"there is no {what} yet"


def hint_for_beginning(word: str) -> str:
    """The hint for a word that begins no statement."""
    begins = hints.BEGINS.upper().split()
    found = closest(word, hints.BEGINS.split())
    return f"did you mean {found.upper()}?" if found else f"a statement begins with {', '.join(begins[:-1])} or {begins[-1]}"


def hint(script: bytes, offset: int, code: str, said: str) -> Optional[str]:
    """What to write instead, or None."""
    if said == "no end of copy data":
        return "end the lines behind COPY, CHECK or USE PLAN with a line that is exactly \\."
    if script.startswith(b"/*", offset):
        return "close the comment with */; comments nest"
    where = marked(script, offset)
    row = hints.row_at(where, code)
    if row:
        return hints.hint_of(row)
    first, *rest = said.split()
    if first == "no" and rest[0] in ("table", "column"):
        return hint_for_name(script, rest[0], rest[1])
    if first == "ambiguous":
        return f"write the table's name or alias before it: t.{rest[1]}"
    if first == "limit":
        return hints.LIMITS.get(rest[0].rstrip(","))
    return hint_for_beginning(word_at(script, offset)) if where.startswith("¦ ") else None


def moved_to_record(script: bytes, offset: int, said: str) -> int:
    """The offset of the record that a fault in data names. The program gives the first byte of the data."""
    record = RECORD.search(said)
    if not record:
        return offset
    lines = [line + "\n" for line in script[offset:].decode("latin-1").split("\n")]
    reader, seen, begin = csv.reader(lines), 0, 0
    try:
        for fields in reader:
            seen += bool(fields)
            if seen == int(record[1]):
                return offset + sum(map(len, lines[:begin]))
            begin = reader.line_num
    except csv.Error:
        pass
    return offset


def width(letter: str) -> int:
    """How many columns of a terminal a letter takes."""
    return 0 if unicodedata.combining(letter) else 2 if unicodedata.east_asian_width(letter) in "WF" else 1


def shown(line: str, column: int, length: int) -> str:
    """A line and its caret, without signs that a terminal would obey; of a long line a part. Tabs stay."""
    line = "".join(letter if letter == "\t" or letter.isprintable() else "\ufffd" for letter in line)
    first = max(0, column - 1 - SHOWN // 2) if len(line) > SHOWN else 0
    part, at = line[first:first + SHOWN], column - 1 - first
    if first:
        part, at = "..." + part, at + 3
    if first + SHOWN < len(line):
        part += "..."
    blank = "".join("\t" if letter == "\t" else " " * width(letter) for letter in part[:at]).ljust(at if at > len(part) else 0)
    under = max(1, sum(map(width, part[at:at + length])))
    return f"{part}\n{blank}^{'~' * (under - 1)}"


class Parts:
    """A script that is made of named texts, with the same bytes between any two, and which of them an offset is in."""

    def __init__(self, names: list[str], texts: list[bytes], between: bytes = BETWEEN_FILES) -> None:
        self.names, self.texts, self.between = names, texts, between
        self.script = between.join(texts)

    def at(self, offset: int) -> tuple[str, bytes, int]:
        """The name of the text at an offset, the text, and the offset in it. Between two texts that is the end of the first."""
        for name, text in zip(self.names[:-1], self.texts):
            if offset < len(text) + bool(self.between):
                return name, text, offset
            offset = max(0, offset - len(text) - len(self.between))
        return self.names[-1], self.texts[-1], min(offset, len(self.texts[-1]))


class Explanation(NamedTuple):
    """A fault by its place, code and text, the line with a caret, and a hint, which may be empty."""

    name: str
    line: int
    column: int
    code: str
    said: str
    picture: str
    hint: str

    def __str__(self) -> str:
        return "\n".join([f"{self.name}:{self.line}:{self.column}: error: {self.said}", self.picture, *self.hint_line()])

    def hint_line(self) -> list[str]:
        """The line of the hint, if there is one."""
        return [f"hint: {self.hint}"] if self.hint else []


def explained(parts: Parts, errors: bytes) -> Optional[Explanation]:
    """The explanation of the program's errors, or None if they name no place in the script."""
    found = ERROR.match(errors)
    if not found or int(found[2]) > len(parts.script):
        return None
    code, offset, said = found[1].decode(), int(found[2]), found[3].decode("utf-8", "replace")
    name, text, inside = parts.at(moved_to_record(parts.script, offset, said))
    number, column, line = place(text, inside)
    word = "" if RECORD.search(said) or code == "22P04" else word_at(text, inside)
    told = said + named(word, said, inside == len(text))
    return Explanation(name, number, column, code, told, shown(line, column, len(word)), hint(parts.script, offset, code, said) or "")


def named(word: str, said: str, is_end: bool) -> str:
    """The word at a fault, to follow a text that does not name it."""
    if word.lower() in said.lower().split():
        return ""
    if not word:
        return " at the end of the script" if is_end and said == "syntax error" else ""
    if not word.isprintable() or word.isspace():
        return f" at U+{ord(word[0]):04X}"
    return f' at "{word if len(word) <= 40 else word[:40] + ".."}"'


def file_and_name(word: str) -> tuple[str, str]:
    """The file and the name of a word FILE or FILE=NAME. Either may have a `=` itself."""
    ends = [] if pathlib.Path(word).exists() else [found.start() for found in re.finditer("=", word)]
    return next(((word[:end], word[end + 1:]) for end in ends if pathlib.Path(word[:end]).is_file()), (word, word))


def parts_of(given: list[str]) -> Parts:
    """The script of these words, each FILE or FILE=NAME."""
    files = [file_and_name(word) for word in given]
    return Parts([name for _, name in files], [pathlib.Path(path).read_bytes() for path, _ in files])


def print_place(name: str, offset: int) -> None:
    """Prints the line at an offset with a caret."""
    parts = parts_of([name])
    if offset > len(parts.script):
        sys.exit(f"{name} has {len(parts.script)} bytes")
    number, column, line = place(parts.script, offset)
    print(f"{name}:{number}:{column}:", shown(line, column, 1), sep="\n")


def main() -> None:
    """Runs the command line."""
    given = sys.argv[1:]
    try:
        if len(given) == 3 and given[0] == "--place" and given[2].isascii() and given[2].isdigit():
            print_place(given[1], int(given[2]))
        elif len(given) > 1 and not given[0].startswith("-"):
            told = explained(parts_of(given[1:]), pathlib.Path(given[0]).read_bytes())
            if told:
                print(told, file=sys.stderr)
        else:
            sys.exit(__doc__)
    except OSError as error:
        sys.exit(f"{error.filename}: {error.strerror}")


if __name__ == "__main__":
    main()
