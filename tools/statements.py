"""Splits a script into its statements, as pgplan reads them: quotes, comments that nest, and the lines behind COPY, CHECK and USE PLAN."""
from __future__ import annotations

import re
from typing import Iterator, NamedTuple, Optional

SIGN = re.compile(rb"--[^\n]*|'(?:[^']|'')*'|'|/\*|;")
NESTED = re.compile(rb"/\*|\*/")
HAS_LINES = re.compile(rb"\s*(?:copy|check|use\s+plan)\b", re.I)
LAST_LINE = re.compile(rb"^\\\.\r?$", re.M)
REST_OF_LINE = re.compile(rb"[ \t\r]*\n")


class Statement(NamedTuple):
    """Where a statement begins, where it ends behind its `;`, and where the lines that belong to it end."""

    begin: int
    end: int
    lines_end: int
    is_whole: bool


def end_of_comment(script: bytes, at: int) -> int:
    """The place behind the comment that begins at a place: the script's end if it is not closed."""
    depth = 0
    for found in NESTED.finditer(script, at):
        depth += 1 if found[0] == b"/*" else -1
        if depth == 0:
            return found.end()
    return len(script)


def blanked(text: bytes, texts_too: bool = True) -> bytes:
    """A text of the same length with blanks for its comments, and for its quoted texts too if that is asked."""
    parts, at = [], 0
    while found := SIGN.search(text, at):
        end = end_of_comment(text, found.start()) if found[0] == b"/*" else found.end()
        goes = found[0][:2] in (b"--", b"/*") or texts_too and found[0] != b";"
        parts += [text[at:found.start()], re.sub(rb"[^\n]", b" ", text[found.start():end]) if goes else text[found.start():end]]
        at = end
    return b"".join([*parts, text[at:]])


def end_of_statement(script: bytes, at: int) -> Optional[int]:
    """The place behind the `;` that ends the statement at a place, or None."""
    while found := SIGN.search(script, at):
        if found[0] == b";":
            return found.end()
        if found[0] == b"'":
            return None
        at = end_of_comment(script, found.start()) if found[0] == b"/*" else found.end()
    return None


def ends_inside(text: bytes) -> bool:
    """Whether a text that ends with a line end ends inside of a quoted text or a comment."""
    at = 0
    while found := SIGN.search(text, at):
        at = end_of_comment(text, found.start()) if found[0] == b"/*" else found.end()
        if found[0] == b"'" or found[0] == b"/*" and at == len(text):
            return True
    return False


def end_of_lines(script: bytes, end: int) -> Optional[int]:
    """The place behind the lines of a statement that has lines, with the last of them and its line end, or None."""
    rest = REST_OF_LINE.match(script, end)
    last = LAST_LINE.search(script, rest.end()) if rest else None
    return min(len(script), last.end() + 1) if last else None


def statements(script: bytes) -> Iterator[Statement]:
    """The statements of a script in turn. What follows the last `;`, unless it is blank, is one that is not whole."""
    begin = 0
    while end := end_of_statement(script, begin):
        lines_end = end_of_lines(script, end) if HAS_LINES.match(blanked(script[begin:end])) else end
        yield Statement(begin, end, lines_end or len(script), bool(lines_end))
        begin = lines_end or len(script)
    if blanked(script[begin:]).strip():
        yield Statement(begin, len(script), len(script), False)


def statement_at(script: bytes, offset: int) -> tuple[int, int]:
    """Where the statement that holds an offset begins and ends."""
    found = Statement(0, 0, 0, True)
    for found in statements(script):
        if offset < found.lines_end:
            break
    return (found.begin, found.end) if offset < found.lines_end or not found.is_whole else (found.lines_end, len(script))
