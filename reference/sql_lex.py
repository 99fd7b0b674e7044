"""The words of a statement (docs/GRAMMAR.md, Words)."""

from __future__ import annotations

import re
from typing import Any, NamedTuple

from .pg_base import SYNTAX, Fault

RESERVED = frozenset(
    "and as asc create cross desc false from group inner is join limit not null offset on or order select table true using where "
    "with".split())
OPERATORS = frozenset("< <= = >= > <> != |<| |<=| |=| |>=| |>|".split())
BLANK = re.compile(rb"[ \t\n\r\f]+|--[^\n]*")
NESTED = re.compile(rb"/\*|\*/")
WORD = re.compile(rb"[A-Za-z_][A-Za-z0-9_$]*")
NUMBER = re.compile(rb"[0-9]+(?![A-Za-z_0-9])")
QUOTED = re.compile(rb"'[^']*(?:''[^']*)*'(?!')")
# The longest first, so that the first that fits is the longest.
SYMBOL = re.compile(rb"\|<=\||\|>=\||\|<\||\|=\||\|>\||<=|>=|<>|!=|[<=>(),.;*-]")


class Token(NamedTuple):
    """A word, number, quoted text or symbol, or the script's end, by its kind and its place in the script.

    `text` is the word in small letters, the digits, the value of the quoted text as bytes, or the symbol.
    """

    kind: str
    start: int
    end: int
    text: Any


def lex_statement(text: bytes, at: int) -> list[Token]:
    """The tokens from a place up to and with `;`, or with the end of the text."""
    tokens: list[Token] = []
    while not tokens or tokens[-1].kind != "end" and tokens[-1].text != ";":
        token = _token(text, _skip(text, at))
        tokens.append(token)
        at = token.end
    return tokens


def _skip(text: bytes, at: int) -> int:
    """The place behind white space and comments."""
    while True:
        blank = BLANK.match(text, at)
        if blank:
            at = blank.end()
        elif text.startswith(b"/*", at):
            at = _comment_end(text, at)
        else:
            return at


def _comment_end(text: bytes, at: int) -> int:
    """The place behind the comment that opens at a place; comments nest."""
    depth = 0
    for mark in NESTED.finditer(text, at):
        depth += 1 if mark[0] == b"/*" else -1
        if depth == 0:
            return mark.end()
    raise Fault(SYNTAX, at)


def _token(text: bytes, at: int) -> Token:
    """The token at a place."""
    if at >= len(text):
        return Token("end", len(text), len(text), "")
    for kind, pattern in (("word", WORD), ("number", NUMBER), ("quoted", QUOTED), ("symbol", SYMBOL)):
        found = pattern.match(text, at)
        if found:
            return Token(kind, at, found.end(), _value(kind, found[0]))
    raise Fault(SYNTAX, at)


def _value(kind: str, written: bytes) -> Any:
    """What a token's text is."""
    if kind == "quoted":
        return written[1:-1].replace(b"''", b"'")
    return written.decode("ascii").lower() if kind == "word" else written.decode("ascii")
