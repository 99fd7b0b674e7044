"""Splits a server's SQL into words, and a file into its statements."""
from __future__ import annotations

import re
from typing import NamedTuple, Optional

from .psql import Left

SPACE = re.compile(r"(?:\s+|--[^\n]*)+")
COMMENT = re.compile(r"/\*|\*/")
WORD = re.compile(r"""(?P<escaped>[eE]'(?:[^'\\]|\\.|'')*') | (?P<text>'(?:[^']|'')*') | (?P<dollars>\$(\w*)\$.*?\$\4\$)
    | (?P<quoted>"(?:[^"]|"")*") | (?P<parameter>\$\d+) | (?P<number>\d+\.?\d*(?:[eE][+-]?\d+)?|\.\d+(?:[eE][+-]?\d+)?)
    | (?P<name>[^\W\d][\w$]*) | (?P<sign>::|[-+*/<>=~!@\#%^&|`?]+|[(),.;\[\]:{}])""", re.X | re.S)
ESCAPE = re.compile(r"\\(x[0-9a-fA-F]{1,2}|u[0-9a-fA-F]{4}|[0-7]{1,3}|.)|''", re.S)
LETTERS = {"b": "\b", "f": "\f", "n": "\n", "r": "\r", "t": "\t"}


class Word(NamedTuple):
    """A word: its kind, what it means (a name in small letters unless quoted, a text without quotes), and where it stands."""

    kind: str
    value: str
    begin: int
    end: int


def unescaped(found: re.Match) -> str:
    """What an escape in a text of the form E'..' means."""
    code = found[1]
    if code is None:
        return "'"
    if code[0] in "xu" and len(code) > 1:
        return chr(int(code[1:], 16))
    return chr(int(code, 8)) if code[0] in "01234567" else LETTERS.get(code, code)


def meaning(kind: str, text: str) -> tuple[str, str]:
    """Kind and value of a word."""
    if kind == "escaped":
        return "text", ESCAPE.sub(unescaped, text[2:-1])
    if kind == "text":
        return "text", text[1:-1].replace("''", "'")
    if kind == "dollars":
        tag = text.index("$", 1) + 1
        return "text", text[tag:-tag]
    if kind == "quoted":
        return "quoted", text[1:-1].replace('""', '"')
    return kind, text.lower() if kind == "name" else text


def end_of_comment(text: str, at: int) -> int:
    """The place behind a comment. Comments nest."""
    depth = 0
    for found in COMMENT.finditer(text, at):
        depth += 1 if found[0] == "/*" else -1
        if not depth:
            return found.end()
    return len(text)


def is_sign(word: Word, value: str) -> bool:
    """Whether a word is this sign."""
    return word.kind == "sign" and word.value == value


def one_line(text: str) -> str:
    """A text on one line, without characters that a terminal would obey."""
    return "".join(sign if sign.isprintable() else "?" for sign in " ".join(text.split()))


def operator_of(signs: str) -> str:
    """The operator that signs begin with: it ends before a comment, and with + or - only if it has a sign that no comparison has."""
    signs = signs[:1] + re.split(r"--|/\*", signs[1:])[0]
    return signs if re.search(r"[~!@#%^&|`?]", signs) else signs[:1] + signs[1:].rstrip("+-")


def word_at(text: str, at: int) -> Word:
    """The word that begins at a place: one character of the kind `other` if none does."""
    word = WORD.match(text, at)
    if not word:
        return Word("other", text[at], at, at + 1)
    kind, value = meaning(word.lastgroup or "", word[0])
    if kind == "sign":
        value = operator_of(value)
        return Word(kind, value, at, at + len(value))
    return Word(kind, value, at, word.end())


def words_of(text: str) -> list[Word]:
    """The words of a text."""
    found, at = [], 0
    while at < len(text):
        if space := SPACE.match(text, at):
            at = space.end()
        elif text.startswith("/*", at):
            at = end_of_comment(text, at)
        else:
            found.append(word_at(text, at))
            at = found[-1].end
    return found


def split_statements(text: str) -> list[str]:
    """The statements of a file, without their `;`."""
    found, begin, end = [], None, 0
    for word in [*words_of(text), Word("sign", ";", len(text), len(text))]:
        if is_sign(word, ";"):
            if begin is not None:
                found.append(text[begin:end])
            begin = None
        else:
            begin, end = word.begin if begin is None else begin, word.end
    return found


class Cursor:
    """Reads words from the left."""

    def __init__(self, text: str, words: list[Word]) -> None:
        self.text, self.words, self.at = text, words, 0

    def peek(self, ahead: int = 0) -> Word:
        """A word, or one of the kind `end`."""
        at = self.at + ahead
        return self.words[at] if at < len(self.words) else Word("end", "", len(self.text), len(self.text))

    def is_at(self, *values: str) -> bool:
        """Whether these words and signs come next."""
        return all(self.peek(ahead).value == value and self.peek(ahead).kind in ("name", "sign") for ahead, value in enumerate(values))

    def take(self, *values: str) -> bool:
        """Passes over these words if they come next."""
        found = self.is_at(*values)
        self.at += len(values) if found else 0
        return found

    def need(self, *values: str) -> None:
        """Passes over these words, which must come next."""
        if not self.take(*values):
            raise Left(f"{' '.join(values).upper()} is expected at {self.rest()!r}")

    def next(self) -> Word:
        """The next word."""
        word = self.peek()
        self.at += 1
        return word

    def name(self) -> str:
        """A name."""
        word = self.next()
        if word.kind not in ("name", "quoted"):
            raise Left(f"a name is expected at {self.text[word.begin:word.begin + 30]!r}")
        return word.value

    def rest(self) -> str:
        """How the text goes on, for messages."""
        return self.text[self.peek().begin:][:30]

    def is_done(self) -> bool:
        """Whether no word is left."""
        return self.at >= len(self.words)


def spelt(text: str, words: list[Word]) -> str:
    """The part of a text that words stand in, on one line."""
    return " ".join(text[words[0].begin:words[-1].end].split()) if words else ""


def depths(words: list[Word]) -> list[int]:
    """How many parentheses, brackets and CASEs are open before each word. What closes one counts as outside of it."""
    found, depth = [], 0
    for word in words:
        opens = is_sign(word, "(") or is_sign(word, "[") or word.kind == "name" and word.value == "case"
        closes = is_sign(word, ")") or is_sign(word, "]") or word.kind == "name" and word.value == "end"
        depth -= closes
        found.append(depth)
        depth += opens
    return found


def pieces(words: list[Word], *marks: str) -> list[list[Word]]:
    """The words between marks that stand outside of parentheses."""
    found: list[list[Word]] = [[]]
    for word, depth in zip(words, depths(words)):
        if depth == 0 and word.kind in ("name", "sign") and word.value in marks:
            found.append([])
        else:
            found[-1].append(word)
    return found


def column_names(words: list[Word]) -> list[tuple[Optional[str], str]]:
    """The names in an expression that may be columns, each with its qualifier: no functions and no types of casts."""
    found: list[tuple[Optional[str], str]] = []
    is_type = False
    for at, word in enumerate(words):
        before, after = words[at - 1].value if at else "", words[at + 1].value if at + 1 < len(words) else ""
        is_type = before == "::" or is_type and (word.value == "." or before == ".")
        if word.kind in ("name", "quoted") and not is_type and after not in ("(", "."):
            found.append((words[at - 2].value if before == "." else None, word.value))
    return found


def inside(words: list[Word]) -> Optional[list[Word]]:
    """The words between parentheses, if one pair holds all of them."""
    if len(words) > 1 and is_sign(words[0], "(") and is_sign(words[-1], ")") and 0 not in depths(words)[1:-1]:
        return words[1:-1]
    return None
