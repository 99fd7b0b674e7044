"""Edits of the lines of plans that are handed to USE PLAN."""

from __future__ import annotations

import re
from random import Random
from typing import Callable, Sequence

NUMBER = re.compile(r"(?<=[=])\d+")
KINDS = [("Index Scan", "Index Only Scan"), ("Index Only Scan", "Index Scan"), (" using", " Backward using"), (" Backward", ""),
         ("Nested Loop", "Merge Join"), ("Seq Scan", "Index Scan"), (" DESC", ""), (" NULLS FIRST", " NULLS LAST"),
         ("Bitmap Heap Scan", "Seq Scan"), ("BitmapAnd", "BitmapOr 1"), (" for ", " for for "), ("Sort by ", "Sort by  "), (", ", ","),
         ("BitmapOr 1", "BitmapOr 2"), (" on ", " on  "), ("  ->  ", "  -> ")]
Lines = list[str]


def change_number(rng: Random, lines: Lines) -> None:
    """Another cost or number of rows."""
    n = rng.choice([n for n, line in enumerate(lines) if "(cost=" in line])
    found = rng.choice(list(NUMBER.finditer(lines[n])))
    number = int(found.group())
    other = rng.choice([number + 1, max(number - 1, 0), 0, number * 10, 10**18, 10**19, 2**64, f"0{number}"])
    lines[n] = lines[n][:found.start()] + str(other) + lines[n][found.end():]


def change_line(rng: Random, lines: Lines) -> None:
    """A line lost, doubled, out of its place or at another depth."""
    n, m = rng.randrange(len(lines)), rng.randrange(len(lines))
    kind = rng.randrange(5)
    if kind == 0:
        del lines[n]
    elif kind == 1:
        lines.insert(m, lines[n])
    elif kind == 2:
        lines[n], lines[m] = lines[m], lines[n]
    elif kind == 3:
        lines[n] = rng.choice(["      " + lines[n], lines[n][6:], " " + lines[n]])
    else:
        lines.append(rng.choice(["", "x", lines[n]]))


def change_word(rng: Random, lines: Lines, names: Sequence[str]) -> None:
    """Another kind of node, index, relation or key."""
    n = rng.randrange(len(lines))
    old, new = rng.choice(KINDS) if rng.random() < 0.6 else (rng.choice(names), rng.choice(names))
    lines[n] = lines[n].replace(old, new, 1)


def change_sides(rng: Random, lines: Lines) -> None:
    """Two nodes of one depth, the one behind the other, with all below them, that change places."""
    def depth(n: int) -> int:
        """How far a line is indented."""
        return len(lines[n]) - len(lines[n].lstrip(" "))

    def end(n: int) -> int:
        """The place behind a node and all below it."""
        return next((k for k in range(n + 1, len(lines)) if depth(k) <= depth(n)), len(lines))

    n = rng.randrange(len(lines))
    m = end(n)
    if m < len(lines) and depth(m) == depth(n):
        lines[n:end(m)] = lines[m:end(m)] + lines[n:m]


def edited(rng: Random, lines: Lines, names: Sequence[str]) -> str:
    """The text of lines with one or two changes."""
    lines = list(lines)
    ways: list[Callable[[Random, Lines], None]] = [
        change_number, change_line, change_sides, lambda r, ls: change_word(r, ls, names), lambda r, ls: change_word(r, ls, names)]
    for _ in range(rng.choice([1, 1, 2])):
        if any("(cost=" in line for line in lines):
            rng.choice(ways)(rng, lines)
    text = "".join(line + "\n" for line in lines)
    if rng.random() < 0.1 and text:
        at = rng.randrange(len(text))
        text = text[:at] + rng.choice(["", " ", "\r", "0", "("]) + text[at + rng.randrange(2):]
    return text if text.endswith("\n") or not text else text + "\n"
