#!/usr/bin/env python3
"""Counts what is meant to stay small in the crates' code, and names what is not.

usage: tools/shape.py [CRATE ..]

It tells the functions with more than six parameters, apart from public ones, those of more than 40 lines from the line of `fn` to
their closing brace without contracts, the crates of more than 1,500 lines of code or 100 functions, the clauses with a line of more
than 100 columns, those of more than 300 characters on all their lines, and the crates with most paths down to what they stand on, by crates.txt: `rt ci` reads a crate's text once along each. A
method's `self` counts as a parameter.
"""
import collections
import pathlib
import re
import sys

ROOT = pathlib.Path(__file__).resolve().parent.parent
MOST_PARAMETERS, MOST_LINES, MOST_CODE, MOST_FUNCTIONS, MOST_COLUMNS, MOST_CLAUSE = 6, 40, 1500, 100, 100, 300
FUNCTION = re.compile(r"^([ \t]*)(pub(?:\([a-z]+\))? )?fn (\w+)", re.M)
CLAUSE = re.compile(r"^\s*(requires|ensures)\b")


def parameters(text, at):
    """How many parameters stand in the parentheses that open behind a function's name."""
    at = text.index("(", generic_end(text, at))
    depth, count, empty = 0, 0, True
    for sign in text[at:]:
        depth += (sign in "(<[{") - (sign in ")>]}")
        if depth == 0:
            return count + (not empty)
        if sign == "," and depth == 1:
            count, empty = count + 1, True
        elif not sign.isspace() and sign != "(":
            empty = False
    return count


def generic_end(text, at):
    """The place behind a function's parameters of types, if it has any."""
    depth = 0
    while text[at] == "<" or depth:
        depth += (text[at] == "<") - (text[at] == ">")
        at += 1
    return at


def clauses(lines):
    """Each clause: the number of its first line, from 1, and its lines, up to the brace that closes it."""
    at = 0
    while at < len(lines):
        end, depth = at, 0
        if CLAUSE.match(lines[at]):
            depth = lines[at].count("{") - lines[at].count("}")
            while depth > 0 and end + 1 < len(lines):
                end += 1
                depth += lines[end].count("{") - lines[end].count("}")
            yield at + 1, lines[at:end + 1]
        at = end + 1


def length(text, found):
    """The lines of a function but for its clauses."""
    lines = text[found.start():].lstrip("\n").split("\n")
    lines = lines[:1 + next((n for n, line in enumerate(lines) if line.startswith(found[1] + "}")), 0)]
    return len(lines) - sum(len(clause) for _, clause in clauses(lines))


class Shape:
    """What is past a measure, one row each."""

    def __init__(self):
        self.wide, self.long, self.large, self.clauses, self.wordy = [], [], [], [], []


def measured(folders):
    """What of the crates in these folders is past a measure."""
    made = Shape()
    for folder in folders:
        lines, functions = 0, 0
        for file in sorted(folder.glob("src/**/*.rt")):
            text = file.read_text()
            lines += text.count("\n")
            for at, clause in clauses(text.split("\n")):
                place = f"{folder.name} {file.stem}:{at}"
                made.clauses += [place] * any(len(line) > MOST_COLUMNS for line in clause)
                made.wordy += [place] * (len(" ".join(line.strip() for line in clause)) > MOST_CLAUSE)
            for found in FUNCTION.finditer(text):
                functions += 1
                name = f"{folder.name}::{found[3]}"
                count, tall = parameters(text, found.end()), length(text, found)
                if count > MOST_PARAMETERS and found[2] != "pub ":
                    made.wide.append(f"{name} {count}")
                if tall > MOST_LINES:
                    made.long.append(f"{name} {tall}")
        if lines > MOST_CODE or functions > MOST_FUNCTIONS:
            made.large.append(f"{folder.name} {lines} lines, {functions} functions")
    return made


def paths():
    """How many paths begin at each crate and go down, the empty one among them."""
    count = {}
    for line in (ROOT / "crates.txt").read_text().splitlines():
        name, _, below = line.partition(":")
        if not line.startswith("#"):
            count[name] = 1 + sum(count.get(it, 0) for it in below.split())
    return count


def main():
    made = measured([ROOT / "crates" / name for name in sys.argv[1:]] or sorted((ROOT / "crates").iterdir()))
    for title, found in (("more than six parameters", made.wide), ("more than 40 lines", made.long), ("large crates", made.large)):
        print(f"{title}: {len(found)}", *found, sep="\n  ")
    for title, found in (("clauses with a line of more than 100 columns", made.clauses), ("clauses of more than 300 characters", made.wordy)):
        places = collections.Counter(row.split()[0] for row in found)
        print(f"{title}: {len(found)}", *(f"{name} {n}" for name, n in places.most_common(10)), sep="\n  ")
    down = collections.Counter(paths())
    print(f"paths: {sum(down.values())}", *(f"{name} {n}" for name, n in down.most_common(10)), sep="\n  ")


if __name__ == "__main__":
    main()
