"""Random statements of the grammar, and random edits of words and of bytes."""

from __future__ import annotations

import pathlib
import sys
from random import Random

sys.path.insert(0, str(pathlib.Path(__file__).resolve().parent.parent.parent))
from reference.grammar_text import NAMES, derive
from reference.sql_lex import OPERATORS, RESERVED

from .parts import Words, in_any_case

WORDS = [*NAMES, *sorted(RESERVED), *sorted(OPERATORS), *"( ) , . ; * -".split(), "7", "'q'", *"explain check limit offset statistics use".split()]
BYTES = " \n\r0a;\\.,-'\"()*/$"


def word(rng: Random) -> str:
    """A word or a symbol, now and then a name or a text at its limit of length or one past it."""
    kind = rng.random()
    if kind < 0.01:
        return rng.choice("aZ_") * rng.choice((63, 64))
    if kind < 0.02:
        return "'" + rng.choice(("x", "''")) * rng.choice((8192, 8193)) + "'"
    return rng.choice(WORDS)


def nested(rng: Random, words: Words) -> Words:
    """The words with an atom of a condition under NOT and in parentheses, about 32 levels of them."""
    if "where" not in words:
        return words
    at = words.index("where") + 1
    count = rng.choice((31, 32, 33))
    opened = [rng.choice(("not", "(")) for _ in range(count)]
    return [*words[:at], *opened, "a", "is", "null", *[")"] * opened.count("("), *words[len(words):]]


def edited_words(rng: Random, words: Words) -> Words:
    """The words with one of them lost, added, replaced or turned round, or the rest cut off."""
    at, way = rng.randrange(len(words) + 1), rng.randrange(5)
    if way == 0:
        return [*words[:at], word(rng), *words[at:]]
    if way == 1:
        return words[:at]
    if way == 2:
        return [*words[:at], word(rng), *words[at + 1:]]
    if way == 3:
        return words[:at] + words[at + 1:]
    return words[:at] + words[at:at + 2][::-1] + words[at + 2:]


def grammar_statement(rng: Random) -> str:
    """A statement of the grammar, mostly with some edits of its words, and its end."""
    words = derive(rng, "start")
    words = words[:-1] if words and words[-1] == ";" else words
    words = nested(rng, words) if rng.random() < 0.05 else words
    for _ in range(rng.choice((0, 0, 1, 1, 1, 2, 3))):
        words = edited_words(rng, words)
    text = " ".join(w if w.startswith("'") else in_any_case(rng, w) for w in words)
    return text + rng.choice((";", " ;", ";\n", ";\n\\.\n", "", " "))


def edited_bytes(rng: Random, text: str) -> str:
    """The text with a byte lost, added or replaced, two lines turned round, or now and then its rest cut off."""
    at, way = rng.randrange(len(text) + 1), rng.randrange(9)
    if way < 3:
        return text[:at] + rng.choice(BYTES) + text[at:]
    if way < 5:
        return text[:at] + text[at + 1:]
    if way < 7:
        return text[:at] + rng.choice(BYTES) + text[at + 1:]
    if way == 7:
        lines = text.split("\n")
        n, m = rng.randrange(len(lines)), rng.randrange(len(lines))
        lines[n], lines[m] = lines[m], lines[n]
        return "\n".join(lines)
    return text[:at]
