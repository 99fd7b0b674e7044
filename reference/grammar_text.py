"""The grammar of a statement as a text (docs/GRAMMAR.md), and random statements of it.

The parser of `sql_grammar` is not made of this text: the tests hold the two against each other.
"""

from __future__ import annotations

import re
from random import Random

from .sql_grammar import JOIN_WORDS
from .sql_lex import OPERATORS, RESERVED, Token

GRAMMAR = r"""
start     = open ";" | open end | closed ";"
open      = CREATE TABLE name "(" coldef { "," coldef } ")" | CREATE INDEX cand | ANALYZE name
open      = STATISTICS name ROWS number PAGES number
open      = STATISTICS name "." name DISTINCT number NULLS number [COMMON "(" share { "," share } ")"] [HISTOGRAM "(" lit { "," lit } ")"]
open      = full | EXPLAIN full | EXPLAIN "(" TABLE ")" limited | ADVISE number "(" cand { "," cand } ")" asked { asked }
closed    = COPY name FROM STDIN WITH "(" FORMAT CSV "," NULL quoted ")" | CHECK limited | USE PLAN select
asked     = "(" limited ")"
cand      = name ON name [USING name] "(" key { "," key } ")" [INCLUDE "(" name { "," name } ")"] [WHERE expr]
coldef    = name type [NOT NULL | NULL]
type      = name [modifiers] | CHARACTER VARYING [modifiers] | TIMESTAMP [modifiers] WITH TIME ZONE
type      = TIMESTAMP [modifiers] WITHOUT TIME ZONE
modifiers = "(" number { "," number } ")"
key       = name [opclass] direction
direction = [ASC | DESC] [NULLS FIRST | NULLS LAST]
share     = lit number
full      = limited | SELECT gitem { "," gitem } FROM group { "," group } [WHERE expr] [GROUP BY col { "," col }] [order]
full      = SELECT DISTINCT item { "," item } FROM group { "," group } [WHERE expr] [order]
limited   = select [LIMIT number] [OFFSET number]
select    = SELECT item { "," item } FROM group { "," group } [WHERE expr] [order]
order     = ORDER BY ord { "," ord }
ord       = col direction
item      = "*" | name "." "*" | col
gitem     = item | name "(" "*" ")" | name "(" col ")"
group     = from { [INNER] JOIN from ON expr | CROSS JOIN from }
from      = name [AS name | bare]
expr      = conj { OR conj }
conj      = neg { AND neg }
neg       = NOT neg | atom
atom      = "(" expr ")" | operand op operand | col IS [NOT] NULL | col | TRUE | FALSE | NULL
atom      = col [NOT] IN "(" lit { "," lit } ")" | operand [NOT] BETWEEN operand AND operand
operand   = col | lit | name quoted
col       = name ["." name]
lit       = ["-"] number | quoted | TRUE | FALSE | NULL
"""
# A bare name is an alias without AS, an operator class stands in a key.
KINDS = ("name", "bare", "opclass", "number", "quoted", "op", "end")
NAMES = ("a b t u nulls first last rows pages key count min max index plan all by stdin format csv int4 text common in between distinct "
         "left right full natural outer x1 _x include date timestamp character varying without time zone").split()
# A part of a body: "t" and a terminal, or "n" and the head of a rule. A terminal in pointed brackets is a kind of token.
Part = tuple[str, str]
Rules = dict[str, list[list[Part]]]
MOST_DEPTH = 14


class Reading:
    """Reads the lines of the grammar into rules."""

    def __init__(self) -> None:
        self.rules: Rules = {}
        for line in GRAMMAR.strip().split("\n"):
            head, body = (x.strip() for x in line.split("=", 1))
            self.tokens = re.findall(r'"[^"]*"|[\[\]{}|]|\w+', body)
            self.rules.setdefault(head, []).extend(self.alternatives())

    def named(self, bodies: list[list[Part]]) -> Part:
        """A rule of its own for these bodies."""
        head = "_%d" % len(self.rules)
        self.rules[head] = bodies
        return "n", head

    def alternatives(self) -> list[list[Part]]:
        """Bodies with `|` between them, up to a bracket that closes."""
        out: list[list[Part]] = [[]]
        while self.tokens and self.tokens[0] not in ("]", "}"):
            token = self.tokens.pop(0)
            if token == "|":
                out.append([])
            else:
                out[-1].append(self.part(token))
        return out

    def part(self, token: str) -> Part:
        """A part of a body."""
        if token in ("[", "{"):
            inner = self.alternatives()
            self.tokens.pop(0)
            if token == "[":
                return self.named([[], *inner])
            again = self.named([])
            self.rules[again[1]] += [[], *([again, *body] for body in inner)]
            return again
        if token.startswith('"'):
            return "t", token[1:-1]
        if token.isupper():
            return "t", token.lower()
        return ("t", "<%s>" % token) if token in KINDS else ("n", token)


RULES = Reading().rules


def fits(terminal: str, token: Token) -> bool:
    """Whether a token is this terminal."""
    if terminal in ("<name>", "<bare>", "<opclass>"):
        without = {"<bare>": JOIN_WORDS, "<opclass>": {"nulls"}}.get(terminal, frozenset())
        return token.kind == "word" and token.text not in RESERVED and token.text not in without
    if terminal in ("<number>", "<quoted>", "<end>"):
        return token.kind == terminal[1:-1]
    if terminal == "<op>":
        return token.kind == "symbol" and token.text in OPERATORS
    return token.kind in ("word", "symbol") and token.text == terminal


def derive(rng: Random, head: str, depth: int = 0) -> list[str]:
    """The words of a random text of a rule."""
    bodies = RULES[head] if depth <= MOST_DEPTH else sorted(RULES[head], key=len)[:1]
    out: list[str] = []
    for kind, what in rng.choice(bodies):
        out += derive(rng, what, depth + 1) if kind == "n" else _word(rng, what)
    return out


def _word(rng: Random, terminal: str) -> list[str]:
    """A word of a terminal, none for the end."""
    if terminal in ("<name>", "<bare>", "<opclass>"):
        return [rng.choice(NAMES)]
    if terminal == "<number>":
        return [str(rng.randrange(20))]
    if terminal == "<quoted>":
        return [rng.choice(["'x'", "'\\N'", "'a''b'", "''", "'2024-02-29'"])]
    if terminal == "<op>":
        return [rng.choice(sorted(OPERATORS))]
    return [] if terminal == "<end>" else [terminal]
