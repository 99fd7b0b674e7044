"""Certificates read from their texts (docs/CERTIFICATES.md, Reading one)."""

from __future__ import annotations

import re
from typing import Any, NamedTuple

from .catalog import Index
from .certificate_text import FIRST_OF_VERSION_2
from .eq_classes import Keys
from .explain import Texts
from .plan_space import Space
from .plan_tree import Bits

NUMBER = "(0|[1-9][0-9]{0,18})"
ENTRY = re.compile(
    r"(\{[^{}]*\})(?: for (\{[^{}]*\}))? (.*) cost=(?:%s\.\.)?%s rows=%s keys=\(([^()]*)\)" % (NUMBER, NUMBER, NUMBER))
INDEX_SCAN = re.compile(r"Index (Only )?Scan( Backward)? using (\S+)")
NEST = re.compile("Nested Loop %s %s" % (NUMBER, NUMBER))
MERGE = re.compile("Merge Join by (.+?) ((?:sort )?%s) ((?:sort )?%s)" % (NUMBER, NUMBER))
BEST = re.compile("best (sort )?%s" % NUMBER)
OR = re.compile(r"Or %s\((.*)\)" % NUMBER)
PARTS = re.compile(r"(?:^|, )((?:Or [0-9]+\([^()]*\)|Index [^ ,()]+))")
BITMAP = "Bitmap Heap Scan "


class NoText(Exception):
    """The lines are no such text; its one argument, if any, is the number of the line."""


def need(test: Any) -> None:
    """That something holds, or the lines are no such text."""
    if not test:
        raise NoText()


class Entry(NamedTuple):
    """An entry as its line says: set, relations whose row is given, node, startup, cost, rows and keys.

    The node is ("seq",), ("index" or "indexonly", index, backward), ("bitmap", bits), ("nest", number, number) or
    ("merge", keys, side, side), a side being whether it is sorted and its number.
    """

    set: int
    param: int
    node: tuple
    startup: int
    cost: int
    rows: int
    keys: Keys


class Reader:
    """Reads names, keys and lines of one query."""

    def __init__(self, space: Space, texts: Texts, indexes: dict[str, Index]) -> None:
        """`indexes` are those that may be named."""
        self.q, self.c, self.texts, self.indexes = space.q, space.c, texts, indexes
        self.relation_of = {alias: r for r, (_, alias) in enumerate(self.q.rels)}
        self.clause_of = {c.conjunct: n for n, c in enumerate(self.c.clauses) if c.conjunct is not None}
        self._classes_at: dict[int, dict[str, int]] = {}

    # -- small parts

    def relations(self, names: list[str]) -> int:
        """A set from the aliases of its relations, in the order of FROM."""
        need(all(n in self.relation_of for n in names))
        found = [self.relation_of[n] for n in names]
        need(all(a < b for a, b in zip(found, found[1:])))
        return sum(1 << r for r in found)

    def set(self, text: str) -> int:
        """A set in braces."""
        return self.relations(text[1:-1].split(","))

    def keys(self, text: str, s: int) -> Keys:
        """A list of keys of the rows of a set, none of them twice."""
        if s not in self._classes_at:
            self._classes_at[s] = {self.texts.key(n, s): n for n, c in enumerate(self.c.classes) if c.mask & s}
        parts = text.split(", ") if text else []
        need(all(part in self._classes_at[s] for part in parts))
        keys = tuple(self._classes_at[s][part] for part in parts)
        need(len(set(keys)) == len(keys))
        return keys

    def index(self, name: str) -> Index:
        """An index by its name."""
        need(name in self.indexes)
        return self.indexes[name]

    def clause(self, number: str) -> int:
        """The clause of a conjunct's number."""
        need(int(number) in self.clause_of)
        return self.clause_of[int(number)]

    @staticmethod
    def entry_number(text: str) -> int:
        """The number of an entry."""
        need(int(text) < 1 << 32)
        return int(text)

    def _side(self, text: str) -> tuple[bool, int]:
        """A side of a merge."""
        is_sorted = text.startswith("sort ")
        return is_sorted, self.entry_number(text[5:] if is_sorted else text)

    # -- bitmaps and nodes

    def _named(self, text: str) -> Index:
        """An index behind its word."""
        need(text.startswith("Index "))
        return self.index(text[6:])

    def _element(self, text: str) -> Bits:
        """An element of a bitmap."""
        found = OR.fullmatch(text)
        if found:
            return ("or", self.clause(found[1]), tuple(self._named(t) for t in found[2].split(", ")))
        return ("leaf", self._named(text))

    def _bits(self, text: str) -> Bits:
        """What a bitmap is made of."""
        if not (text.startswith("And(") and text.endswith(")")):
            return self._element(text)
        parts = PARTS.findall(text[4:-1])
        need(", ".join(parts) == text[4:-1] and len(parts) >= 2)
        return ("and", tuple(self._element(p) for p in parts))

    def _node(self, text: str, s: int) -> tuple:
        """The node of an entry of a set."""
        if text == "Seq Scan":
            return ("seq",)
        found = INDEX_SCAN.fullmatch(text)
        if found:
            return ("indexonly" if found[1] else "index", self.index(found[3]), bool(found[2]))
        if text.startswith(BITMAP):
            return ("bitmap", self._bits(text[len(BITMAP):]))
        found = NEST.fullmatch(text)
        if found:
            return ("nest", self.entry_number(found[1]), self.entry_number(found[2]))
        found = MERGE.fullmatch(text)
        if not found:
            raise NoText()
        return ("merge", self.keys(found[1], s), self._side(found[2]), self._side(found[4]))

    # -- lines

    def entry(self, text: str) -> Entry:
        """The line of an entry, without its number."""
        found = ENTRY.fullmatch(text)
        if not found or (found[4] is not None) != self.texts.has_window:
            raise NoText()
        s = self.set(found[1])
        param = self.set(found[2]) if found[2] else 0
        node = self._node(found[3], s)
        return Entry(s, param, node, int(found[4] or 0), int(found[5]), int(found[6]), self.keys(found[7], s))

    def certificate(self, block: str) -> tuple[list[Entry], tuple[bool, int]]:
        """The entries and the best plan of a certificate. Where it is none, the number of the first line in error is told."""
        lines = block.split("\n")
        rest, entries, best = lines.pop(), [], None
        begin = 1 if self.texts.has_window else 0
        if begin and lines[:1] != [FIRST_OF_VERSION_2]:
            raise NoText(1)
        for at, line in enumerate(lines[begin:], begin + 1):
            try:
                need(best is None)
                found = BEST.fullmatch(line)
                if found:
                    best = (bool(found[1]), self.entry_number(found[2]))
                    continue
                prefix = "%d " % (len(entries) + 1)
                need(line.startswith(prefix))
                entries.append(self.entry(line[len(prefix):]))
            except NoText:
                raise NoText(at) from None
        if rest or best is None:
            raise NoText(len(lines) + 1)
        return entries, best
