"""Plans read from their lines: those of USE PLAN, and those that a program printed."""

from __future__ import annotations

import re
from typing import NamedTuple

from .certificate_reader import NUMBER, NoText, Reader, need
from .explain import Texts, indent
from .plan_space import Space
from .plan_tree import Bits, Plan

COST = {
    False: re.compile(r"(.*)  \(cost=()%s rows=%s\)" % (NUMBER, NUMBER)),
    True: re.compile(r"(.*)  \(cost=%s\.\.%s rows=%s\)" % (NUMBER, NUMBER, NUMBER)),
}
INDEX_SCAN = re.compile(r"Index (Only )?Scan( Backward)? using (\S+) on (.*)")
LEAF = re.compile("Bitmap Index Scan on (.*)")
OR = re.compile("BitmapOr %s" % NUMBER)
MOST_DEPTH = 64
MOST_LINES = 256


class Written(NamedTuple):
    """A node as it is written: its plan and set, the number of its line, what that says, and the nodes below it."""

    plan: Plan
    set: int
    line: int
    startup: int
    cost: int
    rows: int
    children: list


class PlanReader:
    """Reads the lines of a plan of one query; they are str without their ends."""

    def __init__(self, space: Space, texts: Texts, lines: list[str], at: int = 0) -> None:
        self.q, self.texts = space.q, texts
        indexes = {i.name: i for table, _ in self.q.rels for i in table.indexes}
        self.names = Reader(space, texts, indexes)
        self.lines, self.at = lines, at

    # -- lines

    def stands_at(self, depth: int) -> bool:
        """Whether the next line stands at this depth."""
        if self.at >= len(self.lines) or depth == 0 and self.lines[self.at].startswith(" "):
            return False
        return self.lines[self.at].startswith(indent(depth))

    def take(self, depth: int) -> str:
        """Takes a line of this depth, without what stands before it."""
        need(depth <= MOST_DEPTH and self.stands_at(depth))
        self.at += 1
        return self.lines[self.at - 1][len(indent(depth)):]

    def numbered(self, depth: int) -> tuple[str, int, int, int]:
        """The text, startup, cost and rows of the next line."""
        found = COST[self.texts.has_window].fullmatch(self.take(depth))
        if not found:
            raise NoText()
        startup, cost, rows = (int(x or 0) for x in found.groups()[1:])
        return found[1], startup, cost, rows

    # -- nodes

    def relation(self, text: str) -> tuple[int, int]:
        """A relation and those whose row it is given."""
        found = []
        for r in range(len(self.q.rels)):
            own = self.texts.relation(r, 0)
            if text == own:
                found.append((r, 0))
            elif text.startswith(own + " for "):
                try:
                    found.append((r, self.names.relations(text[len(own) + 5:].split(", "))))
                except NoText:
                    pass
        need(len(found) == 1)
        return found[0]

    def leaf(self, depth: int) -> Bits | None:
        """A leaf of a bitmap, where one stands next at this depth."""
        found = LEAF.fullmatch(self.take(depth))
        return ("leaf", self.names.index(found[1])) if found else None

    def bits(self, depth: int) -> Bits:
        """A bitmap."""
        leaf = self.leaf(depth)
        if leaf:
            return leaf
        text = self.lines[self.at - 1][len(indent(depth)):]
        parts = []
        if text == "BitmapAnd":
            while self.stands_at(depth + 1):
                parts.append(self.bits(depth + 1))
            return ("and", tuple(parts))
        found = OR.fullmatch(text)
        if not found:
            raise NoText()
        clause = self.names.clause(found[1])
        while self.stands_at(depth + 1):
            leaf = self.leaf(depth + 1)
            need(leaf)
            parts.append(leaf)
        return ("or", clause, tuple(part[1] for part in parts if part))

    def _scan(self, text: str, depth: int) -> Plan | None:
        """The scan of a line, or None."""
        found = INDEX_SCAN.fullmatch(text)
        if found:
            r, p = self.relation(found[4])
            return ("indexonly" if found[1] else "index", r, self.names.index(found[3]), bool(found[2]), p)
        if text.startswith("Seq Scan on "):
            r, p = self.relation(text[12:])
            need(p == 0)
            return ("seq", r)
        if text.startswith("Bitmap Heap Scan on "):
            r, p = self.relation(text[20:])
            return ("bitmap", r, p, self.bits(depth + 1))
        return None

    def node(self, depth: int) -> Written:
        """A node with all below it."""
        line = self.at + 1
        text, startup, cost, rows = self.numbered(depth)
        plan = self._scan(text, depth)
        children: list[Written] = []
        if plan is None:
            count = 1 if text.startswith("Sort by ") else 2
            need(count == 1 or text == "Nested Loop" or text.startswith("Merge Join by "))
            children = [self.node(depth + 1) for _ in range(count)]
        s = 0 if plan is None else 1 << plan[1]
        for child in children:
            s |= child.set
        if plan is None:
            plan = self._over(text, s, [child.plan for child in children])
        return Written(plan, s, line, startup, cost, rows, children)

    def _over(self, text: str, s: int, children: list[Plan]) -> Plan:
        """The plan of a sort or a join over others."""
        if text == "Nested Loop":
            return ("nest", *children)
        if len(children) == 1:
            return ("sort", self.names.keys(text[8:], s), *children)
        return ("merge", self.names.keys(text[14:], s), *children)


def read_plan(space: Space, texts: Texts, block: str) -> Written:
    """The plan that a whole block of lines writes out."""
    lines = block.split("\n")
    need(lines.pop() == "" and 1 <= len(lines) <= MOST_LINES)
    reader = PlanReader(space, texts, lines)
    root = reader.node(0)
    need(reader.at == len(lines))
    return root
