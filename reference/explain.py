"""The lines of plans, as EXPLAIN prints them (docs/PLANS.md, Reading a plan). Texts are str of one character for each byte."""

from __future__ import annotations

from .cost_rules import Cost
from .eq_classes import Keys
from .pg_base import bits
from .plan_space import Space
from .plan_tree import Bits, Finished, MergeSide, Path, Plan


def indent(depth: int) -> str:
    """What stands before a node at a depth."""
    return " " * (6 * depth - 4) + "->  " if depth else ""


class Texts:
    """The texts of one query's names, nodes and plans."""

    def __init__(self, space: Space) -> None:
        self.space, self.q, self.c = space, space.q, space.c
        self.has_window = space.q.window is not None

    # -- names

    def alias(self, r: int) -> str:
        """The alias of a relation."""
        return self.q.rels[r][1]

    def key(self, n: int, s: int) -> str:
        """A class as a key of the rows of a set."""
        cls = self.c.classes[n]
        relation, column = cls.member(s) or (0, 0)
        text = "%s.%s" % (self.alias(relation), self.q.column_name((relation, column)))
        if cls.family == "abs":
            text += " int_abs_ops"
        if cls.descending:
            return text + (" DESC" if cls.nulls_first else " DESC NULLS LAST")
        return text + (" NULLS FIRST" if cls.nulls_first else "")

    def keys(self, keys: Keys, s: int) -> str:
        """A list of classes as keys of the rows of a set."""
        return ", ".join(self.key(n, s) for n in keys)

    def relation(self, r: int, p: int) -> str:
        """A relation, and those whose row it is given."""
        table, alias = self.q.rels[r]
        text = table.name if alias == table.name else "%s %s" % (table.name, alias)
        return text + (" for " + ", ".join(self.alias(o) for o in bits(p)) if p else "")

    def conjunct(self, clause: int) -> int:
        """The number of a clause's conjunct."""
        return self.c.clauses[clause].conjunct or 0

    def scan(self, plan: Plan, with_relation: bool) -> str:
        """A scan, with its relation behind it where that is asked."""
        kind, r, p = plan[0], plan[1], 0
        if kind in ("index", "indexonly"):
            _, _, index, backward, p = plan
            text = "Index %sScan%s using %s" % ("Only " * (kind == "indexonly"), " Backward" * backward, index.name)
        elif kind == "seq":
            text = "Seq Scan"
        else:
            text, p = "Bitmap Heap Scan", plan[2]
        return text + (" on " + self.relation(r, p) if with_relation else "")

    # -- lines

    def cost(self, cost: Cost) -> str:
        """A node's cost: its total, or a pair where the query has a window."""
        return "%d..%d" % cost if self.has_window else "%d" % cost[1]

    def node(self, depth: int, text: str, cost: Cost, rows: int) -> str:
        """The line of a node."""
        return "%s%s  (cost=%s rows=%d)\n" % (indent(depth), text, self.cost(cost), rows)

    def bit_lines(self, tree: Bits, depth: int) -> str:
        """The lines of a bitmap."""
        if tree[0] == "leaf":
            return "%sBitmap Index Scan on %s\n" % (indent(depth), tree[1].name)
        if tree[0] == "or":
            leaves = "".join(self.bit_lines(("leaf", index), depth + 1) for index in tree[2])
            return "%sBitmapOr %d\n%s" % (indent(depth), self.conjunct(tree[1]), leaves)
        return indent(depth) + "BitmapAnd\n" + "".join(self.bit_lines(t, depth + 1) for t in tree[1])

    def path_lines(self, path: Path, depth: int) -> str:
        """The lines of a path."""
        form = path.form
        if form[0] == "nest":
            children = "".join(self.path_lines(child, depth + 1) for child in form[1:])
            return self.node(depth, "Nested Loop", path.costs, path.rows) + children
        if form[0] == "merge":
            text = "Merge Join by " + self.keys(form[1], path.set)
            sides = "".join(self._merge_side_lines(form[1], side, depth + 1) for side in form[2:])
            return self.node(depth, text, path.costs, path.rows) + sides
        bitmap = self.bit_lines(form[3], depth + 1) if form[0] == "bitmap" else ""
        return self.node(depth, self.scan(form, True), path.costs, path.rows) + bitmap

    def _merge_side_lines(self, keys: Keys, side: MergeSide, depth: int) -> str:
        """The lines of a side of a merge."""
        return self.sorted_lines(side[1], keys if side[0] else None, depth)

    def sorted_lines(self, path: Path, sort_keys: Keys | None, depth: int) -> str:
        """The lines of a path, under a sort where there are keys for it."""
        if sort_keys is None:
            return self.path_lines(path, depth)
        text = "Sort by " + self.keys(sort_keys, path.set)
        return self.node(depth, text, self.space.sorted_cost(path), path.rows) + self.path_lines(path, depth + 1)

    def plan(self, plan: Finished) -> str:
        """The lines of a finished plan, below that of LIMIT and OFFSET where the query has a window."""
        if not self.has_window:
            return self.sorted_lines(plan.path, plan.sort_keys, 0)
        return self.window_line(self.space.price(plan.cost)) + self.sorted_lines(plan.path, plan.sort_keys, 1)

    def window_line(self, price: int) -> str:
        """The line of LIMIT and OFFSET."""
        limit, offset = self.q.window or (None, 0)
        asked = self.space.asked()
        rows = max(1, asked - min(offset, asked))
        return "Limit %s offset %d  (cost=%d rows=%d)\n" % ("all" if limit is None else limit, offset, price, rows)
