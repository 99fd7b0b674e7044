"""What the reference makes of a script's beginning: its catalogue, its queries, and plans of their plan spaces."""

from __future__ import annotations

from random import Random
from typing import Iterator

from reference.catalog import Catalog, Index
from reference.executor import set_of
from reference.explain import Texts
from reference.pg_base import Fault, bits, first, size
from reference.pgplan import run
from reference.plan_space import Space
from reference.plan_tree import Path, Plan, begins
from reference.planner import Planner
from reference.statements import Statement, read_statement

# Sets larger than this are not made into trees.
MOST_RELATIONS = 4


def catalog_of(script: str) -> Catalog:
    """The catalogue after a script without a fault."""
    catalog = Catalog()
    fault = run(script.encode(), lambda out: None, catalog)
    if fault:
        raise AssertionError(fault.line())
    return catalog


def read_select(catalog: Catalog, select: str) -> Statement | None:
    """A SELECT read against a catalogue, or None where it is in error."""
    try:
        return read_statement(catalog, (select + ";").encode(), 0)
    except Fault:
        return None


class Planned:
    """A query with its space, texts and kept paths."""

    def __init__(self, statement: Statement) -> None:
        self.space = Space(statement.query)
        self.texts = Texts(self.space)
        self.planner = Planner(self.space)
        self.indexes = [i for table, _ in statement.query.rels for i in table.indexes]

    # -- scans and trees

    def scan(self, rng: Random) -> Plan:
        """A scan of any relation, index, direction and parameterisation; it may be out of the space."""
        r = rng.randrange(len(self.space.q.rels))
        p = rng.choice([0, 0, rng.randrange(self.space.whole + 1)])
        known = [key for key in self.planner.fronts if size(key[0]) == 1]
        if known and rng.random() < 0.6:
            s, p = rng.choice(known)
            r = first(s)
        own = self.space.q.rels[r][0].indexes
        index = rng.choice(own if own and rng.random() < 0.95 else self.indexes or [None])
        if index is None or rng.random() < 0.1:
            return ("seq", r)
        if rng.random() < 0.5:
            return (rng.choice(["index", "indexonly"]), r, index, rng.random() < 0.3, p)
        return self.bitmap(rng, r, p, index)

    def bitmap(self, rng: Random, r: int, p: int, index: Index) -> Plan:
        """A bitmap scan, mostly of elements in their order."""
        elements = [] if p >> r & 1 else self.space.elements(r, p)
        parts = [("leaf", e[1]) if e[0] == "leaf" else ("or", e[1], tuple(rng.choice(c) for c in e[2]))
                 for e in elements if rng.random() < 0.6] or [("leaf", index)]
        if rng.random() < 0.1:
            rng.shuffle(parts)
        return ("bitmap", r, p, parts[0] if len(parts) == 1 and rng.random() < 0.9 else ("and", tuple(parts)))

    def path(self, rng: Random, s: int) -> Path | None:
        """A path of a set: a scan, mostly of a front, or a join of such paths."""
        fronts = self.planner.fronts
        if size(s) == 1:
            found = self.space.scan(self.scan(rng)) if rng.random() < 0.3 else None
            return found if found and found.set == s and not found.param else rng.choice(fronts.get((s, 0), [None]))
        s1 = rng.choice([part for part in range(1, s) if part & s == part])
        s2 = s & ~s1
        outer, inner = self.path(rng, s1), self.path(rng, s2)
        if outer is None or inner is None:
            return None
        given = [p for (t, p), paths in fronts.items() if t == s2 and p and not p & ~s1 for p in paths]
        if given and rng.random() < 0.5:
            return self.space.nest(outer, rng.choice(given))
        lists = self.space.merge_lists(s1, s2)
        if not lists or rng.random() < 0.4:
            return self.space.nest(outer, inner)
        keys = rng.choice(lists)
        sides = [(not begins(path.keys, keys) or rng.random() < 0.2, path) for path in (outer, inner)]
        return self.space.merge(keys, sides[0], sides[1])

    def tree(self, rng: Random) -> Plan:
        """A plan: mostly a finished one, else a scan, a part of the query, a loop over any scan, or one with a sort not asked for."""
        if rng.random() < 0.1:
            return self.scan(rng)
        if rng.random() < 0.15:
            inner = self.scan(rng)
            outer = self.path(rng, self.space.whole & ~(1 << inner[1]) or self.space.whole)
            return ("nest", outer.plan if outer else self.scan(rng), inner)
        whole = self.space.whole if rng.random() < 0.95 else rng.randrange(1, self.space.whole + 1)
        path = self.path(rng, whole)
        plan = path.plan if path else self.scan(rng)
        wanted = self.space.order_keys if size(whole) == len(self.space.q.rels) else ()
        sorts = path is None or not begins(path.keys, wanted) or rng.random() < 0.2
        return ("sort", wanted, plan) if wanted and sorts and rng.random() < 0.95 else plan

    # -- texts

    def lines(self, plan: Plan, depth: int = 0) -> Iterator[str]:
        """The lines of any plan, with its own numbers where it is one of the space, and with ones where it is not."""
        path = self.space.path_of(plan[2] if plan[0] == "sort" else plan)
        cost, rows = (path.costs, path.rows) if path else ((1, 1), 1)
        if plan[0] == "sort" and path:
            cost = self.space.sorted_cost(path)
        yield self.texts.node(depth, self.head(plan), cost, rows)[:-1]
        if plan[0] == "bitmap":
            yield from self.texts.bit_lines(plan[3], depth + 1)[:-1].split("\n")
        for child in {"sort": plan[2:], "nest": plan[1:], "merge": plan[2:]}.get(plan[0], ()):
            yield from self.lines(child, depth + 1)

    def head(self, plan: Plan) -> str:
        """What a plan's first line calls it."""
        if plan[0] in ("sort", "merge"):
            return ("Sort by " if plan[0] == "sort" else "Merge Join by ") + self.texts.keys(plan[1], set_of(plan))
        return "Nested Loop" if plan[0] == "nest" else self.texts.scan(plan, True)


def is_small(statement: Statement | None) -> bool:
    """Whether a statement is a query of few relations that does not group."""
    return statement is not None and not statement.query.groups and len(bits(statement.query.whole())) <= MOST_RELATIONS
