"""The plan space of a query: its scans, its joins and its finished plans, with their numbers (docs/PLANS.md)."""

from __future__ import annotations

from itertools import permutations
from typing import Iterable, Iterator, Sequence

from . import cost_rules
from .catalog import Index
from .cost_rules import TOO_MUCH, Cost
from .eq_classes import Keys, OrderItem
from .index_match import Matching
from .opfamily import default_family
from .path_cost import Costs, Estimates
from .pg_base import bits, first
from .pg_expr import Expr
from .plan_tree import Bits, Finished, MergeSide, Path, Plan, begins
from .sql_query import Query

MOST_ELEMENTS = 8


class Space:
    """Tells whether a plan is one of a query's, and what it costs and gives."""

    def __init__(self, q: Query) -> None:
        self.q, self.c = q, q.classes
        self.est = Estimates(q)
        self.costs = Costs(self.est)
        self.match = Matching(q)
        self.whole = q.whole()
        self.order_keys = self.keys_of(q.order)
        self._elements: dict[tuple[int, int], list[tuple]] = {}
        self._scans: dict[Plan, Path | None] = {}

    def keys_of(self, order: Sequence[OrderItem]) -> Keys:
        """The keys that items of ORDER BY ask for."""
        return self.c.order_keys([(r, c, default_family(self.q.column_type(r, c))) for r, c, _, _ in order])

    def others(self, clauses: Iterable[int], r: int) -> int:
        """The relations but r that clauses name."""
        mask = 0
        for n in clauses:
            mask |= self.c.clauses[n].mask
        return mask & ~(1 << r)

    # -- scans

    def scan(self, plan: Plan) -> Path | None:
        """The path of a scan, or None where it is no scan of the space."""
        if plan not in self._scans:
            kinds = {"seq": self._seq, "bitmap": self._bitmap}
            self._scans[plan] = kinds.get(plan[0], self._index)(plan)
        return self._scans[plan]

    def _seq(self, plan: Plan) -> Path:
        """A sequential scan."""
        r = plan[1]
        return Path(plan, 1 << r, 0, self.costs.seq(r), self.est.rows(1 << r), ())

    def _is_given(self, r: int, p: int) -> bool:
        """Whether a scan of r may be given rows of these relations."""
        return not p >> r & 1 and not p & ~self.whole

    def _index(self, plan: Plan) -> Path | None:
        """An index scan or an index-only scan."""
        kind, r, index, backward, p = plan
        if index not in self.q.rels[r][0].indexes or not self._is_given(r, p) or not self.match.usable(index, r):
            return None
        is_hash, only = index.method == "hash", kind == "indexonly"
        if backward and (p or is_hash) or only and (is_hash or not self.match.covers(index, r)):
            return None
        conditions, bounds = self.match.conditions(index, r, p)
        if is_hash and not conditions or self.others(conditions, r) != p:
            return None
        keys = () if p or is_hash else self.match.index_keys(index, r, backward)
        cost = self.costs.index(index, r, p, bounds, conditions, only)
        return Path(plan, 1 << r, p, cost, self.est.rows_given(r, p), keys)

    def elements(self, r: int, p: int) -> list[tuple]:
        """What bitmaps are made of: ("leaf", index), or ("or", clause, the indexes that answer each arm)."""
        if (r, p) not in self._elements:
            usable = [i for i in self.q.rels[r][0].indexes if self.match.usable(i, r)]
            out: list[tuple] = [("leaf", i) for i in usable if self.match.conditions(i, r, p)[0]]
            for n in sorted(self.c.base(r) + self.c.param(r, p)):
                e = self.c.clauses[n].expr
                if e[0] == "or":
                    choices = [[i for i in usable if self.match.arm(i, r, arm) is not None] for arm in e[1]]
                    if all(choices):
                        out.append(("or", n, choices))
            self._elements[r, p] = out[:MOST_ELEMENTS]
        return self._elements[r, p]

    def arm_part(self, index: Index, place: tuple[int, int], arm: Expr) -> int:
        """What an index costs for an arm that it answers wholly, in a scan of a relation that is given a row of each of a set."""
        parts, bounds = self.match.arm(index, place[0], arm) or ([], [])
        return self.costs.part(index, place, bounds, len(parts))

    def _element_part(self, tree: Bits, r: int, p: int) -> tuple[set[int], int]:
        """The clauses that an element of a bitmap uses, and what its indexes cost."""
        if tree[0] == "leaf":
            conditions, bounds = self.match.conditions(tree[1], r, p)
            return set(conditions), self.costs.part(tree[1], (r, p), self.est.exprs(bounds), len(conditions))
        arms = self.c.clauses[tree[1]].expr[1]
        parts = sum(self.arm_part(index, (r, p), arm) for index, arm in zip(tree[2], arms))
        return {tree[1]}, parts + 100 * (len(arms) - 1)

    def _bitmap(self, plan: Plan) -> Path | None:
        """A bitmap scan: its trees are elements in their order."""
        _, r, p, tree = plan
        trees = tree[1] if tree[0] == "and" else (tree,)
        if not self._is_given(r, p) or tree[0] == "and" and len(trees) < 2:
            return None
        elements = iter(self.elements(r, p))
        if not all(any(_is_of(t, e) for e in elements) for t in trees):
            return None
        used: set[int] = set()
        parts = 100 * (len(trees) - 1)
        for t in trees:
            clauses, part = self._element_part(t, r, p)
            used |= clauses
            parts += part
        if self.others(used, r) != p:
            return None
        return Path(plan, 1 << r, p, self.costs.bitmap(r, p, used, parts), self.est.rows_given(r, p), ())

    def scans(self, r: int, p: int) -> Iterator[Path]:
        """Scans of a relation that is given rows of p, at least one that dominates each such scan."""
        plans: list[Plan] = [] if p else [("seq", r)]
        for index in self.q.rels[r][0].indexes:
            plans += [(kind, r, index, backward, p) for kind in ("index", "indexonly") for backward in (False, True)]
        for plan in (*plans, *self._bitmaps(r, p)):
            path = self.scan(plan)
            if path is not None:
                yield path

    def _bitmaps(self, r: int, p: int) -> Iterator[Plan]:
        """The bitmap scans by each set of elements, with the index of least cost for each arm."""
        trees = [self._cheapest(e, (r, p)) for e in self.elements(r, p)]
        reach = [self.others(self.match.conditions(t[1], r, p)[0] if t[0] == "leaf" else (t[1],), r) for t in trees]
        for chosen in range(1, 1 << len(trees)):
            picked, mask = bits(chosen), 0
            for n in picked:
                mask |= reach[n]
            if mask == p:
                parts = tuple(trees[n] for n in picked)
                yield ("bitmap", r, p, parts[0] if len(parts) == 1 else ("and", parts))

    def _cheapest(self, element: tuple, place: tuple[int, int]) -> Bits:
        """An element with the index of least cost for each arm."""
        if element[0] == "leaf":
            return element
        arms = self.c.clauses[element[1]].expr[1]
        chosen = (min(choice, key=lambda i: self.arm_part(i, place, arm)) for choice, arm in zip(element[2], arms))
        return ("or", element[1], tuple(chosen))

    # -- joins; those with `_path` take parts that are known to fit

    def nest(self, outer: Path, inner: Path) -> Path | None:
        """A nested loop of two paths, or None."""
        if outer.param or outer.set & inner.set or inner.param & ~outer.set:
            return None
        return self.nest_path(outer, inner, self.nest_operators(outer.set, inner))

    def nest_operators(self, s1: int, inner: Path) -> int:
        """The operators that a nested loop tests whose outer side has this set."""
        if inner.param:
            return self.costs.operators(self.c.join_param(s1, first(inner.set), inner.param))
        return self.costs.operators(self.c.join(s1, inner.set))

    def nest_path(self, outer: Path, inner: Path, operators: int) -> Path:
        """A nested loop."""
        cost = cost_rules.nest(outer.costs, inner.costs, outer.rows, inner.rows, operators)
        s = outer.set | inner.set
        return Path(("nest", outer, inner), s, 0, cost, self.est.rows(s), outer.keys)

    @staticmethod
    def sorted_cost(path: Path) -> Cost:
        """The cost of a sort of a path."""
        return cost_rules.sort(path.cost, path.rows)

    def merge_lists(self, s1: int, s2: int) -> list[Keys]:
        """The lists of keys by which two sets may be merged."""
        joining = self.c.joining(s1, s2)
        return [keys for k in (1, 2, 3) for keys in permutations(joining, k)]

    def merge_numbers(self, s1: int, s2: int, keys: Keys) -> tuple[int, int]:
        """The pairs with equal keys, and the operators of the other clauses that join two sets."""
        pairs = {self.c.pair(n, s1, s2) for n in keys}
        rest = [n for n in self.c.join(s1, s2) if n not in pairs]
        return self.est.fold_clauses(self.est.rows(s1) * self.est.rows(s2), pairs), self.costs.operators(rest)

    def side_cost(self, side: MergeSide) -> Cost:
        """The cost of a side of a merge."""
        return self.sorted_cost(side[1]) if side[0] else side[1].costs

    def merge(self, keys: Keys, outer: MergeSide, inner: MergeSide) -> Path | None:
        """A merge of two sides, or None."""
        s1, s2 = outer[1].set, inner[1].set
        if outer[1].param or inner[1].param or s1 & s2 or keys not in self.merge_lists(s1, s2):
            return None
        if any(not is_sorted and not begins(path.keys, keys) for is_sorted, path in (outer, inner)):
            return None
        return self.merge_path(keys, outer, inner, self.merge_numbers(s1, s2, keys))

    def merge_path(self, keys: Keys, outer: MergeSide, inner: MergeSide, numbers: tuple[int, int]) -> Path:
        """A merge."""
        (is_sorted, a), (_, b) = outer, inner
        cost = cost_rules.merge(self.side_cost(outer), self.side_cost(inner), a.rows, b.rows, len(keys), *numbers)
        s = a.set | b.set
        return Path(("merge", keys, outer, inner), s, 0, cost, self.est.rows(s), keys if is_sorted else a.keys)

    # -- whole plans

    def path_of(self, plan: Plan) -> Path | None:
        """The path of a plan, or None where it is none of the space. A sort alone is none."""
        if plan[0] == "nest":
            outer, inner = self.path_of(plan[1]), self.path_of(plan[2])
            return self.nest(outer, inner) if outer and inner else None
        if plan[0] == "merge":
            sides = [self._merge_side(plan[1], child) for child in plan[2:]]
            return self.merge(plan[1], sides[0], sides[1]) if sides[0] and sides[1] else None
        return None if plan[0] == "sort" else self.scan(plan)

    def _merge_side(self, keys: Keys, child: Plan) -> MergeSide | None:
        """A child of a merge as its side, or None."""
        is_sorted = child[0] == "sort"
        path = self.path_of(child[2] if is_sorted else child)
        return None if path is None or is_sorted and child[1] != keys else (is_sorted, path)

    def finish(self, path: Path, is_sorted: bool, order_keys: Keys | None = None) -> Finished | None:
        """The finished plan that a path is, sorted or as it is, or None. The keys stand in place of those of ORDER BY."""
        order_keys = self.order_keys if order_keys is None else order_keys
        if path.set != self.whole or path.param:
            return None
        if is_sorted:
            return Finished(path, order_keys, self.sorted_cost(path)) if order_keys else None
        return Finished(path, None, path.costs) if begins(path.keys, order_keys) else None

    def finished(self, plan: Plan, order_keys: Keys | None = None) -> Finished | None:
        """The finished plan that a plan is, or None."""
        wanted = self.order_keys if order_keys is None else order_keys
        is_sorted = plan[0] == "sort"
        path = self.path_of(plan[2] if is_sorted else plan)
        return None if path is None or is_sorted and plan[1] != wanted else self.finish(path, is_sorted, wanted)

    def asked(self) -> int:
        """The rows that the query asks for, of those that it is taken to give."""
        rows = self.est.rows(self.whole)
        if self.q.window is None or self.q.window[0] is None:
            return rows
        return min(rows, self.q.window[0] + self.q.window[1])

    def price(self, cost: Cost) -> int:
        """What a finished plan of this cost is compared by."""
        return cost[1] if self.q.window is None else cost_rules.price(cost, self.asked(), self.est.rows(self.whole))

    @staticmethod
    def admissible(total: int) -> bool:
        """Whether a plan of this cost may be chosen."""
        return total < TOO_MUCH

    def dominates(self, a: Path, b: Path) -> bool:
        """Whether a path makes another one needless; the startup counts where the query has a window."""
        return (a.set == b.set and a.param == b.param and a.cost <= b.cost and begins(a.keys, b.keys)
                and (self.q.window is None or a.startup <= b.startup))


def _is_of(tree: Bits, element: tuple) -> bool:
    """Whether a tree is this element with an index for each arm."""
    if tree[0] != element[0]:
        return False
    if tree[0] == "leaf":
        return tree[1] is element[1]
    return tree[1] == element[1] and len(tree[2]) == len(element[2]) and all(i in c for i, c in zip(tree[2], element[2]))
