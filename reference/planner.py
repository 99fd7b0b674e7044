"""The table of kept paths of a query, and its least finished plan."""

from __future__ import annotations

from .eq_classes import Keys
from .join_search import Front, Fronts, Search
from .pg_base import size, subsets
from .plan_space import Space
from .plan_tree import Finished


class Planner:
    """Plans a query by its sets of relations, smaller ones first."""

    def __init__(self, space: Space, last: bool = False) -> None:
        """`last`: among plans that cost the same the one met last is taken."""
        self.space, self.last = space, last
        self.fronts: Fronts = {}
        for r, (table, _) in enumerate(space.q.rels):
            rest = space.whole & ~(1 << r)
            for p in subsets(rest) if table.indexes else (0,):
                self._scans(r, p)
        search = Search(space, self.fronts)
        for s in sorted(range(1, space.whole + 1), key=size):
            if size(s) > 1:
                front = self._front()
                search.joins(s, front)
                self._close(s, 0, front)

    def _front(self) -> Front:
        """An empty front."""
        return Front(self.space.q.window is not None, self.last)

    def _close(self, s: int, p: int, front: Front) -> None:
        """Keeps the paths of a front."""
        paths = front.close()
        if paths:
            self.fronts[s, p] = paths

    def _scans(self, r: int, p: int) -> None:
        """Makes the front of the scans of a relation that is given rows of p."""
        front = self._front()
        for path in self.space.scans(r, p):
            if front.wants(path.keys, *path.costs):
                front.offer(path)
        self._close(1 << r, p, front)

    def best(self, order_keys: Keys | None = None) -> Finished | None:
        """A finished plan of least price that is admissible. The keys stand in place of those of ORDER BY."""
        space = self.space
        both = [space.finish(path, is_sorted, order_keys)
                for path in self.fronts.get((space.whole, 0), ()) for is_sorted in (False, True)]
        found = [plan for plan in both if plan is not None and space.admissible(plan.cost[1])]
        if not found:
            return None
        least = min(space.price(plan.cost) for plan in found)
        return [plan for plan in found if space.price(plan.cost) == least][-1 if self.last else 0]
