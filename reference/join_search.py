"""Fronts of paths, and joins of the paths of fronts.

Serves the planner, and the check of a certificate, whose entries then stand in place of fronts.
"""

from __future__ import annotations

from typing import Any, Iterable, Protocol

from . import cost_rules
from .cost_rules import TOO_MUCH
from .eq_classes import Keys
from .pg_base import subsets
from .plan_space import Space
from .plan_tree import MergeSide, Path, begins

# Paths by their set and the relations whose row they are given.
Fronts = dict[tuple[int, int], list[Path]]
# A startup, a total, and what costs so much.
Option = tuple[int, int, Any]


class Sink(Protocol):
    """What candidates go to."""

    def wants(self, keys: Keys, startup: int, cost: int) -> bool:
        """Whether a path with these numbers is of use."""

    def offer(self, path: Path) -> None:
        """Takes a path that is wanted."""


class Front:
    """Paths of one set, given the same relations, of which none dominates another."""

    def __init__(self, has_window: bool, last: bool) -> None:
        """`last`: of paths that dominate each other the one that is offered last is kept."""
        self.has_window, self.last = has_window, last
        self.by_keys: dict[Keys, list[Path]] = {}

    def wants(self, keys: Keys, startup: int, cost: int) -> bool:
        """Whether a path with these numbers is admissible and kept beside those of the same keys."""
        if cost >= TOO_MUCH:
            return False
        for kept in self.by_keys.get(keys, ()):
            if kept.cost <= cost and (not self.has_window or kept.startup <= startup):
                return self.last and kept.cost == cost and (not self.has_window or kept.startup == startup)
        return True

    def offer(self, path: Path) -> None:
        """Keeps a path that is wanted, without those of the same keys that it dominates."""
        own = self.by_keys.get(path.keys, [])
        self.by_keys[path.keys] = [kept for kept in own if not self._beats(path, kept)] + [path]

    def _beats(self, a: Path, b: Path) -> bool:
        """Whether a path costs no more than another and, with a window, starts no later."""
        return a.cost <= b.cost and (not self.has_window or a.startup <= b.startup)

    def close(self) -> list[Path]:
        """The paths that none of longer keys dominates."""
        return [path for keys, own in self.by_keys.items() for path in own if not any(
            len(longer) > len(keys) and begins(longer, keys) and any(self._beats(other, path) for other in others)
            for longer, others in self.by_keys.items())]


def _undominated(options: Iterable[Option]) -> list[Option]:
    """Of options those that no other one beats in both numbers."""
    out: list[Option] = []
    for option in sorted(options, key=lambda o: (o[1], o[0])):
        if not out or option[0] < out[-1][0]:
            out.append(option)
    return out


class Search:
    """Finds the joins of paths of fronts."""

    def __init__(self, space: Space, fronts: Fronts) -> None:
        self.space, self.fronts = space, fronts
        self.has_window = space.q.window is not None
        self._inner: dict[tuple[int, Keys], list[Option]] = {}
        self._sorted: dict[int, list[Option]] = {}
        self._by_prefix: dict[int, dict[Keys, list[Path]]] = {}

    def thrifty(self, options: list[Option]) -> list[Option]:
        """Of options those that can be an inner side of a best join."""
        if self.has_window:
            return _undominated(options)
        return [min(options, key=lambda o: o[1])] if options else []

    def sorted_options(self, s: int) -> list[Option]:
        """The sort of the cheapest path of a set."""
        if s not in self._sorted:
            best = min(self.fronts[s, 0], key=lambda p: p.cost)
            self._sorted[s] = [(*self.space.sorted_cost(best), (True, best))]
        return self._sorted[s]

    def beginning(self, s: int, keys: Keys) -> list[Path]:
        """The paths of a set whose keys begin with a list of one to three."""
        if s not in self._by_prefix:
            found: dict[Keys, list[Path]] = {}
            for path in self.fronts[s, 0]:
                for k in range(1, min(3, len(path.keys)) + 1):
                    found.setdefault(path.keys[:k], []).append(path)
            self._by_prefix[s] = found
        return self._by_prefix[s].get(keys, [])

    def inner_options(self, s: int, keys: Keys) -> list[Option]:
        """The best sides of a set for a merge by keys or, without keys, for a nested loop."""
        if (s, keys) not in self._inner:
            paths = self.beginning(s, keys) if keys else self.fronts[s, 0]
            options: list[Option] = [(*p.costs, (False, p)) for p in paths]
            self._inner[s, keys] = self.thrifty(options + (self.sorted_options(s) if keys else []))
        return self._inner[s, keys]

    def joins(self, s: int, sink: Sink) -> None:
        """Offers joins of a set, for each one that the sink wants at least one that dominates it."""
        for s1 in subsets(s)[1:-1]:
            s2 = s & ~s1
            if self.fronts.get((s1, 0)):
                self._nests(s1, s2, sink)
                if self.fronts.get((s2, 0)):
                    self._merges(s1, s2, sink)

    def _inner_paths(self, s1: int, s2: int) -> list[Path]:
        """The inner sides of nested loops over an outer side of set s1."""
        inners = [option[2][1] for option in self.inner_options(s2, ())] if self.fronts.get((s2, 0)) else []
        if s2 & (s2 - 1) == 0:
            for p in subsets(s1)[:-1]:
                given: list[Option] = [(*path.costs, path) for path in self.fronts.get((s2, p), ())]
                inners += [option[2] for option in self.thrifty(given)]
        return inners

    def _nests(self, s1: int, s2: int, sink: Sink) -> None:
        """Offers nested loops."""
        for inner in self._inner_paths(s1, s2):
            operators = self.space.nest_operators(s1, inner)
            for outer in self.fronts[s1, 0]:
                cost = cost_rules.nest(outer.costs, inner.costs, outer.rows, inner.rows, operators)
                if sink.wants(outer.keys, *cost):
                    sink.offer(self.space.nest_path(outer, inner, operators))

    def _merges(self, s1: int, s2: int, sink: Sink) -> None:
        """Offers merges."""
        for keys in self.space.merge_lists(s1, s2):
            numbers = self.space.merge_numbers(s1, s2, keys)
            sides = self.sorted_options(s1) + [(*p.costs, (False, p)) for p in self.beginning(s1, keys)]
            for a, b, inner in self.inner_options(s2, keys):
                for c, d, outer in sides:
                    self._merge(keys, (c, d, outer), (a, b, inner), numbers, sink)

    def _merge(self, keys: Keys, outer: Option, inner: Option, numbers: tuple[int, int], sink: Sink) -> None:
        """Offers a merge."""
        left: MergeSide = outer[2]
        right: MergeSide = inner[2]
        cost = cost_rules.merge(outer[:2], inner[:2], left[1].rows, right[1].rows, len(keys), *numbers)
        if sink.wants(keys if left[0] else left[1].keys, *cost):
            sink.offer(self.space.merge_path(keys, left, right, numbers))
