"""Plans, and plans of the plan space with their numbers.

A plan is one of ("seq", relation), ("index", relation, index, backward, given), ("indexonly", relation, index, backward, given),
("bitmap", relation, given, bits), ("sort", keys, input), ("nest", outer, inner) and ("merge", keys, outer, inner), where `given` is
the set of relations whose row the scan is given. Bits are ("leaf", index), ("and", parts) or ("or", clause, indexes).
"""

from __future__ import annotations

from typing import Any

from .cost_rules import Cost
from .eq_classes import Keys

Plan = tuple[Any, ...]
Bits = tuple[Any, ...]


class Path:
    """A plan of the plan space with its set, the relations that it is given, its cost, its rows and its keys.

    `form` is the plan of a scan, ("nest", outer, inner) over paths, or ("merge", keys, outer, inner) over merge sides: pairs of
    whether the side is sorted and its path.
    """

    __slots__ = ("form", "set", "param", "startup", "cost", "rows", "keys")

    def __init__(self, form: Plan, s: int, param: int, cost: Cost, rows: int, keys: Keys) -> None:
        self.form, self.set, self.param = form, s, param
        self.startup, self.cost = cost
        self.rows, self.keys = rows, keys

    @property
    def costs(self) -> Cost:
        """Its startup and its total."""
        return self.startup, self.cost

    @property
    def plan(self) -> Plan:
        """The plan as a tree."""
        f = self.form
        if f[0] == "nest":
            return ("nest", f[1].plan, f[2].plan)
        if f[0] == "merge":
            return ("merge", f[1], _side(f[1], f[2]), _side(f[1], f[3]))
        return f


# A side of a merge: whether it is sorted first, and its path.
MergeSide = tuple[bool, Path]


def _side(keys: Keys, side: MergeSide) -> Plan:
    """The plan of a side of a merge."""
    return ("sort", keys, side[1].plan) if side[0] else side[1].plan


class Finished:
    """A plan of all relations in the order asked for: a path, sorted by keys or as it is, with its cost."""

    def __init__(self, path: Path, sort_keys: Keys | None, cost: Cost) -> None:
        self.path, self.sort_keys, self.cost = path, sort_keys, cost

    @property
    def plan(self) -> Plan:
        """The plan as a tree."""
        return self.path.plan if self.sort_keys is None else ("sort", self.sort_keys, self.path.plan)


def begins(keys: Keys, prefix: Keys) -> bool:
    """Whether a list of keys begins with another."""
    return keys[:len(prefix)] == prefix
