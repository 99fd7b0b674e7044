"""Which indexes serve which conditions, and by which keys their scans are sorted (docs/PLANS.md, Which scans there are)."""

from __future__ import annotations

from typing import Any

from .catalog import Index
from .eq_classes import Clauses, Keys
from .opfamily import equality_of, in_family
from .pg_expr import Expr
from .pg_value import COMMUTATOR
from .predicate_proof import implies
from .sql_query import Query

# A condition, or its number, with its key's place and whether it fixes the key's value.
Placed = tuple[Any, int, bool]


class Matching:
    """What the indexes of a query's tables are good for."""

    def __init__(self, q: Query) -> None:
        self.q, self.c = q, q.classes
        self._usable: dict[tuple[str, int], bool] = {}
        self._conditions: dict[tuple[str, int, int], tuple[Clauses, Clauses]] = {}

    def usable(self, index: Index, r: int) -> bool:
        """Whether an index's condition is implied by those over its relation alone."""
        key = (index.name, r)
        if key not in self._usable:
            own = [self.c.clauses[n].expr for n in self.c.base(r)]
            self._usable[key] = index.predicate is None or implies(own, index.predicate)
        return self._usable[key]

    def place(self, e: Expr, index: Index, r: int) -> tuple[int, bool] | None:
        """The place of the key that a condition is on, and whether it fixes its value; None where it is no condition of the index."""
        if e[0] in ("isnull", "notnull"):
            if index.method != "btree" or e[1] != r:
                return None
            return next(((n, e[0] == "isnull") for n, key in enumerate(index.keys) if key[0] == e[2]), None)
        if e[0] != "compare":
            return None
        _, op, left, right = e
        if right[0] == "column" and right[1] == r:
            op, left, right = COMMUTATOR[op], right, left
        if left[0] != "column" or left[1] != r:
            return None
        if right[0] == "literal" and right[2] is None or right[0] == "column" and right[1] == r:
            return None
        for n, key in enumerate(index.keys):
            if key[0] == left[2] and in_family(op, key[1], index.method):
                return n, op == equality_of(key[1])
        return None

    @staticmethod
    def _bounds(index: Index, placed: list[Placed]) -> list:
        """The bounds among conditions: of the keys from the left one that fixes each, then all of the first that has none."""
        bounds: list = []
        for n in range(len(index.keys)):
            here = [(what, fixes) for what, place, fixes in placed if place == n]
            fixing = [what for what, fixes in here if fixes]
            if not fixing:
                return bounds + [what for what, _ in here]
            bounds.append(fixing[0])
        return bounds

    def conditions(self, index: Index, r: int, p: int) -> tuple[Clauses, Clauses]:
        """The conditions of an index where its relation is given a row of each of p, and those that are bounds."""
        key = (index.name, r, p)
        if key not in self._conditions:
            placed = []
            for n in sorted(self.c.base(r) + self.c.param(r, p)):
                found = self.place(self.c.clauses[n].expr, index, r)
                if found is not None:
                    placed.append((n, *found))
            if index.method == "hash":
                placed = placed[:1]
            conditions = tuple(n for n, _, _ in placed)
            bounds = conditions if index.method == "hash" else tuple(sorted(self._bounds(index, placed)))
            self._conditions[key] = (conditions, bounds)
        return self._conditions[key]

    def arm(self, index: Index, r: int, arm: Expr) -> tuple[list[Expr], list[Expr]] | None:
        """The parts of an arm of an OR and those that are bounds, where the index answers it wholly."""
        parts = list(arm[1]) if arm[0] == "and" else [arm]
        placed = []
        for n, part in enumerate(parts):
            found = self.place(part, index, r)
            if found is None:
                return None
            placed.append((n, *found))
        if index.method == "hash":
            return (parts, parts) if len(parts) == 1 else None
        return parts, [parts[n] for n in sorted(self._bounds(index, placed))]

    def index_keys(self, index: Index, r: int, backward: bool) -> Keys:
        """The classes by which a scan of a B-tree is sorted that is given no row."""
        keys: list[int] = []
        for column, family, descending, nulls_first in index.keys:
            n = self.c.class_of(r, column, family)
            if n is None:
                break
            cls = self.c.classes[n]
            if cls.constants or n in keys:
                continue
            if (cls.descending, cls.nulls_first) != (descending != backward, nulls_first != backward):
                break
            keys.append(n)
        return tuple(keys)

    def covers(self, index: Index, r: int) -> bool:
        """Whether an index holds every column of a relation that is named."""
        held = {key[0] for key in index.keys} | set(index.include)
        return all(column in held for relation, column in self.q.used if relation == r)
