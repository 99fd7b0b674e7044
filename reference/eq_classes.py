"""Classes of columns and literals that equalities join, and the numbered clauses of a query (docs/ESTIMATES.md, Rows and pages)."""

from __future__ import annotations

from functools import lru_cache
from typing import Any, Callable, Sequence

from .opfamily import default_family, equality_of, operator_family, rank
from .pg_base import bits, first
from .pg_expr import ColumnRef, Expr, Operand, relations
from .pg_value import SqlType, kind_of

# An item of ORDER BY or GROUP BY: relation, column, whether it is descending, and whether NULLs are first.
OrderItem = tuple[int, int, bool, bool]
# A class by number, and a list of them by which rows are sorted.
Keys = tuple[int, ...]
# Clauses by number, rising.
Clauses = tuple[int, ...]
# An equality: the number of its conjunct, its family, and both sides.
Equality = tuple[int, str, Operand, Operand]
# The type of a column.
Typed = Callable[[int, int], SqlType]


class Class:
    """A class: its columns in order, its literals in the order in which they are first written, its family and its direction."""

    def __init__(self, family: str, members: list[ColumnRef], constants: list[Operand], direction: tuple[bool, bool]) -> None:
        self.family, self.members, self.constants = family, members, constants
        self.descending, self.nulls_first = direction
        self.mask = 0
        for relation, _ in members:
            self.mask |= 1 << relation

    def member(self, s: int) -> ColumnRef | None:
        """The first column inside a set of relations."""
        return next((m for m in self.members if s >> m[0] & 1), None)


class Clause:
    """A clause and the set of its relations, with the number of its conjunct, that of its class, and its pair of relations."""

    def __init__(self, expr: Expr, mask: int, conjunct: int | None = None, cls: int | None = None,
                 pair: tuple[int, int] | None = None) -> None:
        self.expr, self.mask = expr, mask
        self.conjunct, self.cls, self.pair = conjunct, cls, pair


def _node(family: str, x: Operand) -> tuple:
    """What an equality joins: two literals of one rank are one."""
    return (family, *x) if x[0] == "column" else (family, "literal", rank(family, x[2]))


def _joined(equalities: list[Equality]) -> list[list[tuple]]:
    """The nodes of the equalities, those that they join in one list."""
    part: dict[tuple, list[tuple]] = {}
    for _, family, left, right in equalities:
        nodes = [_node(family, left), _node(family, right)]
        for n in nodes:
            part.setdefault(n, [n])
        a, b = part[nodes[0]], part[nodes[1]]
        if a is not b:
            a.extend(b)
            part.update(dict.fromkeys(b, a))
    return list({id(nodes): nodes for nodes in part.values()}.values())


def _from_equalities(equalities: list[Equality]) -> list[tuple[str, list[ColumnRef], list[Operand]]]:
    """The classes that equalities make, by the first conjunct of each: family, columns and literals."""
    written: dict[tuple, tuple[int, Operand]] = {}
    for n, family, left, right in equalities:
        for x in (left, right):
            written.setdefault(_node(family, x), (n, x))
    found = []
    for nodes in _joined(equalities):
        members = sorted(node[2:] for node in nodes if node[1] == "column")
        constants = sorted((written[node] for node in nodes if node[1] == "literal"), key=lambda w: w[0])
        found.append((min(written[node][0] for node in nodes), nodes[0][0], members, [x for _, x in constants]))
    return [f[1:] for f in sorted(found, key=lambda f: f[0])]


class Classes:
    """The classes and clauses of a query, and the parts of the list of clauses."""

    def __init__(self, pushed: Sequence[Expr], order: Sequence[OrderItem], typed: Typed) -> None:
        """Of conjuncts in pushed form, the items of ORDER BY with the columns of GROUP BY behind them, and the types of columns."""
        equalities, self.clauses = self._divided(pushed, typed)
        self.classes = self._made(equalities, order, typed)
        self.pair_number: dict[tuple[int, int, int], int] = {}
        for n, cls in enumerate(self.classes):
            self._add_clauses(n, cls)
        self.conjuncts = [n for n, c in enumerate(self.clauses) if c.conjunct is not None]
        for name in ("base", "param", "join", "join_param", "all", "joining"):
            setattr(self, name, lru_cache(maxsize=None)(getattr(self, name)))

    @staticmethod
    def _divided(pushed: Sequence[Expr], typed: Typed) -> tuple[list[Equality], list[Clause]]:
        """The equalities that make classes, and the clauses of the other conjuncts."""
        equalities, clauses = [], []
        for n, e in enumerate(pushed, 1):
            if e[0] == "compare" and e[1] in ("=", "|=|") and e[2][0] == "column":
                left, right = e[2], e[3]
                if left == right:
                    e = ("notnull", *left[1:])
                elif right[0] == "column" or right[2] is not None:
                    family = operator_family(e[1], kind_of(typed(*left[1:])))
                    equalities.append((n, family, left, right))
                    continue
            clauses.append(Clause(e, relations(e) or 1, conjunct=n))
        return equalities, clauses

    @staticmethod
    def _made(equalities: list[Equality], order: Sequence[OrderItem], typed: Typed) -> list[Class]:
        """The classes of equalities, then those of order items that have none, each with the direction of its first item."""
        made = _from_equalities(equalities)
        for relation, column, _, _ in order:
            family = default_family(typed(relation, column))
            if not any(f == family and (relation, column) in members for f, members, _ in made):
                made.append((family, [(relation, column)], []))
        out = []
        for family, members, constants in made:
            directions = [tuple(item[2:]) for item in order
                          if item[:2] in members and default_family(typed(*item[:2])) == family]
            out.append(Class(family, members, constants, directions[0] if directions else (False, False)))
        return out

    def _add_clauses(self, n: int, cls: Class) -> None:
        """The clauses of a class: each column with each literal, or the equalities inside and between relations."""
        def add(left: ColumnRef, right: Operand, mask: int, pair: tuple[int, int] | None = None) -> None:
            """Adds an equality of the class."""
            expr = ("compare", equality_of(cls.family), ("column", *left), right)
            self.clauses.append(Clause(expr, mask, cls=n, pair=pair))

        for member in cls.members if cls.constants else ():
            for literal in cls.constants:
                add(member, literal, 1 << member[0])
        if cls.constants:
            return
        own: dict[int, ColumnRef] = {}
        for member in cls.members:
            if member[0] in own:
                add(own[member[0]], ("column", *member), 1 << member[0])
            own.setdefault(member[0], member)
        inside = sorted(own)
        for i, a in enumerate(inside):
            for b in inside[i + 1:]:
                self.pair_number[n, a, b] = len(self.clauses)
                add(own[a], ("column", *own[b]), 1 << a | 1 << b, (a, b))

    # -- look-ups

    def class_of(self, relation: int, column: int, family: str) -> int | None:
        """The class of a column in a family."""
        return next((n for n, c in enumerate(self.classes) if c.family == family and (relation, column) in c.members), None)

    def pair(self, n: int, s1: int, s2: int) -> int:
        """The clause of a class that joins the lowest relations of two sets that have members."""
        mask = self.classes[n].mask
        a, b = first(s1 & mask), first(s2 & mask)
        return self.pair_number[n, min(a, b), max(a, b)]

    def _free(self) -> list[tuple[int, int]]:
        """The classes without literals, each with its relations."""
        return [(n, c.mask) for n, c in enumerate(self.classes) if not c.constants]

    # -- parts of the list of clauses

    def base(self, r: int) -> Clauses:
        """The clauses of one relation alone."""
        return tuple(n for n, c in enumerate(self.clauses) if c.mask == 1 << r)

    def _given_conjuncts(self, r: int, p: int) -> list[int]:
        """The conjuncts over a relation and some of those whose row it is given, and over no others."""
        masks = ((n, self.clauses[n].mask) for n in self.conjuncts)
        return [n for n, mask in masks if not mask & ~(1 << r | p) and mask >> r & 1 and mask & p]

    def param(self, r: int, p: int) -> Clauses:
        """The clauses that a scan may use because it is given a row of each relation of p."""
        classes = [self.pair(n, 1 << r, p) for n, mask in self._free() if mask >> r & 1 and mask & p]
        return tuple(sorted(self._given_conjuncts(r, p) + classes))

    def _crossing(self, s1: int, s2: int) -> tuple[list[int], list[int]]:
        """The conjuncts over both of two sets, and the classes with members in both."""
        masks = ((n, self.clauses[n].mask) for n in self.conjuncts)
        conjuncts = [n for n, mask in masks if not mask & ~(s1 | s2) and mask & ~s1 and mask & ~s2]
        return conjuncts, [n for n, mask in self._free() if mask & s1 and mask & s2]

    def join(self, s1: int, s2: int) -> Clauses:
        """The clauses that a join of two sets tests."""
        conjuncts, classes = self._crossing(s1, s2)
        return tuple(sorted(conjuncts + [self.pair(n, s1, s2) for n in classes]))

    def join_param(self, s1: int, r: int, p: int) -> Clauses:
        """Those that a nested loop tests whose inner side is a scan of r that is given a row of p."""
        conjuncts, classes = self._crossing(s1, 1 << r)
        tested = set(self._given_conjuncts(r, p))
        rest = [self.pair(n, s1, 1 << r) for n in classes if not self.classes[n].mask & p]
        return tuple(sorted([n for n in conjuncts if n not in tested] + rest))

    def all(self, s: int) -> Clauses:
        """The clauses whose fold a set's rows are."""
        out = {n for n in self.conjuncts if not self.clauses[n].mask & ~s}
        for r in bits(s):
            out.update(self.base(r))
        for n, mask in self._free():
            inside = bits(mask & s)
            out.update(self.pair_number[n, inside[0], b] for b in inside[1:])
        return tuple(sorted(out))

    def joining(self, s1: int, s2: int) -> Keys:
        """The first four classes by which two sets may be merged."""
        return tuple(self._crossing(s1, s2)[1])[:4]

    def order_keys(self, order: Sequence[tuple[int, int, str]]) -> Keys:
        """The classes of columns, each with its family, without those that have a literal or stood before."""
        keys: list[int] = []
        for relation, column, family in order:
            n: Any = self.class_of(relation, column, family)
            if not self.classes[n].constants and n not in keys:
                keys.append(n)
        return tuple(keys)
