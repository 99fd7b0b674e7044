"""Conditions: their pushed form and their truth (docs/GRAMMAR.md, Conditions).

A condition is one of ("compare", operator, left, right), ("isnull", relation, column), ("notnull", relation, column),
("bool", relation, column), ("constant", True | False | None), ("and", parts), ("or", parts) and ("not", condition). An operand is
("column", relation, column) or ("literal", kind, value), of the kind of its type or of kind null.
"""

from __future__ import annotations

from typing import Any, Callable, Sequence

from .pg_value import COMMUTATOR, NEGATOR, TESTS, truth

Expr = tuple[Any, ...]
Operand = tuple[Any, ...]
# A column of a relation, both by number.
ColumnRef = tuple[int, int]
# From the rows of the relations, by number, to the truth of a condition, None for unknown.
Test = Callable[[Sequence], "bool | None"]


def push_not(e: Expr, negate: bool = False) -> Expr:
    """The pushed form of a condition, or of its negation: NOT at the atoms alone, the column of a comparison to the left."""
    head = e[0]
    if head == "not":
        return push_not(e[1], not negate)
    if head in ("and", "or"):
        if negate:
            head = "or" if head == "and" else "and"
        parts: list[Expr] = []
        for part in (push_not(p, negate) for p in e[1]):
            parts.extend(part[1] if part[0] == head else (part,))
        return (head, tuple(parts))
    if head == "compare":
        return _pushed_comparison(e, negate)
    if not negate:
        return e
    if head == "constant":
        return ("constant", None if e[1] is None else not e[1])
    return {"isnull": ("notnull", *e[1:]), "notnull": ("isnull", *e[1:])}.get(head, ("not", e))


def _pushed_comparison(e: Expr, negate: bool) -> Expr:
    """The pushed form of a comparison."""
    _, op, left, right = e
    both = left[0] == right[0] == "column"
    if left[0] == "literal" and right[0] == "column" or both and right[1:] < left[1:]:
        op, left, right = COMMUTATOR[op], right, left
    if negate and op not in NEGATOR:
        return ("not", ("compare", op, left, right))
    return ("compare", NEGATOR[op] if negate else op, left, right)


def conjuncts(e: Expr) -> list[Expr]:
    """The conditions that AND joins in a pushed form, in order."""
    return list(e[1]) if e[0] == "and" else [e]


def atoms(e: Expr) -> list[Expr]:
    """The comparisons, null tests and boolean columns of a condition."""
    if e[0] in ("and", "or"):
        return [a for part in e[1] for a in atoms(part)]
    if e[0] == "not":
        return atoms(e[1])
    return [] if e[0] == "constant" else [e]


def operators(e: Expr) -> int:
    """How many operators a condition counts for in a cost."""
    return len(atoms(e))


def columns(e: Expr) -> list[ColumnRef]:
    """The columns that a condition names."""
    out: list[ColumnRef] = []
    for a in atoms(e):
        out += [x[1:] for x in a[2:] if x[0] == "column"] if a[0] == "compare" else [a[1:]]
    return out


def relations(e: Expr) -> int:
    """The set of relations that a condition names."""
    mask = 0
    for relation, _ in columns(e):
        mask |= 1 << relation
    return mask


def over(e: Expr, relation: int) -> Expr:
    """A condition of one table as one over this relation."""
    if e[0] in ("and", "or"):
        return (e[0], tuple(over(part, relation) for part in e[1]))
    if e[0] == "not":
        return ("not", over(e[1], relation))
    if e[0] == "compare":
        return e[:2] + tuple(("column", relation, x[2]) if x[0] == "column" else x for x in e[2:])
    return e if e[0] == "constant" else (e[0], relation, e[2])


def test_of(e: Expr) -> Test:
    """The test that a condition is."""
    head = e[0]
    if head in ("and", "or"):
        return _series(head == "and", [test_of(part) for part in e[1]])
    if head == "not":
        inner = test_of(e[1])
        return lambda rows: _negated(inner(rows))
    if head == "constant":
        return lambda rows: e[1]
    if head == "compare":
        return _comparison(e[1], e[2], e[3])
    _, r, c = e
    if head == "isnull":
        return lambda rows: rows[r][c] is None
    if head == "notnull":
        return lambda rows: rows[r][c] is not None
    return lambda rows: rows[r][c]


def _negated(value: bool | None) -> bool | None:
    """NOT of a truth value."""
    return None if value is None else not value


def _series(wanted: bool, tests: list[Test]) -> Test:
    """AND where True is wanted of all, OR where it is wanted of none."""
    def run(rows: Sequence) -> bool | None:
        """The truth at rows."""
        out: bool | None = wanted
        for test in tests:
            found = test(rows)
            if found is (not wanted):
                return found
            if found is None:
                out = None
        return out
    return run


def _comparison(op: str, left: Operand, right: Operand) -> Test:
    """The test of a comparison."""
    test = TESTS[op]
    if left[0] == right[0] == "literal":
        value = truth(op, left[2], right[2])
        return lambda rows: value
    if left[0] == right[0] == "column":
        return lambda rows: truth(op, rows[left[1]][left[2]], rows[right[1]][right[2]])
    column, literal = (left, right[2]) if left[0] == "column" else (right, left[2])
    if literal is None:
        return lambda rows: None
    _, r, c = column
    if column is left:
        return lambda rows: None if rows[r][c] is None else test(rows[r][c], literal)
    return lambda rows: None if rows[r][c] is None else test(literal, rows[r][c])


def all_true(tests: list[Test], rows: Sequence) -> bool:
    """Whether each of the tests is true."""
    return all(test(rows) is True for test in tests)
