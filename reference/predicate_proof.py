"""Whether conditions imply that of a partial index (docs/PLANS.md, Which scans there are). Columns are compared by their number."""

from __future__ import annotations

from typing import Any, Callable, Sequence

from .opfamily import operator_family, rank
from .pg_expr import Expr

Cell = Callable[[Any, Any], bool]

# By the operator of the clause, then by that of the predicate: whether `column op a` implies `column op b`.
CELLS: dict[str, dict[str, Cell]] = {
    "<": {"<": lambda a, b: b >= a, "<=": lambda a, b: b >= a, "<>": lambda a, b: b >= a},
    "<=": {"<": lambda a, b: b > a, "<=": lambda a, b: b >= a, "<>": lambda a, b: b > a},
    "=": {"<": lambda a, b: b > a, "<=": lambda a, b: b >= a, "=": lambda a, b: b == a, ">=": lambda a, b: b <= a,
          ">": lambda a, b: b < a, "<>": lambda a, b: b != a},
    ">=": {">=": lambda a, b: b <= a, ">": lambda a, b: b < a, "<>": lambda a, b: b < a},
    ">": {">=": lambda a, b: b <= a, ">": lambda a, b: b <= a, "<>": lambda a, b: b <= a},
    "<>": {"<>": lambda a, b: b == a},
}


def implies(clauses: Sequence[Expr], predicate: Expr) -> bool:
    """Whether clauses, all of them together, imply a predicate."""
    return _implies(("and", tuple(clauses)), predicate)


def _implies(c: Expr, p: Expr) -> bool:
    """Whether one condition implies another, each an AND, an OR or an atom."""
    if p[0] == "and":
        return all(_implies(c, part) for part in p[1])
    if c[0] == "or":
        if p[0] == "or":
            return all(any(_implies(arm, part) for part in p[1]) for arm in c[1])
        return all(_implies(arm, p) for arm in c[1])
    if c[0] == "and" and p[0] == "or":
        return any(_implies(c, part) for part in p[1]) or any(_implies(part, p) for part in c[1])
    if c[0] == "and":
        return any(_implies(part, p) for part in c[1])
    if p[0] == "or":
        return any(_implies(c, part) for part in p[1])
    return _atom_implies(_bare(c), _bare(p))


def _bare(e: Expr) -> Expr:
    """An atom without its relation."""
    if e[0] == "not":
        return ("not", _bare(e[1]))
    if e[0] == "compare":
        return e[:2] + tuple(("column", 0, x[2]) if x[0] == "column" else x for x in e[2:])
    return e if e[0] == "constant" else (e[0], 0, e[2])


def _atom_implies(c: Expr, p: Expr) -> bool:
    """Whether one atom implies another: it is the same, or a comparison that is never true of NULL, or one within the other."""
    if c == p:
        return True
    if c[0] != "compare":
        return False
    if p[0] == "notnull":
        return any(x[0] == "column" and x[2] == p[2] for x in c[2:])
    return p[0] == "compare" and _comparison_implies(c, p)


def _comparison_implies(c: Expr, p: Expr) -> bool:
    """Whether a comparison of a column with a literal implies another of that column."""
    (_, op1, column1, literal1), (_, op2, column2, literal2) = c, p
    if column1[0] != "column" or column1 != column2 or literal1[0] != "literal" or literal2[0] != "literal":
        return False
    if literal1[2] is None or literal2[2] is None:
        return False
    family = operator_family(op1, literal1[1])
    if family != operator_family(op2, literal2[1]):
        return False
    cell = CELLS[op1.strip("|")].get(op2.strip("|"))
    return cell is not None and cell(rank(family, literal1[2]), rank(family, literal2[2]))
