"""Families of operators, operator classes, and orders (docs/GRAMMAR.md, CREATE INDEX)."""

from __future__ import annotations

from typing import Any, Callable, Iterable

from .pg_value import PLAIN_OPERATORS, SIZE_OPERATORS, WIDTHS, Numeric, SqlType, Value, kind_of

BOTH = ("btree", "hash")
# Each operator class: the type that it accepts, by its name, whether it goes by absolute values, and the access methods that have it.
CLASSES = {
    **{name + "_ops": (name, False, BOTH) for name in (*WIDTHS, "text", "bool", "uuid", "date", "timestamp", "timestamptz", "numeric")},
    **{name + "_abs_ops": (name, True, ("btree",)) for name in WIDTHS},
}
# How a list is sorted: the value of an item, its family, whether it is descending, and whether NULLs are first.
SortKey = tuple[Callable[[Any], Value], str, bool, bool]


def name_of(sql_type: SqlType) -> str:
    """The name of a type, without its sizes."""
    return "numeric" if isinstance(sql_type, Numeric) else sql_type


def default_class(sql_type: SqlType) -> str:
    """The operator class that a key has where none is written."""
    return name_of(sql_type) + "_ops"


def default_family(sql_type: SqlType) -> str:
    """The family in which the comparisons of a type are, but for those by absolute value. Numerics have one for each scale."""
    return "integer" if sql_type in WIDTHS else kind_of(sql_type)


def class_family(name: str, sql_type: SqlType) -> str:
    """The family of an operator class over a type that it accepts."""
    return "abs" if CLASSES[name][1] else default_family(sql_type)


def operator_family(op: str, kind: str) -> str:
    """The family of an operator between operands of a kind. `<>` counts to that of the others."""
    if op in SIZE_OPERATORS:
        return "abs"
    return "integer" if kind == "int" else kind


def in_family(op: str, family: str, method: str) -> bool:
    """Whether an access method serves the operator by a key of the family."""
    if family == "abs":
        return method == "btree" and op in SIZE_OPERATORS
    return op == "=" if method == "hash" else op in PLAIN_OPERATORS


def equality_of(family: str) -> str:
    """The operator of equality in a family."""
    return "|=|" if family == "abs" else "="


def rank(family: str, value: Any) -> Any:
    """A value whose own order is that of the family."""
    return abs(value) if family == "abs" else value


def sort_by(items: Iterable, keys: list[SortKey]) -> list:
    """The items sorted by keys, the first one weighing most; items that tie keep their order."""
    out = list(items)
    for value_of, family, descending, nulls_first in reversed(keys):
        nulls = [x for x in out if value_of(x) is None]
        rest = [x for x in out if value_of(x) is not None]
        rest.sort(key=lambda x: rank(family, value_of(x)), reverse=descending)
        out = nulls + rest if nulls_first else rest + nulls
    return out
