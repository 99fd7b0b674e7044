"""Conditions of a query as trees, which are written for pgplan or for the server."""
from __future__ import annotations

import re
from dataclasses import dataclass
from typing import Iterator, Union

from .psql import identifier
from .schema import Column, Table

OURS, THEIRS = "ours", "theirs"


@dataclass(frozen=True)
class Relation:
    """A table in FROM. `alias` is the server's, `ours` the one that pgplan gets."""

    alias: str
    table: Table
    ours: str

    def __hash__(self) -> int:
        return hash(self.alias)


@dataclass(frozen=True)
class Ref:
    """A column of a relation."""

    relation: Relation
    column: Column

    def __hash__(self) -> int:
        return hash((self.relation.alias, self.column.name))

    def text(self, side: str) -> str:
        """The qualified name."""
        if side == OURS:
            return f"{self.relation.ours}.{self.column.name}"
        return f"{identifier(self.relation.alias)}.{identifier(self.column.name)}"

    def is_in_index_condition(self) -> bool:
        """Whether the condition of some index of its table names it."""
        conditions = [index.condition for index in self.relation.table.indexes if index.condition]
        return any(re.search(rf"\b{re.escape(self.column.name)}\b", condition) for condition in conditions)


@dataclass(frozen=True)
class Literal:
    """A constant, as pgplan and as the server reads it beside a column. It stands for a parameter if `is_given`."""

    ours: str
    theirs: str
    is_given: bool = False

    def text(self, side: str) -> str:
        """The literal."""
        return self.ours if side == OURS else self.theirs


@dataclass(frozen=True)
class Compare:
    """A column compared with a column or a constant."""

    left: Ref
    sign: str
    right: Union[Ref, Literal]

    def text(self, side: str) -> str:
        """The comparison."""
        return f"{self.left.text(side)} {self.sign} {self.right.text(side)}"


@dataclass(frozen=True)
class OneOf:
    """IN with a list of constants, or NOT IN."""

    column: Ref
    values: tuple[Literal, ...]
    is_negated: bool

    def text(self, side: str) -> str:
        """The condition."""
        listed = ", ".join(value.text(side) for value in self.values)
        return f"{self.column.text(side)} {'NOT ' if self.is_negated else ''}IN ({listed})"


@dataclass(frozen=True)
class Between:
    """BETWEEN two constants, or NOT BETWEEN."""

    column: Ref
    low: Literal
    high: Literal
    is_negated: bool

    def text(self, side: str) -> str:
        """The condition."""
        word = "NOT BETWEEN" if self.is_negated else "BETWEEN"
        return f"{self.column.text(side)} {word} {self.low.text(side)} AND {self.high.text(side)}"


@dataclass(frozen=True)
class NullTest:
    """IS NULL or IS NOT NULL."""

    column: Ref
    is_negated: bool

    def text(self, side: str) -> str:
        """The test."""
        return f"{self.column.text(side)} IS {'NOT ' if self.is_negated else ''}NULL"


@dataclass(frozen=True)
class Flag:
    """A column of type bool as a condition.

    pgplan knows how many rows have it from `= TRUE` alone, but the condition of an index is implied by the same words alone.
    """

    column: Ref

    def text(self, side: str) -> str:
        """The column."""
        return self.column.text(side) + ("" if side == THEIRS or self.column.is_in_index_condition() else " = TRUE")


@dataclass(frozen=True)
class Not:
    """A negated condition."""

    part: Condition

    def text(self, side: str) -> str:
        """The condition."""
        return f"NOT ({self.part.text(side)})"


@dataclass(frozen=True)
class Joined:
    """Conditions joined by AND or OR."""

    word: str
    parts: tuple[Condition, ...]

    def text(self, side: str) -> str:
        """The conditions, each OR and each AND below another condition in parentheses."""
        return "(" + f" {self.word} ".join(part.text(side) for part in self.parts) + ")"


Condition = Union[Compare, OneOf, Between, NullTest, Flag, Not, Joined]


def leaves(condition: Condition) -> Iterator[Condition]:
    """The comparisons and tests in a condition."""
    if isinstance(condition, Not):
        yield from leaves(condition.part)
    elif isinstance(condition, Joined):
        for part in condition.parts:
            yield from leaves(part)
    else:
        yield condition


def columns_of(condition: Condition) -> list[Ref]:
    """The columns that a condition names."""
    found = []
    for leaf in leaves(condition):
        found += [side for side in (leaf.left, leaf.right) if isinstance(side, Ref)] if isinstance(leaf, Compare) else [leaf.column]
    return found
