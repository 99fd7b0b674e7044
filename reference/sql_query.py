"""A query as it is planned and run."""

from __future__ import annotations

from .catalog import Table
from .eq_classes import Classes, OrderItem
from .pg_expr import ColumnRef, Expr
from .pg_value import SqlType

# An item of a grouped select list: "key" or the name of a call, and its column, None for `count(*)`.
GroupItem = tuple[str, "ColumnRef | None"]


class Groups:
    """What a grouped query groups by, and what it shows of each group."""

    def __init__(self, keys: list[ColumnRef], items: list[GroupItem]) -> None:
        self.keys, self.items = keys, items


class Query:
    """A SELECT whose names are read.

    `rels` has each relation's table and alias, `select` and `order` the columns shown and sorted by, `used` every column that is
    named anywhere, `where_all` the conditions as written. `window` is the number behind LIMIT, or None, and that behind OFFSET,
    where the query has either; `groups` what it groups by, where it groups; `at` the offset of its word SELECT.
    """

    def __init__(self, at: int) -> None:
        self.at = at
        self.rels: list[tuple[Table, str]] = []
        self.select: list[ColumnRef] = []
        self.order: list[OrderItem] = []
        self.used: set[ColumnRef] = set()
        self.where_all: list[Expr] = []
        self.window: tuple[int | None, int] | None = None
        self.groups: Groups | None = None
        self.classes: Classes

    def whole(self) -> int:
        """The set of all relations."""
        return (1 << len(self.rels)) - 1

    def column_name(self, ref: ColumnRef) -> str:
        """The name of a column."""
        return self.rels[ref[0]][0].columns[ref[1]][0]

    def column_type(self, relation: int, column: int) -> SqlType:
        """The type of a column."""
        return self.rels[relation][0].columns[column][1]

    def over_tables(self, tables: dict[str, Table]) -> Query:
        """The query over other tables of the same names."""
        seen = Query(self.at)
        seen.__dict__.update(self.__dict__)
        seen.rels = [(tables[table.name], alias) for table, alias in self.rels]
        return seen
