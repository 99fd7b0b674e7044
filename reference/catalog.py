"""Tables with their rows and statistics, indexes, and the catalogue."""

from __future__ import annotations

from typing import Any, Callable

from .opfamily import rank, sort_by
from .pg_expr import Expr, test_of
from .pg_value import SqlType, Value

# A column: its name, its type, and whether it takes no NULL.
ColumnDef = tuple[str, SqlType, bool]
# A key of an index: its column, its family, whether it is descending, and whether NULLs are first.
Key = tuple[int, str, bool, bool]


class ColumnStats:
    """What is known of a column: how many different values, the share of NULLs, common values with their shares, and bounds."""

    def __init__(self, distinct: int, nulls: int, common: list[tuple[Any, int]], histogram: list[Any]) -> None:
        self.distinct, self.nulls = distinct, nulls
        self.common, self.histogram = common, histogram


class Table:
    """A table with its rows, statistics and indexes."""

    def __init__(self, name: str, columns: list[ColumnDef]) -> None:
        self.name, self.columns = name, columns
        self.rows: list[tuple[Value, ...]] = []
        self.given_rows: int | None = None
        self.given_pages: int | None = None
        self.stats: dict[int, ColumnStats] = {}
        self.indexes: list[Index] = []

    def column(self, name: str) -> int | None:
        """The number of a column."""
        return next((n for n, c in enumerate(self.columns) if c[0] == name), None)

    def row_count(self) -> int:
        """The rows that estimates begin with."""
        return self.given_rows if self.given_rows is not None else max(1, len(self.rows))

    def page_count(self) -> int:
        """The pages that a sequential scan reads."""
        return self.given_pages if self.given_pages is not None else max(1, -(-self.row_count() // 100))

    def with_indexes(self, extra: list[Index]) -> Table:
        """The table seen with more indexes."""
        seen = Table(self.name, self.columns)
        seen.rows, seen.stats = self.rows, self.stats
        seen.given_rows, seen.given_pages = self.given_rows, self.given_pages
        seen.indexes = self.indexes + extra
        return seen


class Index:
    """An index: its keys, the columns of INCLUDE, and its condition."""

    def __init__(self, name: str, table: Table, method: str, keys: list[Key], include: list[int], predicate: Expr | None) -> None:
        self.name, self.table, self.method = name, table, method
        self.keys, self.include, self.predicate = keys, include, predicate
        self._rows_seen = -1
        self._entries: list[int] = []
        self._equal: dict[int, dict[Any, list[int]]] = {}

    def entries(self) -> list[int]:
        """The row numbers of its entries, in its order."""
        rows = self.table.rows
        if self._rows_seen != len(rows):
            found = list(range(len(rows)))
            if self.predicate is not None:
                test = test_of(self.predicate)
                found = [t for t in found if test((rows[t],)) is True]
            if self.method == "btree":
                found = sort_by(found, [(self._value_at(column), *rest) for column, *rest in self.keys])
            self._rows_seen, self._entries, self._equal = len(rows), found, {}
        return self._entries

    def _value_at(self, column: int) -> Callable[[int], Value]:
        """The value of a column at a row number."""
        rows = self.table.rows
        return lambda t: rows[t][column]

    def entries_equal(self, place: int, value: Value) -> list[int]:
        """The entries whose key at a place equals a value in the key's family, in the index's order."""
        entries = self.entries()
        column, family = self.keys[place][:2]
        if place not in self._equal:
            found: dict[Any, list[int]] = {}
            for t in entries:
                own = self.table.rows[t][column]
                if own is not None:
                    found.setdefault(rank(family, own), []).append(t)
            self._equal[place] = found
        return [] if value is None else self._equal[place].get(rank(family, value), [])


class Catalog:
    """Tables and indexes by name, in order of making."""

    def __init__(self) -> None:
        self.tables: dict[str, Table] = {}
        self.indexes: dict[str, Index] = {}

    def is_taken(self, name: str) -> bool:
        """Whether a table or an index has the name."""
        return name in self.tables or name in self.indexes

    def add_index(self, index: Index) -> None:
        """Makes an index."""
        self.indexes[index.name] = index
        index.table.indexes.append(index)

    def with_candidates(self, candidates: list[Index]) -> Catalog:
        """The catalogue seen with more indexes, made in order."""
        seen = Catalog()
        seen.tables = {n: t.with_indexes([i for i in candidates if i.table.name == n]) for n, t in self.tables.items()}
        seen.indexes = {**self.indexes, **{i.name: i for i in candidates}}
        return seen
