"""CREATE INDEX and the candidates and queries of ADVISE (docs/GRAMMAR.md, CREATE INDEX and ADVISE)."""

from __future__ import annotations

from types import SimpleNamespace as Node
from typing import Collection

from .catalog import Catalog, Index, Key, Table
from .expr_reader import Scope, find_column, find_table, read_condition, refuse_repeats
from .opfamily import CLASSES, class_family, default_class, name_of
from .pg_base import DUPLICATE_NAME, INVALID_PARAMETER, LIMIT, UNKNOWN, WRONG_TYPE, Fault
from .pg_expr import Expr, operators, push_not
from .pg_value import number_of
from .query_reader import MOST_ATOMS, read_query
from .sql_query import Query

MOST_COLUMNS = 32
MOST_INDEXES = 8
MOST_CANDIDATES = 10
MOST_ADVISED = 10
MOST_QUERIES = 16


def read_index(node: Node, catalog: Catalog, first: int) -> Index:
    """The index of a CREATE INDEX."""
    return _read_candidate(node, catalog, first, (), True)


def _read_candidate(node: Node, catalog: Catalog, first: int, names: Collection[str], counts: bool) -> Index:
    """An index. These names are taken beside those of the catalogue; the flag says whether its table's indexes are counted."""
    table = find_table(catalog, node.table)
    method = "btree" if node.method is None else node.method.text
    if method not in ("btree", "hash"):
        raise Fault(UNKNOWN, node.method.start, method)
    keys = [_read_key(key, table, method) for key in node.keys]
    include = [find_column(table, name) for name in node.include]
    predicate = None
    if node.where is not None:
        predicate = push_not(read_condition(node.where, Scope([(0, table.name, table)])))
    columns = [key.name for key in node.keys] + node.include
    _refuse_limits(columns, predicate, first)
    if catalog.is_taken(node.name.text) or node.name.text in names:
        raise Fault(DUPLICATE_NAME, node.name.start, node.name.text)
    refuse_repeats(columns)
    if counts and len(table.indexes) >= MOST_INDEXES:
        raise Fault(LIMIT, node.name.start, "indexes")
    if method == "hash" and (len(columns) > 1 or keys[0][2] or keys[0][3]):
        raise Fault(INVALID_PARAMETER, node.method.start)
    return Index(node.name.text, table, method, keys, include, predicate)


def _read_key(key: Node, table: Table, method: str) -> Key:
    """A key of an index."""
    column = find_column(table, key.name)
    typed = table.columns[column][1]
    name = default_class(typed) if key.op_class is None else key.op_class.text
    if name not in CLASSES or method not in CLASSES[name][2]:
        raise Fault(UNKNOWN, key.op_class.start, name)
    if CLASSES[name][0] != name_of(typed):
        raise Fault(WRONG_TYPE, key.op_class.start)
    return column, class_family(name, typed), key.descending, key.nulls_first


def _refuse_limits(columns: list, predicate: Expr | None, first: int) -> None:
    """A fault where an index has too many columns, or its condition too many atoms."""
    if len(columns) > MOST_COLUMNS:
        raise Fault(LIMIT, columns[MOST_COLUMNS].start, "columns")
    if predicate is not None and operators(predicate) > MOST_ATOMS:
        raise Fault(LIMIT, first, "atoms")


def read_advice(node: Node, catalog: Catalog) -> tuple[int, list[Index], list[Query]]:
    """The number of an ADVISE, its candidates and its queries."""
    most = number_of(node.number.text)
    if most > MOST_ADVISED:
        raise Fault(INVALID_PARAMETER, node.number.start)
    candidates: list[Index] = []
    for n, written in enumerate(node.candidates):
        if n >= MOST_CANDIDATES:
            raise Fault(LIMIT, written.name.start, "candidates")
        candidates.append(_read_candidate(written, catalog, node.first, [c.name for c in candidates], False))
    _refuse_indexes(node, candidates)
    queries = []
    for n, (parenthesis, select) in enumerate(node.selects):
        if n >= MOST_QUERIES:
            raise Fault(LIMIT, parenthesis.start, "queries")
        queries.append(read_query(select, catalog, node.first))
    return most, candidates, queries


def _refuse_indexes(node: Node, candidates: list[Index]) -> None:
    """A fault at the first candidate with which its table has too many indexes."""
    counts: dict[str, int] = {}
    for written, index in zip(node.candidates, candidates):
        table = index.table
        counts[table.name] = counts.get(table.name, len(table.indexes)) + 1
        if counts[table.name] > MOST_INDEXES:
            raise Fault(LIMIT, written.name.start, "indexes")
