"""SELECT read against the catalogue, with the first fault of its names, types and limits (docs/GRAMMAR.md, FROM and SELECT)."""

from __future__ import annotations

from types import SimpleNamespace as Node

from .catalog import Catalog
from .eq_classes import Classes
from .expr_reader import Scope, find_table, read_condition, read_number
from .pg_base import AMBIGUOUS, DUPLICATE_ALIAS, LIMIT, NO_OPERATOR, NO_TABLE, UNGROUPED, Fault
from .pg_expr import ColumnRef, columns, conjuncts, operators, push_not
from .sql_grammar import Column
from .sql_lex import Token
from .sql_query import GroupItem, Groups, Query

MOST_RELATIONS = 10
MOST_CONJUNCTS = 32
MOST_ATOMS = 256
# Types without min and max.
NO_LEAST = ("bool", "uuid")
# An item of the select list beside the token at which it is told that it is not grouped.
Item = tuple[GroupItem, Token]


def read_query(node: Node, catalog: Catalog, first: int) -> Query:
    """The query of a SELECT; the limits of its conditions are told at the first byte of the whole statement."""
    q = Query(node.word.start)
    scope = _read_from(node, q, catalog)
    if node.where is not None:
        q.where_all.append(read_condition(node.where, scope))
    items = [item for written in node.items for item in _read_item(written, scope)]
    q.select = [ref for (what, ref), _ in items if what == "key"]
    q.order = [(*_read_order(ref, q, scope), *direction) for ref, direction in node.order]
    keys = list(q.select) if node.distinct else [scope.column(ref)[:2] for ref in node.group_by]
    if node.window:
        limit, offset = (None if t is None else read_number("int8", (1, t.text), t.start) for t in (node.limit, node.offset))
        q.window = (limit, offset or 0)
    if node.grouped:
        q.groups = Groups(keys, [item for item, _ in items])
        _refuse_ungrouped(items, [(item[:2], ref[1]) for item, (ref, _) in zip(q.order, node.order)], keys)
    _finish(q, items, keys, first)
    return q


def _finish(q: Query, items: list[Item], keys: list[ColumnRef], first: int) -> None:
    """The limits of conditions, the columns that are used, and the classes."""
    pushed = [c for e in q.where_all for c in conjuncts(push_not(e))]
    if len(pushed) > MOST_CONJUNCTS:
        raise Fault(LIMIT, first, "conjuncts")
    if sum(operators(e) for e in q.where_all) > MOST_ATOMS:
        raise Fault(LIMIT, first, "atoms")
    q.used = {ref for (_, ref), _ in items if ref is not None} | {item[:2] for item in q.order} | set(keys)
    q.used.update(c for e in q.where_all for c in columns(e))
    q.classes = Classes(pushed, q.order + [(*key, False, False) for key in keys], q.column_type)


def _read_from(node: Node, q: Query, catalog: Catalog) -> Scope:
    """FROM with its ON conditions, each of which sees the relations of its group up to its own. Gives what the rest sees."""
    whole = []
    for group in node.groups:
        own = []
        for relation, on in group:
            if len(q.rels) >= MOST_RELATIONS:
                raise Fault(LIMIT, relation.table.start, "relations")
            table, alias = find_table(catalog, relation.table), relation.alias.text
            if any(alias == other for _, other in q.rels):
                raise Fault(DUPLICATE_ALIAS, relation.alias.start, alias)
            own.append((len(q.rels), alias, table))
            q.rels.append((table, alias))
            if on is not None:
                q.where_all.append(read_condition(on, Scope(own)))
        whole += own
    return Scope(whole)


def _read_item(item: Node, scope: Scope) -> list[Item]:
    """The columns or the call of an item of the select list."""
    if item.kind == "column":
        return [(("key", scope.column(item.column)[:2]), item.column[1])]
    if item.kind == "call":
        return [(_read_call(item, scope), item.name)]
    relations = scope.items
    if item.kind == "qualified_star":
        relations = [i for i in relations if i[1] == item.qualifier.text]
        if not relations:
            raise Fault(NO_TABLE, item.qualifier.start, item.qualifier.text)
    return [(("key", (r, c)), item.token) for r, _, table in relations for c in range(len(table.columns))]


def _read_call(item: Node, scope: Scope) -> GroupItem:
    """A call: its column is read first, then its name with the column's type."""
    word, ref, typed = item.name, None, None
    if item.argument is not None:
        relation, column, typed = scope.column(item.argument)
        ref = (relation, column)
    is_known = word.text == "count" or word.text in ("min", "max") and typed not in (None, *NO_LEAST)
    if not is_known:
        raise Fault(NO_OPERATOR, word.start, word.text)
    return word.text, ref


def _read_order(ref: Column, q: Query, scope: Scope) -> ColumnRef:
    """A column of ORDER BY: a name alone is first sought among the columns that are shown."""
    qualifier, name = ref
    if qualifier is None:
        named = {c for c in q.select if q.column_name(c) == name.text}
        if len(named) > 1:
            raise Fault(AMBIGUOUS, name.start, name.text)
        if named:
            return named.pop()
    return scope.column(ref)[:2]


def _refuse_ungrouped(items: list[Item], order: list[tuple[ColumnRef, Token]], keys: list[ColumnRef]) -> None:
    """A fault at the first column of the list, or then of ORDER BY, that is no column of GROUP BY."""
    shown = [(ref, token) for (what, ref), token in items if what == "key"]
    for ref, token in shown + order:
        if ref not in keys:
            raise Fault(UNGROUPED, token.start, token.text)
