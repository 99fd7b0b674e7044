"""Names, literals and conditions read against what is visible (docs/GRAMMAR.md, Conditions)."""

from __future__ import annotations

from .catalog import Catalog, Table
from .civil import BadText
from .pg_base import AMBIGUOUS, DUPLICATE_COLUMN, NO_COLUMN, NO_OPERATOR, NO_TABLE, OUT_OF_RANGE, UNKNOWN, WRONG_TYPE, Fault
from .pg_expr import Expr, Operand
from .pg_value import TYPE_WORDS, Numeric, SqlType, Value, kind_of, number_of, operator_exists, read_value, whole_value
from .sql_grammar import Column, Written
from .sql_lex import Token


class Scope:
    """The relations that can be seen, each by its number, its alias and its table."""

    def __init__(self, items: list[tuple[int, str, Table]]) -> None:
        self.items = items

    def column(self, ref: Column) -> tuple[int, int, SqlType]:
        """The relation, the number and the type of a column."""
        qualifier, name = ref
        items = self.items if qualifier is None else [i for i in self.items if i[1] == qualifier.text]
        if qualifier is not None and not items:
            raise Fault(NO_TABLE, qualifier.start, qualifier.text)
        found = [(r, table.column(name.text), table) for r, _, table in items if table.column(name.text) is not None]
        if not found:
            raise Fault(NO_COLUMN, name.start, name.text)
        if len(found) > 1:
            raise Fault(AMBIGUOUS, name.start, name.text)
        relation, column, table = found[0]
        return relation, column, table.columns[column][1]


def find_table(catalog: Catalog, token: Token) -> Table:
    """The table of a name."""
    if token.text not in catalog.tables:
        raise Fault(NO_TABLE, token.start, token.text)
    return catalog.tables[token.text]


def find_column(table: Table, token: Token) -> int:
    """The number of a table's column."""
    found = table.column(token.text)
    if found is None:
        raise Fault(NO_COLUMN, token.start, token.text)
    return found


def refuse_repeats(tokens: list[Token]) -> None:
    """A fault at the first name that stood before."""
    seen: set[str] = set()
    for token in tokens:
        if token.text in seen:
            raise Fault(DUPLICATE_COLUMN, token.start, token.text)
        seen.add(token.text)


def read_number(sql_type: SqlType, sign_digits: tuple[int, str], at: int) -> int:
    """The value of a number that is read as an integer type or a numeric."""
    value = whole_value(sql_type, sign_digits[0] * number_of(sign_digits[1]))
    if value is None:
        raise Fault(OUT_OF_RANGE, at)
    return value


def read_quoted(sql_type: SqlType, text: bytes, at: int) -> Value:
    """The value of a quoted text that is read as a type."""
    try:
        return read_value(sql_type, text)
    except BadText as e:
        raise Fault(e.args[0], at) from None


def read_condition(e: Written, scope: Scope) -> Expr:
    """A condition with its names and literals read, as written."""
    head = e[0]
    if head in ("and", "or"):
        return (head, tuple(read_condition(part, scope) for part in e[1]))
    if head == "not":
        return ("not", read_condition(e[1], scope))
    if head == "constant":
        return e
    if head == "compare":
        return _comparison(e[1], e[2], e[3], scope)
    if head == "in":
        parts = tuple(_comparison(e[1], e[2], literal, scope, "=") for literal in e[3])
        return parts[0] if len(parts) == 1 else ("or", parts)
    if head == "between":
        low = _comparison(e[1], e[2], e[3], scope, ">=")
        return ("and", (low, _comparison(e[1], e[2], e[4], scope, "<=")))
    relation, column, typed = scope.column(e[1])
    if head == "column":
        if typed != "bool":
            raise Fault(WRONG_TYPE, (e[1][0] or e[1][1]).start)
        return ("bool", relation, column)
    return (head, relation, column)


def _comparison(word: Token, left: Written, right: Written, scope: Scope, symbol: str | None = None) -> Expr:
    """A comparison: columns first, then literals, then the operator. `symbol` is what a word stands for."""
    sides = (left, right)
    columns = [scope.column(side[1]) if side[0] == "column" else None for side in sides]
    own = [column[2] if column else _own_type(side) for side, column in zip(sides, columns)]
    types = [_type_beside(side, own[n], own[1 - n]) for n, side in enumerate(sides)]
    read: list[Operand] = []
    for side, column, typed in zip(sides, columns, types):
        read.append(("column", *column[:2]) if column else _literal(side, typed))
    op = symbol or ("<>" if word.text == "!=" else word.text)
    if not operator_exists(op, *types):
        raise Fault(NO_OPERATOR, word.start, word.text)
    return ("compare", op, read[0], read[1])


def _own_type(literal: Written) -> SqlType | None:
    """The type that a literal has by itself, None where it has none or where there is no type of its name."""
    _, kind, value, _ = literal
    if kind == "typed":
        return TYPE_WORDS.get(value[0].text)
    return {"number": "int8", "true": "bool", "false": "bool"}.get(kind)


def _type_beside(side: Written, own: SqlType | None, other: SqlType | None) -> SqlType:
    """The type of an operand beside one of another type: a number beside a numeric is one, and what has no type takes the other's."""
    if side[0] == "literal" and side[1] == "number" and isinstance(other, Numeric):
        return other
    return own or other or "text"


def _literal(literal: Written, typed: SqlType) -> Operand:
    """A literal as an operand, read as the type."""
    _, kind, value, at = literal
    if kind == "number":
        return ("literal", kind_of(typed), read_number(typed, value, at))
    if kind == "typed":
        word, value = value
        if word.text not in TYPE_WORDS:
            raise Fault(UNKNOWN, at, word.text)
    if kind in ("typed", "quoted"):
        return ("literal", kind_of(typed), read_quoted(typed, value, at))
    return ("literal", "null", None) if kind == "null" else ("literal", "bool", kind == "true")
