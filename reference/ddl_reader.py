"""CREATE TABLE and STATISTICS (docs/GRAMMAR.md, CREATE TABLE and STATISTICS)."""

from __future__ import annotations

from types import SimpleNamespace as Node

from .catalog import Catalog, ColumnStats, Table
from .expr_reader import find_column, find_table, read_number, read_quoted, refuse_repeats
from .pg_base import DUPLICATE_NAME, INVALID_PARAMETER, LIMIT, UNKNOWN, WRONG_TYPE, Fault
from .pg_value import NUMERIC_WORDS, TYPE_WORDS, WIDTHS, Numeric, SqlType, Value, number_of
from .sql_grammar import Written
from .sql_lex import Token

BILLION = 10 ** 9
MILLION = 10 ** 6
MOST_COLUMNS = 32
MOST_TABLES = 64
MOST_COMMON = 16
MOST_BOUNDS = 101
MOST_DIGITS = 18
MOST_CHARACTERS = 10485760
# Types of several words, and the word that has their meaning.
LONG_NAMES = {"character varying": "varchar", "timestamp without time zone": "timestamp", "timestamp with time zone": "timestamptz"}
# The words with a number in parentheses, and the least and the most that the number may be.
SIZES = {"varchar": (1, MOST_CHARACTERS), "timestamp": (6, 6), "timestamptz": (6, 6)}


def read_table(node: Node, catalog: Catalog) -> Table:
    """The table of a CREATE TABLE."""
    types = [_read_type(c.type) for c in node.columns]
    if len(node.columns) > MOST_COLUMNS:
        raise Fault(LIMIT, node.columns[MOST_COLUMNS].name.start, "columns")
    if catalog.is_taken(node.name.text):
        raise Fault(DUPLICATE_NAME, node.name.start, node.name.text)
    refuse_repeats([c.name for c in node.columns])
    if len(catalog.tables) >= MOST_TABLES:
        raise Fault(LIMIT, node.name.start, "tables")
    return Table(node.name.text, [(c.name.text, typed, c.not_null) for c, typed in zip(node.columns, types)])


def _read_type(node: Node) -> SqlType:
    """The type of a column: its words first, then the numbers behind them."""
    word = LONG_NAMES.get(node.words, node.words)
    is_numeric = word in NUMERIC_WORDS
    if word not in TYPE_WORDS and not (is_numeric and node.modifiers):
        raise Fault(UNKNOWN, node.token.start, node.words)
    most = 2 if is_numeric else 1 if word in SIZES else 0
    sizes = [number_of(token.text) for token in node.modifiers]
    least, greatest = (1, MOST_DIGITS) if is_numeric else SIZES.get(word, (0, 0))
    if sizes and (len(sizes) > most or not least <= sizes[0] <= greatest):
        raise Fault(INVALID_PARAMETER, node.modifiers[0].start)
    if not is_numeric:
        return TYPE_WORDS[word]
    digits, scale = (*sizes, 0)[:2]
    if scale > digits:
        raise Fault(INVALID_PARAMETER, node.modifiers[1].start)
    return Numeric(digits, scale)


def read_sizes(node: Node, catalog: Catalog) -> tuple[Table, int, int]:
    """The table, the rows and the pages of STATISTICS of a table."""
    table = find_table(catalog, node.table)
    return table, _within(node.rows, 1, BILLION), _within(node.pages, 1, BILLION)


def _within(token: Token, least: int, most: int) -> int:
    """A number that may be from the least to the most."""
    number = number_of(token.text)
    if not least <= number <= most:
        raise Fault(INVALID_PARAMETER, token.start)
    return number


def read_statistics(node: Node, catalog: Catalog) -> tuple[Table, int, ColumnStats]:
    """The table, the column and the statistics of STATISTICS of a column: literals are read first, then numbers are judged in order."""
    table = find_table(catalog, node.table)
    column = find_column(table, node.column)
    typed = table.columns[column][1]
    values = [_value(literal, typed) for literal, _ in node.common]
    bounds = [_value(literal, typed) for literal in node.histogram]
    distinct = _within(node.distinct, 1, BILLION)
    nulls = _within(node.nulls, 0, MILLION)
    shares = _shares(node.common, values, distinct, nulls)
    for n, literal in enumerate(node.histogram):
        if n >= MOST_BOUNDS or n and bounds[n] < bounds[n - 1] or len(bounds) == 1:
            raise Fault(INVALID_PARAMETER, literal[3])
    return table, column, ColumnStats(distinct, nulls, list(zip(values, shares)), bounds)


def _shares(common: list[tuple[Written, Token]], values: list[Value], distinct: int, nulls: int) -> list[int]:
    """The shares of common values, which are different, no more than 16 and no more than different values, and fit beside NULLs."""
    shares, total = [], nulls
    for n, (literal, token) in enumerate(common):
        if n >= MOST_COMMON or values[n] in values[:n] or n + 1 > distinct:
            raise Fault(INVALID_PARAMETER, literal[3])
        shares.append(number_of(token.text))
        total += shares[n]
        if shares[n] == 0 or total > MILLION:
            raise Fault(INVALID_PARAMETER, token.start)
    return shares


def _value(literal: Written, typed: SqlType) -> Value:
    """A literal of COMMON or HISTOGRAM as a value of the column's type."""
    _, kind, value, at = literal
    if kind == "null":
        raise Fault(INVALID_PARAMETER, at)
    if kind == "quoted":
        return read_quoted(typed, value, at)
    if kind == "number" and (typed in WIDTHS or isinstance(typed, Numeric)):
        return read_number(typed, value, at)
    if kind == "number" or typed != "bool":
        raise Fault(WRONG_TYPE, at)
    return kind == "true"
