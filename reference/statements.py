"""Statements read against what is stored, and their replies."""

from __future__ import annotations

from types import SimpleNamespace as Node
from typing import Callable

from .analyze import analyze
from .catalog import Catalog, Index, Table
from .certificate_check import Verdict, check
from .certificate_reader import NoText
from .certificate_text import CertificateTexts
from .ddl_reader import read_sizes, read_statistics, read_table
from .executor import Executor
from .explain import Texts
from .expr_reader import find_table
from .group_query import Grouping, GroupPlan
from .heap import lines_of, load
from .index_prices import Prices, advised
from .index_reader import read_advice, read_index
from .pg_base import INVALID_PARAMETER, NO_PLAN, Fault
from .plan_check import judged
from .plan_reader import read_plan
from .plan_space import Space
from .plan_tree import Finished, Plan
from .planner import Planner
from .query_reader import read_query
from .reply_text import rows_text
from .sql_grammar import HAS_LINES, lines_begin, parse
from .sql_lex import lex_statement
from .sql_query import Query


class Advice:
    """An ADVISE: how many indexes, of which candidates, for which queries."""

    def __init__(self, most: int, candidates: list[Index], queries: list[Query]) -> None:
        self.most, self.candidates, self.queries = most, candidates, queries


class Statement:
    """A statement without a fault.

    `kind` tells which, `first` its first byte, `next` the place behind it. One that prints nothing has `change`, what it does to
    the catalogue; others have a query, lines or an advice.
    """

    def __init__(self, kind: str, first: int, next_place: int, change: Callable[[], None] | None = None) -> None:
        self.kind, self.first, self.next, self.change = kind, first, next_place, change
        self.query: Query
        self.lines: str
        self.advice: Advice


def read_statement(catalog: Catalog, text: bytes, at: int) -> Statement:
    """The statement that begins at a place."""
    tokens = lex_statement(text, at)
    if len(tokens) == 1:
        return Statement("empty", at, tokens[0].end)
    node = parse(tokens)
    begin = lines_begin(text, node.end) if node.kind in HAS_LINES else 0
    if node.kind == "copy":
        return _read_copy(node, catalog, text, begin)
    readers: dict[str, Callable] = {
        "create_table": _create_table, "create_index": _create_index, "statistics_table": _set_sizes,
        "statistics_column": _set_statistics, "analyze": _analyze,
    }
    if node.kind in readers:
        return Statement(node.kind, node.first, node.end, readers[node.kind](node, catalog))
    statement = Statement(node.kind, node.first, node.end)
    if node.kind == "advise":
        statement.advice = Advice(*read_advice(node, catalog))
        return statement
    statement.query = read_query(node.select, catalog, node.first)
    if begin:
        lines, statement.next = lines_of(text, begin)
        statement.lines = lines.decode("latin-1")
    return statement


def _read_copy(node: Node, catalog: Catalog, text: bytes, begin: int) -> Statement:
    """COPY with its data."""
    table = find_table(catalog, node.table)
    if node.null.text != b"\\N":
        raise Fault(INVALID_PARAMETER, node.null.start)
    block, behind = lines_of(text, begin)
    rows = load(table, block, begin)
    return Statement("copy", node.first, behind, lambda: table.rows.extend(rows))


def _create_table(node: Node, catalog: Catalog) -> Callable[[], None]:
    """What CREATE TABLE does."""
    table = read_table(node, catalog)
    return lambda: catalog.tables.update({table.name: table})


def _create_index(node: Node, catalog: Catalog) -> Callable[[], None]:
    """What CREATE INDEX does."""
    index = read_index(node.candidate, catalog, node.first)
    return lambda: catalog.add_index(index)


def _set_sizes(node: Node, catalog: Catalog) -> Callable[[], None]:
    """What STATISTICS of a table does."""
    table, rows, pages = read_sizes(node, catalog)

    def change() -> None:
        """Sets both."""
        table.given_rows, table.given_pages = rows, pages
    return change


def _set_statistics(node: Node, catalog: Catalog) -> Callable[[], None]:
    """What STATISTICS of a column does."""
    table, column, stats = read_statistics(node, catalog)
    return lambda: table.stats.update({column: stats})


def _analyze(node: Node, catalog: Catalog) -> Callable[[], None]:
    """What ANALYZE does."""
    table: Table = find_table(catalog, node.table)
    return lambda: analyze(table)


class Planning:
    """A SELECT as it is planned: its space, texts and kept paths, and a least plan, one that groups where the query does."""

    def __init__(self, query: Query, last: bool = False) -> None:
        self.space = Space(query)
        self.texts = Texts(self.space)
        self.planner = Planner(self.space, last)
        self.grouping = Grouping(self.space, self.texts, query.groups) if query.groups else None
        self.group_plan: GroupPlan | None = self.grouping.choose(self.planner, last) if self.grouping else None
        self.plan: Finished | None = None if self.grouping else self.planner.best()
        if self.group_plan is None and self.plan is None:
            raise Fault(NO_PLAN, query.at)

    @property
    def least(self) -> int:
        """The least price, or the least cost of a plan that groups."""
        if self.group_plan:
            return self.group_plan.cost
        return self.space.price(self.plan.cost) if self.plan else 0

    def text(self) -> bytes:
        """The lines of the least plan."""
        if self.grouping and self.group_plan:
            return self.grouping.text(self.group_plan).encode("latin-1")
        return self.texts.plan(self.plan).encode("latin-1") if self.plan else b""

    def rows(self) -> bytes:
        """The lines of its rows."""
        if self.grouping and self.group_plan:
            return rows_text(self.grouping.types(), self.grouping.lines(self.group_plan))
        return rows_of_plan(self.space, self.plan.plan) if self.plan else b""

    def certificate(self) -> bytes:
        """The lines of its certificate with the line behind them."""
        text = CertificateTexts(self.texts).certificate(self.planner.fronts, self.plan) if self.plan else ""
        return text.encode("latin-1") + b"\\.\n"


def rows_of_plan(space: Space, plan: Plan) -> bytes:
    """The lines of the rows that a plan gives, in the window of its query, and of their number."""
    executor = Executor(space)
    tuples = executor.run(plan)
    if space.q.window is not None:
        limit, offset = space.q.window
        tuples = tuples[offset:] if limit is None else tuples[offset:offset + limit]
    return rows_text([space.q.column_type(*ref) for ref in space.q.select], [executor.shown(t) for t in tuples])


def checked(statement: Statement, catalog: Catalog) -> tuple[Verdict, Space, Texts]:
    """The verdict of a CHECK, with the space and the texts of its query."""
    space = Space(statement.query)
    texts = Texts(space)
    return check(space, texts, catalog.indexes, statement.lines), space, texts


def _advised(statement: Statement, catalog: Catalog) -> bytes:
    """The reply of an ADVISE."""
    advice = statement.advice
    found = advised(Prices(catalog, advice.candidates, advice.queries), advice.most)
    if found is None:
        raise Fault(NO_PLAN, statement.first)
    lines = ["use %s\n" % advice.candidates[p].name for p in found[0]] + ["cost=%d\n" % found[1]]
    return "".join(lines).encode()


def _used_plan(statement: Statement) -> bytes:
    """The reply of a USE PLAN."""
    space = Space(statement.query)
    texts = Texts(space)
    try:
        found = judged(space, read_plan(space, texts, statement.lines))
    except NoText:
        found = "P1"
    if isinstance(found, str):
        return b"invalid: %s\n" % found.encode()
    return texts.plan(found).encode("latin-1") + rows_of_plan(space, found.plan)


def reply(statement: Statement, catalog: Catalog, last: bool = False) -> bytes:
    """Carries a statement out and gives its reply."""
    kind = statement.kind
    if statement.change:
        statement.change()
    if statement.change or kind == "empty":
        return b""
    if kind == "advise":
        return _advised(statement, catalog)
    if kind == "use_plan":
        return _used_plan(statement)
    if kind == "check":
        return checked(statement, catalog)[0].line().encode("latin-1")
    p = Planning(statement.query, last)
    behind = {"select": p.rows, "explain_table": p.certificate}.get(kind, bytes)
    return p.text() + behind()
