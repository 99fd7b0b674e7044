"""Selectivities, estimated rows, and the costs of scans (docs/ESTIMATES.md)."""

from __future__ import annotations

from functools import reduce
from typing import Any, Iterable

from .catalog import ColumnStats, Index
from .cost_rules import Cost, ceil_div, clamp, heap_pages, height, log2up
from .eq_classes import Clauses
from .pg_base import bits
from .pg_expr import Expr, Operand, operators, over
from .pg_value import SIZE_OPERATORS, TESTS, Value, truth
from .sql_query import Query

G = 10 ** 9
MILLION = 10 ** 6
THIRD = 333333333


def is_bound(e: Expr) -> bool:
    """Whether a condition bounds a column from one side by a literal."""
    return e[0] == "compare" and e[1] in ("<", "<=", ">", ">=") and e[2][0] == "column" and e[3][0] == "literal" and e[3][2] is not None


def place(op: str, histogram: list, value: Any) -> tuple[int, int]:
    """The parts of a whole before a literal in a histogram, linear between two bounds of whole numbers, and the whole."""
    steps = 2 * (len(histogram) - 1)
    j = sum(1 for b in histogram if (b < value if op in ("<", ">=") else b <= value))
    if j in (0, len(histogram)):
        return (steps if j else 0), steps
    if isinstance(value, bool) or not isinstance(value, int):
        return 2 * j - 1, steps
    width, half = histogram[j] - histogram[j - 1], -1 if op in ("<", ">=") else 1
    return (2 * j - 2) * width + 2 * (value - histogram[j - 1]) + half, steps * width


def cost_of_run(runs: int, rows: int, pages: int, each: int) -> int:
    """What one of so many runs pays for the pages that the rows of all runs stand on."""
    return ceil_div(heap_pages(rows * runs, pages) * each, runs)


class Estimates:
    """Estimates of a query's conditions and rows."""

    def __init__(self, q: Query) -> None:
        self.q, self.c = q, q.classes
        self._shares: dict[Expr, int] = {}
        self._rows: dict[int, int] = {}
        self._rows_given: dict[tuple[int, int], int] = {}
        self._sizes: dict[tuple[str, int], tuple[int, int, int]] = {}

    # -- the share of a condition, in parts per 10^9

    def _stats(self, relation: int, column: int) -> ColumnStats:
        """What is known of a column, or taken to be."""
        table = self.q.rels[relation][0]
        return table.stats.get(column) or ColumnStats(min(200, table.row_count()), 0, [], [])

    def distinct(self, relation: int, column: int) -> int:
        """How many different values a column is taken to have."""
        return self._stats(relation, column).distinct

    def share(self, e: Expr) -> int:
        """The share of a condition in pushed form."""
        if e not in self._shares:
            self._shares[e] = self._share(e)
        return self._shares[e]

    def _share(self, e: Expr) -> int:
        """The share of a condition, by its form."""
        head = e[0]
        if head == "and":
            return reduce(lambda a, b: a * b // G, self.weights(e[1]))
        if head == "or":
            return reduce(lambda a, b: a + b - a * b // G, map(self.share, e[1]))
        if head == "not":
            return G - self.share(e[1])
        if head == "constant":
            return G if e[1] is True else 0
        if head == "bool":
            return G // 2
        if head == "compare":
            return self._comparison(e[1], e[2], e[3])
        null = self._null_share(e[1], e[2])
        return null if head == "isnull" else G - null

    def _null_share(self, relation: int, column: int) -> int:
        """The share of IS NULL."""
        table = self.q.rels[relation][0]
        if table.columns[column][2]:
            return 0
        return 1000 * table.stats[column].nulls if column in table.stats else 5000000

    def _comparison(self, op: str, left: Operand, right: Operand) -> int:
        """The share of a comparison."""
        if left[0] == right[0] == "literal":
            return G if truth(op, left[2], right[2]) is True else 0
        if right[0] == "column":
            return self._of_columns(op, left, right)
        if right[2] is None:
            return 0
        s = self._stats(*left[1:])
        if op == "|=|":
            return 1000 * (MILLION - s.nulls) // s.distinct
        if op in SIZE_OPERATORS:
            return THIRD
        if op in ("=", "<>"):
            equal = self._equal(s, right[2])
            return equal if op == "=" else max(0, 1000 * (MILLION - s.nulls) - equal)
        return self._inequality(op, s, right[2]) if s.histogram else THIRD

    def _of_columns(self, op: str, left: Operand, right: Operand) -> int:
        """The share of a comparison of two columns."""
        if op not in ("=", "|=|", "<>"):
            return THIRD
        a, b = self._stats(*left[1:]), self._stats(*right[1:])
        equal = G * (MILLION - a.nulls) * (MILLION - b.nulls) // (10 ** 12 * max(a.distinct, b.distinct))
        return G - equal if op == "<>" else equal

    @staticmethod
    def _equal(s: ColumnStats, value: Value) -> int:
        """The share of equality with a literal."""
        for common, share in s.common:
            if common == value:
                return 1000 * share
        others = MILLION - s.nulls - sum(share for _, share in s.common)
        return 1000 * others // max(1, s.distinct - len(s.common))

    def _inequality(self, op: str, s: ColumnStats, value: Any) -> int:
        """The share of an inequality with a literal, of a column with a histogram."""
        parts, whole = place(op, s.histogram, value)
        if op in (">", ">="):
            parts = whole - parts
        met = sum(share for common, share in s.common if TESTS[op](common, value))
        others = MILLION - s.nulls - sum(share for _, share in s.common)
        return 1000 * met + 1000 * others * parts // whole

    # -- what the conditions of a list multiply with

    def weights(self, exprs: Iterable[Expr]) -> list[int]:
        """What each condition of a list multiplies with: its share; but of the bounds of a column that has a histogram and
        bounds from both sides the first has the share of the range, and the others keep all rows."""
        exprs = list(exprs)
        out = [self.share(e) for e in exprs]
        ends: dict[Operand, tuple[list[int], list[int]]] = {}
        for n, e in enumerate(exprs):
            if is_bound(e) and self._stats(*e[2][1:]).histogram:
                ends.setdefault(e[2], ([], []))[e[1] in ("<", "<=")].append(n)
        for column, (lower, upper) in ends.items():
            if lower and upper:
                share = self._range(self._stats(*column[1:]), min(out[n] for n in lower), min(out[n] for n in upper))
                out = [G if n in lower or n in upper else own for n, own in enumerate(out)]
                out[min(lower + upper)] = share
        return out

    @staticmethod
    def _range(s: ColumnStats, lower: int, upper: int) -> int:
        """The share of both ends of a range: at least that of one value, and no more than each end has."""
        others = MILLION - s.nulls - sum(share for _, share in s.common)
        one = 1000 * others // max(1, s.distinct - len(s.common))
        return max(lower + upper - 1000 * (MILLION - s.nulls), min(lower, upper, one))

    # -- rows

    def fold(self, rows: int, exprs: Iterable[Expr]) -> int:
        """What rows, however many, become by the conditions of a list taken in turn."""
        for weight in self.weights(exprs):
            rows = max(1, ceil_div(rows * weight, G))
        return clamp(rows)

    def fold_clauses(self, rows: int, clauses: Iterable[int]) -> int:
        """What rows become by clauses in the order of their numbers."""
        return self.fold(rows, self.exprs(clauses))

    def exprs(self, clauses: Iterable[int]) -> list[Expr]:
        """The conditions of clauses in the order of their numbers."""
        return [self.c.clauses[n].expr for n in sorted(clauses)]

    def table_rows(self, r: int) -> int:
        """The rows of a relation's table."""
        return self.q.rels[r][0].row_count()

    def pages(self, r: int) -> int:
        """The pages of a relation's table."""
        return self.q.rels[r][0].page_count()

    def rows(self, s: int) -> int:
        """The rows that a set of relations is taken to give."""
        if s not in self._rows:
            product = 1
            for r in bits(s):
                product *= self.table_rows(r)
            self._rows[s] = self.fold_clauses(product, self.c.all(s))
        return self._rows[s]

    def rows_given(self, r: int, p: int) -> int:
        """The rows of a scan of a relation that is given a row of each of p."""
        if not p:
            return self.rows(1 << r)
        if (r, p) not in self._rows_given:
            self._rows_given[r, p] = self.fold_clauses(self.table_rows(r), self.c.base(r) + self.c.param(r, p))
        return self._rows_given[r, p]

    def runs(self, p: int) -> int:
        """For how many runs a scan is priced that is given a row of each of p: the fewest rows that one of them has."""
        return min((self.rows(1 << r) for r in bits(p)), default=1)

    def index_size(self, index: Index, r: int) -> tuple[int, int, int]:
        """The entries, leaf pages and height of an index."""
        key = (index.name, r)
        if key not in self._sizes:
            entries = self.table_rows(r)
            if index.predicate is not None:
                entries = self.fold(entries, [over(index.predicate, r)])
            leaves = max(1, ceil_div(entries, 200))
            self._sizes[key] = (entries, leaves, height(leaves))
        return self._sizes[key]


class Costs:
    """The costs of scans, over the estimates of a query."""

    def __init__(self, estimates: Estimates) -> None:
        self.est, self.c = estimates, estimates.c
        self._operators = [operators(c.expr) for c in self.c.clauses]

    def operators(self, clauses: Iterable[int]) -> int:
        """The operators of clauses."""
        return sum(self._operators[n] for n in clauses)

    def seq(self, r: int) -> Cost:
        """The cost of a sequential scan."""
        return 0, self.est.pages(r) * 400 + self.est.table_rows(r) * (4 + self.operators(self.c.base(r)))

    def descent(self, index: Index, r: int) -> int:
        """What finding the first entry costs."""
        if index.method == "hash":
            return 50
        entries, _, levels = self.est.index_size(index, r)
        return log2up(max(entries, 2)) + 50 * (levels + 1)

    def part(self, index: Index, place: tuple[int, int], bounds: list[Expr], conditions: int) -> int:
        """An index's own part in a scan of a relation that is given a row of each of a set, with so many conditions, of which
        some are bounds."""
        r, p = place
        entries, leaves, _ = self.est.index_size(index, r)
        looked_at = min(entries, self.est.fold(self.est.table_rows(r), bounds))
        read, runs = ceil_div(looked_at * leaves, entries), self.est.runs(p)
        pages = read * 1600 if runs == 1 else cost_of_run(runs, read, leaves, 1600)
        return self.descent(index, r) + pages + looked_at * (2 + conditions)

    def index(self, index: Index, r: int, p: int, bounds: Clauses, conditions: Clauses, only: bool) -> Cost:
        """The cost of an index scan, or of an index-only scan."""
        entries = self.est.index_size(index, r)[0]
        rows = min(entries, self.est.fold_clauses(self.est.table_rows(r), conditions))
        total = self.part(index, (r, p), self.est.exprs(bounds), len(conditions))
        if not only:
            total += cost_of_run(self.est.runs(p), rows, self.est.pages(r), 1600)
        rest = set(self.c.base(r) + self.c.param(r, p)) - set(conditions)
        return self.descent(index, r), total + rows * (4 + self.operators(rest))

    def bitmap(self, r: int, p: int, used: Iterable[int], parts: int) -> Cost:
        """The cost of a bitmap scan by the clauses of its indexes, whose parts come to this."""
        rows = self.est.fold_clauses(self.est.table_rows(r), used)
        pages = self.est.pages(r)
        each = 1600 - 1200 * heap_pages(rows, pages) // pages
        tests = self.operators(set(self.c.base(r) + self.c.param(r, p)))
        return parts, parts + cost_of_run(self.est.runs(p), rows, pages, each) + rows * (4 + tests)
