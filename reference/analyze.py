"""What ANALYZE finds of a table (docs/ESTIMATES.md, Rows and pages)."""

from __future__ import annotations

from collections import Counter

from .catalog import ColumnStats, Table

MILLION = 10 ** 6
MOST_COMMON = 16
MOST_BOUNDS = 101


def analyze(table: Table) -> None:
    """Replaces all that is known of a table by what is in its rows."""
    n = len(table.rows)
    table.given_rows, table.given_pages = max(1, n), max(1, -(-n // 100))
    table.stats = {c: _column(table, c) for c in range(len(table.columns))}


def _column(table: Table, c: int) -> ColumnStats:
    """What is found of a column."""
    n = len(table.rows)
    values = [row[c] for row in table.rows if row[c] is not None]
    if n == 0:
        return ColumnStats(1, 0, [], [])
    counts = Counter(values)
    common = sorted((v for v in counts if counts[v] >= 2), key=lambda v: (-counts[v], v))[:MOST_COMMON]
    chosen = set(common)
    rest = sorted(v for v in values if v not in chosen)
    shares = [(v, MILLION * counts[v] // n) for v in common]
    return ColumnStats(max(1, len(counts)), MILLION * (n - len(values)) // n, shares, _bounds(rest))


def _bounds(values: list) -> list:
    """The bounds of a histogram of sorted values."""
    m = len(values)
    k = min(MOST_BOUNDS, m)
    return [values[j * (m - 1) // (k - 1)] for j in range(k)] if m >= 2 else []
