"""The formulas of costs, as whole numbers (docs/ESTIMATES.md, The cost of a node and What the first rows cost)."""

from __future__ import annotations

# A cost: what comes before the first row, and all.
Cost = tuple[int, int]

# A plan of this cost or more is not admissible.
TOO_MUCH = 10 ** 18
MOST_ROWS = 10 ** 12


def ceil_div(a: int, b: int) -> int:
    """a / b, rounded up."""
    return -(-a // b)


def clamp(rows: int) -> int:
    """A number of rows as an estimate."""
    return max(1, min(MOST_ROWS, rows))


def log2up(n: int) -> int:
    """The least k with 2^k at least n."""
    return (n - 1).bit_length()


def heap_pages(rows: int, pages: int) -> int:
    """The pages that rows scattered over so many stand on."""
    return min(pages, ceil_div(2 * pages * rows, 2 * pages + rows))


def height(leaf_pages: int) -> int:
    """The levels of inner pages above so many leaf pages, 200 children to each."""
    levels = 0
    while 200 ** levels < leaf_pages:
        levels += 1
    return levels


def sort(total: int, rows: int) -> Cost:
    """The cost of a sort of so many rows over an input of this cost."""
    startup = total + 2 * rows * log2up(max(rows, 2))
    return startup, startup + rows


def nest(outer: Cost, inner: Cost, outer_rows: int, inner_rows: int, operators: int) -> Cost:
    """The cost of a nested loop."""
    return outer[0] + inner[0], outer[1] + outer_rows * inner[1] + outer_rows * inner_rows * (4 + operators)


def merge(outer: Cost, inner: Cost, outer_rows: int, inner_rows: int, keys: int, pairs: int, operators: int) -> Cost:
    """The cost of a merge by so many keys, with so many pairs of equal ones."""
    return outer[0] + inner[0], outer[1] + inner[1] + (outer_rows + 2 * inner_rows) * keys + pairs * (4 + operators)


def price(cost: Cost, asked: int, rows: int) -> int:
    """What the rows asked for cost of so many: the startup, and their share of the rest."""
    return cost[0] + ceil_div((cost[1] - cost[0]) * asked, rows)
