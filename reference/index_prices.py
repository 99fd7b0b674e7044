"""Which of some candidates ADVISE advises (docs/GRAMMAR.md, ADVISE)."""

from __future__ import annotations

from itertools import combinations

from .catalog import Catalog, Index
from .plan_space import Space
from .planner import Planner
from .sql_query import Query

# Candidates by their places.
Places = tuple[int, ...]


class Prices:
    """The least prices of queries beside sets of candidates."""

    def __init__(self, catalog: Catalog, candidates: list[Index], queries: list[Query]) -> None:
        self.catalog, self.candidates, self.queries = catalog, candidates, queries
        self._found: dict[tuple[int, Places], int | None] = {}

    def price(self, n: int, places: Places) -> int | None:
        """The least price of a query beside candidates, or None where no plan is admissible. Only those on its tables count."""
        q = self.queries[n]
        names = {table.name for table, _ in q.rels}
        own = tuple(p for p in places if self.candidates[p].table.name in names)
        if (n, own) not in self._found:
            tables = self.catalog.with_candidates([self.candidates[p] for p in own]).tables
            space = Space(q.over_tables(tables))
            best = Planner(space).best()
            self._found[n, own] = None if best is None else space.price(best.cost)
        return self._found[n, own]

    def total(self, places: Places) -> int | None:
        """What all queries cost beside candidates, or None."""
        prices = [self.price(n, places) for n in range(len(self.queries))]
        return None if None in prices else sum(p for p in prices if p is not None)


def advised(prices: Prices, most: int) -> tuple[Places, int] | None:
    """At most so many candidates beside which the queries cost the least, with that sum; the fewest and the first of such sets."""
    found: tuple[Places, int] | None = None
    for size in range(min(most, len(prices.candidates)) + 1):
        for places in combinations(range(len(prices.candidates)), size):
            total = prices.total(places)
            if total is not None and (found is None or total < found[1]):
                found = (places, total)
    return found
