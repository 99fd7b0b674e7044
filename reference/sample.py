"""The script of `pgplan sample N`, and the line that is told of it."""

from __future__ import annotations

from typing import Callable

from .catalog import Catalog
from .executor import Executor
from .statements import Planning, read_statement

DEFINITIONS = [
    "CREATE TABLE a (id int4 NOT NULL, g int4, v int4);", "CREATE TABLE b (id int4 NOT NULL, a_id int4, v int4);",
    "CREATE TABLE c (id int4 NOT NULL, b_id int4, v int4);", "CREATE INDEX ia ON a (id);", "CREATE INDEX iag ON a (g, v);",
    "CREATE INDEX iba ON b (a_id);", "CREATE INDEX icb ON c (b_id);", "CREATE INDEX icv ON c (v);",
]
# Each table, its rows, and the range of its second column with the least value there.
TABLES = [("a", 500, 50, 0), ("b", 1000, 500, 1), ("c", 2000, 1000, 1)]


def drawing(n: int) -> Callable[[int], int]:
    """A source of numbers below a limit, by a linear congruential generator."""
    state = n

    def draw(limit: int) -> int:
        """A number below the limit."""
        nonlocal state
        state = (state * 6364136223846793005 + 1442695040888963407) % (1 << 64)
        return (state >> 33) % limit
    return draw


def sample_script(n: int) -> bytes:
    """The script of a number."""
    draw, lines = drawing(n), list(DEFINITIONS)
    for name, count, limit, least in TABLES:
        lines.append("COPY %s FROM STDIN WITH (FORMAT CSV, NULL '\\N');" % name)
        for row in range(1, count + 1):
            second = least + draw(limit)
            lines.append("%d,%d,%d" % (row, second, draw(1000)))
        lines.append("\\.")
    lines.append("SELECT * FROM a WHERE g = %d ORDER BY v;" % draw(50))
    lines.append("SELECT a.id, b.id FROM a, b WHERE a.id = b.a_id AND a.v < %d;" % draw(1000))
    lines.append("SELECT a.id, c.id FROM a, b, c WHERE a.id = b.a_id AND b.id = c.b_id AND a.id = %d ORDER BY c.v;" % (1 + draw(500)))
    given = 1 + draw(500)
    lines.append("SELECT id FROM c WHERE b_id = %d OR v = %d;" % (given, draw(1000)))
    lines.append("SELECT b.id FROM b, c WHERE b.id = c.b_id AND c.v = %d;" % draw(1000))
    lines.append("SELECT x.id, y.id FROM a x, a y WHERE x.g = y.g AND x.id = %d ORDER BY y.v;" % (1 + draw(500)))
    return ("\n".join(lines) + "\n").encode()


def summary(n: int, last: bool = False) -> bytes:
    """The line of a number: the queries, their rows in all, and the sum of their costs."""
    text, catalog, at = sample_script(n), Catalog(), 0
    queries = rows = cost = 0
    while at < len(text):
        statement = read_statement(catalog, text, at)
        if statement.change:
            statement.change()
        elif statement.kind == "select":
            p = Planning(statement.query, last)
            queries += 1
            rows += len(Executor(p.space).run(p.plan.plan)) if p.plan else 0
            cost += p.plan.cost[1] if p.plan else 0
        at = statement.next
    return b"queries=%d rows=%d cost=%d\n" % (queries, rows, cost)
