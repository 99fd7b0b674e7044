"""Picks the indexes under which queries cost least, by ADVISE over at most ten candidates at a time."""
from __future__ import annotations

from dataclasses import dataclass, field

from .candidates import Candidate, candidates_of
from .program import advised, costs
from .psql import Left
from .queries import Query
from .schema import Index, Schema, Table

MOST_CANDIDATES, MOST_QUERIES, MOST_OF_QUERY = 10, 16, 3

# Candidates are named by their number in this way.
PREFIX = "pgplan_candidate_"


@dataclass
class Work:
    """A query with how often it is called, what it costs without and with the indexes that were picked for it alone, and with all."""

    number: int
    query: Query
    calls: int
    before: int = 0
    alone: int = 0
    after: int = 0
    candidates: list[Candidate] = field(default_factory=list)
    chosen: list[Candidate] = field(default_factory=list)

    def gain(self) -> int:
        """What its own indexes save, over all calls."""
        return (self.before - self.alone) * self.calls


def script_of(tables: list[Table], added: list[Candidate], without: str = "") -> bytes:
    """The statements of tables, with further indexes or without one."""
    made = "".join(f"CREATE INDEX {one.ours(PREFIX + str(number))};\n" for number, one in enumerate(added) if one.table in tables)
    return ("".join(table.script(without) for table in tables) + made).encode(errors="surrogateescape")


def with_room(candidates: list[Candidate]) -> list[Candidate]:
    """The first candidates, so that no table has more than eight indexes and ADVISE takes all."""
    kept: list[Candidate] = []
    for one in candidates:
        if sum(other.table == one.table for other in kept) < one.table.room() and len(kept) < MOST_CANDIDATES:
            kept.append(one)
    return kept


def best_of(script: bytes, texts: list[str], candidates: list[Candidate], most: int) -> tuple[list[Candidate], int]:
    """The best set of so many candidates for queries, and what they cost with it."""
    listed = ", ".join(one.ours(PREFIX + str(number)) for number, one in enumerate(candidates))
    (names, cost), = advised(script, [f"ADVISE {min(most, MOST_CANDIDATES)} ({listed}) {' '.join(f'({text})' for text in texts)};"])
    return [candidates[int(name[len(PREFIX):])] for name in names], cost


def alone(work: Work, schema: Schema) -> None:
    """Weighs a query's candidates: first each by itself, then the best ten together."""
    tables = [schema.tables[name] for name in work.query.tables()]
    script, text = script_of(tables, []), work.query.text()
    work.before, = costs(script, [text])
    work.alone = work.before
    work.candidates = [one for one in candidates_of(work.query) if one.table.room()]
    replies = advised(script, [f"ADVISE 1 ({one.ours(PREFIX)}) ({text});" for one in work.candidates])
    ranked = sorted(zip(replies, work.candidates), key=lambda item: (item[0][1], len(item[1].keys) + len(item[1].include)))
    useful = [one for (names, _), one in ranked if names]
    useless = [one for (names, _), one in ranked if not names]
    # An index may help only beside another.
    weighed = with_room([*useful[:MOST_CANDIDATES - 2], *useless, *useful[MOST_CANDIDATES - 2:]])
    if useful:
        work.chosen, work.alone = best_of(script, [text], weighed, MOST_OF_QUERY)


def repeated(works: list[Work], unit: float) -> tuple[float, list[int]]:
    """How often each query stands in ADVISE if one time is worth so many calls, and by how much that misweighs what they save."""
    times = [0] * len(works)

    def error(at: int, count: int) -> float:
        return abs(works[at].calls - unit * count) * (works[at].before - works[at].alone)

    for _ in range(MOST_QUERIES):
        at = max(range(len(works)), key=lambda at: error(at, times[at]) - error(at, times[at] + 1))
        if error(at, times[at]) <= error(at, times[at] + 1):
            break
        times[at] += 1
    return sum(error(at, count) for at, count in enumerate(times)), times


def copies(works: list[Work]) -> list[str]:
    """The texts of at most sixteen queries. A query stands several times for more calls, and not at all if it saves too little."""
    units = sorted({work.calls / count for work in works for count in range(1, MOST_QUERIES + 1)}, reverse=True)
    _, times = min((repeated(works, unit) for unit in units), key=lambda found: found[0])
    return [work.query.text() for work, count in zip(works, times) for _ in range(count)]


def pool_of(works: list[Work]) -> list[Candidate]:
    """The candidates that were chosen for some query, also without the columns that they include, those that save most first."""
    gains: dict[Candidate, int] = {}
    for work in works:
        for one in work.chosen:
            gains[one] = gains.get(one, 0) + work.gain()
            if one.include:
                bare = Candidate(one.table, one.keys, (), one.condition)
                gains[bare] = gains.get(bare, 0) + work.gain() // 2
    return sorted(gains, key=lambda one: -gains[one])


def together(works: list[Work], schema: Schema, most: int) -> list[Candidate]:
    """The indexes for all queries: those picked so far meet the next ones of the pool, ten at a time, twice through the pool."""
    gaining = [work for work in works if work.gain() > 0]
    if not gaining:
        return []
    pool, texts, picked = pool_of(gaining), copies(gaining), []
    names = dict.fromkeys(name for work in gaining for name in work.query.tables())
    script = script_of([schema.tables[name] for name in names], [])
    for _ in range(2 if len(pool) > MOST_CANDIDATES else 1):
        rest = [one for one in pool if one not in picked]
        while rest and most:
            meeting = with_room([*picked, *rest])
            fresh = [one for one in meeting if one not in picked]
            if not fresh:
                break
            rest = [one for one in rest if one not in fresh]
            picked, _ = best_of(script, texts, meeting, most)
    return picked


def priced(works: list[Work], schema: Schema, added: list[Candidate], without: str = "") -> list[int]:
    """The cost of each query with further indexes or without one. A query that has no plan then raises its reason."""
    found = []
    for work in works:
        tables = [schema.tables[name] for name in work.query.tables()]
        found += costs(script_of(tables, added, without), [work.query.text()])
    return found


def served(works: list[Work], schema: Schema, picked: list[Candidate]) -> list[list[int]]:
    """For each index that was picked the numbers of the queries that cost more without it."""
    found = []
    for one in picked:
        theirs = [work for work in works if one.table.name in work.query.tables()]
        costs_without = priced(theirs, schema, [other for other in picked if other != one])
        found.append([work.number for work, cost in zip(theirs, costs_without) if cost > work.after])
    return found


def unneeded(works: list[Work], schema: Schema, added: list[Candidate]) -> list[tuple[Table, Index]]:
    """The indexes that no constraint needs and without which no query costs more. Each is judged while all others are there."""
    found = []
    for table in schema.tables.values():
        theirs = [work for work in works if table.name in work.query.tables()]
        for index in table.indexes if theirs else []:
            if not index.is_required and all(now <= work.after for now, work in zip(priced(theirs, schema, added, index.name), theirs)):
                found.append((table, index))
    return found


def advise(listed: list[tuple[int, Query, int]], schema: Schema, most: int) -> tuple[list[Work], list[Candidate], list[str]]:
    """The queries with their costs, the indexes to create, and which queries pgplan refuses."""
    works, refused = [], []
    for number, query, calls in listed:
        work = Work(number, query, calls)
        try:
            alone(work, schema)
        except Left as fault:
            refused.append(f"query {number} is left out: {fault}")
        else:
            works.append(work)
    picked = together(works, schema, most)
    for work, cost in zip(works, priced(works, schema, picked)):
        work.after = cost
    return works, picked, refused
