"""Random queries: of one relation, joined, grouped, DISTINCT, with LIMIT and OFFSET, and ADVISE of them."""

from __future__ import annotations

from random import Random
from typing import Sequence

from .definitions import candidate, direction
from .parts import (JOIN_WORDS, LIMITS, MOST_INDEXES, Relation, Scope, Table, Words, are_alike, cased, condition, in_any_case, listed, long_condition,
                    new_name)

# A query whose full product has more tuples is explained and not run.
MOST_TUPLES = 30_000
FEW = (1, 1, 1, 2, 2, 3)
SOME = (2, 2, 2, 3, 3, 4)


# -- FROM

def relations_of(rng: Random, tables: Sequence[Table], count: int) -> list[Relation]:
    """So many relations."""
    chosen: list[Relation] = []
    for number in range(count):
        table = rng.choice(tables)
        is_plain = all(table.name != alias for alias, _ in chosen) and rng.random() < 0.5
        chosen.append((table.name if is_plain else f"r{number}", table))
    return chosen


def from_item(rng: Random, relation: Relation) -> Words:
    """A table with its alias."""
    alias, table = relation
    words = [in_any_case(rng, table.name)]
    if alias != table.name or rng.random() < 0.1:
        words += cased(rng, "as") if alias in JOIN_WORDS or rng.random() < 0.5 else []
        words.append(in_any_case(rng, alias))
    return words


def equality(rng: Random, left: Sequence[Relation], right: Sequence[Relation]) -> Words | None:
    """A comparison of columns of two lists of relations, mostly for equality."""
    pairs = [(a, b) for a in Scope(left).columns for b in Scope(right).columns if are_alike(a[2], b[2])]
    if not pairs:
        return None
    a, b = rng.choice(pairs)
    if rng.random() < 0.3:
        a, b = b, a
    op = "=" if rng.random() < 0.85 else rng.choice(["<", ">=", "<>"] + (["|=|", "|<|"] if a[2] in LIMITS else []))
    return [a[0], ".", a[1], op, b[0], ".", b[1]]


def join_test(rng: Random, before: Sequence[Relation], relation: Relation) -> Words:
    """An ON condition: an equality with what stands before, some condition, or both."""
    scope = Scope([*before, relation])
    test = equality(rng, before, [relation])
    if test is None or rng.random() < 0.15:
        return condition(rng, scope, rng.choice([0, 1]))
    if rng.random() < 0.25:
        more = equality(rng, before, [relation]) if rng.random() < 0.6 else condition(rng, scope, 0)
        return test + cased(rng, "and") + (more or test)
    return test


def from_list(rng: Random, relations: Sequence[Relation]) -> Words:
    """FROM with its relations in order."""
    words, group = cased(rng, "from"), []
    for number, relation in enumerate(relations):
        if number == 0 or rng.random() < 0.4:
            words += ([","] if number else []) + from_item(rng, relation)
            group = []
        elif rng.random() < 0.2:
            words += cased(rng, "cross join") + from_item(rng, relation)
        else:
            words += cased(rng, rng.choice(["join", "inner join"])) + from_item(rng, relation)
            words += cased(rng, "on") + join_test(rng, group, relation)
        group.append(relation)
    return words


def where(rng: Random, relations: Sequence[Relation]) -> Words:
    """WHERE, the later relations mostly set equal to earlier ones."""
    parts = [equality(rng, relations[:n], [relations[n]]) for n in range(1, len(relations)) if rng.random() < 0.7]
    if rng.random() < 0.6:
        scope = Scope(relations)
        test = long_condition(rng, scope) if rng.random() < 0.02 and not parts else condition(rng, scope, rng.choice([0, 0, 1, 2, 3]))
        parts.append(test if len(test) > 60 else ["(", *test, ")"])
    found = [part for part in parts if part]
    rng.shuffle(found)
    return cased(rng, "where") + [word for part in found for word in [*cased(rng, "and"), *part]][1:] if found else []


def order_by(rng: Random, columns: Sequence[Words]) -> Words:
    """ORDER BY some of these columns."""
    items = [rng.choice(columns) + direction(rng) for _ in range(rng.choice([1, 1, 2, 3]))]
    return [*cased(rng, "order by"), *listed(items)]


# -- SELECT

def shown(rng: Random, relations: Sequence[Relation]) -> Words:
    """A select list."""
    scope, items = Scope(relations), []
    for _ in range(rng.choice([1, 1, 2, 3])):
        kind = rng.randrange(6)
        star = ["*"] if kind == 0 else [in_any_case(rng, rng.choice(relations)[0]), ".", "*"]
        items.append(star if kind < 2 else scope.named(rng, rng.choice(scope.columns)))
    return listed(items)


def plain_select(rng: Random, tables: Sequence[Table], counts: Sequence[int] = FEW) -> tuple[Words, list[Relation]]:
    """A SELECT that does not group, and its relations."""
    relations = relations_of(rng, tables, rng.choice(counts))
    words = cased(rng, "select") + shown(rng, relations) + from_list(rng, relations) + where(rng, relations)
    words = with_predicate(rng, words, relations)
    if rng.random() < 0.4:
        scope = Scope(relations)
        words += order_by(rng, [scope.named(rng, column) for column in scope.columns])
    return words, relations


def with_predicate(rng: Random, words: Words, relations: Sequence[Relation]) -> Words:
    """A SELECT of one table, now and then with the condition of one of its partial indexes."""
    alias, table = relations[0]
    lowered = [word.lower() for word in words]
    if len(relations) > 1 or alias != table.name or not table.predicates or "where" not in lowered or len(words) > 60 or rng.random() < 0.5:
        return words
    at = lowered.index("where") + 1
    return [*words[:at], "(", *rng.choice(table.predicates), ")", *cased(rng, "and"), "(", *words[at:], ")"]


def window(rng: Random) -> Words:
    """LIMIT, OFFSET, or both."""
    def number() -> str:
        """A number of rows."""
        return str(rng.choice([0, 0, 1, 1, 2, 3, 5, 10, 40, 100, 1000, rng.randrange(200), 2**63 - 1]))

    kept = rng.randrange(1, 4)
    return [*cased(rng, "limit"), number()] * (kept & 1) + [*cased(rng, "offset"), number()] * (kept >> 1)


def call(rng: Random, scope: Scope) -> Words:
    """A call of count, min or max."""
    name = rng.choice(["count", "min", "max"])
    columns = [c for c in scope.columns if name == "count" or c[2] not in ("bool", "uuid")]
    if not columns or rng.random() < 0.3:
        return [in_any_case(rng, "count"), "(", "*", ")"]
    return [in_any_case(rng, name), "(", *scope.named(rng, rng.choice(columns)), ")"]


def distinct_select(rng: Random, tables: Sequence[Table], counts: Sequence[int] = FEW) -> tuple[Words, list[Relation]]:
    """A SELECT DISTINCT, and its relations."""
    relations = relations_of(rng, tables, rng.choice(counts))
    scope = Scope(relations)
    items = [scope.named(rng, rng.choice(scope.columns)) for _ in range(rng.choice([1, 1, 2, 3]))]
    order = order_by(rng, items) if rng.random() < 0.5 else []
    if rng.random() < 0.2:
        items, order = [["*"]], order_by(rng, [scope.named(rng, c) for c in scope.columns]) if order else []
    return cased(rng, "select distinct") + listed(items) + from_list(rng, relations) + where(rng, relations) + order, relations


def grouped_select(rng: Random, tables: Sequence[Table], counts: Sequence[int] = FEW) -> tuple[Words, list[Relation]]:
    """A SELECT with GROUP BY, calls or DISTINCT, and its relations."""
    if rng.random() < 0.3:
        return distinct_select(rng, tables, counts)
    relations = relations_of(rng, tables, rng.choice(counts))
    scope = Scope(relations)
    chosen = rng.sample(scope.columns, min(len(scope.columns), rng.choice([0, 1, 1, 1, 2, 2, 3])))
    keys = [scope.named(rng, column) for column in chosen]
    items = [rng.choice(keys) for _ in range(rng.choice([0, 1, 1, 2]))] if keys else []
    items += [call(rng, scope) for _ in range(rng.choice([0, 1, 1, 2, 3]))]
    items = items or ([rng.choice(keys)] if keys and rng.random() < 0.5 else [call(rng, scope)])
    rng.shuffle(items)
    words = cased(rng, "select") + listed(items) + from_list(rng, relations) + where(rng, relations)
    words += cased(rng, "group by") + listed(keys) if keys else []
    return words + (order_by(rng, keys) if keys and rng.random() < 0.5 else []), relations


def is_large(relations: Sequence[Relation]) -> bool:
    """Whether the full product of relations has too many tuples to be run."""
    product = 1
    for _, table in relations:
        product *= max(1, table.rows)
    return product > MOST_TUPLES


def queried(rng: Random, tables: Sequence[Table], counts: Sequence[int] = FEW) -> Words:
    """A SELECT, EXPLAIN or EXPLAIN (TABLE) of any query."""
    groups = rng.random() < 0.35
    words, relations = (grouped_select if groups else plain_select)(rng, tables, counts)
    explains = is_large(relations) or rng.random() < 0.3
    with_table = explains and not groups and rng.random() < 0.4
    begin = cased(rng, "explain") * explains + ["(", *cased(rng, "table"), ")"] * with_table
    return begin + words + (window(rng) if not groups and rng.random() < 0.4 else [])


# -- ADVISE

def advised(rng: Random, tables: Sequence[Table], names: Sequence[str]) -> Words | None:
    """An ADVISE of candidates whose names are not taken, as many as their tables have room for."""
    candidates: list[Words] = []
    new: list[str] = []
    for _ in range(rng.randint(1, 4)):
        table = rng.choice(tables)
        if table.indexes + len(candidates) < MOST_INDEXES:
            new.append(new_name(rng, [*names, *new]))
            candidates.append(candidate(rng, table, new[-1]))
    queries: Words = []
    for _ in range(rng.choice([1, 1, 1, 2, 3])):
        words, _ = plain_select(rng, tables, (1, 1, 2, 2, 3))
        queries += ["(", *words, *(window(rng) if rng.random() < 0.3 else []), ")"]
    number = str(rng.choice([0, 1, 1, 2, 3, 10]))
    return [*cased(rng, "advise"), number, "(", *listed(candidates), ")", *queries] if candidates else None
