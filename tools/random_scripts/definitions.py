"""Random tables, indexes, data and statistics."""

from __future__ import annotations

from random import Random
from typing import Sequence

from . import typed
from .parts import (CLASSES, LIMITS, TYPES, ColumnDef, Scope, Table, Words, cased, condition, in_any_case, listed, literal_text, new_name,
                    number_words, some_kind, spaced)


def new_table(rng: Random, taken: Sequence[str]) -> Table:
    """A table whose name is not taken."""
    names: list[str] = []
    for _ in range(rng.choice([1, 1, 2, 3, 4, 16])):
        names.append(new_name(rng, names))
    columns: list[ColumnDef] = [(name, some_kind(rng), rng.random() < 0.2) for name in names]
    return Table(new_name(rng, taken), columns)


def create(rng: Random, table: Table) -> Words:
    """CREATE TABLE."""
    columns = []
    for name, kind, not_null in table.columns:
        null = cased(rng, "not null") if not_null else cased(rng, "null") if rng.random() < 0.2 else []
        columns.append([in_any_case(rng, name), *cased(rng, rng.choice(TYPES[kind])), *null])
    return [*cased(rng, "create table"), in_any_case(rng, table.name), "(", *listed(columns), ")"]


def copy(rng: Random, table: Table, records: list[str], null: str = "'\\N'") -> str:
    """COPY with its data."""
    end = rng.choice(["\n", "\n", "\r\n"])
    words = [*cased(rng, "copy"), in_any_case(rng, table.name), *cased(rng, "from stdin with"), "(", *cased(rng, "format csv"), ",",
             *cased(rng, "null"), null, ")"]
    text = spaced(rng, words) + rng.choice(["", " "]) + ";" + rng.choice(["", "", " ", "\t \r"]) + "\n"
    if rng.random() < 0.1:
        records = [*records[:1], "", *records[1:]]
    return text + "".join(r + end for r in records) + "\\." + rng.choice(["\n", "\n", "\r\n"])


def direction(rng: Random) -> Words:
    """The direction of a key and the place of its NULLs."""
    return cased(rng, rng.choice(["", "", "asc", "desc"])) + cased(rng, rng.choice(["", "", "", "nulls first", "nulls last"]))


def candidate(rng: Random, table: Table, name: str) -> Words:
    """An index of any kind: what stands behind CREATE INDEX."""
    words = [in_any_case(rng, name), *cased(rng, "on"), in_any_case(rng, table.name)]
    columns = rng.sample(table.columns, len(table.columns))
    words += hash_key(rng, columns[0]) if rng.random() < 0.25 else tree_keys(rng, columns)
    if rng.random() < 0.4:
        predicate = condition(rng, Scope([(table.name, table)]), rng.choice([0, 0, 0, 1, 2]))
        table.predicates.append(predicate)
        words += cased(rng, "where") + predicate
    return words


def hash_key(rng: Random, column: ColumnDef) -> Words:
    """The key of a hash index."""
    name, kind, _ = column
    op_class = [in_any_case(rng, CLASSES[kind][0])] if rng.random() < 0.3 else []
    order = cased(rng, "asc") if rng.random() < 0.1 else []
    return [*cased(rng, "using hash"), "(", in_any_case(rng, name), *op_class, *order, ")"]


def tree_keys(rng: Random, columns: list[ColumnDef]) -> Words:
    """The keys of a B-tree, now and then with INCLUDE."""
    words = cased(rng, "using btree") if rng.random() < 0.3 else []
    keys = columns[:rng.choice([1, 1, 2, 3, 16])]
    parts = []
    for name, kind, _ in keys:
        op_class = [in_any_case(rng, rng.choice(CLASSES[kind]))] if rng.random() < 0.3 else []
        parts.append([in_any_case(rng, name), *op_class, *direction(rng)])
    words += ["(", *listed(parts), ")"]
    rest = columns[len(keys):][:rng.choice([1, 1, 2, 16])]
    if rest and rng.random() < 0.4:
        words += [*cased(rng, "include"), "(", *listed([[in_any_case(rng, name)] for name, _, _ in rest]), ")"]
    return words


def create_index(rng: Random, table: Table, name: str) -> Words:
    """CREATE INDEX."""
    table.indexes += 1
    return cased(rng, "create index") + candidate(rng, table, name)


def in_range(rng: Random, low: int, high: int) -> str:
    """A number from the least to the most, often one of these."""
    return str(rng.choice([low, high, rng.randint(low, high), rng.randint(low, min(high, low + 1000))]))


def sizes(rng: Random, table: Table) -> Words:
    """STATISTICS of a table."""
    rows = [*cased(rng, "statistics"), in_any_case(rng, table.name), *cased(rng, "rows"), in_range(rng, 1, 10**9)]
    return [*rows, *cased(rng, "pages"), in_range(rng, 1, 10**9)]


def values_of(rng: Random, kind: str, count: int) -> list[Words]:
    """Literals of different values of a type, in rising order."""
    if kind == "bool":
        return [[rng.choice(["false", literal_text("f")])], [rng.choice(["true", literal_text("1")])]][:count]
    if kind == "text":
        texts = {rng.choice(["", "a", "b", "ab", "it's", "z"]) + str(rng.randrange(500)) for _ in range(count)}
        return [[literal_text(t)] for t in sorted(texts, key=lambda t: t.encode())]
    if kind in typed.KINDS:
        return [[literal_text(t)] for t in typed.rising(rng, kind, count)] if kind not in typed.NUMERICS or rng.random() < 0.7 else (
            [number_words(n) for n in sorted({typed.whole(rng, kind) for _ in range(count)})])
    limit = LIMITS[kind]
    numbers = {rng.randrange(-limit, limit) if rng.random() < 0.5 else rng.randrange(-50, 1000) for _ in range(count)}
    return [[literal_text(str(n))] if rng.random() < 0.2 else number_words(n) for n in sorted(numbers)]


def column_statistics(rng: Random, table: Table) -> Words:
    """STATISTICS of a column."""
    name, kind, _ = rng.choice(table.columns)
    common = values_of(rng, kind, rng.choice([0, 0, 1, 3, 16]))
    rng.shuffle(common)
    bounds = values_of(rng, kind, rng.choice([0, 0, 2, 5, 101]))
    distinct = max(1, len(common)) + rng.choice([0, 1, 100, 10**8])
    words = [*cased(rng, "statistics"), in_any_case(rng, table.name), ".", in_any_case(rng, name)]
    words += [*cased(rng, "distinct"), str(distinct), *cased(rng, "nulls"), str(rng.choice([0, rng.randint(0, 500_000)]))]
    if common:
        shares = [[*value, str(rng.randint(1, 500_000 // 16))] for value in common]
        words += [*cased(rng, "common"), "(", *listed(shares), ")"]
    return words + ([*cased(rng, "histogram"), "(", *listed(bounds), ")"] if len(bounds) > 1 else [])
