"""Indexes that could serve a query, from the columns of its conditions, joins and order."""
from __future__ import annotations

from dataclasses import dataclass, field
from typing import Iterator, Optional

from .conditions import Between, Compare, Condition, Flag, Joined, Literal, Not, NullTest, OneOf, Ref, Relation, leaves
from .queries import Query
from .schema import Column, Schema, Table

# An index that holds all columns of a query has at most so many.
MOST_COVERED = 7

# A partial index is for a value of a column with few values that this share of the rows has, in a table that is not small.
LEAST_SHARE, MOST_SHARE, MOST_VALUES, LEAST_ROWS = 0.0005, 0.2, 50, 10_000

# What an entry takes besides its values, and how full pages are.
ENTRY, FULL, MEGABYTE = 16, 0.9, 2 ** 20


@dataclass(frozen=True)
class Candidate:
    """An index that is not there. A key is a column's name with DESC and NULLS behind it."""

    table: Table
    keys: tuple[str, ...]
    include: tuple[str, ...] = ()
    condition: Optional[Compare] = None

    def __hash__(self) -> int:
        return hash((self.table.name, self.keys, self.include))

    def ours(self, name: str) -> str:
        """It as a candidate of ADVISE."""
        include = f" INCLUDE ({', '.join(self.include)})" if self.include else ""
        where = f" WHERE {self.condition.left.column.name} = {self.condition.right.ours}" if self.condition else ""
        return f"{name} ON {self.table.name} ({', '.join(self.keys)}){include}{where}"

    def theirs(self, name: str, schema: Schema) -> str:
        """The statement for the server."""
        known = schema.identifiers
        keys = ", ".join(" ".join([known[key.split()[0]], *key.split()[1:]]) for key in self.keys)
        include = f" INCLUDE ({', '.join(known[column] for column in self.include)})" if self.include else ""
        where = f" WHERE {known[self.condition.left.column.name]} = {self.condition.right.theirs}" if self.condition else ""
        return f"CREATE INDEX {name} ON {known[self.table.schema]}.{known[self.table.name]} ({keys}){include}{where};"

    def name(self) -> str:
        """A name after its table and columns, as the server would give one."""
        kind = [word for word, has in (("incl", self.include), ("part", self.condition)) if has]
        return "_".join([self.table.name, *(key.split()[0] for key in self.keys), *kind])[:55] + "_idx"

    def megabytes(self) -> float:
        """About how large it would be."""
        columns = [self.table.columns[key.split()[0]] for key in (*self.keys, *self.include)]
        share = equal_share(self.condition.left.column, self.condition.right) if self.condition else 1.0
        return self.table.rows * share * (sum(column.width for column in columns) + ENTRY) / FULL / MEGABYTE


@dataclass
class Facts:
    """The columns of one relation by what a query asks of them."""

    equal: dict[str, Optional[Literal]] = field(default_factory=dict)
    ranged: list[str] = field(default_factory=list)
    joined: list[str] = field(default_factory=list)
    alone: list[str] = field(default_factory=list)


def equal_share(column: Column, literal: Optional[Literal]) -> float:
    """The share of the rows that an equality leaves."""
    return column.known.share(literal.ours if literal else None) if column.known else 0.005


def kinds_of(condition: Condition) -> Iterator[tuple[str, Ref, Optional[Literal]]]:
    """For each column of a condition at the top of WHERE the list of facts that it belongs to, and its literal."""
    if isinstance(condition, Joined) and condition.word == "OR":
        yield from (("alone", ref, None) for leaf in leaves(condition) for _, ref, _ in kinds_of(leaf))
    elif isinstance(condition, Joined):
        for part in condition.parts:
            yield from kinds_of(part)
    elif isinstance(condition, Compare) and isinstance(condition.right, Literal):
        kind = {"=": "equal", "<>": ""}.get(condition.sign, "ranged")
        yield from [(kind, condition.left, condition.right)] if kind else []
    elif isinstance(condition, Compare) and condition.sign == "=":
        yield from [("joined", condition.left, None), ("joined", condition.right, None)]
    elif isinstance(condition, (OneOf, Between)) and not condition.is_negated:
        yield "ranged" if isinstance(condition, Between) else "equal", condition.column, None
    elif isinstance(condition, (Flag, NullTest)):
        yield "equal" if isinstance(condition, Flag) else "alone", condition.column, None


def facts_of(query: Query, relation: Relation) -> Facts:
    """What the query asks of a relation's columns. Equalities that leave fewer rows come first."""
    facts = Facts()
    for condition in query.conditions:
        for kind, ref, literal in kinds_of(condition) if not isinstance(condition, Not) else []:
            name = ref.column.name
            if ref.relation == relation and kind == "equal":
                facts.equal[name] = literal
            elif ref.relation == relation and name not in getattr(facts, kind):
                getattr(facts, kind).append(name)
    columns = relation.table.columns
    facts.equal = dict(sorted(facts.equal.items(), key=lambda item: equal_share(columns[item[0]], item[1])))
    return facts


def key_lists(facts: Facts, order: list[str]) -> Iterator[list[str]]:
    """Lists of keys: equalities, then one range, and the columns of joins before, behind and without them; and the order."""
    equal = list(facts.equal)
    yield equal
    for column in facts.ranged:
        yield [*equal, column]
        yield [column]
    for column in facts.joined:
        yield [column]
        yield [column, *equal]
        yield [*equal, column]
        yield [column, *equal, *facts.ranged[:1]]
    for column in facts.alone:
        yield [column]
    if order:
        yield [*equal, *order]
        yield [*facts.joined[:1], *order]


def covering(query: Query, relation: Relation, facts: Facts, lists: list[list[str]]) -> Iterator[tuple[list[str], list[str]]]:
    """Lists of keys with the other columns of the relation that the query names."""
    used = sorted((ref.column for ref in query.used() if ref.relation == relation), key=lambda column: column.place)
    if len(used) > MOST_COVERED or any(column.type.form == "none" for column in used):
        return
    several = [keys for keys in lists if len(keys) > 1][:3]
    single = [keys for keys in lists if len(keys) == 1 and keys[0] in facts.joined][:1]
    for keys in [*lists[:1], *several, *single]:
        named = {key.split()[0] for key in keys}
        yield keys, [column.name for column in used if column.name not in named]


def partial(relation: Relation, facts: Facts, order: list[str]) -> Iterator[tuple[list[str], Compare]]:
    """Lists of keys with a condition on a value that few rows have."""
    for name, literal in facts.equal.items():
        column = relation.table.columns[name]
        is_rare = column.known and column.known.distinct <= MOST_VALUES and LEAST_SHARE < equal_share(column, literal) < MOST_SHARE
        is_constant = literal and not literal.is_given and literal.theirs.isprintable()
        if not is_constant or not is_rare or relation.table.rows < LEAST_ROWS:
            continue
        condition = Compare(Ref(relation, column), "=", literal)
        others = [other for other in facts.equal if other != name]
        for keys in ([*others, *facts.ranged[:1]], *([joined] for joined in facts.joined), order):
            yield keys, condition


def distinct_keys(keys: list[str]) -> tuple[str, ...]:
    """Keys without those whose column stands earlier."""
    found: dict[str, str] = {}
    for key in keys:
        found.setdefault(key.split()[0], key)
    return tuple(found.values())


def candidates_of(query: Query) -> list[Candidate]:
    """The candidates of a query, each once, without those that are there."""
    found: dict[Candidate, None] = {}
    for relation in query.relations:
        facts = facts_of(query, relation)
        is_mine = query.ordered and all(ref.relation == relation for ref, _ in query.ordered)
        order = [ref.column.name + suffix for ref, suffix in query.ordered] if is_mine else []
        lists = [list(distinct_keys(keys)) for keys in key_lists(facts, order) if keys]
        made = [Candidate(relation.table, tuple(keys)) for keys in lists]
        made += [Candidate(relation.table, tuple(keys), tuple(rest)) for keys, rest in covering(query, relation, facts, lists) if rest]
        made += [Candidate(relation.table, distinct_keys(keys), (), condition) for keys, condition in partial(relation, facts, order) if keys]
        there = {index.keys for index in relation.table.indexes if index.condition is None}
        found.update((one, None) for one in made if one.include or one.condition or one.keys not in there)
    return list(found)
