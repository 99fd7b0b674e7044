"""Reads a server's SELECT and writes it for pgplan, or anew for the server with what pgplan has of it."""
from __future__ import annotations

from dataclasses import dataclass, field
from typing import Optional

from .condition_reader import Scope, Subquery, conjuncts, read_condition
from .conditions import OURS, Condition, Joined, Ref, Relation, columns_of
from .constants import Constants
from .psql import Left, identifier
from .schema import PLAIN, RESERVED, Schema
from .words import Cursor, Word, column_names, depths, inside, is_sign, pieces, spelt, words_of

AGGREGATES = set("array_agg avg bool_and bool_or count every json_agg jsonb_agg max min stddev string_agg sum variance".split())
CLAUSES = ("from", "where", "group", "having", "window", "order", "limit", "offset", "fetch", "for")
SETS = {"union", "intersect", "except"}
OUTER = ("full", "left", "outer", "right")
JOINS = {"cross", "inner", "join", "natural", *OUTER}
MOST_RELATIONS = 10
LIMIT_OF_PARAMETER = 10


@dataclass
class Query:
    """A SELECT. `dropped` says what is left out or planned in another way, `given` what stands for its parameters."""

    sql: str
    relations: list[Relation] = field(default_factory=list)
    conditions: list[Condition] = field(default_factory=list)
    shown: list[Ref] = field(default_factory=list)
    stars: list[Optional[Relation]] = field(default_factory=list)
    ordered: list[tuple[Ref, str]] = field(default_factory=list)
    window: str = ""
    is_grouped: bool = False
    dropped: list[str] = field(default_factory=list)
    given: list[str] = field(default_factory=list)

    def text(self, side: str = OURS, with_window: bool = True) -> str:
        """The query as pgplan or as the server reads it. Of a query that groups it is the input of the grouping."""
        name = (lambda relation: relation.ours) if side == OURS else (lambda relation: identifier(relation.alias))
        stars = ["*" if relation is None else f"{name(relation)}.*" for relation in self.stars]
        listed = dict.fromkeys([*stars, *(ref.text(side) for ref in self.shown)])
        conditions = [condition.text(side) for condition in self.conditions]
        order = [ref.text(side) + suffix for ref, suffix in self.ordered]
        return (f"SELECT {', '.join(listed)} FROM {', '.join(self._from(relation, side) for relation in self.relations)}"
                + (f" WHERE {' AND '.join(conditions)}" if conditions else "")
                + (f" ORDER BY {', '.join(order)}" if order else "") + (self.window if with_window else ""))

    def _from(self, relation: Relation, side: str) -> str:
        """A relation in FROM."""
        if side == OURS:
            return relation.table.name + ("" if relation.ours == relation.table.name else f" {relation.ours}")
        return f"{identifier(relation.table.schema)}.{identifier(relation.table.name)} {identifier(relation.alias)}"

    def used(self) -> set[Ref]:
        """The columns that the query names, also by stars."""
        found = {*self.shown, *(ref for condition in self.conditions for ref in columns_of(condition)), *(ref for ref, _ in self.ordered)}
        for star in self.stars:
            for relation in self.relations if star is None else [star]:
                found |= {Ref(relation, column) for column in relation.table.columns.values()}
        return found

    def tables(self) -> list[str]:
        """The names of its tables."""
        return list(dict.fromkeys(relation.table.name for relation in self.relations))


def split_clauses(words: list[Word]) -> dict[str, list[Word]]:
    """The words behind each clause's first word."""
    found: dict[str, list[Word]] = {"select": []}
    now = "select"
    for at, (word, depth) in enumerate(zip(words, depths(words))):
        is_first = word.kind == "name" and word.value in CLAUSES and word.value not in found and words[at - 1].value != "distinct"
        if depth == 0 and word.kind == "name" and word.value in SETS:
            raise Left(word.value.upper())
        if depth == 0 and is_first and (now != "select" or word.value == "from"):
            now = word.value
            found[now] = []
        else:
            found[now].append(word)
    return found


class SelectReader:
    """Reads one SELECT clause by clause."""

    def __init__(self, sql: str, schema: Schema) -> None:
        self.text, self.schema = sql, schema
        self.query = Query(sql)
        self.constants = Constants(schema.server)
        words = words_of(sql)
        if words and words[0].value == "explain":
            words = words[1:]
        if not words or words[0].value != "select" or words[0].kind != "name":
            raise Left(f"no SELECT but {spelt(sql, words)[:20]!r}")
        self.clauses = split_clauses(words[1:])
        self.aliases: dict[str, list[Word]] = {}
        self.scope = Scope(schema, self.query.relations)

    def read(self) -> Query:
        """The query."""
        query = self.query
        self._from()
        self._conditions(self.clauses.get("where", []))
        self._list()
        for word in ("having", "window"):
            if word in self.clauses:
                query.dropped.append(f"left out: {word.upper()} {spelt(self.text, self.clauses[word])}")
        if query.is_grouped:
            query.dropped.append("of the grouping its input alone is planned")
        else:
            self._order()
            self._window()
        if not query.shown and not query.stars:
            used = [ref for condition in query.conditions for ref in columns_of(condition)]
            first = query.relations[0]
            query.shown = used[:1] or [Ref(first, next(iter(first.table.columns.values())))]
        query.given = list(dict.fromkeys([*self.constants.given, *query.given]))
        return query

    def _from(self) -> None:
        """FROM with its joins."""
        if not self.clauses.get("from"):
            raise Left("no FROM")
        for group in pieces(self.clauses["from"], ","):
            cursor = Cursor(self.text, group)
            self._relation(cursor)
            while not cursor.is_done():
                self._join(cursor)

    def _relation(self, cursor: Cursor) -> None:
        """A table with its alias."""
        if cursor.is_at("("):
            raise Left("a subquery or parentheses in FROM")
        cursor.take("only")
        name, schema = cursor.name(), None
        if cursor.take("."):
            schema, name = name, cursor.name()
        if cursor.is_at("("):
            raise Left("a function in FROM")
        alias = name
        word = cursor.peek()
        if cursor.take("as") or word.kind == "quoted" or word.kind == "name" and word.value not in {*JOINS, "on", "using", "tablesample"}:
            alias = cursor.name()
        if any(relation.alias == alias for relation in self.query.relations):
            raise Left(f"two relations are named {alias}")
        if len(self.query.relations) == MOST_RELATIONS:
            raise Left(f"more than {MOST_RELATIONS} relations")
        is_plain = PLAIN.fullmatch(alias) and alias not in RESERVED and alias not in JOINS
        ours = alias if is_plain else f"r{len(self.query.relations)}"
        self.query.relations.append(Relation(alias, self.schema.table(schema, name), ours))

    def _join(self, cursor: Cursor) -> None:
        """A joined relation with its condition."""
        outer = next((word for word in OUTER if cursor.take(word)), None)
        if outer:
            cursor.take("outer")
            self.query.dropped.append(f"{outer.upper()} JOIN is planned as an inner join")
        crosses = cursor.take("cross")
        if cursor.is_at("natural"):
            raise Left("NATURAL JOIN")
        cursor.take("inner")
        cursor.need("join")
        if cursor.take("lateral"):
            raise Left("LATERAL")
        self._relation(cursor)
        if crosses:
            return
        if cursor.take("using"):
            self._using(cursor)
            return
        cursor.need("on")
        begin = cursor.at
        rest = cursor.words[begin:]
        for at, (word, depth) in enumerate(zip(rest, depths(rest))):
            called = at + 1 < len(rest) and rest[at + 1].value == "("
            if depth == 0 and word.kind == "name" and word.value in JOINS and not called:
                break
            cursor.at += 1
        self._conditions(cursor.words[begin:cursor.at])

    def _using(self, cursor: Cursor) -> None:
        """The columns of USING as equalities with the last earlier relation that has them."""
        cursor.need("(")
        last = self.query.relations[-1]
        while True:
            name = cursor.name()
            before = [relation for relation in self.query.relations[:-1] if name in relation.table.columns]
            if not before or name not in last.table.columns:
                raise Left(f"no column {name} of both sides")
            sql = f"{identifier(before[-1].alias)}.{identifier(name)} = {identifier(last.alias)}.{identifier(name)}"
            self.query.conditions.append(read_condition(sql, words_of(sql), self.scope, self.constants))
            if not cursor.take(","):
                break
        cursor.need(")")

    def _conditions(self, words: list[Word]) -> None:
        """A condition, whose parts at the top are left out if pgplan does not have them."""
        for part in conjuncts(words) if words else []:
            try:
                found = read_condition(self.text, part, self.scope, self.constants)
                self.query.conditions += found.parts if isinstance(found, Joined) and found.word == "AND" else [found]
            except Subquery:
                raise
            except Left as fault:
                self.query.dropped.append(f"left out: {fault}")

    def _list(self) -> None:
        """The columns of the select list and of GROUP BY."""
        words, query = self.clauses["select"], self.query
        if any(word.kind == "name" and word.value == "select" for word in words):
            raise Left("a subquery in the select list")
        is_distinct = bool(words) and words[0].kind == "name" and words[0].value == "distinct"
        words = words[1:] if is_distinct else words
        calls = any(word.kind == "name" and word.value in AGGREGATES and after.value == "(" for word, after in zip(words, words[1:]))
        query.is_grouped = is_distinct or calls or "group" in self.clauses
        if any(word.kind == "name" and word.value == "over" and is_sign(after, "(") for word, after in zip(words, words[1:])):
            query.dropped.append("of window functions the columns alone are read")
        for item in pieces(words, ","):
            self._item(item)
        for item in pieces(self.clauses.get("group", [])[1:], ","):
            self._columns_in(self.aliases.get(item[0].value, item) if len(item) == 1 else item)

    def _item(self, item: list[Word]) -> None:
        """One item of the select list."""
        if len(item) == 1 and is_sign(item[0], "*"):
            self.query.stars.append(None)
        elif len(item) == 3 and is_sign(item[1], ".") and is_sign(item[2], "*"):
            found = [relation for relation in self.query.relations if relation.alias == item[0].value]
            if not found:
                raise Left(f"no relation {item[0].value}")
            self.query.stars.append(found[0])
        else:
            named = [at for at, word in enumerate(item) if word.kind == "name" and word.value == "as"]
            if named:
                self.aliases[item[-1].value] = item[:named[-1]]
                item = item[:named[-1]]
            self._columns_in(item)

    def _columns_in(self, words: list[Word]) -> None:
        """The columns that an expression names are shown."""
        found = [self.scope.find(qualifier, name) for qualifier, name in column_names(words)]
        self.query.shown += [ref for ref in found if ref]

    def _order(self) -> None:
        """ORDER BY of columns. Any other is left out whole."""
        keys = []
        for words in pieces(self.clauses.get("order", [])[1:], ",") if "order" in self.clauses else []:
            suffixes = [at for at, word in enumerate(words) if word.kind == "name" and word.value in ("asc", "desc", "nulls", "using")]
            cut = suffixes[0] if suffixes else len(words)
            said = " ".join(word.value for word in words[cut:])
            column = self.scope.column(self._unnamed(words[:cut]))
            if column is None or column.column.type.form == "none" or not column.column.type.is_ordered or said.startswith("using"):
                self.query.dropped.append(f"left out: ORDER BY {spelt(self.text, self.clauses['order'][1:])}")
                return
            keys.append((column, (" DESC" if "desc" in said.split() else "")
                         + (" NULLS " + said.split()[-1].upper() if "nulls" in said.split() else "")))
        self.query.ordered = keys

    def _unnamed(self, words: list[Word]) -> list[Word]:
        """A key of ORDER BY, with what it names in the select list in place of that name."""
        if len(words) == 1 and words[0].value in self.aliases:
            return self.aliases[words[0].value]
        return inside(words) or words

    def _window(self) -> None:
        """LIMIT and OFFSET with numbers, and FETCH FIRST, which means one row without a number."""
        parts = {"fetch": "1"} if "fetch" in self.clauses else {}
        for clause in ("limit", "offset", "fetch"):
            for word in self.clauses.get(clause, [])[:3]:
                if word.kind == "number" and word.value.isdigit():
                    parts[clause] = word.value
                elif word.kind == "parameter":
                    parts[clause] = str(LIMIT_OF_PARAMETER if clause != "offset" else 0)
                    self.query.given.append(f"{word.value} = {parts[clause]}")
        most = parts.get("limit") or parts.get("fetch")
        skipped = parts.get("offset", "0")
        self.query.window = (f" LIMIT {most}" if most else "") + (f" OFFSET {skipped}" if skipped != "0" else "")


def read_query(sql: str, schema: Schema) -> Query:
    """A SELECT of the server over the tables of a schema."""
    return SelectReader(sql.strip().rstrip(";"), schema).read()
