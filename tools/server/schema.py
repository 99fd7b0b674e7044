"""A server's schema: the statements that tools/from_postgres.sql writes for each table, and what the catalogue says beside them."""
from __future__ import annotations

import re
from dataclasses import dataclass, field
from typing import Optional

from hints import RESERVED as RESERVED_WORDS
from statements import statements

from .psql import Left, Server, quoted
from .types import Type, type_of

RESERVED = set(RESERVED_WORDS.split())
PLAIN = re.compile(r"[a-z_][a-z0-9_$]*")
STAND_IN = re.compile(r"-- as text, without statistics: column (\S+)\.(\S+) of type ")
CREATE_TABLE = re.compile(r"CREATE TABLE (\S+) \((.*)\);", re.S)
CREATE_INDEX = re.compile(r"CREATE INDEX (\S+) ON (\S+)(?: USING (\w+))? \(([^)]*)\)(?: INCLUDE \(([^)]*)\))?(?: WHERE (.*))?;", re.S)
SIZE = re.compile(r"STATISTICS (\S+) ROWS (\d+) PAGES (\d+);")
KNOWN = re.compile(r"STATISTICS ([^\s.]+)\.(\S+) DISTINCT (\d+) NULLS (\d+)(?: COMMON \(((?:'[^']*'|[^')])*)\))?"
                   r"(?: HISTOGRAM \(((?:'[^']*'|[^')])*)\))?;", re.S)
VALUE = re.compile(r"('[^']*(?:''[^']*)*'|[^\s,']+)(?: (\d+))?(?:, |$)", re.S)
MOST_INDEXES = 8


@dataclass(frozen=True)
class Known:
    """What the server's ANALYZE found of a column: shares are parts of one, values are literals of pgplan."""

    distinct: int
    nulls: float
    common: dict[str, float]
    bounds: list[str]

    def share(self, literal: Optional[str]) -> float:
        """The share of the rows that an equality with a value, or with an unknown one, leaves."""
        if literal in self.common:
            return self.common[literal]
        rest = max(0.0, 1 - self.nulls - sum(self.common.values()))
        return rest / max(1, self.distinct - len(self.common))


@dataclass(frozen=True)
class Column:
    """A column that the export keeps."""

    name: str
    type: Type
    place: int
    known: Optional[Known] = None
    width: int = 8


@dataclass(frozen=True)
class Index:
    """An index that the export keeps. `keys` have their suffixes; a constraint needs the index if `is_required`."""

    name: str
    statement: str
    keys: tuple[str, ...]
    include: tuple[str, ...]
    condition: Optional[str]
    pages: int = 0
    is_required: bool = False


@dataclass
class Table:
    """A table that the export keeps, with its statements."""

    schema: str
    name: str
    create: str
    columns: dict[str, Column] = field(default_factory=dict)
    indexes: list[Index] = field(default_factory=list)
    facts: list[str] = field(default_factory=list)
    rows: int = 1

    def __hash__(self) -> int:
        return hash((self.schema, self.name))

    def script(self, without: str = "") -> str:
        """Its statements, without one index if that is asked."""
        indexes = [index.statement for index in self.indexes if index.name != without]
        return "\n".join([self.create, *indexes, *self.facts]) + "\n"

    def room(self) -> int:
        """How many indexes more it may have."""
        return MOST_INDEXES - len(self.indexes)


COLUMNS = """SELECT c.relname AS tab, a.attname AS name, a.attnum AS place,
    CASE WHEN t.typnamespace = 'pg_catalog'::regnamespace THEN t.typname ELSE '' END AS typ,
    format_type(a.atttypid, a.atttypmod) AS written,
    (SELECT coalesce(json_agg(e.enumlabel ORDER BY e.enumsortorder), '[]') FROM pg_enum e WHERE e.enumtypid = t.oid) AS labels,
    coalesce(s.avg_width, 8) AS width, json_build_array(n.nspname, c.relname, a.attname) AS names,
    json_build_array(quote_ident(n.nspname), quote_ident(c.relname), quote_ident(a.attname)) AS quoted
    FROM pg_attribute a JOIN pg_class c ON c.oid = a.attrelid JOIN pg_namespace n ON n.oid = c.relnamespace
    JOIN pg_type t ON t.oid = a.atttypid
    LEFT JOIN pg_stats s ON s.schemaname = n.nspname AND s.tablename = c.relname AND s.attname = a.attname AND NOT s.inherited
    WHERE n.nspname = %s AND c.relkind = 'r' AND a.attnum > 0 AND NOT a.attisdropped ORDER BY a.attnum"""
INDEXES = """SELECT c.relname AS name, c.relpages AS pages,
    i.indisunique OR i.indisexclusion OR EXISTS (SELECT FROM pg_constraint k WHERE k.conindid = i.indexrelid) AS required
    FROM pg_index i JOIN pg_class c ON c.oid = i.indexrelid JOIN pg_namespace n ON n.oid = c.relnamespace WHERE n.nspname = %s"""


def split(script: bytes) -> tuple[list[str], list[str]]:
    """The statements of an export, and the comments between them, without their dashes."""
    found, comments, end = [], [], 0
    parts = [(part.begin, part.end) for part in statements(script)]
    for begin, end in parts:
        lines = script[begin:end].decode(errors="surrogateescape").lstrip().split("\n")
        while lines[0].startswith("--"):
            comments.append(lines.pop(0))
        found.append("\n".join(lines))
    return found, comments + script[end:].decode(errors="surrogateescape").strip().splitlines()


def known_of(parts: re.Match) -> Known:
    """What a STATISTICS statement says of a column."""
    common = {value[1]: int(value[2]) / 1e6 for value in VALUE.finditer(parts[5] or "")}
    return Known(int(parts[3]), int(parts[4]) / 1e6, common, [value[1] for value in VALUE.finditer(parts[6] or "")])


class Schema:
    """The tables of one schema by name, and the comments of its export."""

    def __init__(self, server: Server) -> None:
        self.server = server
        self.tables: dict[str, Table] = {}
        found, self.comments = split(server.export())
        self._known: dict[tuple[str, str], Known] = {}
        self._indexes = {row["name"]: row for row in server.rows(INDEXES % quoted(server.schema))}
        self.index_names = set(self._indexes)
        for statement in found:
            self._take(statement)
        if not self.tables:
            raise Left(f"the schema {server.schema} has no table that can be exported")
        stand_ins = {(part[1], part[2]) for part in map(STAND_IN.match, self.comments) if part}
        self.left_out: dict[tuple[str, str], str] = {}
        self.identifiers: dict[str, str] = {}
        for row in server.rows(COLUMNS % quoted(server.schema)):
            self._add_column(row, (row["tab"], row["name"]) in stand_ins)

    def _take(self, statement: str) -> None:
        """One statement of the export."""
        if made := CREATE_TABLE.fullmatch(statement):
            self.tables[made[1]] = Table(self.server.schema, made[1], statement)
        elif made := CREATE_INDEX.fullmatch(statement):
            row = self._indexes.get(made[1], {"pages": 0, "required": False})
            keys, include = tuple(made[4].split(", ")), tuple(made[5].split(", ") if made[5] else ())
            self.tables[made[2]].indexes.append(Index(made[1], statement, keys, include, made[6], row["pages"], row["required"]))
        elif sizes := SIZE.fullmatch(statement):
            self.tables[sizes[1]].facts.append(statement)
            self.tables[sizes[1]].rows = int(sizes[2])
        elif known := KNOWN.fullmatch(statement):
            self.tables[known[1]].facts.append(statement)
            self._known[known[1], known[2]] = known_of(known)

    def _add_column(self, row: dict, is_stand_in: bool) -> None:
        """A column of the catalogue, with its type in the script."""
        table, name = self.tables.get(row["tab"]), row["name"]
        self.identifiers.update(zip(row["names"], row["quoted"]))
        kept = re.search(rf"[(,] ?{re.escape(name)} (\w+(?:\([\d,]+\))?)[ ,)]", table.create) if table and PLAIN.fullmatch(name) else None
        if table and kept:
            ours = None if is_stand_in else kept[1]
            of = type_of(row["typ"], row["written"], row["labels"], ours)
            table.columns[name] = Column(name, of, row["place"], self._known.get((table.name, name)), row["width"])
        else:
            self.left_out[row["tab"], name] = row["written"]

    def comments_on(self, table: str) -> list[str]:
        """The comments of the export on what a table, its columns and its indexes lost."""
        of = re.compile(rf"-- (left out: column|as text, without statistics: column) {table}\.|-- left out: index .* on {table} \("
                        rf"|-- no statistics: table {table} ")
        return [comment for comment in self.comments if of.match(comment)]

    def table(self, schema: Optional[str], name: str) -> Table:
        """The table that a query names."""
        if schema not in (None, self.server.schema):
            raise Left(f"{schema}.{name} is of another schema")
        if name not in self.tables:
            raise Left(f"the export has no table {name}")
        return self.tables[name]
