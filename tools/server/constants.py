"""Constants of queries as literals. The server evaluates what is more than a literal, by functions and types of pg_catalog alone."""
from __future__ import annotations

import re

from .conditions import Literal, Ref
from .psql import Left, Server, quoted
from .types import UUID, Type
from .words import Word, inside, spelt

# Words that may stand in a constant that the server evaluates: none of them runs code of a user.
SAFE = set("""array at bigint bool boolean bpchar cast char character cidr current_date current_timestamp date date_trunc day days
decimal double float4 float8 hour hours inet int int2 int4 int8 integer interval localtimestamp lower make_date minute minutes month months now
null numeric precision real second seconds smallint text time timestamp timestamptz upper utc uuid varchar varying week weeks with without
year years zone as true false""".split())
# Texts of some types whose value needs no server.
PLAIN = {"date": re.compile(r"\d{4}-\d\d-\d\d"), "time": re.compile(r"\d{4}-\d\d-\d\d( \d\d:\d\d(:\d\d)?)?"),
         "zoned": re.compile(r"\d{4}-\d\d-\d\d( \d\d:\d\d(:\d\d)?([+-]\d\d)?)?"), "text": re.compile(r".*", re.S),
         "enum": re.compile(r".*", re.S), "int": re.compile(r"-?\d+"), "scaled": re.compile(r"-?\d+(\.\d+)?")}
SIGNS = {"(", ")", ",", "::", "+", "-", "*", "/", "||", ".", "[", "]"}
PARAMETER = re.compile(r"\$(\d+)")


def is_parameter(words: list[Word]) -> bool:
    """Whether the value of a constant depends on a parameter."""
    return any(word.kind == "parameter" for word in words)


def uncast(words: list[Word], of: Type) -> list[Word]:
    """A constant without the parentheses around it, and a quoted one without a cast that changes nothing beside a column of this type."""
    while len(words) > 1 and (inner := inside(words)):
        words = inner
    if len(words) < 2 or words[0].kind != "text" or words[1].value != "::":
        return words
    cast, own = "".join(word.value for word in words[2:]), re.sub(r"\(.*?\)| ", "", of.theirs)
    changes_nothing = of.form == "enum" or cast in ("text", "varchar", "bpchar") or cast == own != "character"
    return words[:1] if changes_nothing else words


def as_sql(words: list[Word]) -> str:
    """A constant written anew for the server."""
    parts = []
    for word in words:
        if word.kind == "text":
            parts.append(quoted(word.value))
        elif word.kind == "number" or word.kind == "sign" and word.value in SIGNS or word.kind == "name" and word.value in SAFE:
            parts.append(word.value)
        else:
            raise Left(f"{word.value} in a constant is not evaluated")
    return " ".join(parts)


class Constants:
    """Literals for constants beside columns. `given` says what stands for parameters."""

    def __init__(self, server: Server) -> None:
        self.server = server
        self.given: list[str] = []
        self._cache: dict[tuple[str, str], str] = {}

    def literal(self, column: Ref, words: list[Word], text: str) -> Literal:
        """A constant as a literal of a column's type."""
        of = column.column.type
        if of.form == "none":
            raise Left(f"the export has no values of type {of.theirs}")
        if len(words) == 1 and words[0].kind == "name" and words[0].value == "null":
            return Literal("NULL", "NULL")
        if is_parameter(words):
            return self._typical(column, words, text)
        value = self._value(of, words)
        ours = of.literal(value)
        if ours is None:
            raise Left(f"{value} is no value of {column.column.name} in pgplan")
        return Literal(ours, of.theirs_literal(ours))

    def values_of_array(self, column: Ref, word: Word) -> list[Literal]:
        """The elements of an array in quotes."""
        found = self.server.rows(f"SELECT unnest({quoted(word.value)}::text[]) AS value")
        return [self.literal(column, [Word("text", row["value"], 0, 0)], "") for row in found if row["value"] is not None]

    def _value(self, of: Type, words: list[Word]) -> str:
        """What the server would print for a constant of this type."""
        plain, form, theirs = uncast(words, of), of.form, of.theirs
        sign, digits = ("-", plain[1:]) if len(plain) == 2 and plain[0].value == "-" else ("", plain)
        if len(digits) == 1 and digits[0].kind == "number" and form in ("int", "scaled"):
            return sign + digits[0].value
        known = (UUID if of.is_spelt_variously else PLAIN.get(form)) if len(plain) == 1 and plain[0].kind == "text" else None
        if known and known.fullmatch(plain[0].value) and of.literal(plain[0].value):
            return plain[0].value
        if form == "enum":
            raise Left(f"no label of {theirs}")
        asked = as_sql(words)
        if (theirs, asked) not in self._cache:
            cast = "numeric" if form in ("int", "scaled") else theirs
            self._cache[theirs, asked] = self.server.text(f"SELECT ({asked})::{cast}").rstrip("\n")
        return self._cache[theirs, asked]

    def _typical(self, column: Ref, words: list[Word], text: str) -> Literal:
        """A literal in place of a parameter: from the middle of the histogram, or else one of the common values."""
        known = column.column.known
        values = (known.bounds or list(known.common)) if known else []
        if not values:
            raise Left(f"nothing is known of {column.column.name}, so there is no value for {spelt(text, words)}")
        number = next(int(found[1]) for found in (PARAMETER.fullmatch(word.value) for word in words if word.kind == "parameter") if found)
        ours = values[(len(values) // 2 + number) % len(values)]
        theirs = column.column.type.theirs_literal(ours)
        self.given.append(f"{spelt(text, words)} = {theirs}")
        return Literal(ours, theirs, True)
