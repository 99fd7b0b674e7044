"""Values of a server's types as pgplan has them, and back.

A literal of a date, a timestamp, a numeric or a uuid is in quotes, as the server prints its value in UTC; an enum is the rank of its
label, and char and inet are texts. tools/from_postgres.sql writes its statistics in the same way.
"""
from __future__ import annotations

import datetime
import decimal
import re
from dataclasses import dataclass
from typing import Callable, Optional

from .psql import quoted

ZONE = re.compile(r"(.* .*\d)([+-])(\d\d)(?::(\d\d))?(?::(\d\d))?")
UUID = re.compile(r"[0-9a-f]{8}(-[0-9a-f]{4}){3}-[0-9a-f]{12}")
SIZES = re.compile(r"numeric\((\d+),(\d+)\)")
INTEGERS = {"int2": 15, "int4": 31, "int8": 63}
MOST_TEXT = 8192


@dataclass(frozen=True)
class Type:
    """A column's type. `form` is how pgplan has it: int, bool, text, uuid, date, time, zoned, scaled, enum, or none for a stand-in."""

    form: str
    ours: str
    theirs: str
    digits: int = 0
    scale: int = 0
    labels: tuple[str, ...] = ()
    is_padded: bool = False

    @property
    def is_spelt_variously(self) -> bool:
        """Whether different texts are the same value, so that only the server says which text pgplan has."""
        return self.theirs in ("uuid", "inet")

    @property
    def is_ordered(self) -> bool:
        """Whether pgplan sorts the values as the server does."""
        return self.theirs != "inet"

    def literal(self, text: str) -> Optional[str]:
        """A value that the server printed as a literal of pgplan, or None if pgplan has no such value."""
        try:
            return READERS[self.form](self, text) if self.form in READERS else None
        except (ValueError, ArithmeticError):
            return None

    def value(self, literal: str) -> str:
        """A literal of pgplan as the text that the server reads for this type."""
        if self.form == "enum":
            return self.labels[int(literal) - 1]
        return literal[1:-1].replace("''", "'") if literal.startswith("'") else literal

    def theirs_literal(self, literal: str) -> str:
        """A literal of pgplan as a literal of the server."""
        return quoted(self.value(literal)) if self.form == "enum" else literal


def whole_number(of: Type, text: str) -> Optional[str]:
    """A whole number within the range of the type."""
    number, bits = decimal.Decimal(text), INTEGERS[of.ours]
    return str(int(number)) if number == int(number) and -2 ** bits <= number < 2 ** bits else None


def scaled_number(of: Type, text: str) -> Optional[str]:
    """A number in quotes that has no more digits than the type, with those behind the point that the type has."""
    number = decimal.Decimal(text)
    scaled = number.scaleb(of.scale)
    fits = scaled == int(scaled) and abs(scaled) < 10 ** of.digits
    return quoted(f"{number:.{of.scale}f}") if fits else None


def boolean(_of: Type, text: str) -> Optional[str]:
    """A boolean as the server prints it, or as SQL has it."""
    return {"t": "TRUE", "f": "FALSE", "true": "TRUE", "false": "FALSE"}.get(text)


def quoted_text(of: Type, text: str) -> Optional[str]:
    """A text in quotes."""
    text = text.rstrip(" ") if of.is_padded else text
    return quoted(text) if len(text.encode(errors="surrogateescape")) <= MOST_TEXT else None


def uuid(_of: Type, text: str) -> Optional[str]:
    """A uuid as the server prints it."""
    return quoted(text) if UUID.fullmatch(text) else None


def day(_of: Type, text: str) -> str:
    """A date of the years 1 to 9999."""
    return quoted(datetime.date.fromisoformat(text).isoformat())


def time(of: Type, text: str) -> str:
    """A timestamp of these years. Without an offset it is one of UTC, and one of a type without a zone drops its offset."""
    zone = ZONE.fullmatch(text)
    plain = zone[1] if zone else text
    at = datetime.datetime.fromisoformat(re.sub(r"(\.\d+)$", lambda part: part[1].ljust(7, "0"), plain))
    if zone and of.form == "zoned":
        away = datetime.timedelta(hours=int(zone[3]), minutes=int(zone[4] or 0), seconds=int(zone[5] or 0))
        at -= away if zone[2] == "+" else -away
    printed = at.isoformat(" ")
    return quoted((printed.rstrip("0") if "." in printed else printed) + ("+00" if of.form == "zoned" else ""))


def rank(of: Type, text: str) -> str:
    """The rank of a label."""
    return str(of.labels.index(text) + 1)


READERS: dict[str, Callable[[Type, str], Optional[str]]] = {
    "int": whole_number, "scaled": scaled_number, "bool": boolean, "text": quoted_text, "uuid": uuid, "date": day, "time": time, "zoned": time,
    "enum": rank}
FORMS = {"int2": "int", "int4": "int", "int8": "int", "bool": "bool", "text": "text", "varchar": "text", "bpchar": "text", "uuid": "uuid",
         "inet": "text", "date": "date", "timestamp": "time", "timestamptz": "zoned", "numeric": "scaled"}


def type_of(name: str, written: str, labels: list[str], ours: Optional[str]) -> Type:
    """The type of a column: its name in pg_catalog, as it is written, the labels of an enum, and its type in the script.

    The script's type is None for a stand-in.
    """
    if ours is None:
        return Type("none", "text", written)
    if labels:
        return Type("enum", ours, written, labels=tuple(labels))
    sizes = SIZES.fullmatch(ours)
    digits, scale = (int(sizes[1]), int(sizes[2])) if sizes else (0, 0)
    return Type(FORMS.get(name, "none"), ours, written, digits, scale, (), name == "bpchar")


def comparable(one: Type, other: Type) -> bool:
    """Whether two columns may be compared in pgplan as on the server."""
    return one.form == other.form != "none" and (one.scale, one.labels) == (other.scale, other.labels)
