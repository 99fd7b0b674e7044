"""Types, values, operators between values, and the texts of values (docs/GRAMMAR.md, Types, COPY and Conditions).

A value is None for NULL, an int, bytes or a bool. The type of a column tells which of them its values are and how they are printed.
"""

from __future__ import annotations

from typing import Callable, NamedTuple

from .civil import BadText, date_text, numeric_text, read_numeric, read_time, read_uuid, timestamp_text
from .pg_base import INVALID_INPUT, OUT_OF_RANGE

Value = int | bytes | bool | None


class Numeric(NamedTuple):
    """The type of numbers of so many decimal digits, of which so many, the scale, stand behind the point."""

    digits: int
    scale: int


# A type: its name, or a numeric with its sizes.
SqlType = str | Numeric

# The words of a type that stands by itself: those of a column's type and of a typed literal.
TYPE_WORDS = {
    "int2": "int2", "smallint": "int2", "int4": "int4", "int": "int4", "integer": "int4", "int8": "int8", "bigint": "int8",
    "text": "text", "varchar": "text", "bool": "bool", "boolean": "bool", "uuid": "uuid", "date": "date",
    "timestamp": "timestamp", "timestamptz": "timestamptz",
}
NUMERIC_WORDS = ("numeric", "decimal")
# The types of days and times.
TIMES = ("date", "timestamp", "timestamptz")
# The bits of a whole number without its sign.
WIDTHS = {"int2": 15, "int4": 31, "int8": 63}
COMMUTATOR = {
    "<": ">", "<=": ">=", "=": "=", ">=": "<=", ">": "<", "<>": "<>",
    "|<|": "|>|", "|<=|": "|>=|", "|=|": "|=|", "|>=|": "|<=|", "|>|": "|<|",
}
NEGATOR = {
    "<": ">=", "<=": ">", "=": "<>", ">=": "<", ">": "<=", "<>": "=", "|<|": "|>=|", "|<=|": "|>|", "|>=|": "|<|", "|>|": "|<=|",
}
PLAIN_OPERATORS = ("<", "<=", "=", ">=", ">")
SIZE_OPERATORS = ("|<|", "|<=|", "|=|", "|>=|", "|>|")
WHITE = b" \t\n\r\f"

_PLAIN_TESTS: dict[str, Callable] = {
    "<": lambda a, b: a < b, "<=": lambda a, b: a <= b, "=": lambda a, b: a == b, ">=": lambda a, b: a >= b, ">": lambda a, b: a > b,
    "<>": lambda a, b: a != b,
}


def _by_size(test: Callable) -> Callable:
    """A comparison of absolute values."""
    return lambda a, b: test(abs(a), abs(b))


# The test of each operator between two values that are not NULL.
TESTS = {**_PLAIN_TESTS, **{op: _by_size(_PLAIN_TESTS[op.strip("|")]) for op in SIZE_OPERATORS}}


def kind_of(sql_type: SqlType) -> str:
    """The kind of a type, within which values are compared: int, the type's own, or of a numeric that of its scale."""
    if isinstance(sql_type, Numeric):
        return "numeric of scale %d" % sql_type.scale
    return "int" if sql_type in WIDTHS else sql_type


def operator_exists(op: str, left: SqlType, right: SqlType) -> bool:
    """Whether there is the operator between two types."""
    kind = kind_of(left)
    return kind == kind_of(right) and (op not in SIZE_OPERATORS or kind == "int")


def truth(op: str, a: Value, b: Value) -> bool | None:
    """The truth of a comparison, None for unknown."""
    return None if a is None or b is None else TESTS[op](a, b)


def _prefixes(*words: bytes) -> list[bytes]:
    """The prefixes of the words that tell what they begin."""
    return [w[:n] for w in words for n in range(1, len(w) + 1) if w[:n] != b"o"]


BOOLS = {
    **dict.fromkeys(_prefixes(b"true", b"yes", b"on"), True), b"1": True,
    **dict.fromkeys(_prefixes(b"false", b"no", b"off"), False), b"0": False,
}


def in_range(sql_type: str, number: int) -> bool:
    """Whether a type of whole numbers has this one."""
    return -(1 << WIDTHS[sql_type]) <= number < 1 << WIDTHS[sql_type]


def whole_value(sql_type: SqlType, number: int) -> int | None:
    """A whole number as a value of an integer type or a numeric, None where the type does not have it."""
    if not isinstance(sql_type, Numeric):
        return number if in_range(sql_type, number) else None
    value = number * 10 ** sql_type.scale
    return value if abs(value) < 10 ** sql_type.digits else None


def number_of(digits: str | bytes) -> int:
    """The number of a run of digits. One of more than 40 that matter is read as some number past every type."""
    text = digits.decode() if isinstance(digits, bytes) else digits
    text = text.lstrip("0")
    if len(text) > 40:
        return 10 ** 40
    return int(text or "0")


def read_value(sql_type: SqlType, text: bytes) -> Value:
    """A text read as a value, by the rules of COPY data but for `\\N`."""
    if sql_type == "text":
        return text
    if sql_type == "uuid":
        return read_uuid(text)
    word = text.strip(WHITE)
    if isinstance(sql_type, Numeric):
        return read_numeric(sql_type.digits, sql_type.scale, word)
    return read_time(sql_type, word) if sql_type in TIMES else _read_word(sql_type, word)


def _read_word(sql_type: str, word: bytes) -> int | bool:
    """A word read as a whole number or a bool."""
    if sql_type == "bool":
        if word.lower() not in BOOLS:
            raise BadText(INVALID_INPUT)
        return BOOLS[word.lower()]
    digits = word[1:] if word[:1] in (b"+", b"-") else word
    if not digits or any(c not in b"0123456789" for c in digits):
        raise BadText(INVALID_INPUT)
    number = -number_of(digits) if word[:1] == b"-" else number_of(digits)
    if not in_range(sql_type, number):
        raise BadText(OUT_OF_RANGE)
    return number


def shown(sql_type: SqlType, value: Value) -> bytes:
    """The bytes of a value of a type in a printed row."""
    if value is None:
        return b"\\N"
    if isinstance(value, bytes):
        return value
    if sql_type == "bool":
        return b"t" if value else b"f"
    if isinstance(sql_type, Numeric):
        return numeric_text(sql_type.scale, value)
    if sql_type == "date":
        return date_text(value)
    if sql_type in TIMES:
        return timestamp_text(value) + (b"+00" if sql_type == "timestamptz" else b"")
    return b"%d" % value
