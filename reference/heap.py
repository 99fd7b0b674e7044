"""The rows of COPY data: where they end, their records as the crate csv reads them with its defaults, and their values."""

from __future__ import annotations

from .catalog import ColumnDef, Table
from .civil import BadText
from .pg_base import COPY_DATA, LIMIT, NULL_VALUE, Fault
from .pg_value import Value, read_value

MOST_ROWS = 100_000
MOST_TEXT = 8192
BYTE_ORDER_MARK = b"\xef\xbb\xbf"
COMMA, QUOTE, CR, LF = b',"\r\n'


def lines_of(text: bytes, start: int) -> tuple[bytes, int]:
    """The lines from a place up to one that is exactly `\\.`, and the place behind that one."""
    at = start
    while at < len(text):
        end = text.find(b"\n", at)
        line = text[at:] if end < 0 else text[at:end]
        behind = len(text) if end < 0 else end + 1
        if line == b"\\." or end >= 0 and line == b"\\.\r":
            return text[start:at], behind
        at = behind
    raise Fault(COPY_DATA, start)


class Records:
    """Reads bytes into records, byte by byte."""

    def __init__(self) -> None:
        self.records: list[list[bytes]] = []
        self.fields: list[bytes] = []
        self.field = bytearray()
        self.state = "record begins"

    def end_field(self) -> None:
        """Ends a field."""
        self.fields.append(bytes(self.field))
        self.field = bytearray()

    def end_record(self) -> None:
        """Ends a field and its record."""
        self.end_field()
        self.records.append(self.fields)
        self.fields = []

    def take(self, c: int) -> None:
        """Takes a byte. Only an LF at once behind a CR, and line ends before a record, are passed over."""
        if self.state == "behind CR" and c == LF:
            self.state = "record begins"
        elif self.state in ("record begins", "behind CR") and c in (CR, LF):
            self.state = "record begins"
        elif self.state == "in quotes":
            self.quoted(c)
        elif self.state == "behind quote" and c == QUOTE:
            self.field.append(c)
            self.state = "in quotes"
        elif self.state in ("record begins", "behind CR", "field begins") and c == QUOTE:
            self.state = "in quotes"
        else:
            self.plain(c)

    def quoted(self, c: int) -> None:
        """Takes a byte inside quotes."""
        if c == QUOTE:
            self.state = "behind quote"
        else:
            self.field.append(c)

    def plain(self, c: int) -> None:
        """Takes a byte outside quotes."""
        if c == COMMA:
            self.end_field()
            self.state = "field begins"
        elif c in (CR, LF):
            self.end_record()
            self.state = "behind CR" if c == CR else "record begins"
        else:
            self.field.append(c)
            self.state = "in field"


def read_records(block: bytes) -> list[list[bytes]]:
    """The records of a block, each a list of fields."""
    if block.startswith(BYTE_ORDER_MARK):
        block = block[3:]
    if b'"' not in block:
        return [line.split(b",") for line in block.replace(b"\r", b"\n").split(b"\n") if line]
    reader = Records()
    for c in block:
        reader.take(c)
    if reader.state not in ("record begins", "behind CR"):
        reader.end_record()
    return reader.records


def load(table: Table, block: bytes, at: int) -> list[tuple[Value, ...]]:
    """The rows of a block for a table, or the first fault of its data."""
    rows = []
    for number, fields in enumerate(read_records(block), 1):
        if len(table.rows) + number > MOST_ROWS:
            raise Fault(LIMIT, at, "rows", number)
        if len(fields) != len(table.columns):
            raise Fault(COPY_DATA, at, "", number)
        rows.append(tuple(_value(field, column, at, number) for field, column in zip(fields, table.columns)))
    return rows


def _value(field: bytes, column: ColumnDef, at: int, number: int) -> Value:
    """The value of a field."""
    name, typed, not_null = column
    if field == b"\\N":
        if not_null:
            raise Fault(NULL_VALUE, at, "", number, name)
        return None
    try:
        value = read_value(typed, field)
    except BadText as e:
        raise Fault(e.args[0], at, "", number, name) from None
    if typed == "text" and len(field) > MOST_TEXT:
        raise Fault(LIMIT, at, "text", number, name)
    return value
