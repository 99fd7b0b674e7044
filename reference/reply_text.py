"""Lines of rows as the crate csv writes them with its defaults, and of their number as psql gives it."""

from __future__ import annotations

from .pg_value import SqlType, Value, shown


def field_text(field: bytes) -> bytes:
    """A field, quoted where it has to be."""
    if any(c in field for c in b',"\r\n'):
        return b'"' + field.replace(b'"', b'""') + b'"'
    return field


def row_text(types: list[SqlType], values: list[Value]) -> bytes:
    """The line of a row with values of these types, ended by LF."""
    body = b",".join(field_text(shown(t, v)) for t, v in zip(types, values))
    return (b'""' if len(values) <= 1 and not body else body) + b"\n"


def count_text(n: int) -> bytes:
    """The line of the number of rows."""
    return b"(1 row)\n" if n == 1 else b"(%d rows)\n" % n


def rows_text(types: list[SqlType], rows: list[list[Value]]) -> bytes:
    """The lines of rows with values of these types, and of their number."""
    return b"".join(row_text(types, row) for row in rows) + count_text(len(rows))
