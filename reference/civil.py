"""Dates, timestamps, numerics and uuids: what a text spells, and the text of a value (docs/GRAMMAR.md, Types).

A date is a number of days and a timestamp one of microseconds, each from 2000-01-01 on. A numeric of a scale is the number that it
stands for times ten to the power of the scale. A uuid is its text in small letters.
"""

from __future__ import annotations

import re
from datetime import date

from .pg_base import INVALID_INPUT, OUT_OF_RANGE

ORIGIN = date(2000, 1, 1).toordinal()
SECOND = 10 ** 6
MINUTE = 60 * SECOND
HOUR = 60 * MINUTE
DAY = 24 * HOUR
FIRST = (date.min.toordinal() - ORIGIN) * DAY
LAST = (date.max.toordinal() - ORIGIN + 1) * DAY - 1
LAST_OFFSET_HOUR = 15

DAY_FORM = rb"(?P<year>[0-9]{4})-(?P<month>[0-9]{2})-(?P<day>[0-9]{2})"
CLOCK_FORM = rb"(?P<hour>[0-9]{2}):(?P<minute>[0-9]{2})(?::(?P<second>[0-9]{2})(?:\.(?P<fraction>[0-9]{1,6}))?)?"
OFFSET_FORM = rb"(?:Z|(?P<sign>[+-])(?P<hours>[0-9]{2})(?::(?P<minutes>[0-9]{2}))?)"
FORMS = {
    "date": re.compile(DAY_FORM),
    "timestamp": re.compile(rb"%b(?:[ T]%b)?" % (DAY_FORM, CLOCK_FORM)),
    "timestamptz": re.compile(rb"%b(?:[ T]%b%b?)?" % (DAY_FORM, CLOCK_FORM, OFFSET_FORM)),
}
NUMERIC_FORM = re.compile(rb"(?P<sign>[+-]?)(?P<whole>[0-9]+)(?:\.(?P<part>[0-9]+))?")
UUID_FORM = re.compile(rb"[0-9a-f]{8}(?:-[0-9a-f]{4}){3}-[0-9a-f]{12}")


class BadText(Exception):
    """A text that is no value of a type; its one argument is the SQLSTATE."""


def _form(pattern: re.Pattern[bytes], text: bytes) -> re.Match[bytes]:
    """The parts of a text that has a form as a whole."""
    parts = pattern.fullmatch(text)
    if parts is None:
        raise BadText(INVALID_INPUT)
    return parts


def _part(parts: re.Match[bytes], name: str, most: int) -> int:
    """A part's number, which may be from 0 to the most. It is 0 where the part is left out."""
    number = int(parts[name] or 0)
    if number > most:
        raise BadText(OUT_OF_RANGE)
    return number


def _days(parts: re.Match[bytes]) -> int:
    """The number of the day that the parts name."""
    try:
        return date(*(int(parts[name]) for name in ("year", "month", "day"))).toordinal() - ORIGIN
    except ValueError:
        raise BadText(OUT_OF_RANGE) from None


def _clock(parts: re.Match[bytes]) -> int:
    """The microseconds of the day at the time that the parts name, midnight where they name none."""
    fraction = int((parts["fraction"] or b"").ljust(6, b"0"))
    return _part(parts, "hour", 23) * HOUR + _part(parts, "minute", 59) * MINUTE + _part(parts, "second", 59) * SECOND + fraction


def _offset(parts: re.Match[bytes]) -> int:
    """The microseconds by which the clock of the parts is ahead of that in UTC."""
    away = _part(parts, "hours", LAST_OFFSET_HOUR) * HOUR + _part(parts, "minutes", 59) * MINUTE
    return -away if parts["sign"] == b"-" else away


def read_time(sql_type: str, word: bytes) -> int:
    """The value of a date, a timestamp or a timestamptz that a word spells."""
    parts = _form(FORMS[sql_type], word)
    days = _days(parts)
    if sql_type == "date":
        return days
    instant = days * DAY + _clock(parts)
    if sql_type == "timestamptz":
        instant -= _offset(parts)
    if not FIRST <= instant <= LAST:
        raise BadText(OUT_OF_RANGE)
    return instant


def read_numeric(digits: int, scale: int, word: bytes) -> int:
    """The value of a numeric of so many digits and of a scale that a word spells."""
    parts = _form(NUMERIC_FORM, word)
    part = (parts["part"] or b"").rstrip(b"0")
    written = (parts["whole"] + part.ljust(scale, b"0")).lstrip(b"0")
    if len(part) > scale or len(written) > digits:
        raise BadText(OUT_OF_RANGE)
    number = int(written or b"0")
    return -number if parts["sign"] == b"-" else number


def read_uuid(text: bytes) -> bytes:
    """The uuid that a text spells."""
    small = text.lower()
    _form(UUID_FORM, small)
    return small


def date_text(days: int) -> bytes:
    """The text of a day."""
    return date.fromordinal(days + ORIGIN).isoformat().encode()


def timestamp_text(instant: int) -> bytes:
    """The text of a day and a time."""
    days, rest = divmod(instant, DAY)
    seconds, fraction = divmod(rest, SECOND)
    clock = b" %02d:%02d:%02d" % (seconds // 3600, seconds // 60 % 60, seconds % 60)
    return date_text(days) + clock + ((b".%06d" % fraction).rstrip(b"0") if fraction else b"")


def numeric_text(scale: int, number: int) -> bytes:
    """The text of a numeric of a scale."""
    digits = b"%0*d" % (scale + 1, abs(number))
    point = b"." if scale else b""
    return (b"-" if number < 0 else b"") + digits[:len(digits) - scale] + point + digits[len(digits) - scale:]
