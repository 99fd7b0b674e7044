"""Values of dates, timestamps, numerics and uuids, and the texts that spell them, right and wrong.

A date, a timestamp and a timestamptz is a datetime here, that of UTC; a numeric the whole number that it is times ten to the power of its
scale; a uuid its text in small letters.
"""

from __future__ import annotations

from datetime import datetime, timedelta
from random import Random
from typing import Any

TIMES = ("date", "timestamp", "timestamptz")
# The digits and the scale of each numeric.
NUMERICS = {"numeric(10,2)": (10, 2), "numeric(6,2)": (6, 2), "numeric(4,0)": (4, 0), "numeric(18,9)": (18, 9), "numeric(3,3)": (3, 3)}
KINDS = (*TIMES, "uuid", *NUMERICS)
# How the types are written, each a list of words.
WRITTEN = {
    "date": ("date",), "uuid": ("uuid",),
    "timestamp": ("timestamp", "timestamp ( 6 )", "timestamp without time zone", "timestamp ( 6 ) without time zone"),
    "timestamptz": ("timestamptz", "timestamptz ( 6 )", "timestamp with time zone", "timestamp ( 6 ) with time zone"),
    **{kind: (f"numeric ( {p} , {s} )", f"decimal ( {p} , {s} )", *(["numeric ( %d )" % p] if s == 0 else [])) for kind, (p, s) in NUMERICS.items()},
}
# The words of typed literals that have a type's texts.
WORDS = {
    "int2": ("int2", "smallint"), "int4": ("int4", "int", "integer"), "int8": ("int8", "bigint"), "text": ("text", "varchar"),
    "bool": ("bool", "boolean"), "date": ("date",), "timestamp": ("timestamp",), "timestamptz": ("timestamptz",), "uuid": ("uuid",),
}
Value = datetime | int | str
NEAR = datetime(2024, 2, 27)
ENDS = (datetime.min, datetime.max, datetime(2000, 1, 1), datetime(1999, 12, 31, 23, 59, 59, 999_999), datetime(1900, 2, 28), datetime(2000, 2, 29))
UUIDS = ("00000000-0000-4000-8000-000000000001", "00000000-0000-4000-8000-00000000000a", "a0eebc99-9c0b-4ef8-bb6d-6bb9bd380a11")
DAY = 86_400 * 10**6

# Texts that are no value, by the kind of a type: of another form, and out of range.
NO_FORM = {
    "date": ["", "x", "2024-2-9", "20240229", "29-Feb-2024", "02/29/2024", "J2460370", "0044-03-15 BC", "12024-01-01", "infinity", "today",
             "2024-02-29 13:05", "2024-13-1", "2024-02", "+2024-02-29", "2024-02-29x", "2024 02 29", "8825"],
    "timestamp": ["", "2024-02-29 1:05", "2024-02-29  13:05", "2024-02-29t13:05", "2024-02-29 13:05+02", "2024-02-29 13:05Z", "2024-02-29 13:05:06.",
                  "2024-02-29 13:05:06.1234567", "2024-02-29 13:05.5", "2024-02-29 01:05 PM", "2024-02-29 13", "2024-02-29 130506", "now", "-infinity"],
    "timestamptz": ["", "2024-02-29+02", "2024-02-29Z", "2024-02-29 13:05+2", "2024-02-29 13:05+0200", "2024-02-29 13:05 +02", "2024-02-29 13:05z",
                    "2024-02-29 13:05+02:00:30", "2024-02-29 13:05 UTC", "2024-02-29 13:05 Europe/Berlin", "2024-02-29 13:05+", "2024-02-29T+02"],
    "uuid": ["", "x", "00000000000040008000000000000000", "{00000000-0000-4000-8000-000000000000}", " 00000000-0000-4000-8000-000000000000",
             "00000000-0000-4000-8000-00000000000", "00000000-0000-4000-8000-00000000000g", "0000000-00000-4000-8000-000000000000"],
    "numeric": ["", ".5", "5.", "1e3", "NaN", "- 5", "1,5", "--1", "0x10", "1_000", "+", ".", "Infinity", "1 2"],
}
NO_RANGE = {
    "date": ["2023-02-29", "1900-02-29", "2024-00-10", "2024-13-01", "2024-04-31", "2024-01-00", "0000-01-01", "9999-99-99"],
    "timestamp": ["2023-02-29 13:05", "2024-02-29 24:00", "2024-02-29 23:60", "2024-02-29 23:59:60", "0000-12-31 23:59", "2024-02-30T99:99:99.9"],
    "timestamptz": ["0001-01-01 00:00+00:01", "0001-01-01 00:00+15:59", "9999-12-31 23:59:59-00:01", "2024-02-29 13:05+16", "2024-02-29 13:05-02:60",
                    "2024-02-29 24:00Z"],
    "uuid": ["x"],
    "numeric": ["0.1234567891", "12345678901234567890", "-1000000000000000000", "9" * 50, "0." + "0" * 30 + "1"],
}


def family_of(kind: str) -> str:
    """The kind of wrong texts of a type."""
    return "numeric" if kind in NUMERICS else kind


def some_value(rng: Random, kind: str) -> Value:
    """A value of a type, often one of a few."""
    if kind == "uuid":
        return rng.choice(UUIDS) if rng.random() < 0.6 else some_uuid(rng)
    if kind in NUMERICS:
        digits, scale = NUMERICS[kind]
        most, step = 10**digits - 1, 10**scale if digits > scale else 100
        return rng.choice([rng.randint(-3, 9) * step, rng.randint(-most, most), rng.randint(-999, 999), most, -most, 0])
    return some_time(rng, kind)


def some_uuid(rng: Random) -> str:
    """Any uuid."""
    digits = f"{rng.getrandbits(128):032x}"
    return "-".join((digits[:8], digits[8:12], digits[12:16], digits[16:20], digits[20:]))


def some_time(rng: Random, kind: str) -> datetime:
    """A day near the same few, at an end of the range or anywhere, and of a timestamp a time of day."""
    chance = rng.random()
    if 0.6 < chance < 0.75:
        day = rng.choice(ENDS)
    else:
        day = NEAR + timedelta(days=rng.randrange(6) if chance < 0.6 else rng.randint(-738_000, 2_900_000))
    clock = rng.choice([0, 0, 13 * 3600 * 10**6, 47_106_500_000, 47_106_000_001, DAY - 1, rng.randrange(DAY), rng.randrange(86_400) * 10**6])
    midnight = datetime(day.year, day.month, day.day)
    if kind == "date":
        return midnight
    return day if day in ENDS else midnight + timedelta(microseconds=clock)


def spelt(rng: Random, kind: str, value: Value) -> str:
    """A text that spells a value, in any of the forms that do."""
    if kind == "uuid":
        return "".join(rng.choice((c, c.upper())) for c in str(value)) if rng.random() < 0.3 else str(value)
    text = _number(rng, kind, value) if kind in NUMERICS else _time(rng, kind, value)
    return rng.choice([" ", "\t", ""]) + text + rng.choice([" ", "\f", ""]) if rng.random() < 0.1 else text


def _number(rng: Random, kind: str, value: Any) -> str:
    """A text of a numeric."""
    scale = NUMERICS[kind][1]
    digits = str(abs(value)).zfill(scale + 1)
    whole, part = digits[:len(digits) - scale], digits[len(digits) - scale:]
    part = rng.choice([part, part.rstrip("0"), part + "0" * rng.randrange(3)])
    sign = "-" if value < 0 else rng.choice(["", "", "", "+", "-" if value == 0 else ""])
    return sign + rng.choice(["", "", "", "0", "000"]) + whole + (f".{part}" if part else "")


def _time(rng: Random, kind: str, value: Any) -> str:
    """A text of a date, a timestamp or a timestamptz."""
    offset, behind = 0, ""
    if kind == "timestamptz" and rng.random() < 0.6:
        offset, behind = _offset(rng)
    try:
        value += timedelta(minutes=offset)
    except OverflowError:
        behind = ""
    day = f"{value.year:04}-{value.month:02}-{value.day:02}"
    clock = (value.hour, value.minute, value.second, value.microsecond)
    if kind == "date" or not any(clock) and not behind and rng.random() < 0.6:
        return day
    text = f"{day}{rng.choice(' T')}{value.hour:02}:{value.minute:02}"
    if any(clock[2:]) or rng.random() < 0.6:
        text += f":{value.second:02}"
        fraction = f"{value.microsecond:06}"
        if value.microsecond or rng.random() < 0.2:
            text += "." + (fraction if rng.random() < 0.5 else fraction.rstrip("0") or "0")
    return text + behind


def _offset(rng: Random) -> tuple[int, str]:
    """An offset in minutes, and its text."""
    sign, hours, minutes = rng.choice("+-"), rng.choice([0, 1, 2, 5, 12, 15]), rng.choice([0, 0, 30, 45, 59])
    if rng.random() < 0.2:
        return 0, rng.choice(["Z", "+00", "-00:00"])
    text = f"{sign}{hours:02}" + (f":{minutes:02}" if minutes or rng.random() < 0.5 else "")
    return (1 if sign == "+" else -1) * (60 * hours + minutes), text


def right(rng: Random, kind: str) -> str:
    """A text of a value of a type."""
    return spelt(rng, kind, some_value(rng, kind))


def wrong(rng: Random, kind: str) -> str:
    """A text that is no value of a type, by its form or its range."""
    return rng.choice((NO_FORM if rng.random() < 0.6 else NO_RANGE)[family_of(kind)])


def rising(rng: Random, kind: str, count: int) -> list[str]:
    """Texts of different values of a type, in rising order."""
    values: set[Any] = {some_value(rng, kind) for _ in range(count)}
    return [spelt(rng, kind, value) for value in sorted(values)]


def whole(rng: Random, kind: str) -> int:
    """A whole number that a numeric has."""
    digits, scale = NUMERICS[kind]
    most = 10 ** (digits - scale) - 1
    return rng.choice([0, most, -most, rng.randint(-most, most), min(most, 3), min(most, 1)])
