"""The texts of values, and the days of the calendar by counting them."""

from __future__ import annotations

import unittest
from random import Random

from reference.civil import FIRST, LAST
from reference.pg_value import Numeric, SqlType, read_value, shown

TURNS = 300
FIRST_DAY, LAST_DAY = -730_119, 2_921_939
LENGTHS = (31, 28, 31, 30, 31, 30, 31, 31, 30, 31, 30, 31)


class Texts(unittest.TestCase):
    """What a value prints, and what that text spells."""

    def assert_read_back(self, typed: SqlType, value: int) -> bytes:
        """A value is spelt by its own text."""
        text = shown(typed, value)
        self.assertEqual(read_value(typed, text), value, text)
        return text

    def test_read_back(self) -> None:
        """The ends of each type and random values come back, and different values print different texts."""
        rng = Random(1)
        ends: list[tuple[SqlType, int, int]] = [("date", FIRST_DAY, LAST_DAY), ("timestamp", FIRST, LAST), ("timestamptz", FIRST, LAST)]
        ends += [(Numeric(p, s), 1 - 10 ** p, 10 ** p - 1) for p in range(1, 19) for s in range(p + 1)]
        for typed, least, most in ends:
            values = {least, most, 0, *(rng.randint(least, most) for _ in range(TURNS)), *range(max(least, -9), min(most, 9) + 1)}
            self.assertEqual(len({self.assert_read_back(typed, value) for value in values}), len(values))

    def test_days(self) -> None:
        """The days count one after another through the months of all years."""
        number = FIRST_DAY
        for year in range(1, 10_000):
            is_leap = year % 4 == 0 and year % 100 != 0 or year % 400 == 0
            for month, length in enumerate(LENGTHS, 1):
                days = length + (month == 2 and is_leap)
                self.assertEqual(read_value("date", b"%04d-%02d-01" % (year, month)), number)
                self.assertEqual(shown("date", number + days - 1), b"%04d-%02d-%02d" % (year, month, days))
                number += days
        self.assertEqual(number, LAST_DAY + 1)


if __name__ == "__main__":
    unittest.main()
