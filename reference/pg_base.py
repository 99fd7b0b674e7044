"""Faults of statements with their lines, and sets of relations.

A set of relations is a whole number with a bit for each; the first relation of FROM is the lowest.
"""

from __future__ import annotations

SYNTAX = "42601"
NO_TABLE = "42P01"
NO_COLUMN = "42703"
AMBIGUOUS = "42702"
DUPLICATE_NAME = "42P07"
DUPLICATE_COLUMN = "42701"
DUPLICATE_ALIAS = "42712"
UNKNOWN = "42704"
NO_OPERATOR = "42883"
WRONG_TYPE = "42804"
OUT_OF_RANGE = "22003"
INVALID_INPUT = "22P02"
COPY_DATA = "22P04"
NULL_VALUE = "23502"
LIMIT = "54000"
NO_PLAN = "54001"
INVALID_PARAMETER = "22023"
UNGROUPED = "42803"

# What the line of a fault says; %s is the name, the operator or the limit in error.
TEXTS = {
    SYNTAX: "syntax error", NO_TABLE: "no table %s", NO_COLUMN: "no column %s", AMBIGUOUS: "ambiguous column %s",
    DUPLICATE_NAME: "duplicate name %s", DUPLICATE_COLUMN: "duplicate column %s", DUPLICATE_ALIAS: "duplicate alias %s",
    UNKNOWN: "unknown %s", NO_OPERATOR: "no operator %s", WRONG_TYPE: "wrong type", OUT_OF_RANGE: "out of range",
    INVALID_INPUT: "invalid input", COPY_DATA: "no end of copy data", NULL_VALUE: "null", LIMIT: "limit %s",
    NO_PLAN: "no admissible plan", INVALID_PARAMETER: "invalid parameter", UNGROUPED: "ungrouped column %s",
}


class Fault(Exception):
    """The first fault of a statement: its SQLSTATE, the byte offset in the script, and the word that its line names.

    A fault of COPY data stands at the first byte of the data, with the number of the record and, where one field is at
    fault, the name of its column.
    """

    def __init__(self, code: str, at: int, value: str = "", record: int = 0, column: str | None = None) -> None:
        super().__init__(code, at, value, record, column)
        self.code, self.at, self.value, self.record, self.column = code, at, value, record, column

    def line(self) -> str:
        """The error line, ended by LF."""
        if self.code == COPY_DATA and self.record:
            said = "field count, record %d" % self.record
        else:
            said = TEXTS[self.code]
            if "%s" in said:
                said = said % self.value
            if self.record:
                said += ", record %d" % self.record
            if self.record and self.column is not None:
                said += " column %s" % self.column
        return "ERROR %s at %d: %s\n" % (self.code, self.at, said)


def bits(s: int) -> list[int]:
    """The relations of a set, rising."""
    return [r for r in range(s.bit_length()) if s >> r & 1]


def size(s: int) -> int:
    """How many relations a set has."""
    return bin(s).count("1")


def first(s: int) -> int:
    """The lowest relation of a set that is not empty."""
    return (s & -s).bit_length() - 1


def subsets(s: int) -> list[int]:
    """Every subset of a set, the set itself first and the empty one last."""
    out, part = [s], s
    while part:
        part = (part - 1) & s
        out.append(part)
    return out
