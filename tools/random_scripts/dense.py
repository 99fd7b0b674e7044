"""Tables of few values, so that conditions imply one another, indexes serve them, and joins find rows.

All conditions here are texts.
"""

from __future__ import annotations

from datetime import date, timedelta
from decimal import Decimal
from random import Random
from typing import Sequence

COLUMNS = [("a", "int4"), ("b", "int8"), ("c", "int4"), ("s", "text"), ("f", "bool"), ("d", "int2"), ("e", "date"), ("m", "numeric(6,2)"),
           ("w", "timestamptz"), ("u", "uuid")]
PLAIN = ["<", "<=", "=", ">=", ">", "<>"]
BY_SIZE = ["|<|", "|<=|", "|=|", "|>=|", "|>|"]
KINDS = {"int2": "int", "int4": "int", "int8": "int", "numeric(6,2)": "numeric"}
# Columns by their numbers.
Columns = Sequence[int]
# How literals of a kind are sorted.
ORDERS = {"int": int, "numeric": lambda value: Decimal(value.strip("'"))}
INTS = [n for n, (_, typed) in enumerate(COLUMNS) if KINDS.get(typed) == "int"]
ALL = range(len(COLUMNS))
FIRST_DAY = date(2024, 2, 27)


def kind_of(column: int) -> str:
    """The kind of a column."""
    typed = COLUMNS[column][1]
    return KINDS.get(typed, typed)


def in_order(values: list[str], kind: str) -> list[str]:
    """Literals of a kind in rising order. But for numbers their texts are in the order of their values."""
    return sorted(values, key=ORDERS.get(kind, str))


def value(rng: Random, kind: str, limit: int) -> str:
    """One of about so many values of a kind, as its own text: no other text here spells it."""
    number = rng.randrange(-limit, limit)
    if kind == "bool":
        return rng.choice("tf")
    if kind == "text":
        return rng.choice("abcdef") if limit < 99 else f"k{abs(number)}"
    if kind == "uuid":
        return f"00000000-0000-4000-8000-{abs(number):012x}"
    if kind == "numeric":
        return f"{'-' * (number < 0)}{abs(number) // 4}.{abs(number) % 4 * 25:02}"
    day = (FIRST_DAY + timedelta(days=number)).isoformat()
    return str(number) if kind == "int" else day if kind == "date" else f"{day} 12:30:00.5+00"


def literal(rng: Random, kind: str) -> str:
    """A literal of few values."""
    if kind == "int":
        return str(rng.choice([rng.randint(-3, 3), rng.randint(-3, 12), rng.randint(-300, 300)]))
    if kind == "bool":
        return rng.choice(["TRUE", "FALSE"])
    text = value(rng, kind, rng.choice([2, 4, 20]))
    return text[:-3] if kind == "numeric" and text.endswith(".00") else f"'{text}'"


def name(rng: Random, column: int, aliases: Sequence[str]) -> str:
    """A column, of one of these relations where there are any."""
    return (rng.choice(aliases) + "." if aliases else "") + COLUMNS[column][0]


def comparison(rng: Random, columns: Columns, aliases: Sequence[str]) -> str:
    """A comparison with a literal, now and then with a column."""
    column = rng.choice(columns)
    kind, own = kind_of(column), name(rng, column, aliases)
    op = "=" if rng.random() < 0.4 else rng.choice(PLAIN + BY_SIZE if kind == "int" else PLAIN)
    chance = rng.random()
    if chance < 0.12 + 0.4 * (len(aliases) > 1):
        other = name(rng, rng.choice([c for c in ALL if kind_of(c) == kind]), aliases)
    else:
        other = "NULL" if chance > 0.97 else literal(rng, kind)
    return f"{other} {op} {own}" if rng.random() < 0.15 else f"{own} {op} {other}"


def both_ends(rng: Random, own: str, kind: str) -> str:
    """Bounds of a column from both sides, in any order, with a value between them or with one at both ends."""
    low, high = in_order([literal(rng, kind) for _ in range(2)], kind)
    bounds = [f"{own} {rng.choice(['>', '>='])} {low}", f"{own} {rng.choice(['<', '<='])} {high}"]
    return f"({' AND '.join(rng.sample(bounds, 2))})"


def atom(rng: Random, columns: Columns, aliases: Sequence[str] = ()) -> str:
    """A comparison, IN, BETWEEN, both ends of a range, a null test, a boolean column or a constant."""
    column, chance = rng.choice(columns), rng.random()
    kind, own, negated = kind_of(column), name(rng, column, aliases), rng.choice(["", "", "NOT "])
    if chance < 0.12:
        return f"{own} IS {negated}NULL"
    if chance < 0.15:
        return rng.choice(["TRUE", "FALSE", "NULL", "1 = 1", "2 < 1"])
    if chance < 0.2 and kind == "bool":
        return own
    if chance < 0.3:
        return f"{own} {negated}IN ({', '.join(literal(rng, kind) for _ in range(rng.choice([1, 2, 2, 3, 4])))})"
    if chance < 0.36:
        return f"{own} {negated}BETWEEN {literal(rng, kind)} AND {literal(rng, kind)}"
    if chance < 0.46:
        return both_ends(rng, own, kind)
    return comparison(rng, columns, aliases)


def condition(rng: Random, columns: Columns, depth: int = 2, aliases: Sequence[str] = ()) -> str:
    """A condition of so many levels at most."""
    chance = rng.random()
    if not depth or chance < 0.45:
        return atom(rng, columns, aliases)
    if chance < 0.52:
        return f"NOT ({condition(rng, columns, depth - 1, aliases)})"
    word = " AND " if chance < 0.7 else " OR "
    return f"({word.join(condition(rng, columns, depth - 1, aliases) for _ in range(rng.randint(2, 3)))})"


def table(rng: Random, t: str, columns: Columns = ALL) -> str:
    """CREATE TABLE."""
    parts = ["%s %s%s" % (*COLUMNS[c], " NOT NULL" * (rng.random() < 0.15)) for c in columns]
    return f"CREATE TABLE {t} ({', '.join(parts)});"


def key(rng: Random, column: int) -> str:
    """A key of a B-tree."""
    own, typed = COLUMNS[column]
    op_class = f" {typed}_abs_ops" if column in INTS and rng.random() < 0.2 else ""
    return own + op_class + rng.choice(["", "", " DESC"]) + rng.choice(["", "", " NULLS FIRST", " NULLS LAST"])


def candidate(rng: Random, i: str, t: str, columns: Columns) -> str:
    """An index over some of these columns: what stands behind CREATE INDEX."""
    hashed = rng.random() < 0.15
    keys = [rng.choice(columns)] if hashed else rng.sample(columns, min(len(columns), rng.choice([1, 1, 1, 2, 2, 3])))
    written = COLUMNS[keys[0]][0] if hashed else ", ".join(key(rng, c) for c in keys)
    text = f"{i} ON {t} {'USING hash ' * hashed}({written})"
    rest = [c for c in ALL if c not in keys]
    if not hashed and rng.random() < 0.3:
        text += f" INCLUDE ({', '.join(COLUMNS[c][0] for c in rng.sample(rest, rng.randint(1, len(rest))))})"
    return text + (" WHERE " + condition(rng, columns, rng.choice([0, 1])) if rng.random() < 0.25 else "")


def statistics(rng: Random, t: str, column: int) -> str:
    """STATISTICS of a column, at their edges now and then."""
    own, kind = COLUMNS[column][0], kind_of(column)
    nulls = rng.choice([0, 0, rng.randrange(500_000), 1_000_000, 999_999])
    common, left = [], 1_000_000 - nulls
    for value in sorted({literal(rng, kind) for _ in range(rng.choice([0, 0, 1, 3, 9]))}):
        share = rng.randint(1, max(1, left // 2))
        if share <= left:
            common.append(f"{value} {share}")
            left -= share
    distinct = max(1, len(common), rng.choice([1, 2, 100, rng.randint(1, 10 ** rng.randint(1, 9)), 10**9]))
    text = f"STATISTICS {t}.{own} DISTINCT {distinct} NULLS {nulls}" + (f" COMMON ({', '.join(common)})" if common else "")
    if rng.random() < 0.6:
        bounds = in_order([literal(rng, kind) for _ in range(rng.choice([2, 3, 6, 20]))], kind)
        text += f" HISTOGRAM ({', '.join(bounds)})"
    return text + ";"


def sizes(rng: Random, t: str) -> str:
    """STATISTICS of a table."""
    rows = rng.choice([1, 10 ** rng.randint(0, 9), rng.randint(1, 10 ** rng.randint(1, 9)), 100_000, 100_000])
    pages = rng.choice([1, max(1, rows // 100), max(1, rows // 10), rng.randint(1, 10 ** rng.randint(1, 9)), 10**9])
    return f"STATISTICS {t} ROWS {rows} PAGES {pages};"


def data(rng: Random, t: str, columns: Columns, not_null: bool, count: int) -> str:
    """COPY of so many records."""
    def field(column: int) -> str:
        """A field."""
        if not not_null and rng.random() < 0.15:
            return "\\N"
        kind = kind_of(column)
        return str(rng.randint(-3, 5)) if kind == "int" else rng.choice("abcd") if kind == "text" else value(rng, kind, 4)

    records = "".join(",".join(field(c) for c in columns) + "\n" for _ in range(count))
    return f"COPY {t} FROM STDIN WITH (FORMAT CSV, NULL '\\N');\n{records}\\."


def order(rng: Random, columns: Columns, aliases: Sequence[str] = ()) -> str:
    """ORDER BY, or nothing."""
    items = [name(rng, rng.choice(columns), aliases) + rng.choice(["", "", " DESC"]) + rng.choice(["", "", " NULLS FIRST", " NULLS LAST"])
             for _ in range(rng.choice([0, 0, 1, 1, 2, 3]))]
    return " ORDER BY " + ", ".join(items) if items else ""


def window(rng: Random) -> str:
    """LIMIT and OFFSET, or nothing."""
    return rng.choice(["", "", "", f" LIMIT {rng.choice([0, 1, 2, 5, 1000])}", f" OFFSET {rng.choice([0, 1, 3])}", f" LIMIT {rng.randrange(6)} OFFSET 1"])
