"""Names, values and conditions of random statements, each as words, and how words become a text."""

from __future__ import annotations

from random import Random
from typing import Sequence

from . import typed

Words = list[str]
# A column: its name, its type, and whether it takes no NULL.
ColumnDef = tuple[str, str, bool]
# A column as a condition sees it: the alias of its relation, its name, its type, and whether it takes no NULL.
Seen = tuple[str, str, str, bool]

# How each type is written, as words with spaces between them.
TYPES = {
    "int2": ("int2", "smallint"), "int4": ("int4", "int", "integer"), "int8": ("int8", "bigint"), "bool": ("bool", "boolean"),
    "text": ("text", "text", "varchar", "varchar ( 3 )", "character varying", "character varying ( 10485760 )"), **typed.WRITTEN,
}
LIMITS = {"int2": 2**15, "int4": 2**31, "int8": 2**63}
NAMES = ["t", "u", "orders", "line_items", "x1", "a$b", "_k", "copy", "stdin", "format", "csv", "region", "qty", "statistics", "distinct",
         "between", "in", "left", "full", "count", "date", "time", "timestamp", "varying", "zone"]
RESERVED = ("and as asc create cross desc false from group inner is join limit not null offset on or order select table true using "
            "where with").split()
# Words that are no alias without AS.
JOIN_WORDS = ("full", "left", "natural", "outer", "right")
TRUTHS = ["t", "true", "TRUE", "y", "yes", "on", "1", "f", "false", "no", "off", "0", "N", " t ", "tru"]
COMPARISONS = ["<", "<=", "=", ">=", ">", "<>", "!="]
BY_SIZE = ["|<|", "|<=|", "|=|", "|>=|", "|>|"]
NO_TRUTHS = ["", "o", "2", "truex", "nein", "tr ue"]
NO_NUMBERS = ["", "x", "1.5", "--1", "0x10", "1_000", "1 2", "+", "1e3"]
CLASSES = {
    "int2": ["int2_ops", "int2_abs_ops"], "int4": ["int4_ops", "int4_abs_ops"], "int8": ["int8_ops", "int8_abs_ops"],
    "text": ["text_ops"], "bool": ["bool_ops"], **{kind: [typed.family_of(kind) + "_ops"] for kind in typed.KINDS},
}
MOST_INDEXES = 8


class Table:
    """A table of a random script, with how many indexes and rows it has, and the conditions of its partial indexes."""

    def __init__(self, name: str, columns: list[ColumnDef]) -> None:
        self.name, self.columns, self.indexes, self.rows = name, columns, 0, 0
        self.predicates: list[Words] = []


# A relation of a query: its alias, and its table.
Relation = tuple[str, Table]


# -- texts

def in_any_case(rng: Random, word: str) -> str:
    """A word in small or capital letters, or some of each."""
    kind = rng.randrange(4)
    if kind == 0:
        return word.upper()
    return "".join(rng.choice((c.upper(), c)) for c in word) if kind == 1 else word


def cased(rng: Random, words: str) -> Words:
    """Words of the grammar, each in any case."""
    return [in_any_case(rng, word) for word in words.split()]


def gap(rng: Random) -> str:
    """White space or a comment."""
    return rng.choice([" ", " ", " ", "  ", "\n", "\t", " /* a /* nested */ one */ ", " -- to the end\n", "\r\n", "\f"])


def spaced(rng: Random, words: Words) -> str:
    """The words with white space and comments between them, and none where none is needed."""
    text = words[0]
    for before, word in zip(words, words[1:]):
        needed = (before[-1].isalnum() or before[-1] in "_$") and (word[0].isalnum() or word[0] == "_")
        text += (gap(rng) if needed or rng.random() < 0.3 else "") + word
    return text


def listed(parts: Sequence[Words]) -> Words:
    """Lists of words with commas between them."""
    return [word for part in parts for word in [",", *part]][1:]


def literal_text(text: str) -> str:
    """A text between quotes."""
    return "'" + text.replace("'", "''") + "'"


# -- names and values

def some_kind(rng: Random) -> str:
    """The type of a column."""
    return rng.choice(typed.KINDS if rng.random() < 0.4 else ("int2", "int4", "int8", "text", "bool"))


def are_alike(a: str, b: str) -> bool:
    """Whether columns of two types can be compared."""
    both = (a, b)
    if all(kind in typed.NUMERICS for kind in both):
        return typed.NUMERICS[a][1] == typed.NUMERICS[b][1]
    return a == b or all(kind in LIMITS for kind in both)


def new_name(rng: Random, taken: Sequence[str]) -> str:
    """A name that is not taken."""
    while True:
        name = rng.choice(NAMES) if rng.random() < 0.7 else rng.choice("abcdefgz_") + "".join(
            rng.choice("abcxyz019_$") for _ in range(rng.choice([0, 1, 3, 8, 62])))
        if name not in taken and name not in RESERVED:
            return name


def number(rng: Random, kind: str) -> str:
    """A whole number as COPY data write it."""
    limit = LIMITS[kind]
    value = rng.choice([0, 1, -1, 7, limit - 1, -limit, rng.randrange(-limit, limit), rng.randrange(100)])
    text = str(value) if value < 0 or rng.random() < 0.8 else "+" + str(value)
    if rng.random() < 0.1:
        text = text.replace("-", "-00") if "-" in text else "00" + text.lstrip("+")
    if rng.random() < 0.1:
        text = rng.choice([" ", "\t", ""]) + text + rng.choice([" ", "\f", ""])
    return text


def text_value(rng: Random) -> str:
    """A text of COPY data, not yet quoted."""
    return rng.choice(["", "x", "Ann", "a,b", 'say "no"', "two\nlines", "N", "\\", "\\n", " \\N", "naïve", "1", "\r", ";",
                       "a" * rng.choice([1, 100, 8192])])


def field(rng: Random, kind: str, not_null: bool, alone: bool) -> str:
    """A field of a record; alone in it an empty one is quoted."""
    if not not_null and rng.random() < 0.2:
        return rng.choice(["\\N", "\\N", '"\\N"'])
    text = typed.right(rng, kind) if kind in typed.KINDS else rng.choice(TRUTHS) if kind == "bool" else (
        text_value(rng) if kind == "text" else number(rng, kind))
    if any(c in text for c in ',"\n\r') or text == "" and alone or text == "\\." or rng.random() < 0.1:
        return '"' + text.replace('"', '""') + '"'
    return text


def record(rng: Random, table: Table) -> str:
    """A record of a table."""
    alone = len(table.columns) == 1
    return ",".join(field(rng, kind, not_null, alone) for _, kind, not_null in table.columns)


def literal(rng: Random, kind: str) -> Words:
    """A literal that may stand beside a column of this type."""
    if rng.random() < 0.08:
        return cased(rng, "null")
    if kind == "text":
        return [literal_text(rng.choice(["", "x", "Ann", "a,b", "it's", "two\nlines", "\\N", "naïve", "b" * rng.choice([1, 8192])]))]
    if kind == "bool":
        return [rng.choice([in_any_case(rng, "true"), in_any_case(rng, "false"), literal_text(rng.choice(TRUTHS))])]
    if kind in typed.KINDS:
        return number_words(typed.whole(rng, kind)) if kind in typed.NUMERICS and rng.random() < 0.4 else [literal_text(typed.right(rng, kind))]
    value = rng.choice([0, 1, -1, 7, rng.randrange(100), rng.randrange(-40000, 40000), 2**63 - 1, -2**63])
    if rng.random() < 0.2:
        limit = LIMITS[kind]
        return [literal_text(rng.choice(["5", " -7 ", "+3", "007", str(limit - 1), str(-limit)]))]
    return number_words(value)


def number_words(value: int) -> Words:
    """A number of a statement."""
    return ["-", str(-value)] if value < 0 else [str(value)]


def typed_literal(rng: Random, kind: str) -> Words:
    """A text with the word of its type before it, for types that have such a word."""
    text = typed.right(rng, kind) if kind in typed.KINDS else {"text": "m", "bool": "yes"}.get(kind, "7")
    return [in_any_case(rng, rng.choice(typed.WORDS[kind])), literal_text(text)]


# -- conditions

class Scope:
    """The columns that a condition sees."""

    def __init__(self, relations: Sequence[Relation]) -> None:
        self.columns: list[Seen] = [(shown, *column) for shown, table in relations for column in table.columns]

    def named(self, rng: Random, column: Seen) -> Words:
        """A column's name, qualified where the bare one is another's too."""
        alone = sum(c[1] == column[1] for c in self.columns) == 1
        own = [in_any_case(rng, column[1])]
        return [in_any_case(rng, column[0]), ".", *own] if not alone or rng.random() < 0.3 else own

    def like(self, kind: str) -> list[Seen]:
        """The columns that can be compared with one of this type."""
        return [c for c in self.columns if are_alike(c[2], kind)]


def operand(rng: Random, scope: Scope, kind: str) -> Words:
    """A column or a literal to compare with one of this type."""
    chance = rng.random()
    if chance < 0.2:
        return scope.named(rng, rng.choice(scope.like(kind)))
    return typed_literal(rng, kind) if chance < 0.35 and kind in typed.WORDS else literal(rng, kind)


def comparison(rng: Random, scope: Scope) -> Words:
    """A comparison, the column on either side, or of two literals."""
    column = rng.choice(scope.columns)
    kind = column[2]
    op = rng.choice(COMPARISONS + (BY_SIZE if kind in LIMITS else []))
    left, right = scope.named(rng, column), operand(rng, scope, kind)
    if rng.random() < 0.1 and kind not in typed.NUMERICS:
        left = other_left(rng, kind) or left
    return [*right, op, *left] if rng.random() < 0.2 else [*left, op, *right]


def other_left(rng: Random, kind: str) -> Words | None:
    """A literal that is of this type by itself, for the left side of a comparison, or none."""
    if kind in typed.KINDS or rng.random() < 0.3:
        return typed_literal(rng, kind)
    other = [literal_text("m")] if kind == "text" else literal(rng, kind)
    is_plain = other[0].lower() != "null" and (kind == "text" or not other[0].startswith("'"))
    return other if is_plain else None


def membership(rng: Random, scope: Scope) -> Words:
    """IN or BETWEEN, now and then with NOT."""
    column = rng.choice(scope.columns)
    kind = column[2]
    negated = cased(rng, "not") if rng.random() < 0.3 else []
    if rng.random() < 0.6:
        values = [literal(rng, kind) for _ in range(rng.choice([1, 1, 2, 3, 5, 9]))]
        return [*scope.named(rng, column), *negated, *cased(rng, "in"), "(", *listed(values), ")"]
    left, low, high = scope.named(rng, column), operand(rng, scope, kind), operand(rng, scope, kind)
    if rng.random() < 0.1 and kind in LIMITS:
        left, low = [str(rng.randrange(10))], left
    return [*left, *negated, *cased(rng, "between"), *low, *cased(rng, "and"), *high]


def atom(rng: Random, scope: Scope) -> Words:
    """A comparison, IN, BETWEEN, a null test, a boolean column or a constant."""
    kind, column = rng.randrange(14), rng.choice(scope.columns)
    if kind < 2:
        return scope.named(rng, column) + cased(rng, rng.choice(["is null", "is not null"]))
    if kind == 2:
        return cased(rng, rng.choice(["true", "false", "null"]))
    if kind == 3 and column[2] == "bool":
        return scope.named(rng, column)
    return membership(rng, scope) if kind > 11 else comparison(rng, scope)


def condition(rng: Random, scope: Scope, depth: int) -> Words:
    """A condition of so many levels at most."""
    kind = rng.randrange(8)
    if depth == 0 or kind < 3:
        return atom(rng, scope)
    if kind == 3 and rng.random() < 0.5:
        return cased(rng, "not") + condition(rng, scope, depth - 1)
    if kind == 3:
        return [*cased(rng, "not"), "(", *condition(rng, scope, max(0, depth - 2)), ")"] if depth > 1 else atom(rng, scope)
    if kind == 4:
        return ["(", *condition(rng, scope, depth - 1), ")"]
    words = condition(rng, scope, depth - 1)
    for _ in range(rng.choice([1, 1, 2, 4])):
        words += cased(rng, rng.choice(["and", "or"])) + condition(rng, scope, depth - 1)
    return words


def long_condition(rng: Random, scope: Scope) -> Words:
    """A condition at a limit: 32 levels, 32 conjuncts or 256 atoms."""
    test = [*scope.named(rng, scope.columns[0]), "is", "null"]
    column = scope.named(rng, rng.choice(scope.columns))
    return rng.choice([
        ["("] * 32 + test + [")"] * 32, ["not"] * 32 + test, test + ["and", *test] * 31, test + ["or", *test] * 255,
        [*column, "in", "(", *listed([["null"]] * 256), ")"], [*column, "not", "in", "(", *listed([["null"]] * 32), ")"],
        [*column, "between", "null", "and", "null"] + ["and", *column, "between", "null", "and", "null"] * 15])
