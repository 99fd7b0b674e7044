"""Reads the conditions of a server's query."""
from __future__ import annotations

from typing import NamedTuple, Optional, Union

from .conditions import Between, Compare, Condition, Flag, Joined, Literal, Not, NullTest, OneOf, Ref, Relation
from .constants import Constants
from .psql import Left
from .schema import Schema
from .types import comparable
from .words import Cursor, Word, column_names, depths, inside, pieces, spelt

FLIPPED = {"=": "=", "<>": "<>", "<": ">", "<=": ">=", ">": "<", ">=": "<="}
SIGNS = {"!=": "<>", **{sign: sign for sign in FLIPPED}}
ENDS_OPERAND = {"and", "or", "not", "between", "in", "like", "ilike", "is", "similar", "isnull", "notnull", "escape", "collate"}
MATCHES = {"~~", "!~~", "~~*", "!~~*", "~", "!~", "~*", "!~*", "@>", "<@", "->", "->>", "?", "&&", "@@"}
LIST_WORDS = {"any", "all", "some"}


class Subquery(Left):
    """A condition on a subquery, without which a query would ask something else."""


class Constant(NamedTuple):
    """The words of an operand that names no column."""

    words: list[Word]


Operand = Union[Ref, Constant]


class Scope:
    """The relations that conditions see."""

    def __init__(self, schema: Schema, relations: list[Relation]) -> None:
        self.schema, self.relations = schema, relations

    def find(self, qualifier: Optional[str], name: str) -> Optional[Ref]:
        """The column of a name, or None if no relation has it."""
        found = [Ref(relation, relation.table.columns[name]) for relation in self.relations
                 if qualifier in (None, relation.alias) and name in relation.table.columns]
        if len(found) > 1:
            raise Left(f"{name} is ambiguous")
        lost = [relation for relation in self.relations
                if qualifier in (None, relation.alias) and (relation.table.name, name) in self.schema.left_out]
        if not found and lost:
            raise Left(f"the export has no column {lost[0].table.name}.{name}")
        return found[0] if found else None

    def column(self, words: list[Word]) -> Optional[Ref]:
        """The column that words name, if they are no more than a name."""
        names = [word.value for word in words if word.kind in ("name", "quoted")]
        if len(words) == 1 and names:
            return self.find(None, names[0])
        if len(words) == 3 and len(names) == 2 and words[1].value == ".":
            found = self.find(names[0], names[1])
            if not found:
                raise Left(f"no column {names[0]}.{names[1]}")
            return found
        return None


def conjuncts(words: list[Word]) -> list[list[Word]]:
    """The parts of a condition that AND joins at its top."""
    while inner := inside(words):
        words = inner
    if any(word.value == "or" and word.kind == "name" and depth == 0 for word, depth in zip(words, depths(words))):
        return [words]
    found: list[list[Word]] = []
    for part in pieces(words, "and"):
        is_second_half = found and sum(word.value == "between" for word, depth in zip(found[-1], depths(found[-1])) if depth == 0) > sum(
            word.value == "and" for word, depth in zip(found[-1], depths(found[-1])) if depth == 0)
        if is_second_half:
            found[-1] += [Word("name", "and", found[-1][-1].end, found[-1][-1].end), *part]
        else:
            found.append(part)
    if len(found) == 1:
        return found
    return [deeper for part in found for deeper in conjuncts(part)]


class Reader:
    """Reads one condition from its words."""

    def __init__(self, text: str, words: list[Word], scope: Scope, constants: Constants) -> None:
        self.text, self.scope, self.constants = text, scope, constants
        self.cursor = Cursor(text, words)

    def whole(self) -> Condition:
        """The condition, which has to end where the words end."""
        if any(word.value in ("select", "exists") and word.kind == "name" for word in self.cursor.words):
            raise Subquery("a subquery")
        found = self._either()
        if not self.cursor.is_done():
            raise Left(f"{self.cursor.rest()!r} is not understood")
        return found

    def _either(self) -> Condition:
        """Conditions joined by OR."""
        parts = [self._all()]
        while self.cursor.take("or"):
            parts.append(self._all())
        return Joined("OR", tuple(parts)) if len(parts) > 1 else parts[0]

    def _all(self) -> Condition:
        """Conditions joined by AND."""
        parts = [self._negated()]
        while self.cursor.take("and"):
            parts.append(self._negated())
        return Joined("AND", tuple(parts)) if len(parts) > 1 else parts[0]

    def _negated(self) -> Condition:
        """A condition with or without NOT."""
        if self.cursor.take("not"):
            return Not(self._negated())
        if not self.cursor.is_at("("):
            return self._test()
        at = self.cursor.at
        try:
            return self._in_parentheses()
        except Left as fault:
            self.cursor.at = at
            try:
                return self._test()
            except Left:
                raise fault from None

    def _in_parentheses(self) -> Condition:
        """A condition in parentheses, behind which no operator follows."""
        self.cursor.need("(")
        found = self._either()
        self.cursor.need(")")
        following = self.cursor.peek()
        if following.kind != "end" and following.value not in ("and", "or", ")"):
            raise Left(f"{self.cursor.rest()!r} is not understood")
        return found

    def _operand(self) -> Operand:
        """A column or a constant."""
        begin = self.cursor.at
        rest = self.cursor.words[begin:]
        for word, depth in zip(rest, depths(rest)):
            ends = word.kind == "name" and word.value in ENDS_OPERAND or word.kind == "sign" and (
                word.value in SIGNS or word.value in MATCHES or word.value == ",")
            if depth < 0 or depth == 0 and ends:
                break
            self.cursor.at += 1
        words = self.cursor.words[begin:self.cursor.at]
        if not words:
            raise Left(f"{self.cursor.rest()!r} is not understood")
        return self._meant(words)

    def _meant(self, words: list[Word]) -> Operand:
        """What an operand's words mean: a cast of a column that changes no value is dropped."""
        while inner := inside(words):
            words = inner
        if found := self.scope.column(words):
            return found
        cast = next((at for at, word in enumerate(words) if word.kind == "sign" and word.value == "::"), len(words))
        column = self.scope.column(inside(words[:cast]) or words[:cast])
        to = "".join(word.value for word in words[cast + 1:])
        if column and (column.column.type.form == "text" and to in ("text", "varchar", "charactervarying")
                       or column.column.type.form == "int" and to in ("int8", "bigint", "numeric")):
            return column
        if any(qualifier or self.scope.find(None, name) for qualifier, name in column_names(words)):
            raise Left("an expression over a column")
        return Constant(words)

    def _literal(self, column: Ref, operand: Operand) -> Literal:
        """An operand as a literal beside a column."""
        if isinstance(operand, Ref):
            raise Left("a column where a constant is read")
        return self.constants.literal(column, operand.words, self.text)

    def _ordered(self, column: Ref) -> Ref:
        """A column whose order pgplan has."""
        if not column.column.type.is_ordered:
            raise Left(f"{column.column.type.theirs} has another order in pgplan")
        return column

    def _test(self) -> Condition:
        """A comparison or a test."""
        left = self._operand()
        negated = self.cursor.take("not")
        if isinstance(left, Ref):
            for read in (self._between, self._list, self._like, self._is):
                if found := read(left, negated):
                    return found
        if negated:
            raise Left("NOT is not understood")
        sign = SIGNS.get(self.cursor.peek().value) if self.cursor.peek().kind == "sign" else None
        if sign:
            self.cursor.next()
            return self._comparison(left, sign)
        if isinstance(left, Ref) and left.column.type.form == "bool":
            return Flag(left)
        raise Left("no comparison that pgplan has")

    def _comparison(self, left: Operand, sign: str) -> Condition:
        """What stands on both sides of a comparison."""
        word = self.cursor.peek()
        if word.kind == "name" and word.value in LIST_WORDS and self.cursor.peek(1).value == "(":
            self.cursor.next()
            return self._array(left, sign, word.value)
        right = self._operand()
        if not isinstance(left, Ref):
            left, right, sign = right, left, FLIPPED[sign]
        if not isinstance(left, Ref):
            raise Left("no column is compared")
        if sign not in ("=", "<>"):
            self._ordered(left)
        if not isinstance(right, Ref):
            return Compare(left, sign, self._literal(left, right))
        if not comparable(left.column.type, right.column.type):
            raise Left(f"{left.column.type.theirs} is compared with {right.column.type.theirs}")
        return Compare(left, sign, right)

    def _array(self, left: Operand, sign: str, word: str) -> Condition:
        """= ANY of an array, or <> ALL."""
        if not isinstance(left, Ref) or (sign, word) not in (("=", "any"), ("=", "some"), ("<>", "all")):
            raise Left("ANY or ALL")
        at = self.cursor.at
        words, cursor = pieces(self.cursor.words[at:])[0], self.cursor
        end = next(n for n, depth in enumerate(depths(words)) if n and depth == 0)
        cursor.at = at + end + 1
        words = words[1:end]
        while inner := inside(words):
            words = inner
        if words and words[0].kind == "text":
            values = self.constants.values_of_array(left, words[0])
        elif words and words[0].value == "array":
            last = next(n for n, depth in enumerate(depths(words[1:])) if n and depth == 0)
            values = [self._literal(left, Constant(part)) for part in pieces(words[2:last + 1], ",")]
        else:
            values = [self._literal(left, Constant(words))]
        return OneOf(left, tuple(dict.fromkeys(values)), sign == "<>")

    def _between(self, column: Ref, negated: bool) -> Optional[Condition]:
        """BETWEEN with two constants."""
        if not self.cursor.take("between"):
            return None
        low = self._literal(self._ordered(column), self._operand())
        self.cursor.need("and")
        return Between(column, low, self._literal(column, self._operand()), negated)

    def _list(self, column: Ref, negated: bool) -> Optional[Condition]:
        """IN with a list of constants."""
        if not self.cursor.take("in"):
            return None
        self.cursor.need("(")
        values = [self._literal(column, self._operand())]
        while self.cursor.take(","):
            values.append(self._literal(column, self._operand()))
        self.cursor.need(")")
        return OneOf(column, tuple(dict.fromkeys(values)), negated)

    def _like(self, column: Ref, negated: bool) -> Optional[Condition]:
        """LIKE with a pattern that has a fixed beginning and then % alone, as a range."""
        if not (self.cursor.take("like") or self.cursor.take("~~")):
            return None
        pattern = self._operand()
        words = [] if isinstance(pattern, Ref) else pattern.words
        if negated or column.column.type.form != "text" or not words or words[0].kind != "text":
            raise Left("LIKE")
        prefix, _, rest = words[0].value.partition("%")
        if not prefix or rest or set(prefix) & {"_", "\\"}:
            raise Left("LIKE with another pattern than 'x%'")
        if prefix == words[0].value:
            return Compare(column, "=", self._literal(column, Constant(words[:1])))
        following = prefix[:-1] + chr(ord(prefix[-1]) + 1)
        ends = [self.constants.literal(column, [Word("text", text, 0, 0)], self.text) for text in (prefix, following)]
        return Joined("AND", (Compare(column, ">=", ends[0]), Compare(column, "<", ends[1])))

    def _is(self, column: Ref, negated: bool) -> Optional[Condition]:
        """IS NULL, IS TRUE and IS FALSE with or without NOT."""
        if self.cursor.take("isnull") or self.cursor.take("notnull"):
            return NullTest(column, self.cursor.words[self.cursor.at - 1].value == "notnull")
        if not self.cursor.take("is"):
            return None
        negated = self.cursor.take("not")
        if self.cursor.take("null"):
            return NullTest(column, negated)
        word = self.cursor.next().value
        if column.column.type.form != "bool" or word not in ("true", "false"):
            raise Left(f"IS {word.upper()}")
        if not negated:
            return Compare(column, "=", Literal(word.upper(), word))
        other = Compare(column, "<>", Literal(word.upper(), word))
        return Joined("OR", (other, NullTest(column, False)))


def read_condition(text: str, words: list[Word], scope: Scope, constants: Constants) -> Condition:
    """The condition that words of a text spell."""
    try:
        return Reader(text, words, scope, constants).whole()
    except Subquery as fault:
        raise Subquery(f"{spelt(text, words)} ({fault})") from fault
    except Left as fault:
        raise Left(f"{spelt(text, words)} ({fault})") from fault
