"""The grammar of docs/GRAMMAR.md, with the first fault of syntax.

A recursive descent that makes each choice by the next token alone, as the grammar allows, so that the token at which it stops is
the first one with which no statement goes on. The limits of names, texts and depth are told where the token is taken.
"""

from __future__ import annotations

from types import SimpleNamespace as Node
from typing import Any, Callable

from .pg_base import LIMIT, SYNTAX, Fault
from .sql_lex import OPERATORS, RESERVED, Token

MOST_LEVELS = 32
MOST_NAME = 63
MOST_TEXT = 8192
# Names that are no alias without AS: in PostgreSQL they begin or go on an outer join.
JOIN_WORDS = frozenset("full left natural outer right".split())
# Statements whose lines stand behind their `;`.
HAS_LINES = ("copy", "check", "use_plan")
# A column as it is written: the token of its qualifier, or None, and that of its name.
Column = tuple
# A condition as it is written, its first item being what it is.
Written = tuple


class Parser:
    """Reads the tokens of a statement as a tree of nodes."""

    def __init__(self, tokens: list[Token]) -> None:
        self.tokens, self.at = tokens, 0

    # -- tokens

    @property
    def token(self) -> Token:
        """The next token."""
        return self.tokens[self.at]

    def fail(self) -> Any:
        """A fault of syntax at the next token."""
        raise Fault(SYNTAX, self.token.start)

    def take(self) -> Token:
        """Takes the next token, whatever it is."""
        self.at += 1
        return self.tokens[self.at - 1]

    def is_word(self, word: str) -> bool:
        """Whether the next token is this word."""
        return self.token.kind == "word" and self.token.text == word

    def is_symbol(self, symbol: str) -> bool:
        """Whether the next token is this symbol."""
        return self.token.kind == "symbol" and self.token.text == symbol

    def is_name(self) -> bool:
        """Whether the next token may be a name."""
        return self.token.kind == "word" and self.token.text not in RESERVED

    def word(self, *words: str) -> Token:
        """Takes these words in turn, and gives the last."""
        for w in words:
            if not self.is_word(w):
                self.fail()
            taken = self.take()
        return taken

    def symbol(self, symbol: str) -> Token:
        """Takes this symbol."""
        return self.take() if self.is_symbol(symbol) else self.fail()

    def accept_word(self, word: str) -> Token | None:
        """Takes this word where it is next."""
        return self.take() if self.is_word(word) else None

    def accept_symbol(self, symbol: str) -> Token | None:
        """Takes this symbol where it is next."""
        return self.take() if self.is_symbol(symbol) else None

    def name(self) -> Token:
        """Takes a name."""
        if not self.is_name():
            self.fail()
        if len(self.token.text) > MOST_NAME:
            raise Fault(LIMIT, self.token.start, "name")
        return self.take()

    def number(self) -> Token:
        """Takes a number."""
        return self.take() if self.token.kind == "number" else self.fail()

    def quoted(self) -> Token:
        """Takes a quoted text."""
        if self.token.kind != "quoted":
            self.fail()
        if len(self.token.text) > MOST_TEXT:
            raise Fault(LIMIT, self.token.start, "text")
        return self.take()

    def many(self, one: Callable[[], Any]) -> list:
        """One or more, with commas between them."""
        out = [one()]
        while self.accept_symbol(","):
            out.append(one())
        return out

    def in_parentheses(self, one: Callable[[], Any]) -> list:
        """One or more in parentheses."""
        self.symbol("(")
        out = self.many(one)
        self.symbol(")")
        return out

    # -- statements

    def statement(self) -> Node:
        """A statement with its end; `first` is the offset of its first byte, `end` that behind its last."""
        start = self.token.start
        for word in ("create", "copy", "select", "statistics", "explain", "check", "analyze", "advise", "use"):
            if self.is_word(word):
                node = getattr(self, word)()
                break
        else:
            self.fail()
        node.first = start
        if not self.is_symbol(";") and (node.kind in HAS_LINES or self.token.kind != "end"):
            self.fail()
        node.end = self.token.end
        return node

    def create(self) -> Node:
        """CREATE TABLE or CREATE INDEX."""
        self.word("create")
        if self.accept_word("table"):
            return Node(kind="create_table", name=self.name(), columns=self.in_parentheses(self.definition))
        if self.accept_word("index"):
            return Node(kind="create_index", candidate=self.candidate())
        return self.fail()

    def definition(self) -> Node:
        """A column of CREATE TABLE."""
        name, typed, not_null = self.name(), self.type(), False
        if self.accept_word("not"):
            self.word("null")
            not_null = True
        else:
            self.accept_word("null")
        return Node(name=name, type=typed, not_null=not_null)

    def type(self) -> Node:
        """A column's type: the token that it begins with, all its words, and the numbers in its parentheses."""
        token = self.name()
        words = token.text
        if words == "character" and self.accept_word("varying"):
            words += " varying"
        modifiers = self.in_parentheses(self.number) if self.is_symbol("(") else []
        if words == "timestamp" and (self.is_word("with") or self.is_word("without")):
            words += f" {self.take().text} time zone"
            self.word("time", "zone")
        return Node(token=token, words=words, modifiers=modifiers)

    def candidate(self) -> Node:
        """An index: what stands behind CREATE INDEX, or in the list of ADVISE."""
        index = Node(name=self.name(), method=None, include=[], where=None)
        self.word("on")
        index.table = self.name()
        if self.accept_word("using"):
            index.method = self.name()
        index.keys = self.in_parentheses(self.key)
        if self.accept_word("include"):
            index.include = self.in_parentheses(self.name)
        if self.accept_word("where"):
            index.where = self.condition(0)
        return index

    def key(self) -> Node:
        """A key of an index."""
        key = Node(name=self.name(), op_class=None)
        if self.is_name() and not self.is_word("nulls"):
            key.op_class = self.name()
        key.descending, key.nulls_first = self.direction()
        return key

    def direction(self) -> tuple[bool, bool]:
        """Whether a key is descending, and whether its NULLs are first."""
        descending = bool(self.accept_word("desc"))
        if not descending:
            self.accept_word("asc")
        nulls_first = descending
        if self.accept_word("nulls"):
            nulls_first = bool(self.accept_word("first"))
            if not nulls_first:
                self.word("last")
        return descending, nulls_first

    def statistics(self) -> Node:
        """STATISTICS of a table or of a column."""
        self.word("statistics")
        table = self.name()
        if self.accept_symbol("."):
            return self.statistics_of_column(table)
        self.word("rows")
        rows = self.number()
        self.word("pages")
        return Node(kind="statistics_table", table=table, rows=rows, pages=self.number())

    def statistics_of_column(self, table: Token) -> Node:
        """STATISTICS of a column, behind its dot."""
        node = Node(kind="statistics_column", table=table, column=self.name(), common=[], histogram=[])
        self.word("distinct")
        node.distinct = self.number()
        self.word("nulls")
        node.nulls = self.number()
        if self.accept_word("common"):
            node.common = self.in_parentheses(lambda: (self.literal(), self.number()))
        if self.accept_word("histogram"):
            node.histogram = self.in_parentheses(self.literal)
        return node

    def copy(self) -> Node:
        """COPY, without its data."""
        self.word("copy")
        table = self.name()
        self.word("from", "stdin", "with")
        self.symbol("(")
        self.word("format", "csv")
        self.symbol(",")
        self.word("null")
        null = self.quoted()
        self.symbol(")")
        return Node(kind="copy", table=table, null=null)

    def explain(self) -> Node:
        """EXPLAIN or EXPLAIN (TABLE)."""
        self.word("explain")
        if self.accept_symbol("("):
            self.word("table")
            self.symbol(")")
            return Node(kind="explain_table", select=self.query(window=True, group=False))
        return Node(kind="explain", select=self.query(window=True, group=True))

    def select(self) -> Node:
        """SELECT."""
        return Node(kind="select", select=self.query(window=True, group=True))

    def check(self) -> Node:
        """CHECK, without its lines."""
        self.word("check")
        return Node(kind="check", select=self.query(window=True, group=False))

    def analyze(self) -> Node:
        """ANALYZE."""
        self.word("analyze")
        return Node(kind="analyze", table=self.name())

    def use(self) -> Node:
        """USE PLAN, without its lines."""
        self.word("use", "plan")
        return Node(kind="use_plan", select=self.query(window=False, group=False))

    def advise(self) -> Node:
        """ADVISE; each select stands beside its parenthesis."""
        self.word("advise")
        number = self.number()
        candidates = self.in_parentheses(self.candidate)
        selects: list[tuple[Token, Node]] = []
        while not selects or self.is_symbol("("):
            parenthesis = self.symbol("(")
            selects.append((parenthesis, self.query(window=True, group=False)))
            self.symbol(")")
        return Node(kind="advise", number=number, candidates=candidates, selects=selects)

    # -- SELECT

    def query(self, window: bool, group: bool) -> Node:
        """A SELECT from that word on. The flags say whether LIMIT and OFFSET, and DISTINCT, calls and GROUP BY, may stand here."""
        s = Node(word=self.word("select"), where=None, order=[], limit=None, offset=None, group_by=[], window=False, distinct=False)
        if group and self.is_distinct():
            self.take()
            s.distinct, group = True, False
        s.items = self.many(lambda: self.item(group))
        self.word("from")
        s.groups = self.many(self.group)
        if self.accept_word("where"):
            s.where = self.condition(0)
        s.grouped = s.distinct or any(item.kind == "call" for item in s.items)
        if group and self.accept_word("group"):
            self.word("by")
            s.group_by = self.many(self.column)
            s.grouped = True
        if self.accept_word("order"):
            self.word("by")
            s.order = self.many(lambda: (self.column(), self.direction()))
        if window and not s.grouped:
            self.window(s)
        return s

    def window(self, select: Node) -> None:
        """LIMIT and OFFSET of a SELECT, where they stand."""
        if self.accept_word("limit"):
            select.limit = self.number()
        if self.accept_word("offset"):
            select.offset = self.number()
        select.window = bool(select.limit or select.offset)

    def is_distinct(self) -> bool:
        """Whether the next word is that of SELECT DISTINCT: `*` or a name follows. Else it is a column's name."""
        if not self.is_word("distinct"):
            return False
        behind = self.tokens[self.at + 1]
        return behind.kind == "word" and behind.text not in RESERVED or behind.kind == "symbol" and behind.text == "*"

    def item(self, group: bool) -> Node:
        """An item of the select list."""
        if self.is_symbol("*"):
            return Node(kind="star", token=self.take())
        name = self.name()
        if self.accept_symbol("."):
            if self.is_symbol("*"):
                return Node(kind="qualified_star", qualifier=name, token=self.take())
            return Node(kind="column", column=(name, self.name()))
        if group and self.accept_symbol("("):
            argument = None if self.accept_symbol("*") else self.column()
            self.symbol(")")
            return Node(kind="call", name=name, argument=argument)
        return Node(kind="column", column=(None, name))

    def group(self) -> list[tuple[Node, Written | None]]:
        """A relation and those joined to it, each with its ON condition or None."""
        out: list[tuple[Node, Written | None]] = [(self.relation(), None)]
        while True:
            if self.accept_word("cross"):
                self.word("join")
                out.append((self.relation(), None))
            elif self.is_word("inner") or self.is_word("join"):
                self.accept_word("inner")
                self.word("join")
                relation = self.relation()
                self.word("on")
                out.append((relation, self.condition(0)))
            else:
                return out

    def relation(self) -> Node:
        """A table of FROM with its alias."""
        table = self.name()
        if self.accept_word("as"):
            return Node(table=table, alias=self.name())
        is_bare = self.is_name() and self.token.text not in JOIN_WORDS
        return Node(table=table, alias=self.name() if is_bare else table)

    def column(self) -> Column:
        """A column, qualified or not."""
        name = self.name()
        return (name, self.name()) if self.accept_symbol(".") else (None, name)

    # -- conditions; `level` is the number of levels that are open

    def deeper(self, level: int) -> int:
        """Opens a level by taking its token."""
        if level >= MOST_LEVELS:
            raise Fault(LIMIT, self.token.start, "depth")
        self.take()
        return level + 1

    def condition(self, level: int) -> Written:
        """A condition."""
        return self.series(level, "or", self.conjunction)

    def conjunction(self, level: int) -> Written:
        """What stands between two ORs."""
        return self.series(level, "and", self.negation)

    def series(self, level: int, word: str, one: Callable[[int], Written]) -> Written:
        """One or more with this word between them."""
        parts = [one(level)]
        while self.accept_word(word):
            parts.append(one(level))
        return parts[0] if len(parts) == 1 else (word, parts)

    def negation(self, level: int) -> Written:
        """An atom under NOTs."""
        if self.is_word("not"):
            return ("not", self.negation(self.deeper(level)))
        return self.atom(level)

    def atom(self, level: int) -> Written:
        """A condition in parentheses, a comparison, IN, BETWEEN, a null test, a boolean column or a constant."""
        if self.is_symbol("("):
            inner = self.condition(self.deeper(level))
            self.symbol(")")
            return inner
        left = self.operand()
        if self.token.kind == "symbol" and self.token.text in OPERATORS:
            operator = self.take()
            return ("compare", operator, left, self.operand())
        listed = self.listed(left)
        if listed:
            return listed
        if left[0] == "column":
            if not self.accept_word("is"):
                return left
            negated = self.accept_word("not")
            self.word("null")
            return ("notnull" if negated else "isnull", left[1])
        if left[1] in ("true", "false", "null"):
            return ("constant", {"true": True, "false": False, "null": None}[left[1]])
        return self.fail()

    def listed(self, left: Written) -> Written | None:
        """[NOT] IN or [NOT] BETWEEN behind an operand. No other atom goes on with NOT."""
        negated = self.accept_word("not")
        if left[0] == "column" and self.is_word("in"):
            word = self.take()
            atom: Written = ("in", word, left, self.in_parentheses(self.literal))
        elif self.is_word("between"):
            word, low = self.take(), self.operand()
            self.word("and")
            atom = ("between", word, left, low, self.operand())
        else:
            return self.fail() if negated else None
        return ("not", atom) if negated else atom

    def operand(self) -> Written:
        """A column, a literal, or a name with the quoted text that is read as the type of this name."""
        if not self.is_name():
            return self.literal()
        column = self.column()
        if column[0] is None and self.token.kind == "quoted":
            return ("literal", "typed", (column[1], self.quoted().text), column[1].start)
        return ("column", column)

    def literal(self) -> Written:
        """A literal without a type's name: its kind, its value (of a number a sign and digits) and its offset."""
        start = self.token.start
        for word in ("true", "false", "null"):
            if self.accept_word(word):
                return ("literal", word, None, start)
        if self.token.kind == "quoted":
            return ("literal", "quoted", self.quoted().text, start)
        sign = -1 if self.accept_symbol("-") else 1
        return ("literal", "number", (sign, self.number().text), start)


def parse(tokens: list[Token]) -> Node:
    """The tree of a statement's tokens, or the first fault of its syntax."""
    return Parser(tokens).statement()


def lines_begin(text: bytes, at: int) -> int:
    """The first byte of the lines of COPY, CHECK or USE PLAN, from the place behind the `;`."""
    while at < len(text) and text[at] in b" \t\r":
        at += 1
    if at >= len(text) or text[at] != 10:
        raise Fault(SYNTAX, at)
    return at + 1
