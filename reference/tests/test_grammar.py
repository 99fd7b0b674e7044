"""The parser against a recogniser of the grammar as a text."""

from __future__ import annotations

import unittest
from random import Random

from random_scripts.edits import edited_words

from reference.grammar_text import RULES, Part, derive, fits
from reference.pg_base import SYNTAX, Fault
from reference.sql_grammar import parse
from reference.sql_lex import Token, lex_statement

TURNS = 2000
# A rule with a place in its body, and the column in which it began.
Item = tuple[str, tuple[Part, ...], int, int]


class Recogniser:
    """Finds the first token with which no text of the grammar goes on, by Earley's method."""

    def __init__(self) -> None:
        self.columns: list[set[Item]] = []

    def closed(self, items: set[Item]) -> set[Item]:
        """The items of a column with all that they predict and complete."""
        seen, todo, at = set(items), list(items), len(self.columns)
        empty: set[str] = set()
        while todo:
            head, body, dot, origin = todo.pop()
            if dot < len(body):
                found = self.predicted(body[dot], at)
                if body[dot][1] in empty:
                    found.append((head, body, dot + 1, origin))
            else:
                if origin == at:
                    empty.add(head)
                source = seen if origin == at else self.columns[origin]
                found = [(h, b, d + 1, o) for h, b, d, o in source if d < len(b) and b[d] == ("n", head)]
            todo += [item for item in found if item not in seen]
            seen.update(found)
        return seen

    @staticmethod
    def predicted(part: Part, at: int) -> list[Item]:
        """The items of a rule that begins in this column."""
        return [(part[1], tuple(body), 0, at) for body in RULES[part[1]]] if part[0] == "n" else []

    def first_at_fault(self, tokens: list[Token]) -> int | None:
        """The place of the first token with which no text goes on."""
        items: set[Item] = {("start", tuple(body), 0, 0) for body in RULES["start"]}
        for n, token in enumerate(tokens):
            self.columns.append(self.closed(items))
            items = {(h, b, d + 1, o) for h, b, d, o in self.columns[-1] if d < len(b) and b[d][0] == "t" and fits(b[d][1], token)}
            if not items:
                return n
        return None


def parsed(tokens: list[Token]) -> int | None:
    """The place of the token at which the parser tells a fault of syntax."""
    try:
        parse(tokens)
    except Fault as fault:
        assert fault.code == SYNTAX
        return next(n for n, token in enumerate(tokens) if token.start == fault.at)
    return None


class Grammar(unittest.TestCase):
    """Random statements of the grammar, most of them edited."""

    def test_first_faults(self) -> None:
        """Both find the same token, or none."""
        rng, right = Random(1), 0
        for _ in range(TURNS):
            words = derive(rng, "start")
            for _ in range(rng.choice([0, 0, 1, 1, 2])):
                words = edited_words(rng, words)
            text = " ".join(word for word in words if len(word) < 60).encode()
            tokens = lex_statement(text, 0) if b"--" not in text and b"/*" not in text else []
            if len(tokens) > 1:
                found = parsed(tokens)
                right += found is None
                self.assertEqual(found, Recogniser().first_at_fault(tokens), text)
        self.assertGreater(right, TURNS // 10)


if __name__ == "__main__":
    unittest.main()
