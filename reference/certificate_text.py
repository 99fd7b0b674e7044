"""The text of a certificate (docs/CERTIFICATES.md, Reading one)."""

from __future__ import annotations

from typing import Callable

from .explain import Texts
from .join_search import Fronts
from .pg_base import bits, size
from .plan_tree import Bits, Finished, MergeSide, Path

FIRST_OF_VERSION_2 = "certificate 2"


class CertificateTexts:
    """The texts of one query's certificates."""

    def __init__(self, texts: Texts) -> None:
        self.texts = texts

    def set(self, s: int) -> str:
        """A set of relations."""
        return "{%s}" % ",".join(self.texts.alias(r) for r in bits(s))

    def element(self, tree: Bits) -> str:
        """An element of a bitmap."""
        if tree[0] == "leaf":
            return "Index " + tree[1].name
        return "Or %d(%s)" % (self.texts.conjunct(tree[1]), ", ".join("Index " + i.name for i in tree[2]))

    @staticmethod
    def side(number: int, is_sorted: bool) -> str:
        """The number of an entry, sorted first or not."""
        return "%s%d" % ("sort " * is_sorted, number)

    def node(self, path: Path, number_of: Callable[[Path], int]) -> str:
        """What an entry's plan is."""
        form = path.form
        if form[0] == "nest":
            return "Nested Loop %d %d" % (number_of(form[1]), number_of(form[2]))
        if form[0] == "merge":
            sides: list[MergeSide] = form[2:]
            numbers = " ".join(self.side(number_of(side), is_sorted) for is_sorted, side in sides)
            return "Merge Join by %s %s" % (self.texts.keys(form[1], path.set), numbers)
        text = self.texts.scan(form, False)
        if form[0] != "bitmap":
            return text
        tree = form[3]
        if tree[0] != "and":
            return "%s %s" % (text, self.element(tree))
        return "%s And(%s)" % (text, ", ".join(self.element(t) for t in tree[1]))

    def entry(self, path: Path, number_of: Callable[[Path], int]) -> str:
        """The line of an entry, without its number and its end."""
        given = " for " + self.set(path.param) if path.param else ""
        cost, keys = self.texts.cost(path.costs), self.texts.keys(path.keys, path.set)
        return "%s%s %s cost=%s rows=%d keys=(%s)" % (self.set(path.set), given, self.node(path, number_of), cost, path.rows, keys)

    def print_order(self, path: Path) -> tuple:
        """By what entries are sorted."""
        startup = path.startup if self.texts.has_window else 0
        return size(path.set), path.set, path.param, path.cost, startup, path.keys

    def certificate(self, fronts: Fronts, best: Finished) -> str:
        """The certificate of a table of kept paths, with a best plan over one of them."""
        paths = sorted((p for front in fronts.values() for p in front), key=self.print_order)
        numbers = {id(p): n for n, p in enumerate(paths, 1)}
        lines = [FIRST_OF_VERSION_2] if self.texts.has_window else []
        lines += ["%d %s" % (n, self.entry(p, lambda x: numbers[id(x)])) for n, p in enumerate(paths, 1)]
        lines.append("best " + self.side(numbers[id(best.path)], best.sort_keys is not None))
        return "".join(line + "\n" for line in lines)
