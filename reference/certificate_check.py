"""Whether a certificate is a table of its query (docs/CERTIFICATES.md, Handing one in)."""

from __future__ import annotations

from typing import Callable, Iterable

from .catalog import Index
from .certificate_reader import Entry, NoText, Reader
from .certificate_text import CertificateTexts
from .cost_rules import TOO_MUCH
from .eq_classes import Keys
from .explain import Texts
from .join_search import Fronts, Search
from .pg_base import bits, size, subsets
from .plan_space import Space
from .plan_tree import Finished, Path, begins


class Verdict:
    """The reason why a certificate is none, or None where it is one, with what was found on the way.

    `paths` are what the entries stand for, `best` the finished plan. Of the reason that a plan is dominated by no entry, the plan
    is one of many; `covered` tells whether an entry dominates a path.
    """

    def __init__(self, reason: str | None, paths: list[Path], best: Finished | None = None,
                 covered: Callable[[Path], bool] | None = None) -> None:
        self.reason, self.paths, self.best, self.covered = reason, paths, best, covered

    def line(self) -> str:
        """The line that is told."""
        return "valid\n" if self.reason is None else "invalid: %s\n" % self.reason


class Uncovered(Exception):
    """An admissible scan or join that no entry dominates; its one argument is the path."""


class Cover:
    """Wants the paths of one set, given the same relations, that none of some entries dominates."""

    def __init__(self, space: Space, entries: Iterable[Path]) -> None:
        self.has_window, self.entries = space.q.window is not None, entries

    def wants(self, keys: Keys, startup: int, cost: int) -> bool:
        """Whether no entry dominates a path with these numbers."""
        return cost < TOO_MUCH and not any(
            e.cost <= cost and begins(e.keys, keys) and (not self.has_window or e.startup <= startup) for e in self.entries)

    def offer(self, path: Path) -> None:
        """Tells a path that is wanted."""
        raise Uncovered(path)


def refuse_uncovered(space: Space, fronts: Fronts) -> None:
    """Tells a scan of the space or a join of entries that no entry dominates. Those that are looked at dominate all others."""
    for r, (table, _) in enumerate(space.q.rels):
        for p in subsets(space.whole & ~(1 << r)) if table.indexes else (0,):
            cover = Cover(space, fronts.get((1 << r, p), ()))
            for path in space.scans(r, p):
                if cover.wants(path.keys, *path.costs):
                    cover.offer(path)
    search = Search(space, fronts)
    for s in range(1, space.whole + 1):
        if size(s) > 1:
            search.joins(s, Cover(space, fronts.get((s, 0), ())))


def path_of(space: Space, entry: Entry, paths: list[Path]) -> Path | None:
    """What an entry stands for over those before it, or None where that is no plan of the space."""
    kind = entry.node[0]
    if kind in ("nest", "merge"):
        sides = [(False, n) for n in entry.node[1:]] if kind == "nest" else list(entry.node[2:])
        if any(not 1 <= n <= len(paths) for _, n in sides):
            return None
        found = [(is_sorted, paths[n - 1]) for is_sorted, n in sides]
        return space.nest(found[0][1], found[1][1]) if kind == "nest" else space.merge(entry.node[1], found[0], found[1])
    if size(entry.set) > 1:
        return None
    r = bits(entry.set)[0]
    if kind == "seq":
        return space.scan(("seq", r))
    if kind == "bitmap":
        return space.scan(("bitmap", r, entry.param, entry.node[1]))
    return space.scan((kind, r, entry.node[1], entry.node[2], entry.param))


def entry_fault(space: Space, number: int, entry: Entry, path: Path | None) -> str | None:
    """The reason why an entry is wrong, or None."""
    if (path is None or (path.set, path.param, path.keys) != (entry.set, entry.param, entry.keys)
            or not space.admissible(path.cost)):
        return "C2 entry %d" % number
    numbers = [("cost", entry.cost, path.cost), ("rows", entry.rows, path.rows)]
    if space.q.window is not None:
        numbers.insert(0, ("startup", entry.startup, path.startup))
    for what, printed, own in numbers:
        if printed != own:
            return "C3 entry %d %s %d is %d" % (number, what, printed, own)
    return None


def check(space: Space, texts: Texts, indexes: dict[str, Index], block: str) -> Verdict:
    """The verdict on lines that are supplied."""
    reader = Reader(space, texts, indexes)
    try:
        entries, (is_sorted, number) = reader.certificate(block)
    except NoText as e:
        return Verdict("C1 line %d" % e.args[0], [])
    paths: list[Path] = []
    for n, entry in enumerate(entries, 1):
        path = path_of(space, entry, paths)
        fault = entry_fault(space, n, entry, path)
        if fault or path is None:
            return Verdict(fault, [])
        paths.append(path)
    best = space.finish(paths[number - 1], is_sorted) if 1 <= number <= len(paths) else None
    if best is None:
        return Verdict("C2 best", paths)
    return _verdict(space, texts, paths, best)


def _verdict(space: Space, texts: Texts, paths: list[Path], best: Finished) -> Verdict:
    """The verdict on entries that are right by themselves."""
    numbered: dict[tuple[int, int], list[tuple[int, Path]]] = {}
    for n, path in enumerate(paths, 1):
        numbered.setdefault((path.set, path.param), []).append((n, path))
    for n, path in enumerate(paths, 1):
        for m, other in numbered[path.set, path.param]:
            if m != n and space.dominates(other, path):
                return Verdict("C5 entry %d by %d" % (n, m), paths)
    numbers = {id(p): n for n, p in enumerate(paths, 1)}
    fronts: Fronts = {key: [p for _, p in own] for key, own in numbered.items()}
    try:
        refuse_uncovered(space, fronts)
    except Uncovered as e:
        line = CertificateTexts(texts).entry(e.args[0], lambda x: numbers[id(x)])
        return Verdict("C4 " + line, paths, covered=lambda path: any(
            space.dominates(entry, path) for entry in fronts.get((path.set, path.param), ())))
    return _price_verdict(space, paths, best)


def _price_verdict(space: Space, paths: list[Path], best: Finished) -> Verdict:
    """The verdict on the best plan of a certificate that is right otherwise."""
    over = [space.finish(p, is_sorted) for p in paths for is_sorted in (False, True)]
    finished = [f for f in over if f is not None]
    good = [f for f in finished if space.admissible(f.cost[1])]
    least, price = min(space.price(f.cost) for f in good or finished), space.price(best.cost)
    if good and not space.admissible(best.cost[1]) or price > least:
        return Verdict("C6 best %d least %d" % (price, least), paths)
    return Verdict(None, paths, best)
