"""Random certificates, and edits of certificates, that are handed to CHECK."""

from __future__ import annotations

import re
from random import Random
from typing import Callable, Sequence

from reference.certificate_text import CertificateTexts
from reference.executor import given
from reference.plan_tree import Path

from .worlds import Planned

PARTS = re.compile(
    r"(?P<number>\d+) \{(?P<set>[^}]*)\}(?: for \{(?P<param>[^}]*)\})? (?P<node>.*) cost=(?:(?P<startup>\d+)\.\.)?(?P<cost>\d+) "
    r"rows=(?P<rows>\d+) keys=\((?P<keys>.*)\)$")
SIDES = re.compile(r"^(Nested Loop|Merge Join by .*?) ((?:sort )?\d+) ((?:sort )?\d+)$")
MOST_ENTRIES = 400


class Entry:
    """The parts of an entry's line."""

    def __init__(self, line: str) -> None:
        found = PARTS.match(line)
        self.number = self.set = self.node = self.cost = self.rows = self.keys = ""
        self.param: str | None = None
        self.startup: str | None = None
        self.__dict__.update(found.groupdict() if found else {})

    def line(self) -> str:
        """The line."""
        param = f" for {{{self.param}}}" if self.param is not None else ""
        startup = f"{self.startup}.." if self.startup is not None else ""
        return f"{self.number} {{{self.set}}}{param} {self.node} cost={startup}{self.cost} rows={self.rows} keys=({self.keys})"


Entries = list[Entry]


class Certificate:
    """A certificate as the lines before its entries, the entries, and its last line."""

    def __init__(self, text: str) -> None:
        lines = text.split("\n")[:-1]
        begin = next((n for n, line in enumerate(lines) if PARTS.match(line)), len(lines) - 1)
        self.head, self.entries, self.best = lines[:begin], [Entry(line) for line in lines[begin:-1]], lines[-1]

    def text(self) -> str:
        """The text."""
        return "".join(line + "\n" for line in [*self.head, *(one.line() for one in self.entries), self.best])

    def renumber(self) -> None:
        """Numbers the entries in their order."""
        for number, one in enumerate(self.entries, 1):
            one.number = str(number)


def kept(planned: Planned) -> str:
    """The certificate of the kept paths of a query, which has a plan."""
    best = planned.planner.best()
    return CertificateTexts(planned.texts).certificate(planned.planner.fronts, best) if best else "best 1\n"


def joined(rng: Random, planned: Planned, paths: Sequence[Path]) -> list[Path]:
    """Some joins of paths."""
    out = []
    for _ in range(8):
        outer, inner = rng.choice(paths), rng.choice(paths)
        lists = planned.space.merge_lists(outer.set, inner.set) if not outer.set & inner.set else []
        sorts = [rng.random() < 0.6 for _ in range(2)]
        path = planned.space.merge(rng.choice(lists), (sorts[0], outer), (sorts[1], inner)) if lists and rng.random() < 0.5 else None
        path = path or planned.space.nest(outer, inner)
        out += [path] if path else []
    return out


def any_entries(rng: Random, planned: Planned) -> str:
    """Any scans of the space and joins of them as a certificate, each entry right by itself but for a last one now and then."""
    found = [planned.space.scan(planned.scan(rng)) for _ in range(8)]
    paths = list({id(p): p for p in found if p}.values())
    for _ in range(3):
        paths += joined(rng, planned, paths)[:4] if paths else []
    paths += [stranger for stranger in [outside(rng, planned)] if stranger and rng.random() < 0.4]
    numbers = {id(p): n for n, p in reversed(list(enumerate(paths, 1)))}
    texts = CertificateTexts(planned.texts)
    lines = ["certificate 2"] if planned.texts.has_window else []
    lines += ["%d %s" % (n, texts.entry(p, lambda x: numbers[id(x)])) for n, p in enumerate(paths, 1)]
    tops = [n for n, p in enumerate(paths, 1) if p.set == planned.space.whole and not p.param] or [len(paths)]
    lines.append("best " + rng.choice(["", "sort "] if planned.space.order_keys else ["", "", "", "sort "]) + str(rng.choice(tops)))
    return "".join(line + "\n" for line in lines)


def outside(rng: Random, planned: Planned) -> Path | None:
    """A scan that is none of the space, where one is found."""
    for _ in range(8):
        plan = planned.scan(rng)
        if planned.space.scan(plan) is None:
            return Path(plan, 1 << plan[1], given(plan), (1, 1), 1, ())
    return None


# -- edits

def another(rng: Random, text: str) -> str:
    """Another number."""
    number = int(text)
    return str(rng.choice([number + 1, max(number - 1, 0), number * 2, 0, number + rng.randrange(1, 1000), 10**18, 10**18 - 1]))


def change_number(rng: Random, c: Certificate) -> None:
    """Another cost, startup or number of rows."""
    one = rng.choice(c.entries)
    name = rng.choice(["cost", "rows"] + ["startup"] * 2 * (one.startup is not None))
    setattr(one, name, another(rng, getattr(one, name)))


def change_sides(rng: Random, c: Certificate) -> None:
    """Other sides of a join."""
    joins = [one for one in c.entries if SIDES.match(one.node)]
    if not joins:
        change_number(rng, c)
        return
    one = rng.choice(joins)
    kind, outer, inner = re.findall(SIDES, one.node)[0]
    turned = lambda side: side[5:] if side.startswith("sort ") else "sort " + side
    other = str(rng.randrange(len(c.entries) + 2))
    a, b = rng.choice([(inner, outer), (turned(outer), inner), (outer, turned(inner)), (other, inner), (outer, other), (one.number, inner)])
    one.node = f"{kind} {a} {b}"


def names_of(text: str) -> list[str]:
    """The names of a set."""
    return text.split(",") if text else []


def change_set(rng: Random, c: Certificate) -> None:
    """Another set, or other relations whose row is given."""
    one = rng.choice(c.entries)
    every = list(dict.fromkeys(name for e in c.entries for name in names_of(e.set)))
    choice = rng.randrange(5)
    if choice == 0:
        one.set = rng.choice(c.entries).set
    elif choice == 1:
        one.param = rng.choice(c.entries).set if one.param is None else None
    elif choice == 2:
        one.set = ",".join(reversed(names_of(one.set)))
    elif choice == 3:
        one.set = ",".join(name for name in every if rng.random() < 0.5)
    else:
        one.param = ",".join(name for name in every if rng.random() < 0.5)


def change_keys(rng: Random, c: Certificate) -> None:
    """Other keys."""
    one = rng.choice(c.entries)
    keys, others = one.keys.split(", ") if one.keys else [], [key for e in c.entries for key in e.keys.split(", ") if e.keys]
    choice = rng.randrange(5)
    if choice == 0 and keys:
        keys.pop(rng.randrange(len(keys)))
    elif choice == 1 and others:
        keys.insert(rng.randint(0, len(keys)), rng.choice(others))
    elif choice == 2:
        rng.shuffle(keys)
    elif choice == 3 and keys:
        last = keys[-1]
        keys[-1] = last.removesuffix(" DESC") if last.endswith(" DESC") else last + rng.choice([" DESC", " NULLS FIRST", " int_abs_ops"])
    elif keys and " by " in one.node:
        one.node = one.node.replace(keys[0], rng.choice(others), 1)
    one.keys = ", ".join(keys)


def change_node(rng: Random, c: Certificate) -> None:
    """Another plan of an entry."""
    one, other = rng.choice(c.entries), rng.choice(c.entries)
    node = one.node
    one.node = rng.choice([
        node.replace(" Backward", "") if " Backward" in node else node.replace(" Scan using", " Scan Backward using"),
        node.replace("Index Only Scan", "Index Scan") if "Only" in node else node.replace("Index Scan", "Index Only Scan"),
        other.node, "Seq Scan" if node != "Seq Scan" else other.node, re.sub(r"And\((.*)\)$", r"\1", node)])


def lose_entry(rng: Random, c: Certificate) -> None:
    """An entry less, the numbers behind it mostly one less."""
    at = rng.randrange(len(c.entries))
    del c.entries[at]
    if rng.random() < 0.2:
        return
    less = lambda side: re.sub(r"\d+", lambda n: str(int(n[0]) - (int(n[0]) > at + 1)), side)
    for one in c.entries:
        found = SIDES.match(one.node)
        one.node = f"{found[1]} {less(found[2])} {less(found[3])}" if found else one.node
    c.renumber()
    c.best = less(c.best)


def more_entries(rng: Random, c: Certificate) -> None:
    """An entry twice, or with its sides turned round, or without keys."""
    one = Entry(rng.choice(c.entries).line())
    found = SIDES.match(one.node)
    if found and rng.random() < 0.5:
        one.node = f"{found[1]} {found[3]} {found[2]}"
    one.keys = "" if rng.random() < 0.3 else one.keys
    c.entries.insert(len(c.entries) if rng.random() < 0.8 else rng.randint(0, len(c.entries)), one)
    c.renumber()


def change_best(rng: Random, c: Certificate) -> None:
    """Another best plan."""
    number = rng.choice([len(c.entries), len(c.entries), rng.randrange(len(c.entries) + 2)])
    c.best = rng.choice(["best ", "best ", "best sort "]) + str(number)


def change_place(rng: Random, c: Certificate) -> None:
    """Two entries that change places."""
    if len(c.entries) > 1:
        at = rng.randrange(len(c.entries) - 1)
        c.entries[at], c.entries[at + 1] = c.entries[at + 1], c.entries[at]
        if rng.random() < 0.7:
            c.renumber()


EDITS: list[Callable[[Random, Certificate], None]] = [
    change_number, change_number, change_sides, change_set, change_keys, change_node, lose_entry, lose_entry, more_entries, more_entries,
    change_best, change_place]


def spoiled(rng: Random, text: str) -> str:
    """A text with a byte, a line or its end changed."""
    at = rng.randrange(len(text))
    shorter = text[:text.rindex("\n", 0, -1) + 1] if text.count("\n") > 1 else ""
    return rng.choice([
        text[:at] + rng.choice(" 0a{}(),\t") + text[at:], text[:at] + text[at + 1:], text.replace("\n", "\r\n", 1), text[text.index("\n") + 1:],
        shorter, text + text[:text.index("\n") + 1], re.sub(r"=(\d)", r"=0\1", text, count=1)])


def edited(rng: Random, text: str) -> str:
    """A certificate with one or two changes."""
    certificate = Certificate(text)
    for _ in range(rng.choice([1, 1, 2])):
        if certificate.entries:
            rng.choice(EDITS)(rng, certificate)
    return spoiled(rng, certificate.text()) if rng.random() < 0.12 else certificate.text()
