"""The planner, the executor, the check of certificates and the judge against plain readings of the rules."""

from __future__ import annotations

import unittest
from random import Random
from typing import Any

from random_scripts.certificates import Certificate, any_entries, kept, lose_entry
from random_scripts.dense import window
from random_scripts.scripts import dense_query, dense_tables
from random_scripts.worlds import Planned, catalog_of, read_select

from reference.certificate_check import check, path_of
from reference.certificate_reader import Reader
from reference.executor import Executor
from reference.judge import judge
from reference.opfamily import default_family
from reference.pgplan import answer
from reference.plan_space import Space
from reference.plan_tree import Finished, Path
from reference.statements import Planning
from reference.tests.brute import Sets, TooMany, all_paths, finished, is_ordered, meaning, reason

TURNS = 60
MOST_PATHS = 3000


class World:
    """Random tables and a random query over them."""

    def __init__(self, number: int, windows: bool = True) -> None:
        rng = self.rng = Random(number)
        count = rng.choice([1, 2, 2, 2, 3])
        tables = rng.choice([1, 2])
        self.head = "\n".join(dense_tables(rng, tables, 6 if count < 3 else 4, 3)) + "\n"
        self.catalog = catalog_of(self.head)
        self.select = dense_query(rng, tables, count) + (window(rng) if windows else "")
        statement = read_select(self.catalog, self.select)
        assert statement is not None
        self.query = statement.query
        self.planned = Planned(statement)
        self.space = self.planned.space


def every_path(space: Space) -> Sets | None:
    """All paths of a space, where they are not too many."""
    try:
        return all_paths(space, MOST_PATHS)
    except TooMany:
        return None


def changed(rng: Random, out: bytes) -> bytes:
    """An output with a byte or two lines changed."""
    at, lines = rng.randrange(len(out) + 1), out.split(b"\n")
    n, m = rng.randrange(len(lines)), rng.randrange(len(lines))
    turned = lines[:]
    turned[n], turned[m] = lines[m], lines[n]
    return rng.choice([out[:at] + rng.choice([b"0", b"9", b" ", b"x", b"\n"]) + out[at:], out[:at] + out[at + 1:], b"\n".join(turned)])


class Plans(unittest.TestCase):
    """Plans of random queries."""

    def test_least_and_kept(self) -> None:
        """No plan costs less than the chosen one, each is dominated by a kept one, and no kept one by another."""
        whole = 0
        for number in range(TURNS):
            world = World(number)
            space, planner, every = world.space, world.planned.planner, every_path(world.space)
            whole += every is not None
            for key, paths in (every or {}).items():
                own = planner.fronts.get(key, [])
                for path in paths:
                    self.assertTrue(not space.admissible(path.cost) or any(space.dominates(k, path) for k in own), number)
            for own in planner.fronts.values():
                self.assertFalse(any(a is not b and space.dominates(a, b) for a in own for b in own), number)
            if every is not None:
                prices = [space.price(p.cost) for p in finished(space, every[space.whole, 0]) if space.admissible(p.cost[1])]
                best = planner.best()
                self.assertEqual(min(prices, default=None), best and space.price(best.cost), number)
        self.assertGreater(whole, TURNS // 3)

    def test_rows(self) -> None:
        """Every plan gives the tuples that the query means, sorted by its keys, and in the order asked for where it is finished."""
        for number in range(TURNS):
            world = World(1000 + number)
            bag, every = meaning(world.query), every_path(world.space)
            paths = list(world.planned.planner.fronts.get((world.space.whole, 0), ()))
            if every is not None:
                all_of = every[world.space.whole, 0]
                paths += world.rng.sample(all_of, min(20, len(all_of)))
            for path in paths:
                self.assert_rows(world, path, bag)

    def assert_rows(self, world: World, path: Path, bag: list[tuple[int, ...]]) -> None:
        """A path's tuples are those of the query, in order."""
        executor, space, q = Executor(world.space), world.space, world.query
        tuples = executor.run(path.plan)
        self.assertEqual(sorted(tuples), bag)
        classes = [space.c.classes[n] for n in path.keys]
        rows = [[executor.value(t, cls.members[0]) for cls in classes] for t in tuples]
        self.assertTrue(is_ordered(rows, [(c.family, c.descending, c.nulls_first) for c in classes]))
        for plan in finished(space, [path]):
            found = [[executor.value(t, item[:2]) for item in q.order] for t in executor.run(plan.plan)]
            directions = [(default_family(q.column_type(r, c)), descending, nulls_first) for r, c, descending, nulls_first in q.order]
            self.assertTrue(is_ordered(found, directions))

    def test_certificates(self) -> None:
        """CHECK tells of a certificate what its definition says."""
        told = set()
        for number in range(2 * TURNS):
            world = World(2000 + number)
            text = any_entries(world.rng, world.planned) if number % 3 else kept(world.planned)
            certificate = Certificate(text)
            if number % 2 and len(certificate.entries) > 1:
                lose_entry(world.rng, certificate)
            found, wanted = self.verdicts(world, certificate.text())
            self.assertEqual(found, wanted, certificate.text())
            told.add(wanted and wanted[:2])
        self.assertLessEqual({None, "C2", "C4", "C5"}, told)

    def verdicts(self, world: World, text: str) -> tuple[str | None, str | None]:
        """What CHECK tells of a certificate, a plan that no entry dominates left out, and what the definition says."""
        found = check(world.space, world.planned.texts, world.catalog.indexes, text).reason
        if found is not None and (found.startswith(("C1", "C3")) or found.startswith("C2 entry")):
            return None, None
        entries, (is_sorted, number) = Reader(world.space, world.planned.texts, world.catalog.indexes).certificate(text)
        paths: list[Path] = []
        for entry in entries:
            path = path_of(world.space, entry, paths)
            assert path is not None
            paths.append(path)
        wanted = reason(world.space, paths, (is_sorted, paths[number - 1])) if 1 <= number <= len(paths) else "C2 best"
        return found[:2] if found and found.startswith("C4") else found, wanted


class Groups(unittest.TestCase):
    """Plans that group of random queries."""

    def test_groups(self) -> None:
        """The chosen plan is the least of all, and each gives a line for each group of the query's tuples."""
        for number in range(TURNS):
            world = World(3000 + number, False)
            self.assert_groups(world, self.grouped(world))

    @staticmethod
    def grouped(world: World) -> Planning:
        """A query over the same tables that groups."""
        relations = world.select[world.select.index(" FROM "):].split(" ORDER BY ")[0]
        columns = [f"r{world.rng.randrange(len(world.query.rels))}.{world.rng.choice('absf')}" for _ in range(world.rng.randrange(3))]
        calls = world.rng.choice([["count(*)"], ["count(*)", "min(r0.a)", "max(r0.s)", "count(r0.b)"]])
        by = " GROUP BY " + ", ".join(columns) if columns else ""
        order = f" ORDER BY {columns[0]} DESC" if columns and world.rng.random() < 0.5 else ""
        statement = read_select(world.catalog, f"SELECT {', '.join(columns + calls)}{relations}{by}{order}")
        assert statement is not None
        return Planning(statement.query)

    def assert_groups(self, world: World, p: Planning) -> None:
        """What is said of one query."""
        grouping: Any = p.grouping
        every = every_path(p.space)
        paths = every[p.space.whole, 0] if every else p.planner.fronts[p.space.whole, 0]
        both = [p.space.finish(path, is_sorted, keys) for path in paths for is_sorted in (False, True) for keys in (grouping.keys,)]
        plans = [grouping.plan("sorted", base) for base in both if base]
        plans += [grouping.plan("hashed", Finished(path, None, path.costs)) for path in paths if grouping.keys]
        if every:
            self.assertEqual(min(plan.cost for plan in plans), p.least)
        wanted = sorted(map(repr, self.plain_lines(p)))
        for plan in world.rng.sample(plans, min(6, len(plans))):
            self.assertEqual(sorted(map(repr, grouping.lines(plan))), wanted)

    @staticmethod
    def plain_lines(p: Planning) -> list[list]:
        """A line for each group of the tuples that the query means."""
        q, groups = p.space.q, p.space.q.groups
        assert groups is not None
        value = lambda t, ref: q.rels[ref[0]][0].rows[t[ref[0]]][ref[1]]
        found: dict[tuple, list] = {} if groups.keys else {(): []}
        for t in meaning(q):
            found.setdefault(tuple(value(t, key) for key in groups.keys), []).append(t)
        lines = []
        for key, tuples in found.items():
            line = []
            for what, ref in groups.items:
                values = [value(t, ref) for t in tuples if ref and value(t, ref) is not None]
                shown = {"key": lambda: value(tuples[0], ref), "count": lambda: len(values) if ref else len(tuples),
                         "min": lambda: min(values, default=None), "max": lambda: max(values, default=None)}
                line.append(shown[what]())
            lines.append(line)
        return lines


class Judge(unittest.TestCase):
    """The judge on answers of the reference."""

    def test_answers(self) -> None:
        """Both choices among equal plans are allowed, and most changed outputs are not."""
        allowed = tried = 0
        for number in range(TURNS):
            world = World(4000 + number)
            script = f"{world.head}{world.select};\nEXPLAIN {world.select};\nEXPLAIN (TABLE) {world.select};\n".encode()
            for last in (False, True):
                out, err, status = answer(script, last)
                self.assertEqual(judge(script, out, err, status, ()), "ok")
                for _ in range(3):
                    other = changed(world.rng, out)
                    if other != out:
                        tried += 1
                        allowed += judge(script, other, err, status, ()) == "ok"
        self.assertLess(allowed, tried // 20)


if __name__ == "__main__":
    unittest.main()
