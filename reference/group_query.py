"""Plans that group (docs/PLANS.md, Plans that group), and their lines of values (docs/GRAMMAR.md, GROUP BY)."""

from __future__ import annotations

from typing import Any

from .cost_rules import TOO_MUCH, sort
from .executor import Executor, Tuple
from .explain import Texts
from .opfamily import SortKey, default_family, sort_by
from .pg_value import SqlType, Value
from .plan_space import Space
from .plan_tree import Finished
from .planner import Planner
from .sql_query import GroupItem, Groups


class GroupPlan:
    """A plan that groups: its form, sorted or hashed, what it costs without and with a sort on top, and the plan it stands on."""

    def __init__(self, form: str, node_cost: int, is_sorted: bool, cost: int, base: Finished) -> None:
        self.form, self.node_cost, self.is_sorted = form, node_cost, is_sorted
        self.cost, self.base = cost, base


class Grouping:
    """The plans that group of a query."""

    def __init__(self, space: Space, texts: Texts, groups: Groups) -> None:
        self.space, self.texts, self.q, self.by = space, texts, space.q, groups
        self.keys = space.keys_of([(*key, False, False) for key in groups.keys])
        self.calls = sum(1 for what, _ in groups.items if what != "key")
        self.rows = space.est.rows(space.whole)
        count = 1
        for n in self.keys:
            count *= space.est.distinct(*space.c.classes[n].members[0])
        self.groups = min(self.rows, count)

    def plan(self, form: str, base: Finished) -> GroupPlan:
        """The plan of a form over another plan."""
        k = len(self.keys)
        each = (k if form == "sorted" else 2 * k) + self.calls
        cost = base.cost[1] + self.rows * each + self.groups * 4
        own, order = self.keys if form == "sorted" else (), self.space.order_keys
        is_sorted = bool(order) and own[:len(order)] != order
        return GroupPlan(form, cost, is_sorted, sort(cost, self.groups)[1] if is_sorted else cost, base)

    def choose(self, planner: Planner, last: bool = False) -> GroupPlan | None:
        """A plan of least cost that is admissible."""
        forms = [("sorted", self.keys)] + ([("hashed", ())] if self.keys else [])
        bases = [(form, planner.best(keys)) for form, keys in forms]
        plans = [self.plan(form, base) for form, base in bases if base is not None]
        found = [p for p in plans if p.cost < TOO_MUCH]
        least = min((p.cost for p in found), default=0)
        return [p for p in found if p.cost == least][-1 if last else 0] if found else None

    def text(self, p: GroupPlan) -> str:
        """The lines of a plan that groups."""
        heads = []
        if p.is_sorted:
            heads.append(("Sort by " + self.texts.keys(self.space.order_keys, self.space.whole), p.cost))
        name = "Aggregate"
        if self.keys:
            form = "Group" if p.form == "sorted" else "Hash"
            name = "%sAggregate by %s" % (form, self.texts.keys(self.keys, self.space.whole))
        heads.append((name, p.node_cost))
        lines = [self.texts.node(depth, text, (0, cost), self.groups) for depth, (text, cost) in enumerate(heads)]
        return "".join(lines) + self.texts.sorted_lines(p.base.path, p.base.sort_keys, len(heads))

    # -- rows

    def types(self) -> list[SqlType]:
        """The types of the values that a line shows."""
        return ["int8" if what == "count" or ref is None else self.q.column_type(*ref) for what, ref in self.by.items]

    def lines(self, p: GroupPlan) -> list[list[Value]]:
        """The lines of values that a plan gives, in order."""
        executor = Executor(self.space)
        groups: dict[tuple, list[Tuple]] = {} if self.by.keys else {(): []}
        for t in executor.run(p.base.plan):
            groups.setdefault(tuple(executor.value(t, key) for key in self.by.keys), []).append(t)
        found: list[tuple[tuple, list[Tuple]]] = list(groups.items())
        if p.is_sorted:
            found = sort_by(found, [self._sort_key(item) for item in self.q.order])
        return [[self._value(item, key, tuples, executor) for item in self.by.items] for key, tuples in found]

    def _sort_key(self, item: tuple[int, int, bool, bool]) -> SortKey:
        """An item of ORDER BY as a key by which groups are sorted."""
        relation, column, descending, nulls_first = item
        place = self.by.keys.index((relation, column))
        return lambda group: group[0][place], default_family(self.q.column_type(relation, column)), descending, nulls_first

    def _value(self, item: GroupItem, key: tuple, tuples: list[Tuple], executor: Executor) -> Value:
        """What an item of the list shows of a group."""
        what, ref = item
        if ref is None:
            return len(tuples)
        if what == "key":
            return key[self.by.keys.index(ref)]
        values: list[Any] = [v for v in (executor.value(t, ref) for t in tuples) if v is not None]
        if what == "count":
            return len(values)
        return (min if what == "min" else max)(values) if values else None
