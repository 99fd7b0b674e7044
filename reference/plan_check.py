"""Whether a plan that is written out is one of its query, with its own numbers (docs/GRAMMAR.md, USE PLAN)."""

from __future__ import annotations

from .cost_rules import TOO_MUCH
from .plan_reader import Written
from .plan_space import Space
from .plan_tree import Finished


def line_at_fault(space: Space, w: Written) -> int | None:
    """The line of the first node that is no plan of the space while those below it are. A sort counts as part of what is above it."""
    for child in w.children:
        line = line_at_fault(space, child)
        if line:
            return line
    return w.line if w.plan[0] != "sort" and space.path_of(w.plan) is None else None


def wrong_number(space: Space, w: Written) -> tuple[int, str, int, int] | None:
    """The first wrong number from the top: its line, what it is, what is printed, and what is right."""
    path = space.path_of(w.plan[2] if w.plan[0] == "sort" else w.plan)
    if path is None:
        return None
    startup, cost = space.sorted_cost(path) if w.plan[0] == "sort" else path.costs
    numbers = [("cost", w.cost, cost), ("rows", w.rows, path.rows)]
    if space.q.window is not None:
        numbers.insert(0, ("startup", w.startup, startup))
    for what, printed, own in numbers:
        if printed != own:
            return w.line, what, printed, own
    found = (wrong_number(space, child) for child in w.children)
    return next((f for f in found if f), None)


def judged(space: Space, w: Written) -> Finished | str:
    """The finished plan that is written out, or the reason why it is none."""
    line = line_at_fault(space, w)
    plan = None if line else space.finished(w.plan)
    if plan is None:
        return "P2 line %d" % (line or 1)
    if not space.admissible(plan.cost[1]):
        return "P4 cost %d" % TOO_MUCH
    wrong = wrong_number(space, w)
    return "P3 line %d %s %d is %d" % wrong if wrong else plan
