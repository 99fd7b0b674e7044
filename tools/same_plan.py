"""The shape of a plan, by which one of pgplan and one of a PostgreSQL server are compared: its scans with their indexes, and its joins."""
from __future__ import annotations

from typing import Any, Iterator

from reference.plan_tree import Bits, Plan

JOINS = {"Nested Loop": "nest", "Merge Join": "merge", "Hash Join": "hash"}
SCANS = {"Seq Scan": "seq", "Index Scan": "index", "Index Only Scan": "indexonly", "Bitmap Heap Scan": "bitmap"}


def inputs(plan: Plan) -> tuple[Plan, ...]:
    """The plans that a sort or a join stands on: one, or the outer and the inner side."""
    return {"sort": plan[2:], "nest": plan[1:], "merge": plan[2:]}.get(plan[0], ())


def leaves(tree: Bits) -> Iterator[str]:
    """The indexes of a bitmap."""
    if tree[0] == "leaf":
        yield tree[1].name
    elif tree[0] == "or":
        yield from (index.name for index in tree[2])
    else:
        for part in tree[1]:
            yield from leaves(part)


def shape(plan: Plan, aliases: list[str]) -> str:
    """The shape of a plan of pgplan, whose relations have these aliases."""
    below = [shape(part, aliases) for part in inputs(plan)]
    if below:
        return below[0] if plan[0] == "sort" else f"{plan[0]}({', '.join(below)})"
    used = sorted(set(leaves(plan[3]))) if plan[0] == "bitmap" else [] if plan[0] == "seq" else [plan[2].name]
    return " ".join([plan[0], aliases[plan[1]], *used])


def server_leaves(node: dict[str, Any]) -> Iterator[str]:
    """The indexes of a bitmap of the server."""
    if node["Node Type"] == "Bitmap Index Scan":
        yield node["Index Name"]
    for child in node.get("Plans", []):
        yield from server_leaves(child)


def server_shape(node: dict[str, Any]) -> str:
    """The shape of a plan of the server, from EXPLAIN (FORMAT JSON). Sorts and the like do not count."""
    kind, children = node["Node Type"], node.get("Plans", [])
    if kind in JOINS:
        return f"{JOINS[kind]}({server_shape(children[0])}, {server_shape(children[1])})"
    if kind in SCANS:
        used = sorted(set(server_leaves(node))) or ([node["Index Name"]] if "Index Name" in node else [])
        return " ".join([SCANS[kind], node["Alias"], *used])
    return server_shape(children[0]) if len(children) == 1 else kind
