"""A plan as nodes in the form of PostgreSQL's EXPLAIN (FORMAT JSON): costs in its units, and conditions at the node that tests them."""
from __future__ import annotations

from typing import Any, Iterable

from explained import Explained, Head
from reference import cost_rules
from reference.catalog import Index
from reference.executor import given
from reference.pg_expr import Expr, Operand
from reference.pg_value import COMMUTATOR
from reference.plan_reader import Written
from reference.plan_tree import Bits, Plan
from server.program import UNIT

SCANS = {"seq": "Seq Scan", "index": "Index Scan", "indexonly": "Index Only Scan", "bitmap": "Bitmap Heap Scan"}
STRATEGIES = {"Aggregate": "Plain", "GroupAggregate": "Sorted", "HashAggregate": "Hashed"}

Node = dict[str, Any]


class Conditions:
    """The texts of conditions of one query. A scan names its own columns alone, every other node all with their aliases."""

    def __init__(self, found: Explained) -> None:
        self.q, self.c = found.space.q, found.space.c

    def operand(self, x: Operand, own: int) -> str:
        """An operand at a scan of the relation `own`, or elsewhere where that is -1."""
        if x[0] == "column":
            name = self.q.column_name(x[1:])
            return name if x[1] == own or len(self.q.rels) == 1 else f"{self.q.rels[x[1]][1]}.{name}"
        if x[1] == "text":
            return "'" + x[2].decode(errors="replace").replace("'", "''") + "'::text"
        return "NULL" if x[2] is None else str(x[2]).lower()

    def text(self, e: Expr, own: int = -1, outer: int = 0) -> str:
        """A condition. A column of `own`, or of the relations of an outer side, stands on the left of a comparison."""
        head = e[0]
        if head in ("and", "or"):
            return f"({f' {head.upper()} '.join(self.text(part, own, outer) for part in e[1])})"
        if head == "not":
            return f"(NOT {self.text(e[1], own, outer)})"
        if head == "constant":
            return "NULL" if e[1] is None else str(e[1]).lower()
        if head == "compare":
            return self._comparison(e, own, outer)
        column = self.operand(("column", *e[1:]), own)
        return {"bool": column, "isnull": f"({column} IS NULL)", "notnull": f"({column} IS NOT NULL)"}[head]

    def _comparison(self, e: Expr, own: int, outer: int) -> str:
        """A comparison. That of a boolean column with a value is the column, or its negation, as PostgreSQL has it."""
        _, op, left, right = e
        if right[0] == "column" and (right[1] == own or outer >> right[1] & 1):
            op, left, right = COMMUTATOR[op], right, left
        if op == "=" and right[0] == "literal" and right[1] == "bool":
            return self.operand(left, own) if right[2] else f"(NOT {self.operand(left, own)})"
        return f"({self.operand(left, own)} {op} {self.operand(right, own)})"

    def clauses(self, clauses: Iterable[int], own: int = -1) -> list[str]:
        """Clauses in the order of their numbers."""
        return [self.text(self.c.clauses[n].expr, own) for n in sorted(clauses)]


def joined(texts: list[str]) -> str:
    """Conditions as one."""
    return texts[0] if len(texts) == 1 else f"({' AND '.join(texts)})"


class Nodes:
    """Makes the nodes of one plan."""

    def __init__(self, found: Explained) -> None:
        self.space, self.texts, self.est = found.space, found.texts, found.space.est
        self.c, self.conditions = found.space.c, Conditions(found)

    def node(self, kind: str, startup: int, total: int, rows: int) -> Node:
        """A node with its numbers, costs in units of pgplan, which estimates no widths."""
        return {"Node Type": kind, "Parallel Aware": False, "Async Capable": False, "Startup Cost": startup, "Total Cost": total,
                "Plan Rows": rows, "Plan Width": 0}

    def add(self, node: Node, **conditions: list[str]) -> Node:
        """The node with conditions, as far as there are any."""
        node.update({title.replace("_", " "): joined(texts) for title, texts in conditions.items() if texts})
        return node

    def under(self, node: Node, *children: Node) -> Node:
        """The node over others: an outer side, then an inner one."""
        for relationship, child in zip(("Outer", "Inner"), children):
            child["Parent Relationship"] = relationship
        node["Plans"] = list(children)
        return node

    def of(self, written: Written) -> Node:
        """The node of a plan."""
        plan = written.plan
        path = self.space.path_of(plan[2] if plan[0] == "sort" else plan)
        assert path, "the program printed no plan of the reference's plan space"
        startup = self.space.sorted_cost(path)[0] if plan[0] == "sort" else path.startup
        if plan[0] in SCANS:
            return self.scan(plan, self.node(SCANS[plan[0]], startup, written.cost, written.rows))
        children = [self.of(child) for child in written.children]
        if plan[0] == "sort":
            node = self.node("Sort", startup, written.cost, written.rows)
            return self.under({**node, "Sort Key": self.keys(plan[1], written.set)}, *children)
        kind = "Nested Loop" if plan[0] == "nest" else "Merge Join"
        node = {**self.node(kind, startup, written.cost, written.rows), "Join Type": "Inner", "Inner Unique": False}
        return self.under(self.join(plan, node, *(child.set for child in written.children)), *children)

    def keys(self, keys: Iterable[int], s: int) -> list[str]:
        """Keys of rows, without the alias where there is one relation."""
        texts = [self.texts.key(n, s) for n in keys]
        return [text.split(".", 1)[1] for text in texts] if len(self.space.q.rels) == 1 else texts

    # -- joins

    def join(self, plan: Plan, node: Node, outer: int, inner: int) -> Node:
        """A join with its conditions."""
        if plan[0] == "merge":
            pairs = [self.c.pair(n, outer, inner) for n in plan[1]]
            rest = set(self.c.join(outer, inner)) - set(pairs)
            return self.add(node, Merge_Cond=[self.conditions.text(self.c.clauses[n].expr, outer=outer) for n in pairs],
                            Join_Filter=self.conditions.clauses(rest))
        p = given(plan[2])
        tests = self.c.join_param(outer, plan[2][1], p) if p else self.c.join(outer, inner)
        return self.add(node, Join_Filter=self.conditions.clauses(tests))

    # -- scans

    def scan(self, plan: Plan, node: Node) -> Node:
        """A scan with its conditions."""
        r, p = plan[1], given(plan)
        table, alias = self.space.q.rels[r]
        node.update({"Relation Name": table.name, "Alias": alias})
        every = set(self.c.base(r) + self.c.param(r, p))
        if plan[0] == "seq":
            return self.add(node, Filter=self.conditions.clauses(every, r))
        if plan[0] == "bitmap":
            used = self.used(plan[3], r, p)
            node = self.add(node, Recheck_Cond=self.conditions.clauses(used, r), Filter=self.conditions.clauses(every - used, r))
            return self.under(node, self.bitmap(plan[3], r, p))
        served = self.space.match.conditions(plan[2], r, p)[0]
        node.update({"Scan Direction": "Backward" if plan[3] else "Forward", "Index Name": plan[2].name})
        return self.add(node, Index_Cond=self.conditions.clauses(served, r), Filter=self.conditions.clauses(every - set(served), r))

    def used(self, tree: Bits, r: int, p: int) -> set[int]:
        """The clauses that a bitmap serves."""
        if tree[0] == "and":
            return set().union(*(self.used(part, r, p) for part in tree[1]))
        return {tree[1]} if tree[0] == "or" else set(self.space.match.conditions(tree[1], r, p)[0])

    def bitmap(self, tree: Bits, r: int, p: int) -> Node:
        """A bitmap. pgplan prints no numbers for it: they are the parts of the heap scan's."""
        if tree[0] == "leaf":
            served, bounds = self.space.match.conditions(tree[1], r, p)
            return self.leaf(tree[1], r, p, self.est.exprs(served), self.est.exprs(bounds))
        if tree[0] == "and":
            parts = [self.bitmap(part, r, p) for part in tree[1]]
        else:
            parts = [self.leaf(index, r, p, *(self.space.match.arm(index, r, arm) or ([], [])))
                     for index, arm in zip(tree[2], self.c.clauses[tree[1]].expr[1])]
        cost = sum(part["Total Cost"] for part in parts) + 100 * (len(parts) - 1)
        rows = self.est.fold_clauses(self.est.table_rows(r), self.used(tree, r, p))
        return self.members(self.node("BitmapAnd" if tree[0] == "and" else "BitmapOr", cost, cost, rows), parts)

    def members(self, node: Node, parts: list[Node]) -> Node:
        """A bitmap over its parts."""
        node["Plans"] = [{**part, "Parent Relationship": "Member"} for part in parts]
        return node

    def leaf(self, index: Index, r: int, p: int, served: list[Expr], bounds: list[Expr]) -> Node:
        """The scan of an index for a bitmap of a relation that is given a row of each of p."""
        rows = min(self.est.index_size(index, r)[0], self.est.fold(self.est.table_rows(r), served))
        cost = self.space.costs.part(index, (r, p), bounds, len(served))
        node = {**self.node("Bitmap Index Scan", 0, cost, rows), "Index Name": index.name}
        return self.add(node, Index_Cond=[self.conditions.text(e, r) for e in served])

    # -- what stands above the plan of the relations

    def above(self, head: Head, child: Node) -> Node:
        """A node of LIMIT, of grouping or of a sort of groups over another node."""
        name, _, keys = head.text.partition(" by ")
        if name == "Sort":
            startup = cost_rules.sort(child["Total Cost"], head.rows)[0]
            return self.under({**self.node("Sort", startup, head.cost, head.rows), "Sort Key": self.split(keys)}, child)
        if name in STRATEGIES:
            startup = child["Startup Cost"] if name == "GroupAggregate" else head.cost - 4 * head.rows
            node = {**self.node("Aggregate", startup, head.cost, head.rows), "Strategy": STRATEGIES[name], "Partial Mode": "Simple"}
            if keys:
                node["Group Key"] = [key.split()[0] for key in self.split(keys)]
            if name == "HashAggregate":
                node["Planned Partitions"] = 0
            return self.under(node, child)
        return self.under(self.node("Limit", self.before_window(child), head.cost, head.rows), child)

    def split(self, keys: str) -> list[str]:
        """Keys that are printed in one line."""
        texts = keys.split(", ")
        return [text.split(".", 1)[1] for text in texts] if len(self.space.q.rels) == 1 else texts

    def before_window(self, child: Node) -> int:
        """The cost that comes before the first row behind OFFSET."""
        _, offset = self.space.q.window or (None, 0)
        return cost_rules.price((child["Startup Cost"], child["Total Cost"]), min(offset, child["Plan Rows"]), child["Plan Rows"])


def in_units(node: Node) -> Node:
    """A node, and all below it, with costs in PostgreSQL's units."""
    costs = {key: round(node[key] / UNIT, 2) for key in ("Startup Cost", "Total Cost")}
    return {**node, **costs, **({"Plans": [in_units(child) for child in node["Plans"]]} if "Plans" in node else {})}


def plan_node(found: Explained) -> Node:
    """The node of a whole plan."""
    nodes = Nodes(found)
    node = nodes.of(found.plan)
    for head in reversed(found.heads):
        node = nodes.above(head, node)
    return in_units(node)
