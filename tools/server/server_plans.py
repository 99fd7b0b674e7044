"""The plan that a server chooses in pgplan's plan space, written as pgplan writes plans."""
from __future__ import annotations

import json
import re

from .conditions import OURS, THEIRS, Compare, Condition, Joined, Ref, Relation
from .psql import Left, Server
from .queries import Query
from .schema import Schema

# What the server has and pgplan has not is off.
SPACE = "".join(f"SET {setting}; " for setting in (
    "enable_hashjoin = off", "enable_material = off", "enable_memoize = off", "enable_incremental_sort = off", "enable_hashagg = off",
    "max_parallel_workers_per_gather = 0", "geqo = off", "from_collapse_limit = 12", "join_collapse_limit = 12"))
PASSED = {"Materialize", "Result", "Unique", "Limit"}
NAME = r'(?:"(?:[^"]|"")+"|[\w$]+)'
COLUMN = re.compile(rf"(?:({NAME})\.)?({NAME})")
DIRECTION = re.compile(r"( DESC)?( NULLS (?:FIRST|LAST))?$")
PLACE = "  (cost=1 rows=1)"


def explained(server: Server, query: Query) -> dict:
    """The server's plan of a query without its LIMIT, as EXPLAIN (FORMAT JSON) prints it."""
    found = json.loads(server.text(f"{SPACE}EXPLAIN (FORMAT JSON) {query.text(THEIRS, with_window=False)}"))
    return found[0]["Plan"]


def unquoted(name: str) -> str:
    """What an identifier names."""
    return name[1:-1].replace('""', '"') if name.startswith('"') else name


def equalities(conditions: list[Condition]) -> list[tuple[Ref, Ref]]:
    """The pairs of columns that conditions at the top set equal."""
    found = []
    for condition in conditions:
        if isinstance(condition, Joined) and condition.word == "AND":
            found += equalities(list(condition.parts))
        elif isinstance(condition, Compare) and condition.sign == "=" and isinstance(condition.right, Ref):
            found.append((condition.left, condition.right))
    return found


class PlanWriter:
    """Writes the server's plan of one query. Each line has numbers that are to be corrected."""

    def __init__(self, query: Query, schema: Schema) -> None:
        self.query, self.schema = query, schema
        self.relations = {relation.alias: relation for relation in query.relations}
        self.classes: list[set[Ref]] = []
        for pair in equalities(query.conditions):
            joined = [known for known in self.classes if known & set(pair)]
            self.classes = [known for known in self.classes if known not in joined] + [set(pair).union(*joined)]

    def lines(self, plan: dict) -> list[str]:
        """The lines of the whole plan. A sort on top is dropped if the query asks for no order."""
        while plan["Node Type"] in PASSED or plan["Node Type"] == "Sort" and not self.query.ordered:
            plan = plan["Plans"][0]
        return self._lines(plan, 0)

    def _lines(self, plan: dict, depth: int) -> list[str]:
        """The lines of a node and its inputs."""
        kind, inputs = plan["Node Type"], plan.get("Plans", [])
        if kind in PASSED:
            return self._lines(inputs[0], depth)
        indent = "" if depth == 0 else " " * (6 * depth - 4) + "->  "
        below = [line for part in inputs for line in self._lines(part, depth + 1)]
        numbers = "" if kind in ("Bitmap Index Scan", "BitmapAnd") else PLACE
        return [indent + self._label(plan) + numbers, *below]

    def _label(self, plan: dict) -> str:
        """What a node is called."""
        kind = plan["Node Type"]
        if "ANY (" in plan.get("Index Cond", ""):
            raise Left("an index condition with ANY")
        if kind in ("Seq Scan", "Bitmap Heap Scan"):
            return kind + self._scanned(plan)
        if kind in ("Index Scan", "Index Only Scan"):
            back = " Backward" if plan["Scan Direction"] == "Backward" else ""
            return f"{kind}{back} using {self._index(plan)}{self._scanned(plan)}"
        if kind == "Bitmap Index Scan":
            return f"{kind} on {self._index(plan)}"
        if kind in ("BitmapAnd", "Nested Loop"):
            return kind
        on = self._below(plan)
        if kind == "Sort":
            return f"Sort by {', '.join(self._key(key, on) for key in plan['Sort Key'])}"
        if kind == "Merge Join":
            pairs = re.findall(r"\(([^()]+|\(.*?\)::\w+) = ", plan["Merge Cond"])
            return f"Merge Join by {', '.join(dict.fromkeys(self._key(key, on) for key in pairs))}"
        raise Left(f"a {kind} node")

    def _index(self, plan: dict) -> str:
        """The name of an index, which must be one that the export keeps."""
        if not any(index.name == plan["Index Name"] for table in self.schema.tables.values() for index in table.indexes):
            raise Left(f"the index {plan['Index Name']} is left out")
        return plan["Index Name"]

    def _below(self, plan: dict) -> set[str]:
        """The aliases that a node stands on."""
        return {plan["Alias"]} if "Alias" in plan else set().union(*(self._below(part) for part in plan.get("Plans", [])))

    def _scanned(self, plan: dict) -> str:
        """The table of a scan with its alias, and the aliases whose values its index conditions take."""
        relation = self.relations[plan["Alias"]]
        conditions = " ".join(self._index_conditions(plan))
        names = {unquoted(found[1]) for found in COLUMN.finditer(re.sub(r"'(?:[^']|'')*'", "", conditions)) if found[1]}
        given = [other.ours for other in self.query.relations if other.alias in names and other is not relation]
        alias = "" if relation.ours == relation.table.name else f" {relation.ours}"
        return f" on {relation.table.name}{alias}" + (f" for {', '.join(given)}" if given else "")

    def _index_conditions(self, plan: dict) -> list[str]:
        """The index conditions of a scan and of the bitmaps below it."""
        return [plan.get("Index Cond", ""), *(found for part in plan.get("Plans", []) for found in self._index_conditions(part))]

    def _key(self, text: str, on: set[str]) -> str:
        """A key of a sort or a merge, named as pgplan names its class over these aliases."""
        direction = DIRECTION.search(text)
        column = re.sub(r"::[\w ]+$|[()]", "", text[:direction.start()].strip("()"))
        found = COLUMN.fullmatch(re.sub(r"::.*", "", column).strip())
        alias = unquoted(found[1]) if found and found[1] else self.query.relations[0].alias
        name = unquoted(found[2]) if found else ""
        if alias not in self.relations or name not in self.relations[alias].table.columns:
            raise Left(f"a sort by {text}")
        ref = Ref(self.relations[alias], self.relations[alias].table.columns[name])
        return self._named(ref, on).text(OURS) + direction[0]

    def _named(self, ref: Ref, on: set[str]) -> Ref:
        """The first member in FROM order of a column's class, among these aliases."""
        members = next((known for known in self.classes if ref in known), {ref})
        place: dict[Relation, int] = {relation: at for at, relation in enumerate(self.query.relations)}
        return min((member for member in members if member.relation.alias in on),
                   key=lambda member: (place[member.relation], member.column.place), default=ref)
