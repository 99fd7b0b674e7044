#!/usr/bin/env python3
"""Shows pgplan's plans for a script as PostgreSQL's users know them: with conditions, and with costs in its units.

usage: tools/viewplan.py [--as FORM] [--plan N] [--program PROGRAM] SCRIPT..

The scripts are read as one. FORM is

text   the text of PostgreSQL's EXPLAIN (the default);
json   EXPLAIN (FORMAT JSON), which plan viewers such as pgAdmin and explain.dalibo.com read; a list of plans without --plan;
dot    a picture for Graphviz: tools/viewplan.py --as dot --plan 2 SCRIPT | dot -Tpng > plan.png

N is the number of a SELECT among those of the script, from 1; without it all are shown. Needs Python 3.11. See docs/PLAN-TOOLS.md.
"""
from __future__ import annotations

import argparse
import json
import pathlib
import sys
from typing import Callable, Iterator

from explained import Explained, explained
from plan_nodes import Node, plan_node
from server.program import program
from server.psql import Unreachable

NOTES = ("Sort Key", "Group Key", "Index Cond", "Recheck Cond", "Merge Cond", "Join Filter", "Filter")
AGGREGATES = {"Plain": "Aggregate", "Sorted": "GroupAggregate", "Hashed": "HashAggregate"}
# How many characters a line of a picture has at most.
MOST_IN_PICTURE = 60


def title(node: Node) -> str:
    """What a node is, as the first words of its line."""
    name = AGGREGATES.get(node.get("Strategy", ""), node["Node Type"])
    if node.get("Scan Direction") == "Backward":
        name += " Backward"
    if "Index Name" in node:
        name += f" {'on' if name == 'Bitmap Index Scan' else 'using'} {node['Index Name']}"
    if "Alias" in node:
        name += f" on {node['Relation Name']}" + ("" if node["Alias"] == node["Relation Name"] else f" {node['Alias']}")
    return name


def notes(node: Node) -> Iterator[str]:
    """The keys and the conditions of a node."""
    for note in NOTES:
        if note in node:
            yield f"{note}: {', '.join(node[note]) if isinstance(node[note], list) else node[note]}"


def lines(node: Node, depth: int = 0) -> Iterator[str]:
    """The lines of a plan as EXPLAIN prints them."""
    numbers = f"(cost={node['Startup Cost']:.2f}..{node['Total Cost']:.2f} rows={node['Plan Rows']} width={node['Plan Width']})"
    yield f"{' ' * (6 * depth - 4)}{'->  ' if depth else ''}{title(node)}  {numbers}"
    for note in notes(node):
        yield " " * (6 * depth + 2) + note
    for child in node.get("Plans", []):
        yield from lines(child, depth + 1)


def as_text(asked: list[tuple[int, Explained]]) -> str:
    """Plans as text, each behind its SELECT."""
    return "\n".join(f"-- plan {n}: {' '.join(found.sql.split())}\n" + "\n".join(lines(plan_node(found))) + "\n" for n, found in asked)


def as_json(asked: list[tuple[int, Explained]]) -> str:
    """Plans as EXPLAIN (FORMAT JSON)."""
    return json.dumps([{"Plan": plan_node(found)} for _, found in asked], indent=2) + "\n"


class Picture:
    """Draws one plan. A box is the redder the more of the whole cost comes from its node; an edge has the rows that go up."""

    def __init__(self, root: Node) -> None:
        self.whole, self.drawn, self.count = max(root["Total Cost"], 0.01), [], 0
        self.draw(root, 1)

    def draw(self, node: Node, times: int) -> int:
        """Draws a node that runs so many times with all below it, and returns its number."""
        number, self.count = self.count, self.count + 1
        children = node.get("Plans", [])
        runs = [1, children[0]["Plan Rows"]] if node["Node Type"] == "Nested Loop" else [1] * len(children)
        own = times * (node["Total Cost"] - sum(run * child["Total Cost"] for run, child in zip(runs, children)))
        share = max(0.0, min(1.0, own / self.whole))
        said = [title(node), *notes(node), f"cost {node['Total Cost']:,.2f}   rows {node['Plan Rows']:,}   {100 * share:.0f}% of all here"]
        label = "\\n".join(quoted(text[:MOST_IN_PICTURE]) for text in said + [f"runs {times:,} times"] * (times > 1))
        self.drawn.append(f'  n{number} [label="{label}", fillcolor="0.03 {share:.2f} 1.0"];')
        for run, child in zip(runs, children):
            below = self.draw(child, times * run)
            rows = child["Plan Rows"]
            self.drawn.append(f'  n{number} -> n{below} [dir=back, label="{rows:,}", penwidth={min(7, len(str(rows)))}];')
        return number


def quoted(text: str) -> str:
    """A text inside quotes."""
    return text.replace("\\", "\\\\").replace('"', '\\"')


def as_dot(asked: list[tuple[int, Explained]]) -> str:
    """Plans as pictures."""
    head = '  labelloc=t; fontname=Helvetica;\n  node [shape=box, style="rounded,filled", fontname=Helvetica, fontsize=11];\n' \
           "  edge [fontname=Helvetica, fontsize=10];\n"
    return "".join(f'digraph plan_{n} {{\n  label="{quoted(" ".join(found.sql.split()))}";\n{head}'
                   + "\n".join(Picture(plan_node(found)).drawn) + "\n}\n" for n, found in asked)


FORMS: dict[str, Callable[[list[tuple[int, Explained]]], str]] = {"text": as_text, "json": as_json, "dot": as_dot}


def main() -> None:
    """Runs the command line."""
    parser = argparse.ArgumentParser(usage=__doc__.split("usage: ")[1].split("\n")[0])
    parser.add_argument("--as", choices=FORMS, default="text", dest="form")
    parser.add_argument("--plan", type=int)
    parser.add_argument("--program", type=pathlib.Path)
    parser.add_argument("scripts", nargs="+", type=pathlib.Path)
    words = parser.parse_args()
    try:
        script = b"".join(script.read_bytes() for script in words.scripts)
        found, fault = explained(words.program or pathlib.Path(program()), script)
    except (OSError, Unreachable) as reason:
        sys.exit(f"viewplan.py: {reason}")
    asked = [(n, each) for n, each in enumerate(found, 1) if words.plan in (None, n)]
    sys.stdout.write(FORMS[words.form](asked))
    if fault:
        sys.exit(fault.line().strip())
    if not asked:
        sys.exit(f"the script has {len(found)} SELECTs" + (f" and no number {words.plan}" if words.plan else ""))


if __name__ == "__main__":
    main()
