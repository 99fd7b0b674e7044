"""Whether output, errors and status are an allowed answer to a script.

Goes through the script statement by statement beside the output. Where any of several plans may be printed, or any of several
plans may be told that no entry of a certificate dominates, what is printed is read and tested; elsewhere the bytes are compared.
"""

from __future__ import annotations

from collections import Counter
from typing import Collection, NoReturn

from .catalog import Catalog
from .certificate_check import check, entry_fault, path_of
from .certificate_reader import NoText, Reader, need
from .certificate_text import CertificateTexts
from .group_query import Grouping, GroupPlan
from .pg_base import Fault
from .pgplan import MOST_BYTES, answer
from .plan_check import judged, line_at_fault, wrong_number
from .plan_reader import PlanReader
from .plan_tree import Finished
from .reply_text import rows_text
from .statements import Planning, Statement, checked, read_statement, reply, rows_of_plan

# The line of each status that tells of the system and not of the script.
SYSTEM_LINES = {2: b"ERROR read failed\n", 4: b"ERROR write failed\n", 5: b"ERROR 53200 out of memory\n"}
FRONT_OF_UNCOVERED = "invalid: C4 "
SHOWN = 200


class Wrong(Exception):
    """An answer that is not allowed; its one argument is the reason."""


class EndsHere(Exception):
    """The output ends inside a reply, where that is allowed."""


class Output:
    """The bytes of an output with a place in them. It may end early where the status tells of the system."""

    def __init__(self, data: bytes, may_end: bool) -> None:
        self.data, self.at, self.may_end = data, 0, may_end

    def rest(self) -> bytes:
        """What is left."""
        return self.data[self.at:]

    def lines(self) -> list[str]:
        """The whole lines that are left, without their ends, a character for each byte."""
        return self.rest().decode("latin-1").split("\n")[:-1]

    def take(self, wanted: bytes, what: str) -> None:
        """Takes these bytes."""
        got = self.data[self.at:self.at + len(wanted)]
        if got == wanted:
            self.at += len(wanted)
            return
        if self.may_end and self.at + len(got) == len(self.data) and wanted.startswith(got):
            raise EndsHere()
        begin = wanted.rfind(b"\n", 0, next((n for n, (a, b) in enumerate(zip(got, wanted)) if a != b), len(got))) + 1
        mine, other = wanted[begin:].split(b"\n")[0], self.data[self.at + begin:].split(b"\n")[0]
        raise Wrong("%s: line %d of them is %r, wanted %r" % (what, wanted.count(b"\n", 0, begin) + 1, other[:SHOWN], mine[:SHOWN]))

    def take_line(self) -> None:
        """Takes the next line, whatever it is."""
        self.at = self.data.index(b"\n", self.at) + 1

    def has_no(self, what: str) -> NoReturn:
        """The output has no such text: it is wrong, or ends inside it."""
        if self.may_end:
            raise EndsHere()
        raise Wrong(what)


def judge(script: bytes, out: bytes, err: bytes, status: int, allowed: Collection[int] = (5,), seen: Counter | None = None) -> str:
    """`ok`, or `ok (status N)` where the answer tells of the system, or `WRONG at statement K: reason`.

    `allowed` are the statuses of the system that are taken, of 2, 4 and 5. `seen` counts the statements that are judged, by their
    kinds, empty ones left out.
    """
    seen = Counter() if seen is None else seen
    before = seen.total()
    try:
        if len(script) > MOST_BYTES or status == 6:
            return _judge_whole(script, out, err, status, allowed)
        if status not in (0, 3) and status not in allowed:
            raise Wrong("status %d is not allowed here" % status)
        if status in SYSTEM_LINES and err != SYSTEM_LINES[status]:
            raise Wrong("error line %r for status %d" % (err[:SHOWN], status))
        if status == 2 and out:
            raise Wrong("output before status 2")
        if status == 2:
            return "ok (status 2)"
        _judge_statements(script, Output(out, status in (4, 5)), err, status, seen)
        return "ok" if status in (0, 3) else "ok (status %d)" % status
    except EndsHere:
        return "ok (status %d)" % status
    except Wrong as e:
        return "WRONG at statement %d: %s" % (seen.total() - before, e)


def _judge_whole(script: bytes, out: bytes, err: bytes, status: int, allowed: Collection[int]) -> str:
    """Judges the answer to a script that is too long."""
    wanted = answer(script)
    if status in allowed and status in SYSTEM_LINES and err == SYSTEM_LINES[status] and not out:
        return "ok (status %d)" % status
    if (out, err, status) != wanted:
        raise Wrong("wanted status %d, output %r, errors %r" % (wanted[2], wanted[0][:SHOWN], wanted[1]))
    return "ok"


def _judge_statements(script: bytes, output: Output, err: bytes, status: int, seen: Counter) -> None:
    """Judges reply after reply, then what the program ended with."""
    catalog, at, fault = Catalog(), 0, None
    while at < len(script) and fault is None:
        try:
            statement = read_statement(catalog, script, at)
            if statement.kind != "empty":
                seen[statement.kind] += 1
            _judge_reply(statement, catalog, output)
            at = statement.next
        except Fault as found:
            fault = found
            seen["fault"] += 1
    if output.rest():
        raise Wrong("output goes on after the last reply with %r" % output.rest()[:SHOWN])
    wanted = (3, fault.line().encode("latin-1")) if fault else (0, b"")
    if status in (0, 3) and (status, err) != wanted:
        raise Wrong("wanted status %d with %r, got status %d with %r" % (*wanted, status, err[:SHOWN]))


def _judge_reply(statement: Statement, catalog: Catalog, output: Output) -> None:
    """Takes an allowed reply to a statement."""
    kind = statement.kind
    if statement.change or kind in ("empty", "advise", "use_plan"):
        output.take(reply(statement, catalog), "reply")
        return
    if kind == "check":
        _judge_check(statement, catalog, output)
        return
    p = Planning(statement.query)
    if output.may_end and not output.rest():
        raise EndsHere()
    if p.grouping:
        _judge_grouped(p, p.grouping, kind, output)
        return
    plan = _printed_plan(p, output)
    if kind == "select":
        output.take(rows_of_plan(p.space, plan.plan), "rows of the printed plan")
    elif kind == "explain_table":
        _judge_certificate(p, plan, catalog, output)


def _printed_plan(p: Planning, output: Output) -> Finished:
    """Takes the lines of a plan of least price, and gives it."""
    lines = output.lines()
    depth = 1 if p.texts.has_window else 0
    reader = PlanReader(p.space, p.texts, lines, min(depth, len(lines)))
    try:
        written = reader.node(depth)
    except NoText:
        output.has_no("no plan text: line %d is %r" % (reader.at, "".join(lines[max(0, reader.at - 1):reader.at])[:SHOWN]))
    plan = judged(p.space, written)
    if isinstance(plan, str):
        output.has_no("printed plan: " + plan)
    price = p.space.price(plan.cost)
    if price != p.least:
        raise Wrong("printed plan costs %d, the least is %d" % (price, p.least))
    output.take(p.texts.plan(plan).encode("latin-1"), "plan text")
    return plan


def _judge_grouped(p: Planning, grouping: Grouping, kind: str, output: Output) -> None:
    """Takes the lines of a plan that groups of least cost, and its rows."""
    try:
        plan = _printed_group_plan(p, grouping, output.lines())
    except NoText:
        output.has_no("no plan that groups with its own numbers")
    if plan.cost != p.least:
        raise Wrong("printed plan that groups costs %d, the least is %d" % (plan.cost, p.least))
    output.take(grouping.text(plan).encode("latin-1"), "plan text")
    if kind == "select":
        output.take(rows_text(grouping.types(), grouping.lines(plan)), "rows of the printed plan")


def _printed_group_plan(p: Planning, grouping: Grouping, lines: list[str]) -> GroupPlan:
    """The plan that groups whose lines come next, with its own numbers."""
    reader, depth = PlanReader(p.space, p.texts, lines), 0
    text = reader.numbered(0)[0]
    if text.startswith("Sort by "):
        depth, text = 1, reader.numbered(1)[0]
    form = "hashed" if text.startswith("HashAggregate by ") else "sorted"
    need(form == "sorted" or grouping.keys)
    written = reader.node(depth + 1)
    need(line_at_fault(p.space, written) is None)
    base = p.space.finished(written.plan, grouping.keys if form == "sorted" else ())
    if base is None or wrong_number(p.space, written):
        raise NoText()
    plan = grouping.plan(form, base)
    need(grouping.text(plan).split("\n")[:-1] == lines[:reader.at])
    return plan


def _judge_certificate(p: Planning, plan: Finished, catalog: Catalog, output: Output) -> None:
    """Takes a certificate of EXPLAIN (TABLE) with the line behind it."""
    rest = output.rest()
    end = 0 if rest.startswith(b"\\.\n") else rest.find(b"\n\\.\n") + 1
    if not rest[end:].startswith(b"\\.\n"):
        output.has_no("no line \\. after the certificate")
    verdict = check(p.space, p.texts, catalog.indexes, rest[:end].decode("latin-1"))
    if verdict.reason is not None or verdict.best is None:
        raise Wrong("printed certificate: %s" % verdict.reason)
    texts = CertificateTexts(p.texts)
    order = [texts.print_order(path) for path in verdict.paths]
    for n, (a, b) in enumerate(zip(order, order[1:]), 2):
        if a > b:
            raise Wrong("entry %d stands out of the order of printing" % n)
    if verdict.best.plan != plan.plan:
        raise Wrong("the best plan of the certificate is another than the printed one")
    output.at += end + 3


def _judge_check(statement: Statement, catalog: Catalog, output: Output) -> None:
    """Takes the line of a verdict. Where a plan is dominated by no entry, any such plan may be told."""
    verdict, space, texts = checked(statement, catalog)
    if verdict.reason is None or not verdict.reason.startswith("C4 ") or verdict.covered is None:
        output.take(verdict.line().encode("latin-1"), "verdict")
        return
    line = (output.lines() or [""])[0]
    if not output.lines():
        output.has_no("no verdict")
    if not line.startswith(FRONT_OF_UNCOVERED):
        raise Wrong("verdict %r, wanted a plan that no entry dominates, such as %r" % (line[:SHOWN], verdict.reason))
    try:
        entry = Reader(space, texts, catalog.indexes).entry(line[len(FRONT_OF_UNCOVERED):])
    except NoText:
        raise Wrong("verdict %r names no entry line" % line[:SHOWN]) from None
    path = path_of(space, entry, verdict.paths)
    fault = entry_fault(space, 0, entry, path)
    if fault or path is None:
        raise Wrong("the plan of %r is none: %s" % (line[:SHOWN], fault))
    if verdict.covered(path):
        raise Wrong("the plan of %r is dominated by an entry" % line[:SHOWN])
    output.take_line()
