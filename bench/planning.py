#!/usr/bin/env python3
"""Times the planning of a query of one table with eight indexes, eight conditions and two ORs beside that of a plain one.

usage: bench/planning.py [TURNS]

A program run without a proof on a copy of the crates, as `rt try` builds it, plans each query so often and prints the processor
time of one plan. Nothing is promised of it.
"""
import pathlib
import sys

sys.path.insert(0, str(pathlib.Path(__file__).resolve().parent.parent / "tools"))
from trying import answers

CRATES = ["planner", "index_reader"]

PROGRAM = r"""
//! Reads definitions and a SELECT, a script a line, and prints the nanoseconds of planning it and its cost.
#![tactic(auto)]

mod script;

use catalog::Catalog;
use planner::plan;
use script::{define, query};
use std::io;
use std::time::CpuClock;

const TURNS: u64 = @TURNS@;

fn work(rt: HostRuntime, line: &str) -> io::Result<()> {
    let alloc = rt.alloc();
    let mut parts = Vec::new(alloc);
    for part in line.split('\t') {
        parts.push(part)?;
    }
    let n = parts.len();
    let mut cat = Catalog::new(alloc);
    for part in &parts[..n - 1] {
        if define(alloc, &mut cat, part.as_bytes()).is_err() {
            return println!(rt; "0 wrong {part}");
        }
    }
    match query(alloc, &cat, parts[n - 1].as_bytes()) {
        Ok(q) => {
            let mut least = 0;
            let start = rt.thread_cpu_time()?;
            for _ in 0..TURNS {
                if let Ok(planned) = plan(alloc, &cat, &q) { least = planned.best.cost; }
            }
            let spent = rt.thread_cpu_time()?;
            println!(rt; "{} {least}", (spent.as_nanos() - start.as_nanos()) / u128::from(TURNS))
        }
        Err(_) => println!(rt; "0 wrong {line}"),
    }
}

fn main(rt: HostRuntime) -> io::Result<()> {
    let alloc = rt.alloc();
    for line in rt.lines(alloc) {
        let line = line?;
        work(rt, line.as_str())?;
    }
    Ok(())
}
"""

TABLE = ["CREATE TABLE t (a int4, b int4, c int4, d int4, e int4);", "STATISTICS t ROWS 1000000 PAGES 100000;",
         *("STATISTICS t.%s DISTINCT %d NULLS 0;" % (c, n) for c, n in zip("abcde", (50, 80, 60, 1000, 200)))]
INDEXES = ["CREATE INDEX i ON t (a);", "CREATE INDEX j ON t (b);", "CREATE INDEX k ON t (c);", "CREATE INDEX l ON t (a, b);",
           "CREATE INDEX m ON t USING hash (b);", "CREATE INDEX n ON t (c DESC) INCLUDE (a);", "CREATE INDEX o ON t (d, e);",
           "CREATE INDEX p ON t (e) WHERE a < 90;"]
SCRIPTS = {
    "no index, no condition": [*TABLE, "SELECT * FROM t;"],
    "no index, 8 conditions": [*TABLE, "SELECT * FROM t WHERE @;"],
    "8 indexes, 8 conditions": [*TABLE, *INDEXES, "SELECT * FROM t WHERE @;"],
}
CONDITIONS = ("a < 50 AND b > 2 AND c <> 7 AND d = 9 AND e >= 4 AND (a = 1 OR b = 2 AND a > 10) AND (c = 3 OR b = 4) AND e IS NOT NULL")


def main():
    turns = int(sys.argv[1]) if len(sys.argv) > 1 else 1000
    lines = ["\t".join(s).replace("@", CONDITIONS) for s in SCRIPTS.values()]
    found = answers(lines, PROGRAM.replace("@TURNS@", str(turns)), CRATES, ["worked_plans/src/script.rt"])
    for name, line in zip(SCRIPTS, found):
        spent, cost = map(int, line.split())
        print(f"{name}: {spent / 1e6:.3f} ms, cost {cost}")


main()
