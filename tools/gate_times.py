#!/usr/bin/env python3
"""Says what took how long in a run of the gate: proofs, tests, wrong bodies, and the ten crates that took most.

usage: tools/gate_times.py --watch LOG COMMAND..
       tools/gate_times.py LOG

`rt ci` tells no times. With --watch the command, as `.ci/run` or `rt ci NAME`, is run, its lines go to LOG too, and twice a
second the processor time of each check below it is read from /proc (Linux); LOG ends with a line `time: CRATE KIND SECONDS` for
each crate and kind. The status is then the command's own. With LOG alone its times are printed, in processor minutes. What
came to no check, as what an earlier run kept, takes no time.
"""
import collections
import os
import pathlib
import re
import subprocess
import sys
import threading

KINDS = ("proofs", "tests", "edits")
TICK = os.sysconf("SC_CLK_TCK")


def process(number):
    """The parent of a process, its start, and its processor seconds; None where it has ended."""
    try:
        fields = pathlib.Path(f"/proc/{number}/stat").read_text().rpartition(")")[2].split()
        return int(fields[1]), fields[19], (int(fields[11]) + int(fields[12])) / TICK
    except (OSError, IndexError, ValueError):
        return None


def work_of(number):
    """The crate that a process checks and of what kind the check is, or None. A wrong body is checked in a folder of its own."""
    try:
        words = pathlib.Path(f"/proc/{number}/cmdline").read_text(errors="replace").split("\0")
        folder = os.path.basename(os.readlink(f"/proc/{number}/cwd"))
    except OSError:
        return None
    if "--crate-name" not in words[:-1]:
        return None
    kind = "edits" if folder.startswith("rt-edit-") else "tests" if "--test" in words else "proofs"
    return words[words.index("--crate-name") + 1], kind


class Watch:
    """What the processes below one took, each by the last look at it."""

    def __init__(self, top):
        self.top, self.seen = top, {}

    def look(self):
        found = {int(it): process(it) for it in os.listdir("/proc") if it.isdigit()}
        found = {number: said for number, said in found.items() if said}
        below = collections.defaultdict(list)
        for number, (parent, _, _) in found.items():
            below[parent].append(number)
        left = [self.top]
        while left:
            number = left.pop()
            left += below[number]
            if number in found:
                self.keep(number, *found[number][1:])

    def keep(self, number, start, seconds):
        work = self.seen.get((number, start), (None,))[0] or work_of(number)
        self.seen[number, start] = work, seconds

    def times(self):
        taken = collections.Counter()
        for work, seconds in self.seen.values():
            if work:
                taken[work] += seconds
        return taken


def watched(log, command):
    ran = subprocess.Popen(command, stdout=subprocess.PIPE, stderr=subprocess.STDOUT, text=True, errors="replace")
    watch, ended = Watch(ran.pid), threading.Event()

    def looks():
        while not ended.wait(0.5):
            watch.look()

    looking = threading.Thread(target=looks)
    looking.start()
    with open(log, "w") as kept:
        for line in ran.stdout:
            print(line, end="", flush=True)
            kept.write(line)
        status = ran.wait()
        ended.set()
        looking.join()
        for (crate, kind), seconds in sorted(watch.times().items()):
            kept.write(f"time: {crate} {kind} {seconds:.1f}\n")
    return status


def told(log):
    taken = collections.defaultdict(collections.Counter)
    for line in pathlib.Path(log).read_text().splitlines():
        found = re.fullmatch(r"time: (\S+) (\w+) ([\d.]+)", line)
        if found:
            taken[found[1]][found[2]] += float(found[3])
    if not taken:
        sys.exit(f"{log} has no times: run the gate by tools/gate_times.py --watch LOG .ci/run")
    whole = {kind: sum(crate[kind] for crate in taken.values()) for kind in KINDS}
    print(f"processor minutes: {sum(whole.values()) / 60:.1f}, " + ", ".join(f"{kind} {whole[kind] / 60:.1f}" for kind in KINDS))
    for name, crate in sorted(taken.items(), key=lambda it: -sum(it[1].values()))[:10]:
        print(f"{sum(crate.values()) / 60:7.1f}  {name}: " + ", ".join(f"{kind} {crate[kind] / 60:.1f}" for kind in KINDS if crate[kind]))


def main():
    words = sys.argv[1:]
    if len(words) > 2 and words[0] == "--watch":
        sys.exit(watched(words[1], words[2:]))
    if len(words) != 1:
        sys.exit(__doc__)
    told(words[0])


main()
