"""Wall time and peak memory of a program by GNU time, processor time of a plan, and a PostgreSQL server's planning time."""
import re
import resource
import subprocess

# What the server has and pgplan has not is off.
SETTINGS = ["enable_hashjoin = off", "enable_material = off", "enable_memoize = off", "enable_incremental_sort = off",
            "max_parallel_workers_per_gather = 0", "geqo = off", "from_collapse_limit = 12", "join_collapse_limit = 12"]


def measure(command, text):
    """The least wall time of five runs, to 10 ms, and the greatest peak memory in KiB, of a program with this standard input."""
    best, peak = None, 0
    for _ in range(5):
        ran = subprocess.run(["/usr/bin/time", "-f", "%e %M", *command], input=text, stdout=subprocess.DEVNULL,
                             stderr=subprocess.PIPE, text=True, check=True)
        seconds, kibibytes = ran.stderr.split()[-2:]
        best = float(seconds) if best is None else min(best, float(seconds))
        peak = max(peak, int(kibibytes))
    return max(best, 0.01), peak


def used():
    """The processor time of the programs that were run, in seconds."""
    usage = resource.getrusage(resource.RUSAGE_CHILDREN)
    return usage.ru_utime + usage.ru_stime


def planned(program, definitions, query, turns):
    """The processor seconds of one plan: of a run with so many EXPLAINs less one without, each the least of three."""
    least = []
    for explained in (0, turns):
        text, times = definitions + f"EXPLAIN {query};\n" * explained, []
        for _ in range(3):
            before = used()
            subprocess.run([program, "run"], input=text.encode(), capture_output=True, check=True)
            times.append(used() - before)
        least.append(min(times))
    return (least[1] - least[0]) / turns


def planned_by_server(definitions, queries, turns):
    """The least planning time, in seconds, that so many EXPLAINs of each query tell in one session of psql."""
    text = "".join(f"SET {setting};\n" for setting in SETTINGS) + definitions
    for query in queries:
        text += f"EXPLAIN (SUMMARY ON) {query};\n" * turns
    ran = subprocess.run(["psql", "-X", "-q", "-At", "-v", "ON_ERROR_STOP=1", "postgres"], input=text, capture_output=True,
                         text=True, check=True)
    told = [float(t) / 1000 for t in re.findall(r"Planning Time: ([0-9.]+) ms", ran.stdout)]
    return [min(told[n:n + turns]) for n in range(0, len(told), turns)]
