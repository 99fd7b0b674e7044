"""Sessions with a PostgreSQL server that runs the plans which hints name, by an extension that is compiled for it.

Needs, beside what tools/own_server.py needs, gcc and the headers of Debian's package postgresql-server-dev of the same version.
"""
from __future__ import annotations

import json
import os
import pathlib
import subprocess
import sys
from typing import Any, Optional

EXTENSION = pathlib.Path(__file__).resolve().parent / "forced_plans.c"
# The nodes that pgplan does not have.
OTHER_NODES = ("hashjoin", "material", "memoize", "incremental_sort")
LAST_LINE = "-- end of the answer"


def built_extension(binaries: pathlib.Path) -> str:
    """The extension, compiled for the running server of these programs into the folder of its socket."""
    version = binaries.parent.name
    headers = pathlib.Path("/usr/include/postgresql", version, "server")
    if not headers.exists():
        sys.exit(f"no {headers}: install postgresql-server-dev-{version}")
    built = f"{os.environ['PGHOST']}/forced_plans.so"
    subprocess.run(["gcc", "-O2", "-fPIC", "-shared", f"-I{headers}", "-o", built, str(EXTENSION)], check=True)
    return built


class Session:
    """A session of psql in a schema with the extension. PGHOST and PGUSER say where the server is."""

    def __init__(self, extension: str, schema: str) -> None:
        self.process = subprocess.Popen(["psql", "-X", "-q", "-A", "-t", "-d", "postgres"], stdin=subprocess.PIPE, stdout=subprocess.PIPE,
                                        stderr=subprocess.STDOUT, encoding="utf-8")
        self.run(f"LOAD '{extension}'; SET search_path = {schema};")
        self.backend = int(self.run("SELECT pg_backend_pid();"))

    def close(self) -> None:
        """Ends the session."""
        self.process.communicate("\\q\n")

    def run(self, text: str) -> str:
        """What psql prints for statements, with errors and warnings."""
        assert self.process.stdin and self.process.stdout
        self.process.stdin.write(f"{text}\n\\echo {LAST_LINE}\n")
        self.process.stdin.flush()
        lines: list[str] = []
        for line in self.process.stdout:
            if line.rstrip("\n") == LAST_LINE:
                return "".join(lines)
            lines.append(line)
        raise SystemExit(f"psql ended: {''.join(lines)}")

    def allow_other_nodes(self, allowed: bool) -> None:
        """Lets the planner use nodes that pgplan does not have, or keeps it from them."""
        self.run("".join(f"SET enable_{node} = {'on' if allowed else 'off'};" for node in OTHER_NODES))

    def explain(self, sql: str, hints: str = "") -> tuple[dict[str, Any], str]:
        """The plan of a query by EXPLAIN (FORMAT JSON), and what the server said beside it."""
        said = self.run(f"{hints} EXPLAIN (FORMAT JSON) {sql};")
        begin = said.find("[\n")
        if begin < 0:
            raise SystemExit(f"no plan of {hints} {sql}: {said}")
        return json.loads(said[begin:])[0]["Plan"], said[:begin].strip()

    def processor_ms(self) -> float:
        """The processor time that the session's backend has taken, in milliseconds."""
        return int(pathlib.Path(f"/proc/{self.backend}/schedstat").read_text().split()[0]) / 1e6

    def timed(self, sql: str, hints: str = "") -> Optional[float]:
        """The processor milliseconds of one run of a query, or None if statement_timeout cancels it."""
        before = self.processor_ms()
        said = self.run(f"{hints} EXPLAIN (ANALYZE, TIMING OFF, FORMAT JSON) {sql};")
        if "[\n" not in said and "statement timeout" not in said:
            raise SystemExit(f"no run of {hints} {sql}: {said}")
        return self.processor_ms() - before if "[\n" in said else None
