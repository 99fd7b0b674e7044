"""A PostgreSQL server for tests, and a count of what passed. Needs Debian's package postgresql.

The server runs on a socket in a temporary folder, as the user postgres where this user is root, and is stopped at the end.
"""
from __future__ import annotations

import contextlib
import os
import pathlib
import pwd
import shutil
import subprocess
import tempfile
from collections.abc import Callable, Iterator

# Runs psql on a database, with an input and further words of its command line, and returns what it prints.
Psql = Callable[..., str]


class Checks:
    """Counts what passed and failed, and runs a built pgplan."""

    def __init__(self, program: pathlib.Path) -> None:
        self.program, self.passed, self.failures = program, 0, []

    def that(self, holds: bool, failure: str) -> None:
        """One check, with what is told where it fails."""
        self.passed += bool(holds)
        if not holds:
            self.failures.append(failure)

    def run(self, script: str) -> str:
        """What pgplan prints for a script, which it must accept with status 0."""
        ran = subprocess.run([self.program, "run"], input=script.encode(errors="surrogateescape"), capture_output=True)
        self.that(not ran.returncode and not ran.stderr, f"status {ran.returncode}, {ran.stderr.decode().strip()}: {script[-200:]}")
        return ran.stdout.decode()


def as_server() -> list[str]:
    """Words that run a command as the server's user: a server is refused to root."""
    return ["runuser", "-u", "postgres", "--"] if os.geteuid() == 0 else []


def newest() -> pathlib.Path:
    """The folder of the newest server's programs."""
    return max(pathlib.Path("/usr/lib/postgresql").glob("*/bin"), key=lambda it: int(it.parent.name))


@contextlib.contextmanager
def server(binaries: pathlib.Path, settings: str = "") -> Iterator[Psql]:
    """A server in a temporary folder with further settings, while its psql is used. PGHOST and PGUSER say where it is."""
    with tempfile.TemporaryDirectory() as folder:
        if os.geteuid() == 0:
            shutil.chown(folder, "postgres")
        data, who = f"{folder}/data", "postgres" if os.geteuid() == 0 else pwd.getpwuid(os.geteuid()).pw_name

        def run(*words: str, given: str = "") -> str:
            """What a command prints, run as the server's user."""
            ran = subprocess.run([*as_server(), *words], input=given, encoding="utf-8", errors="surrogateescape", capture_output=True, cwd=folder)
            if ran.returncode:
                raise SystemExit(f"{words[0]}: {ran.stderr}")
            return ran.stdout

        run(f"{binaries}/initdb", "-D", data, "-A", "trust", "--locale=C.UTF-8", "-E", "UTF8", "-N")
        options = f"-k {folder} -c listen_addresses='' -c fsync=off -c timezone=UTC {settings}"
        run(f"{binaries}/pg_ctl", "-D", data, "-w", "-l", f"{folder}/log", "-o", options, "start")
        os.environ.update(PGHOST=folder, PGUSER=who)
        try:
            yield lambda database, given, *words: run(f"{binaries}/psql", "-X", "-q", "-h", folder, "-U", who, "-v", "ON_ERROR_STOP=1",
                                                      "-d", database, *words, given=given)
        finally:
            run(f"{binaries}/pg_ctl", "-D", data, "-m", "immediate", "stop")
