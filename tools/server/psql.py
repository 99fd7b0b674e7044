"""Asks a PostgreSQL server through psql, so that no object of another user runs and nothing is changed."""
from __future__ import annotations

import json
import os
import pathlib
import subprocess

EXPORT = pathlib.Path(__file__).resolve().parent.parent / "from_postgres.sql"

# Names resolve in pg_catalog alone, and values are printed in one form.
SETTINGS = {"search_path": "pg_catalog", "standard_conforming_strings": "on", "quote_all_identifiers": "off", "timezone": "UTC",
            "datestyle": "ISO", "intervalstyle": "postgres", "default_transaction_read_only": "on", "statement_timeout": "60s"}


class Left(Exception):
    """Why a query, or a part of one, is left out."""


class Unreachable(Exception):
    """What psql says of a server that cannot be asked."""


class Server:
    """One schema of a database. PGHOST, PGPORT, PGUSER and the like say where it is, as for psql."""

    def __init__(self, database: str, schema: str = "public") -> None:
        self.database, self.schema = database, schema
        settings = " ".join(f"-c {name}={value}" for name, value in SETTINGS.items())
        self.environment = dict(os.environ, PGOPTIONS=f"{os.environ.get('PGOPTIONS', '')} {settings}".strip(), PGCLIENTENCODING="UTF8")

    def _run(self, *words: str) -> subprocess.CompletedProcess:
        """psql with these words behind those that every call has."""
        try:
            return subprocess.run(["psql", "-X", "-q", "-A", "-t", "-d", self.database, *words], capture_output=True,
                                  stdin=subprocess.DEVNULL, env=self.environment, check=False)
        except OSError as fault:
            raise Unreachable(f"psql: {fault.strerror}") from fault

    def text(self, sql: str) -> str:
        """The reply to statements. They go as one word of the command line, in which psql reads no commands of its own."""
        ran = self._run("-v", "ON_ERROR_STOP=1", "-c", sql)
        if ran.returncode == 2:
            raise Unreachable(ran.stderr.decode(errors="replace").strip())
        if ran.returncode:
            said = ran.stderr.decode(errors="replace").strip().splitlines() or ["no reply"]
            raise Left("the server says: " + said[0].split("ERROR:")[-1].strip())
        return ran.stdout.decode(errors="surrogateescape")

    def rows(self, sql: str) -> list[dict]:
        """The rows of a SELECT."""
        return json.loads(self.text(f"SELECT coalesce(json_agg(z), '[]') FROM ({sql}) z"))

    def export(self) -> bytes:
        """The schema as tools/from_postgres.sql writes it, in the encoding of the database."""
        ran = self._run("-v", f"schema={self.schema}", "-f", str(EXPORT))
        if ran.returncode:
            raise Unreachable(ran.stderr.decode(errors="replace").strip())
        return ran.stdout


def quoted(text: str) -> str:
    """A text as a literal of SQL."""
    return "'" + text.replace("'", "''") + "'"


def identifier(name: str) -> str:
    """A name as an identifier of SQL, always in quotes."""
    return '"' + name.replace('"', '""') + '"'
