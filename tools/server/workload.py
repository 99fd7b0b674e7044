"""The queries to be advised, each with its calls."""
from __future__ import annotations

from .psql import Left, Server, identifier
from .words import split_statements

EXTENSION = "SELECT n.nspname AS name FROM pg_extension e JOIN pg_namespace n ON n.oid = e.extnamespace WHERE e.extname = 'pg_stat_statements'"

# Older versions call the time total_time.
STATEMENTS = """SELECT query, sum(calls) AS calls, sum(coalesce(to_jsonb(s) ->> 'total_exec_time', to_jsonb(s) ->> 'total_time')::float8) AS time
    FROM %s.pg_stat_statements s JOIN pg_database d ON d.oid = s.dbid
    WHERE d.datname = current_database() AND query ~* '^\\s*(/\\*.*?\\*/\\s*)?select\\M.*\\mfrom\\M' AND query !~* '\\m(pg_|information_schema)'
    GROUP BY query ORDER BY time DESC, query LIMIT %d"""


def from_file(path: str) -> list[tuple[str, int]]:
    """The statements of a file."""
    with open(path, encoding="utf-8") as file:
        return [(sql, 1) for sql in split_statements(file.read())]


def from_statements(server: Server, most: int) -> list[tuple[str, int]]:
    """The SELECTs of pg_stat_statements that took longest in all."""
    found = server.rows(EXTENSION)
    if not found:
        raise Left(f"{server.database} has no extension pg_stat_statements")
    return [(row["query"], int(row["calls"])) for row in server.rows(STATEMENTS % (identifier(found[0]["name"]), most))]
