"""Runs of a whole script, and the words of the command line."""

from __future__ import annotations

from typing import Callable

from .catalog import Catalog
from .pg_base import Fault
from .statements import read_statement, reply

MOST_BYTES = 16_777_216
USAGE = b"usage: pgplan run | pgplan sample N\n"
# Output, errors and status.
Answer = tuple[bytes, bytes, int]


def run(text: bytes, write: Callable[[bytes], object], catalog: Catalog, last: bool = False) -> Fault | None:
    """Carries the statements of a script out, up to its first fault."""
    at = 0
    while at < len(text):
        try:
            statement = read_statement(catalog, text, at)
            out = reply(statement, catalog, last)
        except Fault as fault:
            return fault
        write(out)
        at = statement.next
    return None


def answer(text: bytes, last: bool = False) -> Answer:
    """What `pgplan run` has to answer to a script. Among plans of equal cost the first or the last one met is taken."""
    if len(text) > MOST_BYTES:
        return b"", b"ERROR 54000 script longer than %d bytes\n" % MOST_BYTES, 6
    pieces: list[bytes] = []
    fault = run(text, pieces.append, Catalog(), last)
    return b"".join(pieces), fault.line().encode("latin-1") if fault else b"", 3 if fault else 0


def answer_to_words(words: list[str], script: Callable[[], bytes], last: bool = False) -> Answer:
    """What `pgplan` has to answer to words of the command line."""
    from .sample import summary

    if words == ["run"]:
        return answer(script(), last)
    if len(words) == 2 and words[0] == "sample":
        number = words[1]
        if 1 <= len(number) <= 20 and all(c in "0123456789" for c in number) and int(number) < 1 << 64:
            return summary(int(number), last), b"", 0
    return b"", USAGE, 1
