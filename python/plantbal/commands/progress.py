"""Shows on a terminal that a long run lives, and about how far it is."""

from __future__ import annotations

import re
import sys
import time
from collections.abc import Callable
from types import TracebackType
from typing import TextIO

from plantbal.plain import beneath
from plantbal.records import read_records

_ROW = re.compile(rb"^(report|stream|measure|end),", re.MULTILINE)


class Progress:
    """One line on a terminal, written anew each second from the second one on; silent elsewhere.

    Parameters
    ----------
    prog : str
        What runs.
    session : bytes
        The session: it says how many reports are asked for.
    to : file, optional
        Where it is shown; without it standard error.
    after : float
        After how many seconds it is shown first.
    """

    def __init__(
        self, prog: str, session: bytes, to: TextIO | None = None, after: float = 2.0
    ) -> None:
        self.prog, self.after = prog, after
        self.to = to if to is not None else beneath(sys.stderr)
        self.reports = reports_asked(session) if self.to.isatty() else 0
        self.begin = self.last = time.monotonic()
        self.rows, self.ended = {b"report": 0, b"stream": 0, b"measure": 0}, 0
        self._rest = b""
        self._wide = 0

    def watch(self) -> Callable[[bytes], None] | None:
        """Return what takes the pieces of an output, or None if nobody looks on."""
        return self if self.to.isatty() else None

    def __call__(self, piece: bytes) -> None:
        """Take a piece of the output, and show how far it is if it is time."""
        whole, line_end, rest = (self._rest + piece).rpartition(b"\n")
        self._rest = rest
        for found in _ROW.finditer(whole + line_end):
            self._count(found.group(1))
        now = time.monotonic()
        if now - self.begin >= self.after and now - self.last >= 1:
            self.last = now
            said = self.says(now - self.begin)
            self._wide = max(self._wide, len(said))
            self.to.write(f"\r{said:{self._wide}}")
            self.to.flush()

    def _count(self, kind: bytes) -> None:
        if kind == b"report":
            self.rows = dict.fromkeys(self.rows, 0)
        if kind == b"end":
            self.ended += 1
        else:
            self.rows[kind] += 1

    def says(self, seconds: float) -> str:
        """Return how far it is after some seconds."""
        said = f"{self.prog}: {seconds:.0f} s, report {min(self.ended + 1, self.reports)} of "
        said += f"{self.reports}"
        if self.ended >= self.reports:
            return f"{self.prog}: {seconds:.0f} s, {self.ended} rounds of reports done"
        streams, tested = self.rows[b"stream"], self.rows[b"measure"]
        if tested:
            return f"{said}: {tested} of {streams} streams tested"
        return f"{said}: {streams} streams written" if streams else f"{said}: sweeps"

    def __enter__(self) -> Progress:
        return self

    def __exit__(
        self,
        kind: type[BaseException] | None,
        error: BaseException | None,
        trace: TracebackType | None,
    ) -> None:
        if self._wide:
            self.to.write("\r" + " " * self._wide + "\r")
            self.to.flush()


def reports_asked(data: bytes) -> int:
    """Return how many reports a session asks for."""
    return sum(record.fields[0] == "report" for record in read_records(data))
