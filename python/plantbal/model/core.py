"""The proved core, if its library is installed: it answers the rows of a session.

It takes each row that the model takes, in the same order, and says with which code a row is
refused, or that it is accepted. What the answer means is the model's part.
"""

from __future__ import annotations

import os
from collections.abc import Iterable, Iterator, Sequence
from functools import lru_cache
from typing import Protocol

from plantbal.model.forms import ASKS, LIMITS
from plantbal.model.readings import ReadingRows
from plantbal.records import without_empty_end

# The core judges `report` as it judges `history`: whether the period is declared. Asked in this
# way it makes no study, whose output nobody wants here.
_ASKED_AS = {"report": "history"}
# Of these it makes a study, without a sweep. A block ends with each, since a call can't be stopped.
_STUDIED = ("window", "component")
_GAP = LIMITS["most_gap"]


class Core(Protocol):
    """A session of the library: `plantbal._native.NativeSession`."""

    def row(self, fields: Iterable[bytes]) -> int:
        """Take a row, and return its code, 0 if it is accepted."""

    def rows(self, data: bytes) -> bytes:
        """Take rows as lines of CSV, and return a code for each."""

    def records(self, records: Iterable[Iterable[bytes]]) -> bytes:
        """Take rows as their fields, and return a code for each."""

    def output(self) -> bytes:
        """Return what the rows have added to the output since the last call."""


def installed_core() -> Core | None:
    """Return a session of the library that is installed, or None if there is none."""
    return _session() if _is_installed(os.environ.get("PLANTBAL_LIBRARY", "")) else None


@lru_cache(maxsize=8)
def _is_installed(named: str) -> bool:
    """Return whether the library is there, that one of a name if there is a name."""
    try:
        from plantbal import _native
    except ImportError:
        return False
    return _native.is_there()


def _session() -> Core:
    from plantbal import _native

    return _native.NativeSession(gap=_GAP, sweeps=0)


class CoreSession:
    """A session of the core that takes the rows of a model.

    Parameters
    ----------
    core : Core
        The session of the library, which has taken no row.
    """

    def __init__(self, core: Core) -> None:
        self._core = core

    def code(self, fields: Sequence[str]) -> int:
        """Take a row, and return its code: 0 if it is accepted."""
        fields = without_empty_end(tuple(fields))
        code = self._core.row(_encoded(fields))
        if code or (fields and fields[0] in ASKS):
            self._core.output()
        return code

    def codes(self, rows: Sequence[Sequence[str]]) -> bytes:
        """Take a block of rows, and return a code for each."""
        plain = rows.plain() if isinstance(rows, ReadingRows) else None
        if plain is not None:
            found = self._core.rows(plain.encode("utf-8", "surrogatepass"))
            self._core.output()
        else:
            found = b"".join(map(self._block, _blocks(rows)))
        assert len(found) == len(rows), "the core answers each row"
        return found

    def _block(self, rows: Sequence[Sequence[str]]) -> bytes:
        """Take rows by their fields, and return their codes."""
        found = self._core.records(_encoded(without_empty_end(tuple(row))) for row in rows)
        self._core.output()
        return found


def _blocks(rows: Iterable[Sequence[str]]) -> Iterator[list[Sequence[str]]]:
    """Give rows in blocks, each of which ends with a row that is studied."""
    block: list[Sequence[str]] = []
    for row in rows:
        block.append(row)
        if row and row[0] in _STUDIED:
            yield block
            block = []
    if block:
        yield block


def _encoded(fields: Sequence[str]) -> list[bytes]:
    """Return a row's fields as bytes; what isn't ASCII has no valid form in whatever encoding."""
    texts = [field.encode("utf-8", "surrogatepass") for field in fields]
    if fields and fields[0] in _ASKED_AS:
        texts[0] = _ASKED_AS[fields[0]].encode()
    return texts
