"""A plant's session: its digest before the run, whether it changed, and what it says of periods."""

from __future__ import annotations

import errno
import hashlib
import os
import re
import stat
import time
from collections.abc import Collection, Iterable, Iterator
from dataclasses import dataclass
from itertools import chain, islice
from pathlib import Path
from typing import BinaryIO

from plantbal.faults import FileFault, InputFault, Place
from plantbal.limits import SESSION_BYTES
from plantbal.records import read_records

# In nanoseconds. Some file systems keep times in steps of two seconds, and a second change within a
# step may leave no trace.
_STEP = 2_000_000_000
# How much of a session is read at once.
_PART = 1 << 20


class SessionTooLarge(InputFault):
    """A session with more bytes than the program takes.

    Parameters
    ----------
    path : Path
        The file.
    """

    def __init__(self, path: Path) -> None:
        what = f"it has more than {SESSION_BYTES:,} bytes"
        super().__init__(what, place=Place(file=str(path)), remedy="split it")


@dataclass(frozen=True, slots=True)
class Given:
    """A session as it was read before its run.

    Attributes
    ----------
    sha256 : str
        Its digest.
    state : tuple of int
        The file's number, size and times.
    settled : bool
        Whether every later change of the file shows in `state`.
    """

    sha256: str
    state: tuple[int, ...]
    settled: bool

    @classmethod
    def read(cls, path: Path) -> Given:
        """Read a session.

        Raises
        ------
        SessionTooLarge
            If it has more bytes than a session may have; then it isn't read.
        InputFault
            If it can't be read.
        """
        now = time.time_ns()
        try:
            # A pipe isn't opened: that would wait for whoever writes to it.
            if stat.S_IFMT(path.stat().st_mode) not in (stat.S_IFREG, stat.S_IFDIR):
                raise OSError(errno.EINVAL, "it is a pipe or a device, not a file")
            with path.open("rb") as file:
                found = os.fstat(file.fileno())
                digest = _digest(file, path, found.st_size)
        except OSError as error:
            raise _unread(path, error) from error
        settled = max(found.st_mtime_ns, found.st_ctime_ns) < now - _STEP
        return cls(digest, _state(found), settled)

    def changed(self, path: Path) -> bool:
        """Say whether the file has other bytes by now; it is read again only if it may have.

        Raises
        ------
        InputFault
            If it can't be read.
        """
        try:
            same = self.settled and _state(path.stat()) == self.state
            if same:
                return False
            with path.open("rb") as file:
                return _digest(file, path, os.fstat(file.fileno()).st_size) != self.sha256
        except SessionTooLarge:
            return True
        except OSError as error:
            raise _unread(path, error) from error


def _digest(file: BinaryIO, path: Path, size: int) -> str:
    """Return the digest of a session, of which no more is read than it may have: it may grow.

    Raises
    ------
    SessionTooLarge
        If it has more.
    """
    found, count = hashlib.sha256(), 0
    while size <= SESSION_BYTES and (part := file.read(_PART)):
        found.update(part)
        count += len(part)
        size = max(size, count)
    if size > SESSION_BYTES:
        raise SessionTooLarge(path)
    return found.hexdigest()


def _state(found: os.stat_result) -> tuple[int, ...]:
    """Return what of a file's entry is another one after a change."""
    return (found.st_dev, found.st_ino, found.st_size, found.st_mtime_ns, found.st_ctime_ns)


def sha256_of(path: Path) -> str:
    """Return the SHA-256 of a file.

    Raises
    ------
    InputFault
        If it can't be read.
    """
    try:
        with path.open("rb") as file:
            return hashlib.file_digest(file, "sha256").hexdigest()
    except OSError as error:
        raise _unread(path, error) from error


def _unread(path: Path, error: OSError) -> FileFault:
    return FileFault(error.strerror or "it can't be read", place=Place(file=str(path)))


def _rows(data: bytes, kind: str, refused: Collection[int]) -> Iterable[tuple[str, ...]]:
    """Give the rows of a kind without the refused ones."""
    if not refused and b'"' not in data and b"\r" not in data:
        return _lines(data, kind)  # each line is a row, and no other rows need be split
    return (
        record.fields
        for record in read_records(data)
        if record.fields[0] == kind and record.number not in refused
    )


def _lines(data: bytes, kind: str) -> Iterator[tuple[str, ...]]:
    """Give the fields of the lines that begin with a kind."""
    text, row = data.removeprefix(b"\xef\xbb\xbf"), f"{kind},.*".encode("ascii")
    first = re.match(row, text)
    for found in chain([first] if first else [], re.finditer(b"\n" + row, text)):
        yield tuple(found[0].lstrip().decode("latin-1").split(","))


def given_days(
    data: bytes, wanted: Collection[str], refused: Collection[int] = ()
) -> dict[str, str]:
    """Return the first and the last day of some periods of a session, without the refused rows."""
    rows = (row for row in _rows(data, "period", refused) if len(row) > 3 and row[1] in wanted)
    return {row[1]: f"{row[2]}..{row[3]}" for row in islice(rows, len(wanted))}


def has_critical(data: bytes, refused: Collection[int] = ()) -> bool:
    """Say whether a session has critical values of the global test."""
    return any(row[:2] == ("critical", "global") for row in _rows(data, "critical", refused))
