"""A lock that keeps two commands on one book apart; it goes with the process that holds it.

Whoever only reads shares it with other readers, and needs no right to write.
What is there for Windows was never run.
"""

from __future__ import annotations

import os
import stat
import sys
import time
from collections.abc import Iterator
from contextlib import contextmanager
from pathlib import Path
from typing import IO

from plantbal.faults import Hindered, InputFault, Place, unread
from plantbal.files import unwritten
from plantbal.sentence import Sentence

_PAUSE = 0.05
# A pipe is opened without waiting for its other end, and a link isn't followed.
_CAREFUL = getattr(os, "O_NONBLOCK", 0) | getattr(os, "O_NOFOLLOW", 0) | getattr(os, "O_CLOEXEC", 0)


def _taken(file: IO[bytes], shared: bool) -> bool:
    """Take the lock of an open file, and say whether it was free."""
    try:
        if sys.platform == "win32":
            import msvcrt

            file.seek(0)
            msvcrt.locking(file.fileno(), msvcrt.LK_NBLCK, 1)
        else:
            import fcntl

            fcntl.flock(file, (fcntl.LOCK_SH if shared else fcntl.LOCK_EX) | fcntl.LOCK_NB)
    except OSError:
        return False
    return True


def _open(path: Path, shared: bool) -> IO[bytes] | None:
    """Open the file of a lock; None if a book that is only read has none.

    Raises
    ------
    Fault
        If it can't be opened, or is no file.
    """
    try:
        if path.is_symlink() or (path.exists() and not stat.S_ISREG(path.lstat().st_mode)):
            raise InputFault(
                "it is a link, a folder or a device, not a file",
                place=Place(file=str(path)),
                remedy="no command has made it: move it away",
            )
        if shared:
            return os.fdopen(os.open(path, os.O_RDONLY | _CAREFUL), "rb")
        try:
            return os.fdopen(os.open(path, os.O_RDWR | os.O_CREAT | _CAREFUL, 0o666), "rb+")
        except PermissionError:  # another user of the group that shares the book has made it
            return os.fdopen(os.open(path, os.O_RDONLY | _CAREFUL), "rb")
    except FileNotFoundError as error:
        if shared:
            return None
        raise unwritten(path, error) from error
    except OSError as error:
        raise (unread if shared else unwritten)(path, error) from error


@contextmanager
def locked(path: Path, seconds: float, shared: bool = False) -> Iterator[None]:
    """Hold the lock of a file.

    Parameters
    ----------
    path : Path
        The file, which is made if it isn't there, and stays.
    seconds : float
        The most seconds to wait for another command.
    shared : bool
        Whether others may hold it at the same time who share it, too. Then the file isn't made.

    Raises
    ------
    Fault
        If another command holds it all this time.
    """
    file = _open(path, shared)
    if file is None:
        yield
        return
    with file:
        end = time.monotonic() + seconds
        while not _taken(file, shared):
            if time.monotonic() > end:
                raise Hindered(
                    Sentence("another command is at work in the book {parent}", parent=path.parent),
                    remedy="wait until it has ended, and type this again",
                )
            time.sleep(_PAUSE)
        yield
