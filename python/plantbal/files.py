"""Files that are there whole or not at all."""

from __future__ import annotations

import errno
import os
import sys
import tempfile
from collections.abc import Iterator
from contextlib import contextmanager
from pathlib import Path

from plantbal.faults import FileFault, Place
from plantbal.plain import with_name

# What to do about a file that can't be written, by the system's number of the fault.
_UNWRITTEN = {
    errno.ENOENT: "make its folder first",
    errno.ENOTDIR: "check its name",
    errno.EISDIR: "name a file in this folder",
    errno.EACCES: "ask for the right to write there, or write elsewhere",
    errno.EROFS: "write elsewhere",
    errno.ENOSPC: "free some space, or write elsewhere",
}


def unwritten(path: str | Path, error: OSError) -> FileFault:
    """Return the fault of a file that can't be written."""
    return FileFault(
        f"it can't be written: {error.strerror or error}",
        place=Place(file=str(path)),
        remedy=_UNWRITTEN.get(error.errno or 0, ""),
    )


@contextmanager
def replacing(path: str | Path) -> Iterator[Path]:
    """Give a path to write to, which takes the place of `path` once all is written.

    If the block ends with an exception, or the process is stopped, `path` stays as it was.

    Parameters
    ----------
    path : str or Path
        The file that is to be there in the end.

    Yields
    ------
    Path
        A file beside it, with the same ending.
    """
    target = Path(path)
    try:
        handle, name = tempfile.mkstemp(
            dir=target.parent, prefix=f".{target.stem}.", suffix=target.suffix
        )
    except OSError as error:
        raise unwritten(path, error) from error
    os.close(handle)
    made = Path(name)
    try:
        yield made
        umask = os.umask(0)
        os.umask(umask)
        made.chmod(0o666 & ~umask)
        with made.open("rb+") as file:
            os.fsync(file.fileno())
        os.replace(made, target)
    except OSError as error:  # the disk is full, or a folder has the name
        raise unwritten(path, error) from error
    finally:
        made.unlink(missing_ok=True)


def write_bytes(path: str | Path, data: bytes) -> None:
    """Write a file by rename, or standard output if the path is ``-``."""
    if str(path) == "-":
        with with_name("standard output"):
            sys.stdout.buffer.write(data)
            sys.stdout.buffer.flush()
        return
    with replacing(path) as made:
        made.write_bytes(data)


def write_text(path: str | Path, text: str) -> None:
    """Write a text as UTF-8, by rename; ``-`` is standard output."""
    write_bytes(path, text.encode("utf-8"))
