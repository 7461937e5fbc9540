"""A file that is written once: whole, on the disk, and never over one that is there."""

from __future__ import annotations

import errno
import os
import tempfile
from pathlib import Path

from plantbal.files import unwritten

# What a file system says that has no second names for a file.
_NO_LINKS = (errno.EPERM, errno.EOPNOTSUPP, errno.ENOSYS, errno.EMLINK, errno.EXDEV)


def write_new(path: Path, data: bytes) -> bool:
    """Write a file unless one is there, and return whether it was written.

    Of several processes that write the same file at once one does. When this returns, the file and
    its name are on the disk.

    Parameters
    ----------
    path : Path
        The file; its folder is there.
    data : bytes
        What it is to have.

    Raises
    ------
    InputFault
        If it can't be written.
    """
    try:
        handle, name = tempfile.mkstemp(dir=path.parent, prefix=f".{path.stem}.", suffix=".new")
        made = Path(name)
        try:
            with os.fdopen(handle, "wb") as file:
                file.write(data)
                file.flush()
                umask = os.umask(0)
                os.umask(umask)
                os.fchmod(file.fileno(), 0o666 & ~umask)
                os.fsync(file.fileno())
            return _named(made, path) and _flushed(path.parent)
        finally:
            made.unlink(missing_ok=True)
    except OSError as error:
        raise unwritten(path, error) from error


def _named(made: Path, path: Path) -> bool:
    """Give a file its name, unless another file has it."""
    try:
        os.link(made, path)
    except FileExistsError:
        return False
    except OSError as error:
        if error.errno not in _NO_LINKS:
            raise
        return _taken(made, path)
    return True


def _taken(made: Path, path: Path) -> bool:
    """Give a file its name where files have one name: who makes an empty file first has it."""
    try:
        os.close(os.open(path, os.O_CREAT | os.O_EXCL | os.O_WRONLY))
    except FileExistsError:
        return False
    os.replace(made, path)
    return True


def _flushed(folder: Path) -> bool:
    """Wait until the names in a folder are on the disk."""
    handle = os.open(folder, os.O_RDONLY | os.O_DIRECTORY)
    try:
        os.fsync(handle)
    finally:
        os.close(handle)
    return True
