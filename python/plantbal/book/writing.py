"""Puts several files of a book in their places: all are written first, then all are renamed.

A full disk shows while the files are written, when nothing has changed yet. What was there keeps
its mode, its owner and its group, and a link stays a link to the file that is written.
"""

from __future__ import annotations

import os
import stat
from collections.abc import Mapping
from pathlib import Path

from plantbal.book.forms import begun_file
from plantbal.faults import InputFault, Place
from plantbal.files import unwritten


class Writing:
    """Files that are written, and have yet to take their places.

    Parameters
    ----------
    contents : mapping of Path to bytes
        What each file is to have.

    Attributes
    ----------
    placed : list of Path
        The files that have taken their places.
    """

    def __init__(self, contents: Mapping[Path, bytes]) -> None:
        self.placed: list[Path] = []
        self._begun: dict[Path, Path] = {}
        try:
            for path, data in contents.items():
                self._begin(path, data)
        except BaseException:
            self.drop()
            raise

    def _begin(self, path: Path, data: bytes) -> None:
        """Write a file beside its place.

        Raises
        ------
        InputFault
            If it can't be.
        """
        try:
            target = path.resolve() if path.is_symlink() else path
            target.parent.mkdir(parents=True, exist_ok=True)
            begun = begun_file(target)
            begun.unlink(missing_ok=True)
            self._begun[target] = begun
            _write(begun, data, _found(target))
        except OSError as error:
            raise unwritten(path, error) from error

    def place(self) -> None:
        """Have the files take their places, and have that written to the disk.

        Raises
        ------
        InputFault
            If one of them can't.
        """
        for target, begun in self._begun.items():
            try:
                os.replace(begun, target)
            except OSError as error:
                raise unwritten(target, error) from error
            self.placed.append(target)
        for folder in {folder for target in self._begun for folder in _folders(target)}:
            sync(folder)

    def drop(self) -> None:
        """Remove what hasn't taken its place."""
        for target, begun in self._begun.items():
            if target not in self.placed:
                try:
                    begun.unlink(missing_ok=True)
                except OSError:
                    pass  # the next command tidies it away


def _folders(target: Path) -> list[Path]:
    """Return the folder of a file, and the one around it, where that folder may be new."""
    return [target.parent, target.parent.parent]


def _found(target: Path) -> os.stat_result | None:
    """Return what there is of a file, or None if there is none.

    Raises
    ------
    InputFault
        If it is no regular file.
    """
    try:
        found = target.stat()
    except FileNotFoundError:
        return None
    if not stat.S_ISREG(found.st_mode):
        raise InputFault(
            "it isn't a file", place=Place(file=str(target)), remedy="move it away: a book's is one"
        )
    return found


def _write(begun: Path, data: bytes, before: os.stat_result | None) -> None:
    """Write a new file to the disk, with the rights of the one that it replaces."""
    handle = os.open(begun, os.O_WRONLY | os.O_CREAT | os.O_EXCL, 0o666)
    with os.fdopen(handle, "wb") as file:
        file.write(data)
        file.flush()
        if before is not None and os.name != "nt":
            _keep_rights(handle, before)
        os.fsync(handle)


def _keep_rights(handle: int, before: os.stat_result) -> None:
    """Give an open file the owner, the group and the mode of another, as far as one may."""
    for owner in (before.st_uid, -1):
        try:
            os.fchown(handle, owner, before.st_gid)
            break
        except PermissionError:
            pass  # another's file in a shared folder: its group is kept, if this user is of it
    os.fchmod(handle, stat.S_IMODE(before.st_mode))


def sync(folder: Path) -> None:
    """Have a folder's renames written to the disk; Windows, on which this was never run, can't.

    Raises
    ------
    InputFault
        If it fails.
    """
    if os.name == "nt" or not folder.is_dir():
        return
    try:
        handle = os.open(folder, os.O_RDONLY)
        try:
            os.fsync(handle)
        finally:
            os.close(handle)
    except OSError as error:
        raise unwritten(folder, error) from error
