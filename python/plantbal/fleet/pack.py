"""The pack of a night: the outputs of all plants in one file, in place of a folder for each."""

from __future__ import annotations

import os
import shutil
import sqlite3
from collections.abc import Collection
from pathlib import Path
from threading import Lock

from plantbal import packed
from plantbal.faults import FileFault, Place
from plantbal.fleet.night import Night
from plantbal.fleet.sites import Site

# What is put into it at once: to wait for the disk after each plant would take longer than to run it.
_PLANTS, _BYTES = 256, 32 << 20
_TABLE = (
    "CREATE TABLE IF NOT EXISTS"
    " sqlar (name TEXT PRIMARY KEY, mode INT, mtime INT, sz INT, data BLOB)"
)
_ROW = "INSERT OR REPLACE INTO sqlar VALUES (?, ?, ?, ?, ?)"
_Row = tuple[str, int, int, int, bytes]


class Packer:
    """Puts what plants leave into the pack of a night, and then takes away their folders.

    A folder goes once its files are in the pack and on the disk. If they can't be put there, they
    stay in their folders, and `finish` says why. Plants may come from several threads.

    Parameters
    ----------
    night : Night
        The night.
    """

    def __init__(self, night: Night) -> None:
        self._night, self._lock = night, Lock()
        self._base: sqlite3.Connection | None = None
        self._waiting: list[Path] = []
        self._bytes = 0
        self._fault: FileFault | None = None

    def __enter__(self) -> Packer:
        return self

    def __exit__(self, *_: object) -> None:
        with self._lock:
            if self._fault is None:
                self._commit()
            if self._base is not None:
                self._base.close()
                self._base = None

    def add(self, site: Site) -> None:
        """Put the files of a plant into the pack, unless they are there already."""
        folder = self._night.folder_of(site)
        try:
            rows = _rows(f"{site.name}/", folder)
        except OSError:
            return  # it has no folder: it is in the pack, or wasn't run
        with self._lock:
            if self._fault is not None:
                return
            try:
                self._insert(f"{site.name}/", rows)
            except (OSError, sqlite3.Error) as error:
                self._fault = self._fault_of(error)
                return
            if rows:
                self._waiting.append(folder)
                self._bytes += sum(len(data) for *_, data in rows)
            if len(self._waiting) >= _PLANTS or self._bytes >= _BYTES:
                self._commit()

    def finish(self) -> None:
        """Put what waits on the disk.

        Raises
        ------
        FileFault
            If a plant couldn't be put into the pack.
        """
        with self._lock:
            if self._fault is None:
                self._commit()
            if self._fault is not None:
                raise self._fault

    def _insert(self, folder: str, rows: list[_Row]) -> None:
        """Put the files of a plant in the place of those that the pack has of it."""
        if self._base is None:
            self._night.folder.mkdir(parents=True, exist_ok=True)
            self._base = sqlite3.connect(self._night.pack, timeout=30, check_same_thread=False)
            self._base.execute(_TABLE)
        # 0 comes after the slash
        self._base.execute(
            "DELETE FROM sqlar WHERE name > ? AND name < ? AND instr(substr(name, ?), '/') = 0",
            (folder, f"{folder[:-1]}0", len(folder) + 1),
        )
        self._base.executemany(_ROW, rows)

    def _commit(self) -> None:
        """Wait until the disk has what was put into the pack, and take away the folders of that."""
        try:
            if self._base is not None:
                self._base.commit()
            for folder in self._waiting:
                shutil.rmtree(folder, ignore_errors=True)
        except (OSError, sqlite3.Error) as error:
            self._fault = self._fault_of(error)
        self._waiting.clear()
        self._bytes = 0

    def _fault_of(self, error: Exception) -> FileFault:
        return FileFault(
            f"not all outputs are in it: {error}",
            place=Place(file=str(self._night.pack)),
            remedy="free some space, or move it away if it is damaged, and run the fleet again",
        )


def _rows(prefix: str, folder: Path) -> list[_Row]:
    """Return the files of a folder as an archive has them; none if one of them is too large."""
    found: list[_Row] = []
    for entry in sorted(os.scandir(folder), key=lambda entry: entry.name):
        state = entry.stat()
        with open(entry.path, "rb") as file:
            data = file.read(packed.PACKED_BYTES + 1)
        if len(data) > packed.PACKED_BYTES:
            return []
        row = f"{prefix}{entry.name}", state.st_mode, int(state.st_mtime), len(data)
        found.append((*row, packed.deflated(data)))
    return found


def outputs_in(pack: Path) -> dict[str, str]:
    """Return the plants that have an output in a pack, with the names of the outputs there.

    Raises
    ------
    InputFault
        If it can't be read.
    """
    names = [*packed.names_in(pack, "/output.csv"), *packed.names_in(pack, "/output.jsonl")]
    return {name.rpartition("/")[0]: name for name in names}


def give_folders(pack: Path, out: Path, night: str, stay: Collection[str]) -> None:
    """Give some plants of a pack folders of their own, since the pack goes.

    Raises
    ------
    InputFault
        If it can't be read.
    OSError
        If a folder can't be written.
    """
    for name in sorted(set(outputs_in(pack)) & set(stay)):
        Night(out, night, Path(), "", []).unpack(Site(name, Path()))
