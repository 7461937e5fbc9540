"""Files that are kept together in one: an archive of SQLite, which `sqlite3 -A` lists and unpacks.

A path may lead into one, as into a folder: ``nights/2026-11-29/outputs.sqlar/north/output.csv``. And
what a night has packed is found under the name that it would have by itself,
``north/2026-11-29/output.csv`` or ``north/latest/output.csv``.
"""

from __future__ import annotations

import io
import os
import sqlite3
import zlib
from collections.abc import Iterator
from contextlib import closing, contextmanager, suppress
from pathlib import Path
from typing import BinaryIO
from urllib.parse import quote

from plantbal.faults import FileFault, Place, unread

# The ending of such an archive, and what it is called in the folder of a night.
ENDING = ".sqlar"
PACK = "outputs.sqlar"
# The most bytes of a file that is packed: a larger one stays by itself.
PACKED_BYTES = 64 << 20
_WAITS = 30.0  # seconds for a fleet that writes


def inside(path: str | Path) -> tuple[Path, str] | None:
    """Return the archive that a path leads into, and the name there; None if there is none."""
    path = Path(path)
    for pack in path.parents:
        if pack.suffix == ENDING and pack.is_file():
            return pack, path.relative_to(pack).as_posix()
    night = path.parent
    with suppress(OSError):
        night = night.with_name(os.readlink(night))
    for out in night.parent.parents:
        pack = out / "nights" / night.name / PACK
        if pack.is_file():
            return pack, f"{night.parent.relative_to(out).as_posix()}/{path.name}"
    return None


def read_inside(path: str | Path, count: int) -> bytes | None:
    """Return as many bytes at most of what a path leads to in an archive; None if nothing is there.

    Raises
    ------
    InputFault
        If the archive can't be read.
    """
    found = inside(path)
    return read_member(*found, count) if found else None


def read_member(pack: Path, name: str, count: int) -> bytes | None:
    """Return as many bytes at most of a file in an archive; None if there is no such file.

    Raises
    ------
    InputFault
        If the archive can't be read.
    """
    with opened_pack(pack) as base:
        row = base.execute("SELECT sz, data FROM sqlar WHERE name = ?", (name,)).fetchone()
        if row is None or not isinstance(row[1], bytes):
            return None
        return _unpacked(pack, name, row[0], row[1], count)


def _unpacked(pack: Path, name: str, size: object, data: bytes, count: int) -> bytes:
    """Return as many bytes at most of a file by what an archive has of it."""
    if len(data) == size:
        return data[:count]
    try:
        found = zlib.decompressobj().decompress(data, count)
    except zlib.error as error:
        raise _fault(pack, f"{name} is damaged: {error}") from error
    if not isinstance(size, int) or len(found) != min(size, count):
        raise _fault(pack, f"{name} is damaged: it isn't as long as it was")
    return found


def deflated(data: bytes) -> bytes:
    """Return bytes as an archive has them: compressed, if they get fewer by it."""
    return min(data, zlib.compress(data, 1), key=len)


@contextmanager
def opened_pack(pack: Path) -> Iterator[sqlite3.Connection]:
    """Give an archive to read from.

    Raises
    ------
    InputFault
        If it can't be read, or is none.
    """
    uri = f"file:{quote(str(pack.absolute()))}?mode=ro"
    try:
        with closing(sqlite3.connect(uri, uri=True, timeout=_WAITS)) as base:
            base.execute("PRAGMA trusted_schema = OFF")
            kind = base.execute("SELECT type FROM sqlite_master WHERE name = 'sqlar'").fetchone()
            if kind != ("table",):
                raise sqlite3.DatabaseError("it has no table sqlar")
            yield base
    except sqlite3.Error as error:
        raise _fault(pack, f"it can't be read as an archive of SQLite: {error}") from error


def _fault(pack: Path, what: str) -> FileFault:
    remedy = "run the fleet again after moving it away, or take it from a backup"
    return FileFault(what, place=Place(file=str(pack)), remedy=remedy)


def names_in(pack: Path, ending: str) -> list[str]:
    """Return the names in an archive that have this ending, in their order.

    Raises
    ------
    InputFault
        If the archive can't be read.
    """
    with opened_pack(pack) as base:
        rows = base.execute(
            "SELECT name FROM sqlar WHERE name GLOB '*' || ? ORDER BY name", (ending,)
        )
        return [str(name) for (name,) in rows]


def packed_files(pack: Path, folder: str) -> dict[str, bytes]:
    """Return the files of a folder in an archive by their names.

    Raises
    ------
    InputFault
        If the archive can't be read.
    """
    with opened_pack(pack) as base:
        rows = base.execute(
            "SELECT substr(name, length(?1) + 1), sz, data FROM sqlar"
            " WHERE name > ?1 AND name < ?2 AND instr(substr(name, length(?1) + 1), '/') = 0",
            (f"{folder}/", f"{folder}0"),  # 0 comes after the slash
        )
        return {
            str(name): _unpacked(pack, name, size, data, PACKED_BYTES) for name, size, data in rows
        }


@contextmanager
def opened_output(path: Path) -> Iterator[BinaryIO]:
    """Give a file to read from, which may be in an archive.

    Raises
    ------
    InputFault
        If it can't be read.
    """
    try:
        file: BinaryIO = path.open("rb")
    except OSError as error:
        data = read_inside(path, PACKED_BYTES)
        if data is None:
            raise unread(path, error) from error
        file = io.BytesIO(data)
    with file:
        yield file
