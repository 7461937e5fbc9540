"""What is kept of a night: the table, the checksums, the database of all nights, and the page."""

from __future__ import annotations

import datetime
import os
import shutil
import sqlite3
import subprocess
from collections import defaultdict
from collections.abc import Collection, Iterable, Iterator, Mapping, Sequence
from contextlib import closing, contextmanager, suppress
from dataclasses import dataclass
from pathlib import Path

from plantbal.faults import FileFault, Place
from plantbal.files import write_text
from plantbal.fleet.given import sha256_of
from plantbal.fleet.night import Night, Run, link
from plantbal.fleet.pack import give_folders
from plantbal.fleet.rows import HEADS, FleetPlant
from plantbal.fleet.sites import NIGHT, Site
from plantbal.inert import csv_text
from plantbal.packed import PACK

_NUMBERS = {
    "dof": "INTEGER",
    "statistic": "REAL",
    "critical": "REAL",
    "p": "REAL",
    "refused": "INTEGER",
    "status": "INTEGER",
    "seconds": "REAL",
}
# Columns that the databases of older versions haven't.
_LATER = {"p"}
# What to do about a database that is good and can't be written.
_REMEDIES = {
    sqlite3.SQLITE_FULL: "free some space",
    sqlite3.SQLITE_IOERR: "free some space",
    sqlite3.SQLITE_BUSY: "close it in the other program that has it open",
    sqlite3.SQLITE_READONLY: "ask for the right to write there",
}
_TABLES = f"""
CREATE TABLE IF NOT EXISTS nights (
    night TEXT PRIMARY KEY, begun TEXT, ended TEXT, program TEXT, program_sha256 TEXT, words TEXT,
    plants INTEGER, wanting INTEGER);
CREATE TABLE IF NOT EXISTS plants (
    night TEXT, {", ".join(f"{name} {_NUMBERS.get(name, 'TEXT')}" for name in HEADS)},
    PRIMARY KEY (night, site, period));
"""


@dataclass(frozen=True, slots=True)
class Times:
    """When a night began and ended."""

    begun: str
    ended: str


def plants_table(plants: Iterable[FleetPlant]) -> str:
    """Return the table of plants as CSV, which a spreadsheet may open."""
    return csv_text([HEADS, *(row.values() for plant in plants for row in plant.rows)])


Sums = Mapping[Site, Mapping[str, str]]


def keep_night(
    night: Night, plants: Sequence[FleetPlant], runs: Mapping[Site, Run], sums: Sums, times: Times
) -> None:
    """Write what is kept of a night, and make it the latest one.

    Parameters
    ----------
    night : Night
        The night.
    plants : sequence of FleetPlant
        What came of each plant.
    runs : mapping of Site to Run
        The runs of those whose session could be read.
    sums : mapping of Site to mapping of str to str
        The digests of the files that were kept of plants, by their names.
    times : Times
        When it began and ended.
    """
    night.folder.mkdir(parents=True, exist_ok=True)
    write_text(night.folder / "table.csv", plants_table(plants))
    ordered = sorted(runs)
    sessions = ((runs[site].session_sha256, runs[site].session) for site in ordered)
    write_text(night.folder / "sessions.sha256", checksums(sessions))
    write_text(night.folder / "SHA256SUMS", checksums(_files(night, ordered, sums)))
    with database(night.out / "fleet.sqlite") as base:
        _insert(base, night, plants, times)
    # The disk takes the files of all plants at once, in less time than those of each by itself.
    _flush(night.folder)
    newest = night.out / "latest"
    if not newest.exists() or newest.readlink().name <= night.name:
        link(str(newest), f"nights/{night.name}")


def _flush(folder: Path) -> None:
    """Wait until the disk has all files of the file system that a folder is on.

    Raises
    ------
    InputFault
        If it hasn't.
    """
    done = subprocess.run(
        ["sync", "--file-system", folder], stderr=subprocess.PIPE, text=True, check=False
    )
    if done.returncode:
        said = done.stderr.strip() or f"sync ended with status {done.returncode}"
        raise FileFault(
            f"the night may not be on the disk: {said}",
            place=Place(file=str(folder)),
            remedy="see whether the disk is full or failing, and run the fleet again",
        )


def _files(night: Night, ordered: Iterable[Site], sums: Sums) -> Iterator[tuple[str, str]]:
    """Give the digests of a night's files, by their paths in the folder of all nights."""
    if night.pack.is_file():
        yield sha256_of(night.pack), f"nights/{night.name}/{night.pack.name}"
    for site in ordered:
        folder = night.folder_of(site)
        if not folder.is_dir():
            continue  # it is in the pack, or has left nothing
        found = sums.get(site) or _sums_before(folder)
        for name in sorted(found):
            yield found[name], f"{site.name}/{night.name}/{name}"
    for name in ("sessions.sha256", "table.csv"):
        yield sha256_of(night.folder / name), f"nights/{night.name}/{name}"


def _sums_before(folder: Path) -> dict[str, str]:
    """Return the digests of the files of a plant that a run before this one has left."""
    return {path.name: sha256_of(path) for path in folder.iterdir()}


def checksums(digests: Iterable[tuple[str, str]]) -> str:
    """Return digests and paths as `sha256sum` writes them, and reads them with ``--check``."""
    lines = []
    for digest, name in digests:
        escaped = name.replace("\\", "\\\\").replace("\n", "\\n").replace("\r", "\\r")
        lines.append(f"{'' if escaped == name else chr(92)}{digest}  {escaped}\n")
    return "".join(lines)


@contextmanager
def database(path: Path) -> Iterator[sqlite3.Connection]:
    """Give the database of all nights; what is changed in it is all there or not at all.

    Raises
    ------
    InputFault
        If it can't be opened, or is none of fleet's.
    """
    try:
        with closing(sqlite3.connect(path, timeout=30)) as base, base:
            base.executescript(_TABLES)
            columns = {row[1] for row in base.execute("PRAGMA table_info(plants)")}
            for name in _LATER - columns:
                base.execute(f"ALTER TABLE plants ADD COLUMN {name} {_NUMBERS.get(name, 'TEXT')}")
            if columns | _LATER != {"night", *HEADS}:
                raise sqlite3.DatabaseError("its table has other columns")
            yield base
    except sqlite3.Error as error:
        code = getattr(error, "sqlite_errorcode", 0) & 0xFF
        remedy = _REMEDIES.get(code, "move the file away")
        raise FileFault(
            f"the nights can't be kept there: {error}",
            place=Place(file=str(path)),
            remedy=f"{remedy}, and run the fleet again: no session runs twice",
        ) from error


def plants_gone(night: Night, sites: Collection[str]) -> dict[str, str]:
    """Return the plants of the night before that aren't among these sites, until they are forgotten.

    Each has the last night on which it had a session.
    """
    path = night.out / "fleet.sqlite"
    if not path.exists():
        return {}
    with suppress(sqlite3.Error), closing(sqlite3.connect(path)) as base:
        rows = base.execute(
            "SELECT site, MAX(night) FROM plants WHERE state <> 'nosession' AND night < ?1 AND site IN"
            " (SELECT site FROM plants WHERE night = (SELECT MAX(night) FROM nights WHERE night < ?1))"
            " GROUP BY site",
            (night.name,),
        )
        return {site: before for site, before in rows if site not in sites}
    return {}  # it is none: whoever writes to it says so


def thin_out(night: Night, count: int) -> None:
    """Take away the files of the nights before the newest ones.

    What a plant's link leads to stays, however old it is: it is its last output.

    Parameters
    ----------
    night : Night
        The last night.
    count : int
        How many nights stay.
    """
    nights = sorted(path.name for path in (night.out / "nights").iterdir() if path.is_dir())
    old = set(nights[:-count])
    if not old:
        return
    stay = defaultdict[str, list[str]](list)
    for home in homes(night.out):
        newest = home / "latest"
        stays = os.readlink(newest) if newest.is_symlink() else ""
        stay[stays].append(home.relative_to(night.out).as_posix())
        for path in home.iterdir():
            if path.name in old and path.name != stays and not path.is_symlink():
                shutil.rmtree(path)
    for name in sorted(old):
        pack = night.out / "nights" / name / PACK
        if pack.is_file() and stay[name]:
            give_folders(pack, night.out, name, stay[name])
        shutil.rmtree(pack.parent)


def homes(out: Path) -> Iterator[Path]:
    """Give the folders of the plants in the folder of all nights, also those inside others."""
    for path in out.iterdir():
        if path.is_dir() and not path.is_symlink() and path.name != "nights":
            yield from _homes(path)


def _homes(folder: Path) -> Iterator[Path]:
    """Give a folder and those inside it that are of plants, and not of their nights."""
    yield folder
    for path in folder.iterdir():
        if path.is_dir() and not path.is_symlink() and not NIGHT.fullmatch(path.name):
            if not path.name.startswith("."):
                yield from _homes(path)


def in_future(night: Night, today: datetime.date) -> list[str]:
    """Return the nights that lie in the future, to whose files `latest` leads until their days."""
    nights = night.out / "nights"
    names = os.listdir(nights) if nights.is_dir() else []
    return sorted(name for name in names if name[:10] > today.isoformat())


def _insert(
    base: sqlite3.Connection, night: Night, plants: Sequence[FleetPlant], times: Times
) -> None:
    """Put the rows of a night in the place of those that it has."""
    base.execute("DELETE FROM plants WHERE night = ?", (night.name,))
    places = ", ".join("?" * (1 + len(HEADS)))
    base.executemany(
        f"INSERT OR REPLACE INTO plants (night, {', '.join(HEADS)}) VALUES ({places})",
        (
            [night.name, *(_of(name, text) for name, text in zip(HEADS, row.values()))]
            for plant in plants
            for row in plant.rows
        ),
    )
    wanting = sum(plant.needs for plant in plants)
    words = " ".join(night.words)
    program = str(night.program), night.program_sha256, words
    base.execute(
        "INSERT OR REPLACE INTO nights VALUES (?, ?, ?, ?, ?, ?, ?, ?)",
        (night.name, times.begun, times.ended, *program, len(plants), wanting),
    )


def _of(name: str, text: str) -> str | int | float | None:
    """Return a field of the table as the database has it: numbers as such, none as NULL."""
    kind = _NUMBERS.get(name)
    if kind is None:
        return text
    if not text:
        return None
    return int(text) if kind == "INTEGER" else float(text)
