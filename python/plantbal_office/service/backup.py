"""Backs up books and database together.

All books are kept still by their locks while the database is dumped and they are read, so that no
action is in one and not in the other. The file takes its name only once it is whole.
"""

from __future__ import annotations

import datetime
import hashlib
import os
import subprocess
from collections.abc import Iterator, Sequence
from contextlib import ExitStack
from dataclasses import dataclass
from pathlib import Path

from django.conf import settings

from plantbal.book.forms import CHECKS, LOCK, PENDING, there
from plantbal.book.store import Store
from plantbal.book.writing import sync
from plantbal.faults import Fault, read_bytes
from plantbal_office.plants.models import Plant
from plantbal_office.service.archives import (
    DATABASE,
    MANIFEST,
    VERSION,
    BackupManifest,
    BookKept,
    Packing,
    encrypted,
)
from plantbal_office.service.config import Config


@dataclass(frozen=True)
class BackedUp:
    """A backup that was written: how much it has, its SHA-256, and whether it is encrypted."""

    files: int
    books: int
    digest: str
    is_encrypted: bool


def back_up(config: Config, path: Path, recipients: Sequence[str] | None) -> BackedUp:
    """Write a backup.

    Parameters
    ----------
    config : Config
        The configuration.
    path : Path
        The file, which isn't there yet.
    recipients : sequence of str, optional
        For whom it is encrypted; without it those of the configuration.

    Raises
    ------
    Fault
        If the file is there, or a part can't be read.
    """
    if path.exists():
        raise Fault(f"{path} already exists", remedy="name another file")
    wanted = list(config.recipients if recipients is None else recipients)
    part = path.with_name(f".{path.name}.part")
    part.unlink(missing_ok=True)
    try:
        with ExitStack() as still:
            stores = list(_still(still))
            with encrypted(part, wanted) as out:
                packing = Packing(out)
                packing.add(DATABASE, dumped())
                books = [_book(packing, number, *each) for number, each in enumerate(stores)]
                _files(packing)
                made = datetime.datetime.now(datetime.timezone.utc)
                manifest = BackupManifest(
                    VERSION, made.strftime("%Y-%m-%dT%H:%M:%SZ"), tuple(books), packing.digests
                )
                count = len(packing.digests)
                packing.add(MANIFEST, manifest.text())
                packing.close()
        with part.open("rb") as file:
            digest = hashlib.file_digest(file, "sha256").hexdigest()
            os.fsync(file.fileno())
        os.rename(part, path)
        sync(path.parent)
    finally:
        part.unlink(missing_ok=True)
    return BackedUp(count, len(books), digest, bool(wanted))


def _still(still: ExitStack) -> Iterator[tuple[Plant, Store]]:
    """Give the plants with their books, which nobody writes to until the stack is left."""
    for plant in Plant.objects.order_by("pk"):
        store = Store(plant.folder, seconds=60)
        still.enter_context(store.opened(reading=True))
        yield plant, store


def _book(packing: Packing, number: int, plant: Plant, store: Store) -> BookKept:
    """Put a book into a backup."""
    names = [*there(store.folder), *(n for n in (CHECKS, PENDING) if store.path(n).is_file())]
    for name in names:
        if name != LOCK:
            packing.add(f"books/{number}/{name}", read_bytes(store.path(name))[1])
    return BookKept(number, plant.folder, plant.slug, str(store.head))


def _files(packing: Packing) -> None:
    """Put the files of the desk into a backup."""
    room = Path(settings.MEDIA_ROOT)
    for path in sorted(room.rglob("*")) if room.is_dir() else ():
        if path.is_file() and not path.is_symlink():
            packing.add(f"files/{path.relative_to(room)}", read_bytes(path)[1])


def dumped() -> bytes:
    """Return the database as `pg_dump` writes it.

    Raises
    ------
    Fault
        If it can't be dumped.
    """
    done = subprocess.run(
        ["pg_dump", "--format=custom", "--no-owner", "--no-privileges", *database_words()],
        capture_output=True,
        env=os.environ | database_secrets(),
        check=False,
    )
    if done.returncode != 0:
        raise Fault(f"the database can't be dumped: {done.stderr.decode(errors='replace')[:300]}")
    return done.stdout


def database_words() -> list[str]:
    """Return the words by which a command of PostgreSQL finds the database."""
    named = settings.DATABASES["default"]
    words = ["--dbname", named["NAME"]]
    for word, key in (("--host", "HOST"), ("--port", "PORT"), ("--username", "USER")):
        words += [word, named[key]] if named[key] else []
    return words


def database_secrets() -> dict[str, str]:
    """Return the password of the database, as its commands take it."""
    password = settings.DATABASES["default"]["PASSWORD"]
    return {"PGPASSWORD": password} if password else {}
