"""Restores a backup into an empty service, and verifies it: digests, chain, approvals, reports.

Nothing is overwritten: the database must have no plant, and no folder of a book may exist.
"""

from __future__ import annotations

import hashlib
import os
import subprocess
import tempfile
from collections.abc import Iterator
from dataclasses import dataclass
from pathlib import Path

from django.conf import settings
from django.db import connection

from plantbal.audit.said import SentenceKind
from plantbal.audit.runwords import words_read, words_shown
from plantbal.book.approval.history import looked
from plantbal.book.forms import report_file, year_file
from plantbal.book.library import Book
from plantbal.book.overview import report_state
from plantbal.book.reporting import rows_asking
from plantbal.book.results import ReportState
from plantbal.book.store import Store
from plantbal.book.years import Years
from plantbal.faults import Fault
from plantbal.files import write_bytes
from plantbal.program import call
from plantbal.report.output import parse_report
from plantbal_office.plants.models import Plant
from plantbal_office.service.archives import (
    DATABASE,
    MANIFEST,
    BackupManifest,
    BookKept,
    members,
    opened,
)
from plantbal_office.service.backup import database_secrets, database_words
from plantbal_office.service.config import Config


@dataclass(frozen=True)
class RestoreFinding:
    """What was found: good, note or wrong, and a sentence."""

    kind: SentenceKind
    said: str

    @property
    def is_wrong(self) -> bool:
        """Whether it isn't as it should be."""
        return self.kind is SentenceKind.WRONG


def restore(config: Config, path: Path, identity: str | None) -> Iterator[RestoreFinding]:
    """Put a backup into this service, and give what a look at all of it finds.

    Parameters
    ----------
    config : Config
        The configuration.
    path : Path
        The backup.
    identity : str, optional
        The file with the key of age that opens it.

    Raises
    ------
    Fault
        If the service isn't empty, or the backup isn't whole; then nothing was put into it.
    """
    _check_empty(config)
    with tempfile.TemporaryDirectory(dir=config.state, prefix="restore.") as name:
        room = Path(name)
        manifest = _unpacked(path, identity, room)
        yield RestoreFinding(
            SentenceKind.GOOD, f"the digests of its {len(manifest.files)} files are right"
        )
        folders = {book.number: _place(config, room, book) for book in manifest.books}
        _put_database(room / DATABASE)
        _put_files(room / "files")
        for book in manifest.books:
            Plant.objects.filter(slug=book.plant).update(folder=str(folders[book.number]))
        os.sync()  # before anybody throws the backup away
        yield RestoreFinding(SentenceKind.GOOD, f"the database of {manifest.made} is restored")
    for book in manifest.books:
        yield from restored_book(folders[book.number], book.head)


def _check_empty(config: Config) -> None:
    """Refuse a service that has a plant, or a folder of books that has something.

    Raises
    ------
    Fault
        If it is one.
    """
    if "plants_plant" in connection.introspection.table_names() and Plant.objects.exists():
        raise Fault("this service already has plants", remedy="restore into an empty service")
    if config.books.is_dir() and any(config.books.iterdir()):
        raise Fault(f"{config.books} isn't empty", remedy="restore into an empty service")


def _unpacked(path: Path, identity: str | None, room: Path) -> BackupManifest:
    """Unpack a backup into a folder, and return its manifest once all digests hold.

    Raises
    ------
    Fault
        If it isn't whole.
    """
    digests: dict[str, str] = {}
    with opened(path, identity) as file:
        for name, data in members(file):
            if name in digests:
                raise Fault(f"{name} appears twice in it")
            digests[name] = hashlib.sha256(data).hexdigest()
            target = room / name
            target.parent.mkdir(parents=True, exist_ok=True)
            write_bytes(target, data)
    if digests.pop(MANIFEST, None) is None:
        raise Fault(f"{path} has no {MANIFEST}: it is incomplete, or not a backup")
    manifest = BackupManifest.read((room / MANIFEST).read_bytes())
    for name in sorted({*digests, *manifest.files}):
        if digests.get(name) != manifest.files.get(name):
            raise Fault(f"{name} isn't as the backup says, and nothing was restored")
    return manifest


def _place(config: Config, room: Path, book: BookKept) -> Path:
    """Put a book where books are, and return its folder."""
    config.books.mkdir(parents=True, exist_ok=True)
    target = config.books / book.plant
    if target.exists() or "/" in book.plant or book.plant.startswith("."):
        raise Fault(f"{target} already exists, or isn't a place for a book")
    os.rename(room / "books" / str(book.number), target)
    return target


def _put_database(dump: Path) -> None:
    """Put the dump into the database, as a whole or not at all."""
    words = ["pg_restore", "--clean", "--if-exists", "--no-owner", "--no-privileges"]
    words += ["--single-transaction", "--exit-on-error", *database_words(), str(dump)]
    connection.close()
    done = subprocess.run(
        words, capture_output=True, env=os.environ | database_secrets(), check=False
    )
    if done.returncode != 0:
        raise Fault(f"the database can't be restored: {done.stderr.decode(errors='replace')[:300]}")


def _put_files(room: Path) -> None:
    """Put the files of the desk in their place."""
    target = Path(settings.MEDIA_ROOT)
    if room.is_dir():
        target.parent.mkdir(parents=True, exist_ok=True)
        if target.is_dir() and not any(target.iterdir()):
            target.rmdir()
        os.rename(room, target)


# ---- verifying


def restored_book(folder: Path, head: str = "") -> Iterator[RestoreFinding]:
    """Give what a look at a book finds: its chain, its approvals, and each report made again."""
    found = Book(folder).verify(heads=[head] if head else [])
    for line in found.wrong:
        yield RestoreFinding(SentenceKind.WRONG, line)
    if found.ok:
        yield RestoreFinding(
            SentenceKind.GOOD, f"{folder}: {found.files} files are as the journal says"
        )
    store = Store(folder)
    with store.opened(reading=True, tested=False):
        for each in looked(store):
            if each.kind is not SentenceKind.NOTE:
                yield RestoreFinding(each.kind, f"{folder}: {each.said}")
        yield from _reports(store)


def _reports(store: Store) -> Iterator[RestoreFinding]:
    """Give whether the program writes each report again, to the byte."""
    years, count = Years(store), 0
    for ledger in years.all():
        for period in ledger.periods:
            state = report_state(store, ledger, store.journal(), period)
            if state is not ReportState.CURRENT:
                continue
            text = store.text(report_file(period))
            words = words_read(" ".join(words_shown(parse_report(text, report_file(period)))))
            components = ledger.session.components_in(period)
            asked = store.text(year_file(ledger.name)) + rows_asking(period, components)
            written = call(words, asked.encode("ascii"), program=settings.PLANTBAL_PROGRAM)[1]
            count += 1
            if _rows(written.decode("ascii")) != _rows(text):
                what = f"the program writes a report of {period} that differs from the kept one"
                yield RestoreFinding(SentenceKind.WRONG, f"{store.folder}: {what}")
    yield RestoreFinding(SentenceKind.GOOD, f"{store.folder}: reports calculated anew: {count}")


def _rows(report: str) -> list[str]:
    """Return the rows of a report that don't hang on what else a session asks for."""
    return [row for row in report.split("\n") if not row.startswith(("design,", "class,"))]
