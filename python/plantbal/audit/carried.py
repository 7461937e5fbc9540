"""The rows of a book's files that its bundles carry: how masses were calculated, of which hours readings are."""

from __future__ import annotations

from collections.abc import Iterator, Mapping

from plantbal.audit.bundle import CARRIED, MEASURED, SUMMED
from plantbal.audit.reckoned import measured_of, reckoned
from plantbal.audit.said import SentenceKind
from plantbal.audit.sums import summed_held, summed_of


def carried_files(book: str | None, session: bytes) -> dict[str, bytes]:
    """Return the files that a bundle of a session has of its book, by their names.

    Parameters
    ----------
    book : str or None
        The folder of the book.
    session : bytes
        The session.

    Raises
    ------
    InputFault
        If a file of the book can't be read.
    """
    found = {MEASURED: measured_of(book, session), SUMMED: summed_of(book, session)}
    return {name: data for name, data in found.items() if data is not None}


def carried_in(files: Mapping[str, bytes]) -> dict[str, bytes]:
    """Return those that a bundle has."""
    return {name: files[name] for name in CARRIED if name in files}


def carried_held(path: str, files: Mapping[str, bytes]) -> Iterator[tuple[SentenceKind, str]]:
    """Give what is to be said of them, each row compared with the session."""
    yield from reckoned(path, files)
    yield from summed_held(path, files)
