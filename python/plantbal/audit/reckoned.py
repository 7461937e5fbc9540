"""How the masses of a session were calculated: kept in its bundle, and calculated again by the audit.

A book has what was measured and applied for each fact whose mass follows from a temperature, free
water, a floating roof or a density of its days. A bundle of a session of the book has those rows of
it whose facts are in the session as they were booked then.
"""

from __future__ import annotations

from collections.abc import Iterator, Mapping, Sequence
from decimal import Decimal
from pathlib import Path

from plantbal.audit.bundle import MEASURED, SESSION
from plantbal.audit.said import SentenceKind, first_wrong
from plantbal.book.forms import MEASURED as OF_BOOK
from plantbal.faults import InputFault, Place, decoded, read_bytes
from plantbal.limits import SESSION_BYTES
from plantbal.sentence import Sentence
from plantbal.volumes.trail import Trail, read_trails, trails_text

# A mass is kept with twelve decimals, and so are the figures that it follows from.
_NEAR = Decimal("0.001")


def measured_of(book: str | None, session: bytes) -> bytes | None:
    """Return how masses of a session were calculated, as its book has it; None if it has none.

    Parameters
    ----------
    book : str or None
        The folder of the book.
    session : bytes
        The session.

    Raises
    ------
    InputFault
        If the book's file can't be read.
    """
    found = trails_of_session(book, session)
    return trails_text(found).encode("utf-8") if found else None


def trails_of_session(book: str | None, session: bytes) -> list[Trail]:
    """Return how masses of a session were calculated, as `measured_of` does, each as a trail."""
    path = Path(book or "") / OF_BOOK
    if book is None or not path.exists():
        return []
    source, data = read_bytes(path, SESSION_BYTES)
    rows = rows_of_session(session)
    return [each for each in _trails(source, data) if _fits(each, rows)]


def reckoned(path: str, files: Mapping[str, bytes]) -> Iterator[tuple[SentenceKind, str]]:
    """Give what is to be said of the masses of a bundle, each calculated again from its figures."""
    if MEASURED not in files:
        return
    name = f"{path}!{MEASURED}"
    try:
        trails = _trails(name, files[MEASURED])
    except InputFault as fault:
        yield SentenceKind.WRONG, str(fault)
        return
    rows = rows_of_session(files[SESSION])
    wrong = [said for each in trails if (said := differs(each, rows))]
    yield from first_wrong(name, wrong)
    if not wrong:
        masses = "1 mass is" if len(trails) == 1 else f"{len(trails):,} masses are"
        what = f"{masses} calculated again from what was measured, and booked so in the session"
        yield SentenceKind.GOOD, f"{name}: {what}"


def _trails(source: str, data: bytes) -> list[Trail]:
    """Return the rows of such a file.

    Raises
    ------
    InputFault
        If it is none.
    """
    try:
        return read_trails(decoded(source, data))
    except (KeyError, ValueError, TypeError) as error:
        what = "this isn't a file of how masses were calculated"
        remedy = "take it as plantbal wrote it, or from a backup"
        raise InputFault(what, place=Place(file=source), remedy=remedy) from error


def rows_of_session(session: bytes) -> list[list[str]]:
    """Return the fields of the rows of a session, by their numbers from 0."""
    return [line.split(",") for line in session.decode("utf-8", "replace").split("\n")]


def booked_figures(row: Sequence[str]) -> tuple[str, list[str]]:
    """Return the id of the fact of a row, and its figures; nothing of another row."""
    kind, *fields = row[1:] if row[0] == "late" else row
    if kind == "amend":
        return (fields[0], fields[1:-1]) if len(fields) > 2 else ("", [])
    first = {"reading": 3, "dip": 3, "transfer": 4}.get(kind)
    return (fields[0], fields[first:]) if first and len(fields) > first else ("", [])


def _fits(trail: Trail, rows: Sequence[Sequence[str]]) -> bool:
    """Say whether a row of a session is that of a trail."""
    if not 0 < trail.row <= len(rows):
        return False
    return booked_figures(rows[trail.row - 1])[0] == trail.fact


def differs(trail: Trail, rows: Sequence[Sequence[str]]) -> str:
    """Return in what a trail contradicts itself, or the session; nothing if it does so in nothing."""
    words: dict[str, object] = {"row": trail.row, "fact": trail.fact}
    try:
        grams, again = Decimal(trail.figures["grams"]), trail.again()
        booked, variance = int(trail.figures["booked"]), trail.figures["variance"]
    except (ArithmeticError, ValueError):
        return Sentence("row {row} ({fact}): one of its figures isn't a number", **words)
    if abs(again - grams) > _NEAR:
        form = "row {row} ({fact}): its figures give {again:.3f} g, and {grams:.3f} g were found"
        return Sentence(form, again=again, grams=grams, **words)
    if not _fits(trail, rows):
        return Sentence("row {row} ({fact}): the session doesn't have this fact there", **words)
    figures = booked_figures(rows[trail.row - 1])[1]
    if figures[-1] != variance:
        form = "row {row} ({fact}): the session has the variance {there}, and {found} was found"
        return Sentence(form, there=figures[-1], found=variance, **words)
    if len(figures) == 2 and (int(figures[0]) != booked or abs(booked - again) > 1):
        form = "row {row} ({fact}): the session has {there} g, and its figures give {again:.3f} g"
        return Sentence(form, there=figures[0], again=again, **words)
    if len(figures) == 3 and figures[0] != trail.figures["level"]:
        form = "row {row} ({fact}): the session has {there} mm, and the file {found} mm"
        return Sentence(form, there=figures[0], found=trail.figures["level"], **words)
    return ""
