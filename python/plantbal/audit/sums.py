"""Of which hours readings of a session were made: kept in its bundle, and compared by the audit.

A book has of each reading that is a sum of hours, or what a counter advanced, the cells and hours of
which it was made. A bundle of a session of the book has those rows of it whose readings are in the
session as they were booked then.
"""

from __future__ import annotations

from collections.abc import Iterator, Mapping, Sequence
from pathlib import Path

from plantbal.audit.bundle import SESSION, SUMMED
from plantbal.audit.reckoned import booked_figures, rows_of_session
from plantbal.audit.said import SentenceKind, first_wrong
from plantbal.book.forms import SUMMED as OF_BOOK
from plantbal.faults import InputFault, Place, decoded, read_bytes
from plantbal.limits import SESSION_BYTES
from plantbal.workbook.summed import SummedFact, read_summed, summed_text


class NotSummed(InputFault):
    """A file that isn't one of how readings were added up."""

    def __init__(self, source: str) -> None:
        super().__init__(
            "this isn't a file of how readings were added up",
            place=Place(file=source),
            remedy="take it as plantbal wrote it, or from a backup",
        )


def read_sums(source: str, data: bytes) -> list[SummedFact]:
    """Return the rows of such a file.

    Raises
    ------
    NotSummed
        If it is none.
    """
    try:
        return read_summed(decoded(source, data))
    except ValueError as error:
        raise NotSummed(source) from error


def sums_of_book(book: str | None) -> list[SummedFact]:
    """Return what a book has of it; nothing without a book.

    Raises
    ------
    InputFault
        If the book's file can't be read.
    """
    path = Path(book or "") / OF_BOOK
    if book is None or not path.exists():
        return []
    return read_sums(*read_bytes(path, SESSION_BYTES))


def summed_of(book: str | None, session: bytes) -> bytes | None:
    """Return of which hours readings of a session were made, as its book has it; None without such."""
    kept = sums_of_book(book)
    rows = rows_of_session(session) if kept else []
    found = [each for each in kept if _grams(each, rows) is not None]
    return summed_text(found).encode("utf-8") if found else None


def summed_held(path: str, files: Mapping[str, bytes]) -> Iterator[tuple[SentenceKind, str]]:
    """Give what is to be said of those in a bundle, each compared with its row of the session."""
    if SUMMED not in files:
        return
    name = f"{path}!{SUMMED}"
    try:
        found = read_sums(name, files[SUMMED])
    except InputFault as fault:
        yield SentenceKind.WRONG, str(fault)
        return
    rows = rows_of_session(files[SESSION])
    wrong = [said for each in found if (said := sum_differs(each, rows))]
    yield from first_wrong(name, wrong)
    if not wrong:
        are = "1 reading is" if len(found) == 1 else f"{len(found):,} readings are"
        yield SentenceKind.GOOD, f"{name}: {are} booked in the session as their hours add up"


def sum_differs(found: SummedFact, rows: Sequence[Sequence[str]]) -> str:
    """Return in what a row contradicts itself, or the session; nothing if it does so in nothing."""
    said, grams = f"row {found.row} ({found.fact})", _grams(found, rows)
    if grams is None:
        return f"{said}: the session doesn't have this reading there"
    try:
        wrong = found.wrong(grams)
    except (ValueError, ZeroDivisionError):
        wrong = "its figure isn't a number"
    return f"{said}: {wrong}" if wrong else ""


def _grams(found: SummedFact, rows: Sequence[Sequence[str]]) -> int | None:
    """Return the grams of its reading in a session; None if the session doesn't have it there."""
    if not 0 < found.row <= len(rows):
        return None
    name, figures = booked_figures(rows[found.row - 1])
    is_reading = name == found.fact and len(figures) == 2 and figures[0].lstrip("-").isdigit()
    return int(figures[0]) if is_reading else None
