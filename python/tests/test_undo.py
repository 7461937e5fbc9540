"""The last change of a fact is taken back: by another amendment, or by booking it again."""

from __future__ import annotations

from pathlib import Path

import pytest
from conftest import TOP

from plantbal import Book
from plantbal.faults import Fault
from plantbal.workbook.options import ReadingOptions

MILL = TOP / "examples" / "month_end"
NAME, DAY = "FI-302", "2024-04-18"


@pytest.fixture(name="book")
def fixture_book(tmp_path: Path) -> Book:
    """A mill with April."""
    book, german = Book(tmp_path / "mill"), ReadingOptions("de")
    book.begin("2023-24", MILL / "plant", reading=german)
    book.add(MILL / "april", reading=german)
    return book


def test_amendment(book: Book) -> None:
    """An amendment is undone by another, with the same value and the same variance to the gram."""
    was = book.fact("2023-24", f"{NAME}_{DAY}").shown.fact
    book.amend(NAME, DAY, "12188 t", error="33.3333 t", why="typed a digit short")
    done = book.undo(NAME, DAY, why="it was right")
    assert done.new == was
    found = book.fact("2023-24", f"{NAME}_{DAY}")
    assert (found.shown.fact, len(found.edits)) == (was, 2)
    assert [line.act for line in book.contents().lines[-2:]] == ["amend", "amend"]


def test_strike(book: Book) -> None:
    """A struck fact is booked again under a free id, and a workbook that has it changes nothing."""
    was = book.fact("2023-24", f"{NAME}_{DAY}").shown.fact
    book.strike(NAME, DAY, why="of another day")
    done = book.undo(NAME, DAY, why="of this day after all")
    assert done.new is not None and done.new.id == f"{NAME}_{DAY}.2" and done.new.says(was)
    added = book.add(MILL / "april", reading=ReadingOptions("de"))
    assert not added.is_booked and not added.changes.stale
    assert book.verify().ok


def test_nothing_to_undo(book: Book) -> None:
    """What wasn't changed, and what is closed, isn't undone."""
    with pytest.raises(Fault, match="wasn't changed"):
        book.undo(NAME, DAY, why="x")
    book.amend(NAME, DAY, "12188 t", why="typed a digit short")
    book.report("2024-04")
    book.close("2024-04")
    with pytest.raises(Fault, match="2024-04 is closed"):
        book.undo(NAME, DAY, why="x")
