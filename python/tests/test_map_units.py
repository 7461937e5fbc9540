"""The unit of figures whose file says none: it is that of the book's meter, or it is asked; none is guessed."""

from __future__ import annotations

import datetime
from pathlib import Path

import pytest
from libre import Rows, written
from plantbal.workbook.mapping.form import OPEN
from plantbal.workbook.mapping.known import KnownPlant, meter_units
from plantbal.workbook.mapping.proposing import MappingProposal, propose
from plantbal.workbook.sheets import read_workbook

TAGS, STREAMS = ("F1", "F2"), ("Feed", "Out")
DAYS = [datetime.datetime(2024, 6, day) for day in range(1, 11)]
DAILY: Rows = [["Day", *TAGS], *[[day, 100 + day.day, 90] for day in DAYS]]
LONG: Rows = [["Day", "Tag", "Value"], *[[day, tag, 100] for day in DAYS for tag in TAGS]]
TICKETS: Rows = [["id", "stream", "date", "amount"], *[[f"T{d.day}", "Feed", d, 24] for d in DAYS]]
HOURS: Rows = [["Day", "Tag", *range(1, 25)], *[[day, "F1", *range(1, 25)] for day in DAYS]]
SHEETS = {"readings": DAILY, "long": LONG, "tickets": TICKETS, "hours": HOURS}


def book(*units: str) -> KnownPlant:
    """What a book knows of two meters with these units."""
    return KnownPlant(TAGS, STREAMS, (), meter_units(zip(STREAMS, TAGS, units)))


def proposed(room: Path, rows: Rows, known: KnownPlant, title: str = "") -> MappingProposal:
    """The mapping of a sheet, perhaps with a title above it."""
    above: Rows = [[title]] if title else []
    path = written(
        {"Tickets" if rows is TICKETS else "Daily": [*above, *rows]}, room / "plant.xlsx"
    )
    return propose(read_workbook(path), known)


def units_in(found: MappingProposal) -> set[str]:
    """The units that a proposal has for its only sheet."""
    (sheet,) = found.mapping.sheets
    return {sheet.unit, *sheet.units.values()} - {""}


@pytest.mark.parametrize("form", SHEETS)
def test_a_meter_without_a_unit_is_asked(tmp_path: Path, form: str) -> None:
    """Neither the file nor the book says a unit: it is a question, and not tonnes."""
    found = proposed(tmp_path, SHEETS[form], book("", ""))
    assert units_in(found) == {OPEN} and found.open()


@pytest.mark.parametrize("form", SHEETS)
def test_the_unit_of_the_book(tmp_path: Path, form: str) -> None:
    """The book has the unit of each meter: nothing is asked, and why is said."""
    found = proposed(tmp_path, SHEETS[form], book("kg", "kg"))
    assert units_in(found) == set()
    said = [text for path, text in found.evidence.items() if {*path} & {"unit", "units"}]
    assert any("the book has kg" in text for text in said), found.evidence


def test_one_meter_without_a_unit(tmp_path: Path) -> None:
    """Of two meters one has a unit in the book: it is asked for the other alone."""
    (sheet,) = proposed(tmp_path, DAILY, book("kg", "")).mapping.sheets
    assert (sheet.unit, dict(sheet.units)) == (OPEN, {"F1": "kg"})


@pytest.mark.parametrize("form", ["readings", "hours"])
@pytest.mark.parametrize("title", ["Capacity 12000 t/d", "Stock on 1 June: 500 t"])
def test_a_figure_in_a_title(tmp_path: Path, form: str, title: str) -> None:
    """The unit of a figure in a title isn't that of the figures below it."""
    assert units_in(proposed(tmp_path, SHEETS[form], book("", ""), title)) == {OPEN}


@pytest.mark.parametrize("title", ["Daily amounts in kg", "Daily amounts [kg]"])
def test_a_unit_in_a_title(tmp_path: Path, title: str) -> None:
    """A title that says the unit says it."""
    assert units_in(proposed(tmp_path, DAILY, book("", ""), title)) == {"kg"}
