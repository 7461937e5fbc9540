"""A level in metres where millimetres are wanted: what to write is the figure of the cell, exactly."""

from __future__ import annotations

from decimal import Decimal

import pytest
from plantbal.causes import CausedFault
from plantbal.workbook.causes import SheetCause
from plantbal.workbook.cells import Reader
from plantbal.workbook.sheets import Cell, Sheet, Value

TOP = 20_000
MM, LIKE, WITHOUT = "mm", SheetCause.LEVEL_LIKE_METRES, SheetCause.LEVEL_WITHOUT_UNIT


def cell(value: Value) -> Cell:
    """A cell of a sheet."""
    return Cell(Sheet("dips.csv", "dips", []), 2, 3, value)


@pytest.mark.parametrize(
    ("value", "unit", "locale", "cause", "mm"),
    [
        (Decimal("6.766"), "", "", WITHOUT, "6766"),
        ("6.766", MM, "en_GB", LIKE, "6766"),
        (Decimal("6.766"), MM, "", LIKE, "6766"),
        ("6,7664", MM, "de", LIKE, "6766,4"),
        ("6.76640", "", "en_GB", WITHOUT, "6766.4"),
    ],
)
def test_what_to_write(value: Value, unit: str, locale: str, cause: SheetCause, mm: str) -> None:
    """The remedy has the cell's figure times 1000; nothing is rounded before."""
    with pytest.raises(CausedFault) as caught:
        Reader(locale).level(cell(value), unit=cell(unit or None), top=TOP)
    assert caught.value.case.cause is cause
    assert f"write {mm} mm if it is in m, or 7 mm" in str(caught.value)


@pytest.mark.parametrize(
    ("value", "unit", "level"),
    [
        (Decimal("14620.4"), MM, 14620),  # as metres it isn't within the table
        (Decimal("6766"), MM, 6766),
        ("6.766 mm", "", 7),  # the cell says it
        (Decimal("6.766"), "m", 6766),
        (Decimal("676.6"), "cm", 6766),
    ],
)
def test_what_is_read(value: Value, unit: str, level: int) -> None:
    """Where the unit can't be mistaken, a level is read."""
    assert Reader("en_GB").level(cell(value), unit=cell(unit or None), top=TOP) == level
