"""The fault of a cell that can't be read: where it is, what it has, what is wrong, and what to do."""

from __future__ import annotations

from plantbal.causes import Case, CausedFault
from plantbal.workbook.sheets import Cell


def cell_fault(cell: Cell, what: Case, remedy: str | Case = "", head: str = "") -> CausedFault:
    """Return a fault at a cell; a remedy may be a case of an enum, or a sentence."""
    do = remedy.sentence if isinstance(remedy, Case) else remedy
    return CausedFault(what, place=cell.place(head), text=cell.text, remedy=do)
