"""Which part of a mapping a sheet is read by: that of its name, or the first whose pattern fits."""

from __future__ import annotations

import fnmatch
import glob
import re

from plantbal.faults import InputFault
from plantbal.sentence import Sentence
from plantbal.workbook.mapping.form import SheetMapping, WorkbookMapping
from plantbal.workbook.sheetkinds import PASSED, SHEETS
from plantbal.workbook.sheets import Sheet


def sheet_mapping(mapping: WorkbookMapping, sheet: Sheet) -> SheetMapping | None:
    """Return what a mapping says of a sheet: by its whole name, or by the first pattern."""
    name = sheet.name.strip().casefold()
    whole = [each for each in mapping.sheets if each.name.strip().casefold() == name]
    like = [each for each in mapping.sheets if fnmatch.fnmatchcase(name, _pattern(each.name))]
    return next(iter([*whole, *like]), None)


def _pattern(name: str) -> str:
    """Return a name of a mapping as a pattern: no mark in it but `*` stands for anything."""
    return glob.escape(name.strip().casefold()).replace("[*]", "*")


def unmapped(sheet: Sheet) -> Sheet:
    """Return a sheet that the mapping doesn't name, if it is one of a plant's workbook, or empty."""
    word = re.split(r"[^a-z]", sheet.name.strip().casefold(), maxsplit=1)[0]
    if len(sheet.lines) > 1 and word not in SHEETS and word not in PASSED:
        raise InputFault(
            "the mapping has no sheet of this name",
            place=sheet.place(),
            remedy=Sentence(
                'write name = "{name}" and its kind under [[sheet]], or kind = "" to skip it',
                name=sheet.name,
            ),
        )
    return sheet
