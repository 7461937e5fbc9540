"""Workbooks of Excel: their sheets by the cells that they hold, and not by their corners.

The size of what is packed is looked at first. Then each sheet is read as a stream, with the values of
formulas: `plantbal.workbook.xlsxcells` says how. Hidden sheets, rows and columns and cells that are
struck through are read as all others, and said.
"""

from __future__ import annotations

import io
import zipfile

from plantbal.causes import CausedFault
from plantbal.faults import InputFault, Place
from plantbal.workbook.packed import check_size, readable
from plantbal.workbook.sheets import Held, Sheet
from plantbal.workbook.xlsxcells import CellValues, XlsxRows
from plantbal.workbook.xlsxparts import small_parts


def xlsx_of(name: str, data: bytes) -> list[Sheet]:
    """Return the sheets of the bytes of an xlsx file.

    Raises
    ------
    InputFault
        If it can't be read, or holds more than `plantbal.limits` has.
    ToolMissing
        If openpyxl or defusedxml isn't installed.
    """
    if not data.startswith(b"PK"):
        old = data.startswith(b"\xd0\xcf\x11\xe0")
        raise InputFault(
            "this is a workbook of the old form" if old else "this isn't an xlsx or ods workbook",
            place=Place(file=name),
            remedy="save it as xlsx, or give a folder of CSV files",
        )
    with readable(name):
        check_size(name, data)
        with zipfile.ZipFile(io.BytesIO(data)) as archive:
            try:
                parts, held = small_parts(archive), Held()
            except CausedFault as fault:
                raise fault.at(Place(file=name), "") from fault
            values = CellValues(parts)
            rows = [XlsxRows(name, parts, each, values, held) for each in parts.sheets]
            return [each.sheet(archive) for each in rows]
