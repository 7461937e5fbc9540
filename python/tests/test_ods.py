"""Workbooks of OpenDocument: what a stranger's may hold, and what is said of it."""

from __future__ import annotations

import zipfile
from decimal import Decimal
from pathlib import Path

import pytest

from plantbal.faults import InputFault
from plantbal.workbook.sheets import NoValue, Percent, Sheet, read_workbook

_SPACES = " ".join(
    f'xmlns:{short}="urn:oasis:names:tc:opendocument:xmlns:{short}:1.0"'
    for short in ("office", "table", "text", "style")
)


def ods(room: Path, rows: str, before: str = "", manifest: str = "<manifest/>") -> Path:
    """A workbook with a sheet of rows."""
    path = room / "plant.ods"
    head = f"{before}<office:document-content {_SPACES}><office:body><office:spreadsheet>"
    table = f'<table:table table:name="streams">{rows}</table:table>'
    with zipfile.ZipFile(path, "w", zipfile.ZIP_DEFLATED) as made:
        made.writestr(
            "mimetype", "application/vnd.oasis.opendocument.spreadsheet", zipfile.ZIP_STORED
        )
        made.writestr("META-INF/manifest.xml", manifest)
        end = "</office:spreadsheet></office:body></office:document-content>"
        made.writestr("content.xml", head + table + end)
    return path


def cell(value: str, kind: str = "float", more: str = "") -> str:
    return f'<table:table-cell office:value-type="{kind}" office:value="{value}" {more}/>'


def row(cells: str, more: str = "") -> str:
    return f"<table:table-row {more}>{cells}</table:table-row>"


TEXT = '<table:table-cell office:value-type="string"><office:annotation><text:p>no</text:p>'
TEXT += '</office:annotation><text:p>a<text:s text:c="2"/>b</text:p></table:table-cell>'
EMPTY = '<table:table-cell table:number-columns-repeated="{}"/>'
MANY = 'table:number-rows-repeated="{}"'


def test_what_stands_in_cells(tmp_path: Path) -> None:
    """Exact numbers, percents, comments left out, repeats, formulas without a value."""
    formula = '<table:table-cell table:formula="of:=1"/>'
    cells = cell("0.1") + EMPTY.format(2) + cell("0.015", "percentage") + TEXT + formula
    rows = row(EMPTY.format(16384), MANY.format(3)) + row(cells) + row(cell("7"), MANY.format(2))
    rows += row(EMPTY.format(16384), MANY.format(1048570))
    (sheet,) = read_workbook(ods(tmp_path, rows))
    assert isinstance(sheet, Sheet)
    first = [Decimal("0.1"), None, None, Percent(Decimal("1.5")), "a  b", NoValue()]
    assert sheet.lines == [(4, first), (5, [Decimal(7)]), (6, [Decimal(7)])]


ENTITY = '<!DOCTYPE a [<!ENTITY b "boom">]>'
HOSTILE: dict[str, tuple[str, str, str, str]] = {
    "entities": (row(cell("1")), ENTITY, "<manifest/>", "this workbook can't be read"),
    "a million filled rows": (
        row(cell("1") * 9, MANY.format(1048576)),
        "",
        "<manifest/>",
        "more than 4,000,000 cells",
    ),
    "columns beyond the last": (
        row(cell("1", more='table:number-columns-repeated="16384"') + cell("2")),
        "",
        "<manifest/>",
        "there is a cell in column 16,385",
    ),
    "rows beyond the last": (
        row(EMPTY.format(1), MANY.format(1048576)) + row(cell("1")),
        "",
        "<manifest/>",
        "there is a cell in row 1,048,577",
    ),
    "a count of minus one": (
        row(cell("1"), MANY.format(-1)),
        "",
        "<manifest/>",
        "something is repeated -1 times",
    ),
    "a password": (
        row(cell("1")),
        "",
        "<manifest><encryption-data/></manifest>",
        "protected by a password",
    ),
    "a number that is none": (row(cell("NaN")), "", "<manifest/>", "'NaN' is stored as a number"),
}


@pytest.mark.parametrize("case", HOSTILE)
def test_a_hostile_workbook_is_a_fault(tmp_path: Path, case: str) -> None:
    rows, before, manifest, said = HOSTILE[case]
    with pytest.raises(InputFault) as fault:
        read_workbook(ods(tmp_path, rows, before, manifest))
    assert said in str(fault.value), fault.value
