"""Writes an empty workbook for `plantbal-desk convert`, with lists to choose from."""

from __future__ import annotations

import argparse
from collections.abc import Collection
from pathlib import Path
from typing import Any

from plantbal.faults import ToolMissing, WordsFault
from plantbal.files import replacing
from plantbal.statuses import ExitStatus
from plantbal.workbook.sheetforms import SheetColumn, SheetKind
from plantbal.workbook.sheetkinds import ALL, SHEETS
from plantbal.workbook.sheets import letters

HELP = """
KIND is the plant:
  refinery      tanks with tables and dips, tickets of batches, daily readings
  concentrator  daily readings, estimates, tickets, stockpiles
  utility       daily readings and estimates of steam, gas and water, in tonnes or by a density

FILE is an xlsx file. Its sheets have their heads, a note at each head, lists to choose from, and
no rows. The sheet `about` says what each sheet is for; `convert` skips it.

examples:
  plantbal-desk template refinery plant.xlsx
"""
_LAST = 2000  # the last row that has a list

KINDS: dict[str, tuple[str, ...]] = {
    plant: tuple(word for word, kind in SHEETS.items() if plant in kind.plants) for plant in ALL
}


def list_of(column: SheetColumn) -> str:
    """Return what may stand in a column, as a spreadsheet has it: words, or cells of a sheet."""
    if column.words:
        return f'"{",".join(column.words)}"'
    if column.of is None:
        return ""
    sheet, head = column.of
    letter = letters(SHEETS[sheet].heads.index(head) + 1)
    return f"{sheet}!${letter}$2:${letter}${_LAST}"


def template(kind: str, path: str | Path) -> None:
    """Write an empty workbook.

    Parameters
    ----------
    kind : {'refinery', 'concentrator', 'utility'}
        The kind of plant.
    path : str or Path
        An xlsx file, which is written whole or not at all.
    """
    if kind not in KINDS:
        raise WordsFault(f"there is no template {kind!r}", remedy=f"use one of {', '.join(KINDS)}")
    if Path(path).suffix.lower() != ".xlsx":
        raise WordsFault(f"{path} doesn't end with .xlsx", remedy="use a name such as plant.xlsx")
    try:
        import openpyxl
    except ImportError as error:
        raise ToolMissing("openpyxl", "python3-openpyxl") from error
    book = openpyxl.Workbook()
    about = book.active
    about.title = "about"
    about.append(["sheet", "what it is for"])
    for name in KINDS[kind]:
        about.append([name, SHEETS[name].about])
        _write_sheet(book.create_sheet(name), SHEETS[name], KINDS[kind])
    _head(about, ("sheet", "what it is for"))
    about.column_dimensions["B"].width = 100
    with replacing(path) as made:
        book.save(made)


def _head(sheet: Any, names: tuple[str, ...]) -> None:
    from openpyxl.styles import Font

    for column in range(1, len(names) + 1):
        sheet.cell(1, column).font = Font(bold=True)
        sheet.column_dimensions[sheet.cell(1, column).column_letter].width = 16
    sheet.freeze_panes = "A2"


def _write_sheet(sheet: Any, kind: SheetKind, there: Collection[str]) -> None:
    """Write the heads of a sheet, with notes and lists; a list may be cells of a sheet there."""
    from openpyxl.comments import Comment

    sheet.append(list(kind.heads))
    _head(sheet, kind.heads)
    if not kind.columns:
        _set_days(sheet, 1)
        sheet.cell(1, 1).comment = Comment(kind.about, "plantbal")
    for at, column in enumerate(kind.columns, 1):
        sheet.cell(1, at).comment = Comment(column.about, "plantbal")
        if column.is_day:
            _set_days(sheet, at)
        if column.words or (column.of is not None and column.of[0] in there):
            _add_list(sheet, at, column)


def _set_days(sheet: Any, at: int) -> None:
    sheet.column_dimensions[letters(at)].number_format = "yyyy-mm-dd"


def _add_list(sheet: Any, at: int, column: SheetColumn) -> None:
    from openpyxl.worksheet.datavalidation import DataValidation

    rule = DataValidation("list", formula1=list_of(column), allow_blank=True)
    rule.error = column.about
    rule.add(f"{letters(at)}2:{letters(at)}{_LAST}")
    sheet.add_data_validation(rule)


def add_arguments(parser: argparse.ArgumentParser) -> None:
    """Add the words of the command."""
    parser.add_argument("kind", metavar="KIND", choices=list(KINDS), help="the kind of plant")
    parser.add_argument("out", metavar="FILE", help="an xlsx file")


def run(options: argparse.Namespace) -> int:
    """Write the workbook."""
    template(options.kind, options.out)
    return ExitStatus.GOOD
