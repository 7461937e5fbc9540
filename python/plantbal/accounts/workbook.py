"""An account as a workbook, in which formulas recompute each total.

The sheet `entries` has a row for each stream and tank of each line, with the row that the line has
in the sheet `account`; a line is the sum of the entries that name its row, and a closing stock the
sum of its lines. Beside it is what the tanks' own closing stocks leave of it, which is 0.
"""

from __future__ import annotations

from collections.abc import Sequence
from decimal import Decimal
from pathlib import Path
from typing import Any

from plantbal.accounts.account import AccountTable, Level, MonthAccount
from plantbal.accounts.entries import AccountLine
from plantbal.accounts.posting import POSTING_HEADS, PostingChange, postings_of
from plantbal.accounts.tables import STOCK_HEADS, basis_text, title_of, unaccounted_percent
from plantbal.amounts import tonnes_of
from plantbal.faults import ToolMissing
from plantbal.files import replacing
from plantbal.inert import store

_TONNES = "#,##0.000"
_ACCOUNT = ("account", "line", "t", "± t", "sales unit", "unit", "basis", "check, t")
_ENTRIES = ("row", "account", "line", "stream or tank", "product", "group", "t", "sales unit")


def write_accounts_workbook(
    path: str | Path, account: MonthAccount, tables: Sequence[AccountTable]
) -> None:
    """Write accounts as a workbook, whole or not at all.

    Parameters
    ----------
    path : str or Path
        The file.
    account : MonthAccount
        The accounts of a month.
    tables : sequence of AccountTable
        Those that are wanted.
    """
    try:
        from openpyxl import Workbook
    except ImportError as error:
        raise ToolMissing("openpyxl", "python3-openpyxl") from error
    book = Workbook()
    book.remove(book.active)
    put_sheets(book, account, tables)
    with replacing(path) as made:
        book.save(made)


def put_sheets(
    book: Any, account: MonthAccount, tables: Sequence[AccountTable], number: int | None = None
) -> None:
    """Put the sheets of accounts into a workbook.

    Parameters
    ----------
    book : Workbook
        The workbook.
    account : MonthAccount
        The accounts of a month.
    tables : sequence of AccountTable
        Those that are wanted.
    number : int, optional
        What the sheets' names end with, if there are several months.
    """
    end = "" if number is None else f"_{number}"
    sheet, entries = book.create_sheet(f"account{end}"), book.create_sheet(f"entries{end}")
    _head(sheet, _ACCOUNT, (28, 20, 18, 12, 18, 8, 24, 12))
    _head(entries, _ENTRIES, (6, 28, 20, 20, 20, 20, 18, 18))
    count = 1 + sum(len(table.entries) for table in tables)
    for table in tables:
        _put_table(sheet, entries, table, count)
    if any(table.level is Level.PLANT for table in tables):
        _put_stock(book.create_sheet(f"stock{end}"), account)


def _head(sheet: Any, heads: Sequence[str], widths: Sequence[int]) -> None:
    from openpyxl.styles import Font

    for column, (head, width) in enumerate(zip(heads, widths), 1):
        cell = sheet.cell(1, column)
        store(cell, head)
        cell.font = Font(bold=True)
        sheet.column_dimensions[cell.column_letter].width = width
    sheet.freeze_panes = "C2"
    sheet.page_setup.orientation = "landscape"
    sheet.page_setup.paperSize = sheet.PAPERSIZE_A4
    sheet.page_setup.fitToWidth, sheet.page_setup.fitToHeight = 1, 0
    sheet.sheet_properties.pageSetUpPr.fitToPage = True
    sheet.print_title_rows = "1:1"


def _row(sheet: Any, row: int, values: Sequence[str | int | Decimal | None]) -> None:
    """Put values to a row: texts as texts, and numbers in tonnes or units."""
    for column, value in enumerate(values, 1):
        if value is None or value == "":
            continue
        cell = sheet.cell(row, column)
        store(cell, value)
        if isinstance(value, Decimal):
            cell.number_format = _TONNES


def _formula(sheet: Any, row: int, column: int, formula: str) -> None:
    """Put a formula of this module's own to a cell."""
    cell = sheet.cell(row, column)
    cell.value = formula
    cell.number_format = _TONNES


def _sum_of(name: str, row: int, count: int, column: str) -> str:
    """Return the sum of the entries, of a sheet, that name a row."""
    cells = f"{name}!${{}}$2:${{}}${count}"
    return f"SUMIFS({cells.format(column, column)},{cells.format('A', 'A')},{row})"


def _decimal(grams: float | None) -> Decimal | None:
    return None if grams is None else round(Decimal(grams) / 10**6, 6)


def _put_table(sheet: Any, entries: Any, table: AccountTable, count: int) -> None:
    """Put an account below those that are there."""
    title, first = title_of(table), sheet.max_row + 1
    lines = [*table.moving, AccountLine.CLOSING]
    for row, line in enumerate(lines, first):
        amount = table.lines.get(line)
        basis = basis_text(amount) if amount is not None else ""
        deviation = _decimal(amount.deviation) if amount is not None else None
        _row(sheet, row, (title, line.value, None, deviation, None, table.unit, basis))
        is_total = line is AccountLine.CLOSING
        for letter, source, column in (("C", "G", 3), ("E", "H", 5)):
            if column == 5 and (not table.unit or is_total):
                continue
            total = f"SUM({letter}{first}:{letter}{row - 1})" if row > first else "0"
            inner = total if is_total else _sum_of(entries.title, row, count, source)
            _formula(sheet, row, column, f"=ROUND({inner},6)")
        if is_total:
            _formula(sheet, row, 8, f"=ROUND(C{row}-{_sum_of(entries.title, row, count, 'G')},6)")
        _put_entries(entries, table, line, row)
    left = table.unaccounted
    if left is not None:
        word = f"by the readings, {unaccounted_percent(left)} of what came in"
        figures = tonnes_of(left.amount.grams), _decimal(left.amount.deviation)
        _row(sheet, sheet.max_row + 1, (title, "unaccounted", *figures, None, "", word))


def _put_entries(entries: Any, table: AccountTable, line: AccountLine, row: int) -> None:
    """Put the entries of a line."""
    for entry in table.entries:
        if entry.line is line:
            account = entry.account
            sales = account.unit.amount(entry.grams)
            words = title_of(table), line.value, entry.name, account.product, account.group
            figures = tonnes_of(entry.grams), _sales(sales) if table.unit else None
            _row(entries, entries.max_row + 1, (row, *words, *figures))


def _sales(amount: Any) -> Decimal:
    return round(Decimal(amount.numerator) / Decimal(amount.denominator), 6)


def _put_stock(sheet: Any, account: MonthAccount) -> None:
    """Put the stocks of the tanks, with their sum."""
    _head(sheet, STOCK_HEADS, (16, 18, 12, 18, 12, 18, 18, 12, 40))
    for row, tank in enumerate(account.tanks, 2):
        stock = tank.stock
        opening, adjustment = tonnes_of(stock.opening), tonnes_of(stock.adjustment)
        cells = (stock.tank, opening, _decimal(tank.opening), adjustment)
        rest = _decimal(tank.adjustment), tonnes_of(stock.gain), None, _decimal(tank.closing)
        _row(sheet, row, (*cells, *rest, stock.why.value))
        _formula(sheet, row, 7, f"=ROUND(B{row}+D{row}+F{row},6)")
    last = sheet.max_row
    _row(sheet, last + 1, ("total",))
    for column in "BDFG" if last > 1 else "":
        _formula(
            sheet, last + 1, "ABCDEFG".index(column) + 1, f"=ROUND(SUM({column}2:{column}{last}),6)"
        )


def write_difference(
    path: str | Path,
    identity: str,
    period: str,
    changes: Sequence[PostingChange],
    rows: Sequence[Sequence[str]],
) -> None:
    """Write a difference as a workbook: the changes, and the postings with their sum.

    Parameters
    ----------
    path : str or Path
        The file.
    identity, period : str
        The id of the postings, and the period.
    changes : sequence of PostingChange
        The changes.
    rows : sequence of sequence of str
        Their table, with its heads first.
    """
    from openpyxl import Workbook

    book = Workbook()
    sheet = book.active
    sheet.title = "difference"
    _head(sheet, rows[0], (20, 36, 18, 18, 18, 18, 80))
    for row, (change, words) in enumerate(zip(changes, rows[1:]), 2):
        before, after = tonnes_of(change.before), tonnes_of(change.after)
        _row(sheet, row, (*words[:3], before, after, None, words[6]))
        _formula(sheet, row, 6, f"=ROUND(E{row}-D{row},6)")
    other = book.create_sheet("postings")
    postings = postings_of(changes)
    _head(other, POSTING_HEADS, (30, 6, 12, 24, 20, 18, 18, 18, 80))
    for number, each in enumerate(postings, 1):
        item = each.item
        words = period, each.account, item.name, item.product, item.group
        _row(other, number + 1, (identity, number, *words, tonnes_of(each.grams), each.cause))
    if postings:
        _row(other, len(postings) + 2, ("total",))
        _formula(other, len(postings) + 2, 8, f"=ROUND(SUM(H2:H{len(postings) + 1}),6)")
    with replacing(path) as made:
        book.save(made)
