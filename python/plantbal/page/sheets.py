"""The statement as a workbook: one table per sheet, amounts in tonnes as numbers."""

from __future__ import annotations

from collections.abc import Iterable, Sequence
from decimal import Decimal
from pathlib import Path
from typing import TYPE_CHECKING, Any

from plantbal.accounts.workbook import put_sheets
from plantbal.amounts import tonnes_of
from plantbal.balance.grades import table_of
from plantbal.faults import ToolMissing
from plantbal.files import replacing
from plantbal.inert import store
from plantbal.page import diagnosed, measured, summed
from plantbal.page.head import Origin, head_terms
from plantbal.page.statement import PageContents, Prepared, Round, Statement, StreamLine

if TYPE_CHECKING:
    from plantbal.accounts.account import MonthAccount
    from plantbal.explain import ExplainedRow

Cell = str | int | float | Decimal | None
Row = Sequence[Cell]
TONNES, PLAIN = "#,##0.000", "0.00"
# How numbers are shown, by the heads of their columns.
PART = "0.0000 %"
FORMATS = {"in %": PLAIN, "in sd": PLAIN, "gain over the meter": "0 %"}
FORMATS |= {name: PART for name in ("assay", "± of the assay", "reconciled", "± of it")}
FORMATS |= {"recovery": "0.00 %", "± of the recovery": "0.00 %"}


def _tonnes(grams: int | None) -> Decimal | None:
    return None if grams is None else tonnes_of(grams)


def _deviation(line: StreamLine) -> Cell:
    return None if line.worth is None else round(line.worth.deviation / 1e6, 6)


def _adjusted(line: StreamLine) -> list[Cell]:
    return [_tonnes(line.adjustment), line.percent, line.deviations]


def _class(line: StreamLine) -> str:
    word = {"suspect": "suspect, ", "taken": "taken out, "}.get(line.mark, "")
    return word + line.class_


def _rounds(statements: Iterable[Statement]) -> Iterable[tuple[Statement, Round]]:
    """Give each period with the round that counts."""
    for statement in statements:
        if statement.report.last is not None:
            yield statement, statement.report.last


def periods(account: PageContents) -> tuple[Row, list[Row]]:
    """Return the table of periods."""
    head = ("period", "first", "last", "books", "verdict", "why")
    rows: list[Row] = []
    for each in account.statements:
        first, last = each.days or ("", "")
        why = " ".join(each.verdict.reasons)
        rows.append((each.period, first, last, each.state, each.verdict.headline, why))
    return head, rows


def streams(account: PageContents) -> tuple[Row, list[Row]]:
    """Return the table of streams; one without a figure to book has none."""
    head = (
        *("period", "stream", "from", "to", "measured, t", "adjustment, t", "in %", "in sd"),
        *("booked, t", "± t", "class"),
    )
    rows: list[Row] = [
        (
            *(each.period, line.name, line.from_, line.to, _tonnes(line.value), *_adjusted(line)),
            *(_tonnes(line.flow), _deviation(line), _class(line)),
        )
        for each, last in _rounds(account.statements)
        for line in [*last.streams, *last.unobservable]
        if not line.is_tank
    ]
    return head, rows


def tanks(account: PageContents) -> tuple[Row, list[Row]]:
    """Return the table of tanks."""
    head = (
        *("period", "tank", "opening by dip, t", "in, t", "out, t", "gain, t", "closing booked, t"),
        *("closing by dip, t", "adjustment, t", "in %", "in sd", "± t", "class"),
    )
    rows: list[Row] = [
        (
            *(each.period, tank.line.name, *map(_tonnes, (tank.opening, tank.into, tank.out))),
            *map(_tonnes, (tank.line.flow, tank.closing, tank.measured)),
            *(*_adjusted(tank.line), _deviation(tank.line), _class(tank.line)),
        )
        for each, last in _rounds(account.statements)
        for tank in last.tanks
    ]
    return head, rows


def bounds(account: PageContents) -> tuple[Row, list[Row]]:
    """Return the table of bounds, tests and certificates."""
    head = (
        *("period", "stream", "least from, t", "least to, t", "from, t", "to, t", "test"),
        *("shape", "side", "parts", "gain over the meter", "± rests on"),
    )
    none = (None, None)
    rows: list[Row] = [
        (
            *(each.period, line.name, *map(_tonnes, line.least or none)),
            *map(_tonnes, line.bounds or none),
            *(line.statistic, line.shape, line.side, line.parts),
            *((line.worth.gain, line.worth.contributors) if line.worth else none),
        )
        for each, last in _rounds(account.statements)
        for line in last.lines
    ]
    return head, rows


def edits(account: PageContents) -> tuple[Row, list[Row]]:
    """Return the table of edits."""
    from plantbal.page.render import fact_text

    head = (
        "period",
        "record",
        "line",
        "edit",
        "fact",
        "of",
        "before",
        "after",
        "reason",
        "as typed",
    )
    rows: list[Row] = []
    for each in account.statements:
        for edit in each.edits:
            change = edit.change
            fact = change.fact if change else None
            before = fact_text(change.before if change else None, account.ledger)
            after = fact_text(change.after if change else None, account.ledger)
            which = (edit.record, change.at.line if change else None, edit.word, edit.id)
            of = fact.of if fact else ""
            rows.append((each.period, *which, of, before, after, edit.reason, edit.typed or None))
    return head, rows


def refused(account: PageContents, told: Sequence[ExplainedRow]) -> tuple[Row, list[Row]]:
    """Return the table of refused rows."""
    if not told:
        rows: list[Row] = [(row.record, row.word, row.remedy) for row in account.refused]
        return ("record", "why", "what to do"), rows
    rows = []
    for each in told:
        rows.append((each.line, each.sentence, each.row))
        rows += [(other.line, other.sentence, "only because of the above") for other in each.under]
    return ("line", "what is wrong", "row"), rows


def lint(account: PageContents) -> tuple[Row, list[Row]]:
    """Return the table of what looks wrong."""
    rows: list[Row] = [(each.place.line, each.text, each.remedy) for each in account.findings]
    return ("line", "what is there", "what to do"), rows


def write_workbook(
    path: str | Path,
    prepared: Prepared,
    origin: Origin,
    accounts: Sequence[MonthAccount] = (),
) -> None:
    """Write the workbook, whole or not at all.

    Parameters
    ----------
    path : str or Path
        The file.
    prepared : Prepared
        What is shown.
    origin : Origin
        Where it comes from.
    accounts : sequence of MonthAccount
        The accounts of periods, if the book is known.
    """
    try:
        from openpyxl import Workbook
    except ImportError as error:
        raise ToolMissing("openpyxl", "python3-openpyxl") from error
    account = prepared.account
    head: list[Row] = [(term, text) for term, text, _ in head_terms(account, origin)]
    made_of_hours = {name: part.summed for name, part in prepared.measured.items()}
    tables: dict[str, tuple[Row, Sequence[Row]]] = {
        "head": (("what", "which"), head),
        "periods": periods(account),
        "streams": streams(account),
        "tanks": tanks(account),
        "grades": table_of(prepared.grades),
        "measured": (measured.SHEET, list(measured.measured_sheet(prepared.measured))),
        "summed": (summed.SHEET, list(summed.summed_sheet(made_of_hours))),
        "bounds": bounds(account),
        "diagnosis": (diagnosed.SHEET, diagnosed.sheet(account.statements)),
        "edits": edits(account),
        "refused": refused(account, prepared.told),
        "looks wrong": lint(account),
    }
    book = Workbook()
    book.remove(book.active)
    for name, (heads, rows) in tables.items():
        if rows:
            _fill(book.create_sheet(name), heads, rows)
    for number, each in enumerate(accounts, 1):
        put_sheets(book, each, each.tables, number if len(accounts) > 1 else None)
    with replacing(path) as made:
        book.save(made)


def _fill(sheet: Any, heads: Row, rows: Sequence[Row]) -> None:
    """Write a table to a sheet: texts as texts, whatever they begin with."""
    from openpyxl.styles import Alignment, Font
    from openpyxl.utils import get_column_letter

    sheet.append(heads)
    for cell in sheet[1]:
        cell.font = Font(bold=True)
        cell.alignment = Alignment(wrap_text=True, vertical="bottom")
    formats = [
        FORMATS.get(str(head), TONNES if str(head).endswith(", t") else "") for head in heads
    ]
    for number, row in enumerate(rows, 2):
        for place, (value, shown) in enumerate(zip(row, formats), 1):
            if value is None or value == "":
                continue
            cell = sheet.cell(number, place)
            store(cell, value)
            if shown and not isinstance(value, str):
                cell.number_format = shown
    for place, head in enumerate(heads, 1):
        texts = [str(row[place - 1]) for row in rows[:200] if row[place - 1] is not None]
        width = min(60, 2 + max([8, len(str(head)) // 2, *map(len, texts)]))
        sheet.column_dimensions[get_column_letter(place)].width = width
    sheet.freeze_panes = "B2"
    sheet.auto_filter.ref = sheet.dimensions
    sheet.page_setup.orientation = "landscape"
    sheet.page_setup.paperSize = sheet.PAPERSIZE_A4
    sheet.page_setup.fitToWidth, sheet.page_setup.fitToHeight = 1, 0
    sheet.sheet_properties.pageSetUpPr.fitToPage = True
    sheet.print_title_rows = "1:1"
