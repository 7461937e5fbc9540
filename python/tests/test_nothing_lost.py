"""What a workbook has and `convert` doesn't read is said: rows, columns, sheets, hidden cells."""

from __future__ import annotations

import csv
import io
import shutil
import zipfile
from pathlib import Path
from typing import Any

import openpyxl
import pytest
from conftest import Desk, example, text_of
from hypothesis import given, settings
from hypothesis import strategies as st

from plantbal import convert, limits
from plantbal.faults import InputFault
from plantbal.workbook.fates import SheetFates
from plantbal.workbook.sheets import read_workbook

TICKETS = text_of(example("refinery_workbook/tickets.csv")).splitlines()


def with_tickets(room: Path, lines: list[str]) -> Path:
    """The refinery's workbook with other tickets."""
    made = room / "book"
    shutil.copytree(example("refinery_workbook"), made)
    (made / "tickets.csv").write_text("\n".join(lines) + "\n", encoding="utf-8")
    return made


def noted(ends: dict[int, str]) -> list[str]:
    """The tickets with a column of notes, some of which are these."""
    return [f"{TICKETS[0]},note", *(f"{t},{ends.get(at, '')}" for at, t in enumerate(TICKETS[1:]))]


@pytest.mark.parametrize(
    ("lines", "said"),
    [
        (noted({0: '"see log', 2: '12" line'}), "tickets.csv: line 2: a double quote in this row"),
        (noted({0: '"see log'}), "tickets.csv: line 2: a double quote in this row isn't closed"),
        (
            noted({0: '"see log', 2: 'line 12"'}),
            "line 2: a field within double quotes goes to line",
        ),
        (noted({1: '"12" line"'}), "tickets.csv: line 3: a double quote in this row"),
        (
            [line.replace("unit", "Einheit") for line in TICKETS],
            "tickets.csv: line 2, column 6 (Einheit): the column 'Einheit' isn't read, but it has units",
        ),
        (
            [f"{line},{'Druck' if not at else at}" for at, line in enumerate(TICKETS)],
            "column 8 (Druck): the column 'Druck' isn't read, but it has figures",
        ),
        (
            [f"{line}{',,7.5' if at else ''}" for at, line in enumerate(TICKETS)],
            "column 9: this column without a head isn't read, but it has figures",
        ),
        ([TICKETS[1], TICKETS[0], *TICKETS[2:]], "line 1, column 3: this row isn't read, but"),
        ([TICKETS[1]], "line 1, column 3: this row isn't read, but it has figures or units"),
    ],
)
def test_a_lost_figure_is_a_fault(say: Desk, tmp_path: Path, lines: list[str], said: str) -> None:
    found = say("convert", with_tickets(tmp_path, lines))
    assert (found.status, found.out) == (1, "")
    assert said in found.err, found.err


def test_what_else_is_not_read_is_noted(say: Desk, tmp_path: Path) -> None:
    lines = [
        "Tickets of April,,",
        *noted({0: '"see\nlog"', 1: "late"}),
        "Total,,,,9,,,",
        ",,,,,,,x",
    ]
    made = with_tickets(tmp_path, lines)
    (made / "Summary.csv").write_text("what,t\ncrude,5\n", encoding="utf-8")
    (made / "May.xlsx").write_bytes(b"PK")
    found = say("convert", made)
    assert found.status == 0, found.err
    for note in (
        "tickets.csv: line 3: a field within double quotes goes to line 4",
        "tickets.csv: line 2, column 8: the column 'note' isn't read",
        "tickets.csv: line 9, column 1: the row 'Total' is skipped",
        "tickets.csv: line 1: the rows 1, 10 are skipped",
        "Summary.csv: the sheet is skipped",
        "May.xlsx: it isn't read: of a folder only CSV files are",
    ):
        assert note in found.err, found.err
    # a column that is left out on purpose isn't said
    assert "the column 'note'" not in say("convert", "--skip", "note", made).err


def test_a_sheet_of_another_name(say: Desk, tmp_path: Path) -> None:
    made = with_tickets(tmp_path, TICKETS)
    (made / "tickets.csv").rename(made / "Lieferungen.csv")
    found = say("convert", made)
    assert found.status == 1
    assert "the sheet has the heads of the sheet tickets, and isn't read" in found.err


# ---- xlsx


def xlsx(room: Path) -> tuple[Path, Any]:
    """The refinery's workbook as xlsx, and the workbook of openpyxl that it is saved from."""
    made = openpyxl.Workbook()
    made.remove(made.active)
    for path in sorted(example("refinery_workbook").glob("*.csv")):
        sheet = made.create_sheet(path.stem)
        for row in csv.reader(io.StringIO(text_of(path))):
            sheet.append(row)
    return room / "book.xlsx", made


def test_hidden_and_struck(say: Desk, tmp_path: Path) -> None:
    path, book = xlsx(tmp_path)
    tickets = book["tickets"]
    tickets.row_dimensions[3].hidden = True
    tickets.column_dimensions["G"].hidden = True
    tickets["E4"].font = openpyxl.styles.Font(strike=True)
    book["dips"].sheet_state = "hidden"
    book.save(path)
    found = say("convert", path)
    assert found.status == 0, found.err
    for note in (
        "book.xlsx!tickets: row 3 is hidden, and read",
        "book.xlsx!tickets: column G is hidden, and read",
        "book.xlsx!tickets: cell E4 is struck through, and read",
        "book.xlsx!dips: the sheet is hidden, and is read",
    ):
        assert note in found.err, found.err


def sheet_xml(path: Path, old: str, new: str) -> Path:
    """A workbook in whose sheets a text is replaced."""
    made = path.with_name("other.xlsx")
    with zipfile.ZipFile(path) as given, zipfile.ZipFile(made, "w", zipfile.ZIP_DEFLATED) as out:
        for entry in given.infolist():
            data = given.read(entry)
            if entry.filename.startswith("xl/worksheets/"):
                data = data.replace(old.encode(), new.encode())
            out.writestr(entry, data)
    return made


FAR = '<row r="1048576"><c r="XFD1048576" t="inlineStr"><is><t>x</t></is></c></row></sheetData>'


@pytest.mark.parametrize(
    ("new", "status", "said"),
    [
        (FAR, 0, "tickets!XFD1048576: this column without a head isn't read"),
        ('</sheetData><mergeCells count="1"><mergeCell ref="A1:XFD1048576"/></mergeCells>', 0, ""),
        ('<row r="99999999999"><c><v>1</v></c></row></sheetData>', 1, "there is a cell in row 99,"),
        ('<row r="9"><c r="A9" t="s"><v>99</v></c></row></sheetData>', 1, "can't be read"),
        ('<row r="9"><c r="A9" s="99"><v>9</v></c></row></sheetData>', 1, "can't be read"),
        (
            f'<row r="9"><c t="str"><v>{"x" * 40_000}</v></c></row></sheetData>',
            1,
            "32,767 characte",
        ),
    ],
)
def test_corners_of_a_sheet(say: Desk, tmp_path: Path, new: str, status: int, said: str) -> None:
    path, book = xlsx(tmp_path)
    book.save(path)
    found = say("convert", sheet_xml(path, "</sheetData>", new))
    assert (found.status, said in found.err) == (status, True), found.err


def test_a_workbook_that_is_too_large(tmp_path: Path, monkeypatch: pytest.MonkeyPatch) -> None:
    path, book = xlsx(tmp_path)
    book.save(path)
    for name, most, said in (
        ("UNPACKED_BYTES", 10_000, "once it is unpacked"),
        ("CELLS", 50, "more than 50 cells"),
        ("COLUMNS", 3, "column"),
        ("WORKBOOK_BYTES", 100, "more than 100 bytes"),
    ):
        with monkeypatch.context() as patched, pytest.raises(InputFault) as caught:
            patched.setattr(limits, name, most)
            read_workbook(path)
        assert said in str(caught.value), caught.value


# ---- the account

CELLS = st.sampled_from(["", "", "x", "7.5", "kg", "Total", "2024-05-01", "-", "12 t", "RAIL"])
ROWS = st.lists(st.lists(CELLS, max_size=9), max_size=5)


@settings(max_examples=60, deadline=None)
@given(above=ROWS, among=ROWS, below=ROWS)
def test_the_account_adds_up(
    tmp_path_factory: pytest.TempPathFactory,
    above: list[list[str]],
    among: list[list[str]],
    below: list[list[str]],
) -> None:
    lines = [*map(",".join, above), TICKETS[0], *map(",".join, among), *TICKETS[1:]]
    made = with_tickets(tmp_path_factory.mktemp("made"), [*lines, *map(",".join, below)])
    found = convert(made)
    for each in found.account:
        assert each.heads + each.read + each.passed + each.at_fault == each.rows, each
        with open(each.file, encoding="utf-8", newline="") as file:
            assert each.rows == sum(any(map(str.strip, row)) for row in csv.reader(file)), each
    tickets = next(each for each in found.account if each.sheet == "tickets")
    _check_said(tickets, found.notes, [fault for fault in found.faults if fault.place.line])
    if found.ok:
        transfers = sum(row[0] == "transfer" for row in found.session)
        assert transfers == tickets.read == len(TICKETS) - 1


def _check_said(tickets: SheetFates, notes: list[str], faults: list[Any]) -> None:
    """Each row that isn't read has a note or a fault that says so."""
    assert not tickets.at_fault or faults, tickets
    assert not tickets.passed or any("skipped" in note for note in notes), tickets
