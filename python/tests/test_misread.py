"""Figures that a person reads in one way and a program might in another: they are refused, or read as the person does."""

from __future__ import annotations

import zipfile
from collections.abc import Callable
from decimal import Decimal
from pathlib import Path

import pytest
from books import PLANT, Rows, Sheets, folder
from test_conversion import Book, xlsx_of
from test_ods import ods, row

from plantbal import convert
from plantbal.causes import CausedFault
from plantbal.workbook.conversion import Conversion
from plantbal.workbook.sheets import InThousands, Percent, Shown, read_workbook
from plantbal.workbook.xlsxparts import XlsxCause

KEPT = ("streams", "tanks", "straps")
SHEETS: Sheets = {name: PLANT[name] for name in KEPT}

# By locale and text: what is booked in grams, or a part of what is said.
FIGURES: dict[tuple[str, str], int | str] = {
    ("de", "0.408"): "has a decimal point, and --locale is de",
    ("en", "0,408"): "has a decimal comma, and --locale is en",
    ("de", "0,408"): 408_000,
    ("de", "-0.408"): "has a decimal point",
    ("de", "12.408"): 12_408_000_000,
    ("de", "0 408"): "isn't a number",
    ("de", "12 408"): 12_408_000_000,
    ("de", "1.234E+03"): "has a decimal point, and --locale is de",
    ("de", "1,234E+03"): 1_234_000_000,
    ("en", "1,234E+03"): "has a decimal comma, and --locale is en",
    ("", "1.234E+03"): 1_234_000_000,
    ("", "3 ML"): "isn't a number",
    ("", "3 mL"): 4,
}


@pytest.mark.parametrize(("locale", "text"), FIGURES)
def test_a_figure_is_read_as_it_was_meant(locale: str, text: str, tmp_path: Path) -> None:
    streams = [[cell.replace("0.1 t", "100 kg") for cell in row] for row in PLANT["streams"]]
    tickets = [
        ["id", "stream", "first", "amount", "density"],
        ["t1", "TRUCKS", "2024-04-01", text, "1250"],
    ]
    sheets = {**SHEETS, "streams": streams, "tickets": tickets}
    check(convert(folder(tmp_path / "w", sheets), locale=locale), FIGURES[locale, text])


def check(found: Conversion, meant: int | str) -> None:
    """See what the only ticket is booked as, or what is said of it."""
    if isinstance(meant, str):
        assert meant in "\n".join(found.said())
    else:
        assert found.said() == []
        assert [int(row[5]) for row in found.session if row[0] == "transfer"] == [meant]


# By a cell's form and its number: what is booked in grams, or a part of what is said.
FORMS: dict[tuple[str, float], int | str] = {
    ('#,##0" kg"', 850): 850_000,
    ("0.0\\ \\k\\g", 850): 850_000,
    ('_-* 0.00 "t"_-;-* 0.00 "t"_-', 850): 850_000_000,
    ('0.0,"kt"', 850): 850_000_000,
    ('0" m"', 850): "'850 m' isn't a number",
    ("#,##0,", 850_000): "850000 is in this cell, which shows 850: give the cell a form",
    ("0.0;[Red]-0.0", 850): 850_000_000,
    ("0.0%", 0.5): "50 % is a percentage",
    ('0.0"%"', 50): "50 % is a percentage",
}


@pytest.mark.parametrize(("form", "number"), FORMS)
def test_a_unit_in_the_form_of_a_cell(form: str, number: float, tmp_path: Path) -> None:
    tickets: Rows = [["id", "stream", "first", "amount"], ["t1", "TRUCKS", "2024-04-01", number]]
    book: Book = {**SHEETS, "tickets": tickets}
    found = convert(xlsx_of(tmp_path, book, {"tickets!D2": form}), locale="en")
    check(found, FORMS[form, number])


def test_a_cell_that_shows_no_figure(tmp_path: Path) -> None:
    tickets: Rows = [["id", "stream", "first", "amount"], ["t1", "TRUCKS", "2024-04-01", 850]]
    for form, noted in ((";;;", True), ('"n/a"', True), ("@", False), ("General", False)):
        path = xlsx_of(tmp_path, {**SHEETS, "tickets": tickets}, {"tickets!D2": form})
        found = convert(path, locale="en")
        check(found, 850_000_000)
        what = "tickets: cell D2 is shown without its figure, and read"
        assert any(what in note for note in found.notes) == noted, form


@pytest.mark.parametrize("form", ["0.0%", '0.0"%"', "0.0\\%"])
def test_an_error_that_is_shown_in_percent(form: str, tmp_path: Path) -> None:
    rows = [list(row) for row in PLANT["streams"]]
    rows[3][5] = 0.015 if form == "0.0%" else 1.5
    tickets: Rows = [["id", "stream", "first", "amount"], ["t1", "TRUCKS", "2024-04-01", 1000]]
    book: Book = {**SHEETS, "streams": rows, "tickets": tickets}
    found = convert(xlsx_of(tmp_path, book, {"streams!F4": form}), locale="en")
    assert [row[6] for row in found.session if row[0] == "transfer"] == [f"{15_000_000**2}"]


def test_a_unit_that_an_ods_file_shows(tmp_path: Path) -> None:
    shown = [("850", "850 kg"), ("1.5", "1.50 %"), ("850", "850.0"), ("2", "2 €")]
    shown += [
        ("12000", "12 kt"),
        ("12000", "12.000,0"),
        ("1199.96", "001,200"),
        ("12e3", "1.2E+04"),
    ]
    cells = [cell(*each) for each in shown]
    (sheet,) = read_workbook(ods(tmp_path, row("".join(cells))))
    first, *others = sheet.lines[0][1]
    assert isinstance(first, Shown) and first == 850 and first.unit == "kg"
    assert others[:3] == [Percent(Decimal("1.5")), Decimal(850), Decimal(2)]
    assert others[3:] == [12, 12_000, Decimal("1199.96"), 12_000]
    assert not any(isinstance(each, InThousands) for each in others)
    (sheet,) = read_workbook(
        ods(tmp_path, row(cell("12000", "12") + cell("400", "0") + cell("7", "-")))
    )
    thousands, none, blank = sheet.lines[0][1]
    assert isinstance(thousands, InThousands) and thousands.shown == 12
    assert isinstance(none, InThousands) and blank == 7
    assert sheet.notes == ["cell C1 is shown without its figure, and read"]


def parts(change: Callable[[dict[str, bytes]], object]) -> Callable[[Path], None]:
    """An edit of the parts of a workbook by their names; one may come twice."""

    def edit(path: Path) -> None:
        with zipfile.ZipFile(path) as packed:
            found = {each: packed.read(each) for each in packed.namelist()}
        change(found)
        with zipfile.ZipFile(path, "w") as packed:
            for name, data in found.items():
                packed.writestr(name.removesuffix("~"), data)

    return edit


SHEET = "xl/worksheets/sheet1.xml"
MAIN = b"http://schemas.openxmlformats.org/spreadsheetml/2006/main"
STRICT = b"http://purl.oclc.org/ooxml/spreadsheetml/main"
PARTS: dict[str, tuple[Callable[[Path], None], XlsxCause | None]] = {
    "strict": (
        parts(lambda p: p.update({n: d.replace(MAIN, STRICT) for n, d in p.items()})),
        XlsxCause.STRICT,
    ),
    "lost": (parts(lambda p: p.pop(SHEET)), XlsxCause.NO_PART),
    "twice": (
        parts(lambda p: p.update({f"{SHEET}~": p[SHEET]})),
        XlsxCause.TWO_PARTS,
    ),
    "case": (parts(lambda p: p.update({SHEET.upper(): p.pop(SHEET)})), None),
}


@pytest.mark.parametrize("of", PARTS)
@pytest.mark.filterwarnings("ignore:Duplicate name")
def test_a_sheet_is_not_lost_with_its_part(of: str, tmp_path: Path) -> None:
    edit, cause = PARTS[of]
    tickets: Rows = [["id", "stream", "first", "amount"], ["t1", "TRUCKS", "2024-04-01", 850]]
    path = xlsx_of(tmp_path, {**SHEETS, "tickets": tickets}, {})
    edit(path)
    if cause is not None:
        with pytest.raises(CausedFault) as fault:
            convert(path, locale="en")
        assert fault.value.case.cause is cause
    else:
        check(convert(path, locale="en"), 850_000_000)


def cell(value: str, shown: str) -> str:
    inner = f"<text:p>{shown}</text:p>"
    kind = f'office:value-type="float" office:value="{value}"'
    return f"<table:table-cell {kind}>{inner}</table:table-cell>"
