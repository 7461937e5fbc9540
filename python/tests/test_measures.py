"""Densities, temperatures, water and roofs in a workbook and in a book, with figures by hand."""

from __future__ import annotations

import csv
import re
from decimal import Decimal
from pathlib import Path

import openpyxl
import pytest
from books import Sheets, folder, rows_of
from conftest import Desk, text_of

from plantbal import convert, limits
from plantbal.audit.bundle import MEASURED, unpacked
from plantbal.audit.reckoned import reckoned
from plantbal.volumes.trail import read_trails

PLANT: Sheets = {
    "streams": [
        ["tag", "stream", "from", "to", "kind", "unit", "error"],
        ["FI1", "CRUDE", "env", "U", "metered", "m3", "0.5 %"],
        ["", "SHIP", "T1", "env", "batch", "m3", "0.2 %"],
        ["", "PROD", "U", "T1", "plain", "", ""],
    ],
    "tanks": [["tank", "error"], ["T1", "3 mm"]],
    "straps": [["tank", "level", "volume"], ["T1", "0", "0"], ["T1", "10000", "10000"]],
    # The factors make the sums by hand short: 1 % in ten degrees.
    "factors": [["product", "temperature", "factor"], ["OIL", "5", "1.01"], ["OIL", "35", "0.98"]],
    "products": [["product", "density", "error"], ["OIL", "800", "0.5"]],
    "gauges": [
        [
            "name",
            "product",
            "temperature error",
            "water error",
            "roof",
            "roof error",
            "rests",
            "floats",
        ],
        ["T1", "OIL", "0.4", "2", "40 t", "0.1 t", "1000", "1500"],
        ["SHIP", "OIL", "0.3", "", "", "", "", ""],
    ],
}
FACTS: Sheets = {
    "densities": [
        ["name", "first", "last", "density", "error"],
        ["CRUDE", "2024-01-01", "2024-01-02", "851.5", "0.5"],
        ["CRUDE", "2024-01-03", "2024-01-03", "849", "0.5"],
    ],
    "readings": [["day", "FI1"], *([f"2024-01-0{day}", "1000"] for day in (1, 2, 3))],
    "tickets": [
        ["id", "stream", "first", "amount", "temperature"],
        ["S1", "SHIP", "2024-01-02", "500", "25"],
    ],
    "dips": [
        ["tank", "day", "level", "temperature", "water"],
        ["T1", "2023-12-31", "5000", "25", "100"],
        ["T1", "2024-01-03", "900", "15", "0"],
    ],
    "periods": [["name", "first", "last"], ["jan", "2024-01-01", "2024-01-03"]],
}
# id, grams, variance. 1,000 m3 of 851.5 kg/m3 with 0.5 %, and 0.5 kg/m3 on two days at once;
# 500 m3 of 800 kg/m3 at 0.99; 4,900 m3 at 792 kg/m3 less the roof, and 900 m3 with the roof at rest.
BY_HAND = {
    "FI1_2024-01-01": (851_500_000, 4_257_500**2 + 2 * 500_000**2),
    "FI1_2024-01-03": (849_000_000, 4_245_000**2 + 500_000**2),
    "S1": (
        396_000_000,
        792_000**2 + (500_000 * Decimal("0.495")) ** 2 + (500_000 * Decimal("0.24")) ** 2,
    ),
    "T1_2023-12-31": (
        3_840_800_000,
        1000**2 * (2376**2 + 1584**2 + Decimal("2425.5") ** 2 + 1568**2 + 100**2)
        + Decimal(5000) ** 2 / 12,
    ),
    "T1_2024-01-03": (
        720_000_000,
        1000**2 * (2400**2 + 1600**2 + 450**2 + 288**2) + Decimal(900) ** 2 / 12,
    ),
}


def test_by_hand(tmp_path: Path) -> None:
    found = convert(folder(tmp_path / "jan", PLANT | FACTS))
    assert found.ok, found.said()
    facts = {row[1]: row for row in found.session if row[0] in ("reading", "transfer", "dip")}
    for name, (grams, variance) in BY_HAND.items():
        row = facts[name]
        booked = int(row[4]) * int(row[5]) if row[0] == "dip" else int(row[-2])
        assert abs(booked - grams) <= (2500 if row[0] == "dip" else 0), name
        assert 0 <= int(row[-1]) - variance < 1, name


def test_a_book_keeps_how(say: Desk, tmp_path: Path) -> None:
    """A trail for each fact, kept measures, and a changed density that is said before it is booked."""
    book = "--book", tmp_path / "mill"
    assert say("book", "new", "2024", folder(tmp_path / "plant", PLANT), *book).status == 0
    said = say("book", "add", folder(tmp_path / "jan", FACTS), *book)
    assert (said.status, said.err) == (0, ""), said
    trails = read_trails(text_of(tmp_path / "mill" / "measured.csv"))
    assert len(trails) == 6
    rows = rows_of(tmp_path)
    for trail in trails:
        assert rows[trail.row - 1].split(",")[1] == trail.fact, "the row is the fact's"
        assert abs(trail.again() - Decimal(trail.figures["booked"])) <= 2500, trail
    other = {name: [list(row) for row in table] for name, table in FACTS.items()}
    other["densities"][1][3] = "852"
    said = say("book", "add", folder(tmp_path / "jan", other), *book)
    what = "the density of CRUDE, 851.5 kg/m3, becomes 852 kg/m3, which changes 2 facts of jan"
    assert said.status == 1 and said.out.splitlines()[0] == what, said
    assert rows_of(tmp_path) == rows, "nothing is booked"
    said = say("book", "add", tmp_path / "jan", "--why", "laboratory", *book)
    assert said.status == 0 and "amended: 2" in said.out, said
    last = list(csv.DictReader(text_of(tmp_path / "mill" / "measured.csv").splitlines()))[-1]
    assert (last["fact"], last["density"], last["row"]) == (
        "FI1_2024-01-02",
        "852",
        str(len(rows) + 2),
    )
    said = say("book", "amend", "T1", "2024-01-03", "910 mm", "--why", "x", *book)
    assert said.status == 1 and "calculated from more than its level" in said.err, said


def test_a_bundle_has_how(say: Desk, tmp_path: Path, program: Path) -> None:
    """An auditor reckons each mass again, and a changed figure is named with its row."""
    book = "--book", tmp_path / "mill"
    assert say("book", "new", "2024", folder(tmp_path / "plant", PLANT), *book).status == 0
    assert say("book", "add", folder(tmp_path / "jan", FACTS), *book).status == 0
    session, bundle = tmp_path / "2024.csv", tmp_path / "a.zip"
    session.write_text(text_of(tmp_path / "mill" / "2024.csv") + "report,jan\n", encoding="utf-8")
    words = ("archive", session, "--out", bundle, *book, "--program", program)
    assert say(*words).status in (0, 1)
    files = unpacked(bundle).files
    assert text_of(tmp_path / "mill" / "measured.csv") == files[MEASURED].decode()
    said = say("audit", bundle, *book)
    assert "6 masses are calculated again from what was measured" in said.out, said
    assert "good: " in said.out and "wrong: " not in said.out, said
    old, new = b",851.5,0.5,", b",851.6,0.5,"
    assert old in files[MEASURED]
    changed = files[MEASURED].replace(b"2024,", b"2024,", 1).replace(b"0.99", b"0.98", 1)
    changed = changed if changed != files[MEASURED] else files[MEASURED].replace(old, new)
    said = [each for _, each in reckoned("a.zip", {**files, MEASURED: changed})]
    assert said and "its figures give" in said[0], said


FAULTS = [
    # what is changed: sheet, row, column, text; and what is said
    ("dips", 2, 2, "1200", "1200 mm is in the critical zone of the roof"),
    ("dips", 1, 4, "6000", "m3 in all"),
    ("dips", 1, 3, "36", "the factors of OIL go from 5 to 35"),
    ("dips", 1, 3, "800", "800 isn't a temperature of a tank"),
    ("gauges", 1, 2, "", "the temperature of T1 has no error"),
    ("gauges", 1, 1, "", "the dip has no density"),
    ("gauges", 1, 5, "", "the roof has no error"),
    ("densities", 1, 4, "", "the density has no error"),
    ("factors", 2, 1, "5", "come after 5"),
    ("factors", 2, 2, "98", "98 isn't a factor"),
    ("products", 1, 0, "OEL", "there is no product 'OIL'"),
]


@pytest.mark.parametrize(("sheet", "row", "column", "text", "what"), FAULTS)
def test_faults(tmp_path: Path, sheet: str, row: int, column: int, text: str, what: str) -> None:
    sheets = {name: [list(cells) for cells in table] for name, table in (PLANT | FACTS).items()}
    sheets[sheet][row][column] = text
    if what == "there is no product 'OIL'":
        del sheets["factors"]
    found = convert(folder(tmp_path / "jan", sheets))
    assert not found.ok and any(what in said for said in found.said()), found.said()


def test_a_statement_has_how(
    say: Desk, tmp_path: Path, program: Path, monkeypatch: pytest.MonkeyPatch
) -> None:
    """From a tank's content on the page to what was measured and applied, and the sum by hand."""
    book = "--book", tmp_path / "mill"
    assert say("book", "new", "2024", folder(tmp_path / "plant", PLANT), *book).status == 0
    assert say("book", "add", folder(tmp_path / "jan", FACTS), *book).status == 0
    session, out = tmp_path / "2024.csv", tmp_path / "page.html"
    session.write_text(text_of(tmp_path / "mill" / "2024.csv") + "report,jan\n", encoding="utf-8")
    words = ("page", session, "--run", "--out", out, "--program", program)
    assert say(*words, *book, "--xlsx", tmp_path / "page.xlsx").status in (0, 1)
    shown = text_of(out)
    rows = shown.split('<tr id="p0-m')[1:]
    link = re.search('<a href="#p0-m([0-9]+)"[^>]*>3,840.800</a>', shown)
    assert len(rows) == 6 and link is not None, "the opening of the tank leads to its dip"
    dip = rows[int(link[1])].replace("\u00a0", " ")
    for text in (
        "dip of T1",
        "level 5,000 mm ± 3; free water 100 mm ± 2; temperature 25 °C ± 0.4",
        "factor 0.990, by the product&#39;s own factors; less the roof, 40,000 kg ± 100",
        "(5,000 − 100) × 800 × 0.990 − 40,000 = 3,840,800 kg",
    ):
        assert text in dip, (text, dip)
    assert "✗" not in "".join(rows)
    table = openpyxl.load_workbook(tmp_path / "page.xlsx")["measured"]
    assert table.max_row == 7 and table["A1"].value == "period"
    monkeypatch.setattr(limits, "MEASURED_SHOWN", 2)
    assert say(*words, *book).status in (0, 1)
    assert "4 more are in measured.csv of the book" in text_of(out)
    assert say(*words).status in (0, 1) and "How masses were" not in text_of(out)
