"""Workbooks in the shapes that an office keeps: the same sessions as with a row for each figure."""

from __future__ import annotations

import datetime
from pathlib import Path
from typing import Any

import openpyxl
import pytest

from plantbal import convert

from plantbal.workbook.conversion import Conversion

Rows = list[list[Any]]
Book = dict[str, Rows]
MARCH_31, APRIL_1 = datetime.datetime(2024, 3, 31), datetime.datetime(2024, 4, 1)


def farm() -> Book:
    """Two tanks that are filled by ship and emptied by a meter, with a row for each figure."""
    return {
        "streams": [
            ["tag", "stream", "from", "to", "kind", "error"],
            [None, "SHIP", "env", "T1", "batch", "1 t"],
            ["F-1", "DRAIN", "T1", "T2", "metered", "2 t"],
            [None, "OUT", "T2", "env", "plain", None],
        ],
        "tanks": [
            ["tank", "error", "density"],
            ["T1", "3 mm", 862],
            ["T2", "8 t", 798],
        ],
        "straps": [
            ["tank", "level", "volume"],
            ["T1", 0, 0],
            ["T1", 10000, 5000.5],
            ["T2", 0, 12],
            ["T2", 10000, 4000],
        ],
        "dips": [
            ["tank", "day", "level"],
            ["T1", MARCH_31, 5368],
            ["T1", APRIL_1, 5370],
            ["T2", MARCH_31, 2500],
            ["T2", APRIL_1, 2600],
        ],
        "tickets": [["id", "stream", "first", "amount"], ["b1", "SHIP", APRIL_1, 2206.5]],
        "periods": [["name", "first", "last"], ["d1", APRIL_1, APRIL_1]],
        "readings": [["day", "F-1"], [APRIL_1, 2200]],
    }


def saved(room: Path, book: Book) -> Path:
    made = openpyxl.Workbook()
    made.remove(made.active)
    for name, rows in book.items():
        sheet = made.create_sheet(name)
        for row in rows:
            sheet.append(row)
    path = room / "plant.xlsx"
    made.save(path)
    return path


def rows_of(found: Conversion) -> list[tuple[str, ...]]:
    return sorted(found.session)


def adds_up(found: Conversion) -> None:
    for each in found.account:
        assert each.rows == each.heads + each.read + each.passed + each.at_fault, each


def without(rows: Rows, head: str) -> Rows:
    at = rows[0].index(head)
    return [row[:at] + row[at + 1 :] for row in rows]


TITLE: Rows = [["Haldenbek, tanks"], []]
LEVELS = [("T1", 5368, 5370), ("T2", 2500, 2600)]
SHAPES: dict[str, tuple[Book, str]] = {
    "straps: a column a tank": (
        {"straps": [*TITLE, ["Level", "T1", "T2"], [0, 0, 12], [10000, 5000.5, 4000]]},
        "there is a column of volumes for each of 2 tanks (T1, T2), beside column A",
    ),
    "straps: a column a tank, units below": (
        {
            "straps": [
                ["Füllstand", "T1", "T2"],
                ["cm", "m3", "L"],
                [0, 0, 12000],
                [1000, 5000.5, 4000000],
            ]
        },
        "units: L, cm, m3",
    ),
    "straps: tables of different length": (
        {
            "straps": [
                ["mm", "T1", "T2"],
                [0, 0, 12],
                [10000, 5000.5, 4000],
                ["checked by Meyer", None, None],
            ]
        },
        "since the heads are names of tanks",
    ),
    "straps: a pair a tank": (
        {
            "straps": [
                ["T1", None, None, "T2", None],
                ["level", "volume", None, "level", "volume"],
                ["mm", "m3", None, "m", "m3"],
                [0, 0, None, 0, 12],
                [10000, 5000.5, None, 10, 4000],
            ]
        },
        "there is a pair of columns for each of 2 tanks",
    ),
    "straps: a pair a tank, units alone": (
        {
            "straps": [
                ["T1", None, "T2", None],
                ["m3", "cm", "m3", "cm"],
                [0, 0, 12, 0],
                [5000.5, 1000, 4000, 1000],
            ]
        },
        "their names are over pairs of such heads",
    ),
    "straps: side by side": (
        {
            "straps": [
                ["tank", "level", "volume", None, "tank", "level", "volume"],
                ["T1", 0, 0, None, "T2", 0, 12],
                ["T1", 10000, 5000.5, None, "T2", 10000, 4000],
            ]
        },
        "2 tables are side by side",
    ),
    "straps: units in brackets": (
        {
            "straps": [
                ["tank", "level [m]", "volume (m³)"],
                ["T1", 0, 0],
                ["T1", 10, 5000.5],
                ["T2", 0, 12],
                ["T2", 10, 4000],
            ]
        },
        "",
    ),
    "dips: a column a tank": (
        {
            "dips": [
                *TITLE,
                ["Datum", "T1", "T2"],
                ["mm", "mm"],
                [MARCH_31, 5368, 2500],
                [APRIL_1, 5370, 2600],
                ["Mittelwert", 5369, 2550],
            ]
        },
        "there is a column of levels for each of 2 tanks (T1, T2), beside column A",
    ),
    "dips: metres and millimetres": (
        {
            "dips": [
                ["Datum", "T1", "T2"],
                [None, "m", "mm"],
                [MARCH_31, 5.368, 2500],
                [APRIL_1, 5.37, 2600],
            ]
        },
        "units: m, mm",
    ),
    "dips: a column unit": (
        {
            "dips": [
                ["tank", "day", "level", "unit"],
                ["T1", MARCH_31, 5.368, "m"],
                ["T1", APRIL_1, 537, "cm"],
                ["T2", MARCH_31, 2500, None],
                ["T2", APRIL_1, 2600, "mm"],
            ]
        },
        "",
    ),
    "a row of units": (
        {
            "tickets": [
                ["id", "stream", "first", "amount"],
                [None, None, None, "kg"],
                ["b1", "SHIP", APRIL_1, 2206500],
            ],
            "tanks": [
                ["tank", "error", "density"],
                [None, None, "t/m3"],
                ["T1", "3 mm", 0.862],
                ["T2", "8 t", 0.798],
            ],
        },
        "this row is taken for units: only units are in it",
    ),
    "no column kind": (
        {"streams": without(farm()["streams"], "kind")},
        "streams: SHIP is taken for batch, since no kind is written, and there are tickets",
    ),
}


@pytest.mark.parametrize("case", SHAPES)
def test_a_shape_gives_the_same_session(case: str, tmp_path: Path) -> None:
    sheets, note = SHAPES[case]
    wanted = convert(saved(tmp_path, farm()))
    assert wanted.said() == []
    found = convert(saved(tmp_path, farm() | sheets))
    assert found.said() == []
    assert rows_of(found) == rows_of(wanted)
    assert not note or any(note in each for each in found.notes), found.notes
    adds_up(found)


def test_the_long_tables_give_what_is_computed_by_hand(tmp_path: Path) -> None:
    rows = rows_of(convert(saved(tmp_path, farm())))
    # 3 mm of T1 are 3 * 500.05 L * 0.862 kg/L = 1,293,129.3 g
    assert ("dip", "T1_2024-03-31", "T1", "2024-03-31", "5368", "862000", "1672183386519") in rows
    assert ("strap", "T1", "10000", "5000500000") in rows
    assert (
        "transfer",
        "b1",
        "SHIP",
        "2024-04-01",
        "2024-04-01",
        "2206500000",
        "1000000000000",
    ) in rows


FAULTS: dict[str, tuple[Book, str, str]] = {
    "metres without a unit": (
        {"straps": [["Level", "T1", "T2"], [0, 0, 12], [10.5, 5000.5, 4000]]},
        "straps!A3",
        "the level 10.5 has decimals, and its column has no unit",
    ),
    "a metre among millimetres": (
        {"dips": [["day", "T1", "T2"], [MARCH_31, 5.368, 2500], [APRIL_1, 5370, 2600]]},
        "dips!B2",
        "the level 5.368 has decimals and no unit: 5.368 m",
    ),
    "a letter in a figure": (
        {"straps": [["mm", "T1", "T2"], [0, 0, 12], [10000, "5OO0", 4000]]},
        "straps!B3",
        "'5OO0' isn't a number",
    ),
    "a tank that isn't there": (
        {"straps": [["mm", "T1", "T2", "T3"], [0, 0, 12, 0], [10000, 5000.5, 4000, 9]]},
        "straps!D2",
        "the column 'T3' isn't read, but it has figures",
    ),
    "two units": (
        {"straps": [["Level [cm]", "T1", "T2"], ["mm", "m3", "m3"], [0, 0, 12], [9, 5, 4]]},
        "straps!A2",
        "mm is here, and its head has cm",
    ),
    "a unit over a column unit": (
        {"dips": [["tank", "day", "level [m]", "unit"], ["T1", MARCH_31, 5, "mm"]]},
        "dips!C1",
        "level is in m by its heads, and there is a column unit",
    ),
    "two columns of levels": (
        {"straps": [["mm", "cm", "T1", "T2"], [0, 0, 0, 12], [10000, 1000, 5000, 4000]]},
        "straps: line 1",
        "several columns of levels beside those of T1, T2",
    ),
    "tickets and readings": (
        {
            "streams": without(farm()["streams"], "kind"),
            "tickets": [["id", "stream", "first", "amount"], ["b1", "DRAIN", APRIL_1, 2206]],
        },
        "streams!B3",
        "DRAIN has tickets and readings, and no kind: batch or metered?",
    ),
}


@pytest.mark.parametrize("case", FAULTS)
def test_what_can_be_read_in_two_ways_is_a_fault(case: str, tmp_path: Path) -> None:
    sheets, place, what = FAULTS[case]
    found = convert(saved(tmp_path, farm() | sheets))
    assert any(place in said and what in said for said in found.said()), found.said()
    adds_up(found)
