"""From workbooks as offices keep them to sessions: each read right, or refused with its cell."""

from __future__ import annotations

import csv
import datetime
import io
import shutil
from collections.abc import Callable
from decimal import Decimal
from fractions import Fraction
from pathlib import Path
from typing import Any

import openpyxl
import pytest
from conftest import Desk, example, text_of
from hypothesis import given, settings
from hypothesis import strategies as st

from plantbal import convert
from plantbal.faults import Fault
from plantbal.program import call
from plantbal.session import Session
from plantbal.workbook.cells import Reader
from plantbal.workbook.sheets import EPOCH, Cell, Sheet, letters, read_workbook
from plantbal.workbook.sheetkinds import SHEETS
from plantbal.workbook.template import KINDS, template

Rows = list[list[Any]]
Book = dict[str, Rows]
DAYS = [datetime.datetime(2024, 4, day) for day in (1, 2, 3)]
FEED = ["12408.5", "11697.5", "12047.25"]
PRODUCT = ["12400", "11700.5", "12040"]


def plant(*, english: bool = True) -> Book:
    """A mill with two meters, and three days of it."""
    mark = "1 %" if english else "1,0 %"
    return {
        "streams": [
            ["tag", "stream", "from", "to", "error"],
            ["F-1", "FEED", "env", "MILL", f"{mark} or 5 t"],
            ["P-1", "PRODUCT", "MILL", "env", "2 t"],
        ],
        "periods": [["name", "first", "last"], ["early", "2024-04-01", "2024-04-03"]],
        "readings": [["Day", "F-1", "P-1"], *map(list, zip(days("%Y-%m-%d"), FEED, PRODUCT))],
    }


def days(form: str) -> list[str]:
    return [day.strftime(form) for day in DAYS]


def comma(texts: list[str]) -> list[str]:
    return [text.replace(".", ",") for text in texts]


def folder_of(
    room: Path, book: Book, part: str = ",", encoding: str = "utf-8", ends: str = "\n"
) -> Path:
    """A workbook as a folder of CSV files."""
    room.mkdir(exist_ok=True)
    for name, rows in book.items():
        out = io.StringIO()
        csv.writer(out, delimiter=part, lineterminator=ends).writerows(rows)
        (room / f"{name}.csv").write_bytes(out.getvalue().encode(encoding))
    return room


def xlsx_of(room: Path, book: Book, forms: dict[str, str] | None = None) -> Path:
    """A workbook as xlsx; numbers and days as Excel keeps them, if they are such."""
    made = openpyxl.Workbook()
    made.remove(made.active)
    for name, rows in book.items():
        sheet = made.create_sheet(name)
        for row in rows:
            sheet.append(row)
        for cell, form in (forms or {}).items():
            if cell.startswith(f"{name}!"):
                sheet[cell.partition("!")[2]].number_format = form
    path = room / "plant.xlsx"
    made.save(path)
    return path


def readings_of(session: Session) -> list[tuple[str, ...]]:
    return [row for row in session if row[0] == "reading"]


@pytest.fixture(name="wanted", scope="module")
def fixture_wanted(tmp_path_factory: pytest.TempPathFactory) -> Session:
    """The session of the plain workbook."""
    found = convert(folder_of(tmp_path_factory.mktemp("plain"), plant()))
    assert (found.said(), found.notes) == ([], [])
    assert readings_of(found.session)[:2] == [
        ("reading", "F-1_2024-04-01", "FEED", "2024-04-01", "12408500000", "15397087225000000"),
        ("reading", "P-1_2024-04-01", "PRODUCT", "2024-04-01", "12400000000", "4000000000000"),
    ]
    return found.session


# ---- read right

Make = Callable[[Path], Path]


def sheet_with(rows: Rows, name: str = "readings", english: bool = True) -> Book:
    return plant(english=english) | {name: rows}


def wide(day: list[Any], feed: list[Any], product: list[Any]) -> Rows:
    return [["Day", "F-1", "P-1"], *map(list, zip(day, feed, product))]


PLAIN = wide(days("%Y-%m-%d"), FEED, PRODUCT)
GERMAN_DAYS = days("%d.%m.%Y")
SERIALS = ["45383", "45384", "45385"]
GERMAN = {"locale": "de"}


def german(rows: Rows) -> Make:
    return lambda room: folder_of(room, sheet_with(rows, english=False), ";")


def english(rows: Rows) -> Make:
    return lambda room: folder_of(room, sheet_with(rows))


def excel(rows: Rows, **forms: str) -> Make:
    return lambda room: xlsx_of(room, sheet_with(rows), forms)


def numbers(texts: list[str]) -> list[float]:
    return [float(text) for text in texts]


def units_below(words: list[str], feed: list[str]) -> Rows:
    return [PLAIN[0], words, *wide(days("%Y-%m-%d"), feed, PRODUCT)[1:]]


def thousands(mark: str) -> list[str]:
    return [f"{text[:2]}{mark}{text[2:].replace('.', ',')}" for text in FEED]


KILOS = ["12408500", "11697500", "12047250"]
LONG = [
    [day, tag, text]
    for day, feed, product in PLAIN[1:]
    for tag, text in (("F-1", feed), ("P-1", product))
]

RIGHT: dict[str, tuple[Make, dict[str, Any]]] = {
    "numbers and dates of Excel": (excel(wide(DAYS, numbers(FEED), numbers(PRODUCT))), {}),
    "numbers kept as text in Excel": (excel(wide(DAYS, FEED, PRODUCT)), {}),
    "days as Excel's numbers in a workbook": (
        excel(wide([45383, 45384, 45385], numbers(FEED), numbers(PRODUCT))),
        {},
    ),
    "days as Excel's numbers in CSV": (english(wide(SERIALS, FEED, PRODUCT)), {}),
    "semicolons, decimal commas, days with points": (
        german(wide(GERMAN_DAYS, comma(FEED), comma(PRODUCT))),
        GERMAN,
    ),
    "thousands with points": (german(wide(GERMAN_DAYS, thousands("."), comma(PRODUCT))), GERMAN),
    "thousands with apostrophes": (
        german(wide(GERMAN_DAYS, thousands("'"), comma(PRODUCT))),
        GERMAN,
    ),
    "thousands with hard spaces": (
        german(wide(GERMAN_DAYS, thousands("\u00a0"), comma(PRODUCT))),
        GERMAN,
    ),
    "thousands with narrow spaces in France": (
        german(wide(days("%d/%m/%Y"), thousands("\u202f"), comma(PRODUCT))),
        {"locale": "fr"},
    ),
    "thousands with commas": (
        english(wide(days("%Y-%m-%d"), ["12,408.5", "11,697.5", "12,047.25"], PRODUCT)),
        {"locale": "en"},
    ),
    "a time of midnight": (
        german(wide([f"{day} 00:00" for day in GERMAN_DAYS], comma(FEED), comma(PRODUCT))),
        GERMAN,
    ),
    "two digits of the year": (
        german(wide(days("%d.%m.%y"), comma(FEED), comma(PRODUCT))),
        GERMAN,
    ),
    "months by name": (
        german(wide(["1. April 2024", "2 Apr 2024", "03-Apr-2024"], comma(FEED), comma(PRODUCT))),
        GERMAN,
    ),
    "days of the United States": (
        english(wide(days("%m/%d/%Y"), FEED, PRODUCT)),
        {"locale": "en_US"},
    ),
    "powers of ten": (
        german(wide(GERMAN_DAYS, ["1,24085E+04", "1,16975E+04", "1,204725E4"], comma(PRODUCT))),
        GERMAN,
    ),
    "titles above": (
        english([["Mill, daily report"], ["printed", "2024-05-02"], [], *PLAIN]),
        {},
    ),
    "a row of units below": (english(units_below(["", "t", "dmt"], FEED)), {}),
    "a row of other units": (english(units_below(["unit", "[kg]", "t"], KILOS)), {}),
    "units after the figures": (
        english(wide(days("%Y-%m-%d"), [f"{text} kg" for text in KILOS], PRODUCT)),
        {},
    ),
    "a sum below": (
        german([*wide(GERMAN_DAYS, comma(FEED), comma(PRODUCT)), ["Summe", "36153,25", "36140,5"]]),
        GERMAN,
    ),
    "a remark below": (english([*PLAIN, [], ["checked by the shift"]]), {}),
    "a column of remarks": (
        english([[*PLAIN[0], "Remark"], [*PLAIN[1], "drift?"], *PLAIN[2:]]),
        {},
    ),
    "a column to skip": (
        english([[*PLAIN[0], "pH"], [*PLAIN[1], "7"], *PLAIN[2:]]),
        {"skip": ["pH"]},
    ),
    "the long form of a historian": (english([["Timestamp", "Tag", "Value"], *LONG]), {}),
    "days across": (english([list(row) for row in zip(*PLAIN)]), {}),
    "tabs": (lambda room: folder_of(room, plant(), "\t"), {}),
    "UTF-16": (lambda room: folder_of(room, plant(), "\t", "utf-16"), {}),
    "a mark and ends of Windows": (
        lambda room: folder_of(room, plant(), ",", "utf-8-sig", "\r\n"),
        {},
    ),
    "a code page of Windows": (
        lambda room: folder_of(room, sheet_with([["Zähler"], *PLAIN]), ";", "cp1252"),
        {},
    ),
    "a line that names the separator": (
        lambda room: folder_of(room, sheet_with([["sep=,"], *PLAIN])),
        {},
    ),
    "columns before the day": (
        english([["", "No.", *PLAIN[0]], *(["", "x", *row] for row in PLAIN[1:])]),
        {},
    ),
    "columns in another order": (
        english([["Day", "P-1", "F-1"], *([a, c, b] for a, b, c in PLAIN[1:])]),
        {},
    ),
    "streams over the columns": (english([["", "FEED", "PRODUCT"], *PLAIN[1:]]), {}),
}


@pytest.mark.parametrize("make, words", RIGHT.values(), ids=RIGHT)
def test_read_right(tmp_path: Path, wanted: Session, make: Make, words: dict[str, Any]) -> None:
    found = convert(make(tmp_path / "plant" if make(tmp_path).is_dir() else tmp_path), **words)
    assert found.said() == []
    assert sorted(found.session) == sorted(wanted)


# ---- refused

REFUSED: dict[str, tuple[Make, dict[str, Any], str]] = {
    "a German figure without a locale": (
        english(wide(days("%Y-%m-%d"), ["12.408,5", *FEED[1:]], PRODUCT)),
        {},
        "line 2, column 2 (F-1): '12.408,5' has a decimal comma: use --locale de",
    ),
    "a figure that can be two": (
        english(wide(days("%Y-%m-%d"), ["12.408", *FEED[1:]], PRODUCT)),
        {},
        "line 2, column 2 (F-1): '12.408' is a decimal number in one country, and thousands",
    ),
    "an English figure in German": (
        german(wide(GERMAN_DAYS, ["12408.5", "1", "1"], comma(PRODUCT))),
        GERMAN,
        "'12408.5' has a decimal point, and --locale is de: use --locale en",
    ),
    "a rate in the row of units": (
        english([PLAIN[0], ["", "kg/h", "m3/h"], *PLAIN[1:]]),
        {},
        "line 2, column 2 (unit): 'kg/h' isn't a unit: a figure is what flowed in all of its day, "
        "not a rate: write it in kg",
    ),
    "a rate after a figure": (
        english(wide(days("%Y-%m-%d"), ["517 t/h", *FEED[1:]], PRODUCT)),
        {},
        "line 2, column 2 (F-1): '517 t/h' isn't a number: a figure is what flowed in all of its",
    ),
    "the day first where the month is": (
        english(wide([*days("%m/%d/%Y")[:2], "13/04/2024"], FEED, PRODUCT)),
        {"locale": "en"},
        "'13/04/2024' isn't a day: --locale en has the month first: use --locale en_GB",
    ),
    "the month first where the day is": (
        english(wide([*days("%d/%m/%Y")[:2], "04/13/2024"], FEED, PRODUCT)),
        {"locale": "en_GB"},
        "'04/13/2024' isn't a day: --locale en_GB has the day first: write it as 2024-06-30",
    ),
    "a critical value in thousandths, in a folder": (
        lambda room: folder_of(
            room, sheet_with([["test", "dof", "value"], ["global", "1", "3841"]], "critical")
        ),
        {},
        "line 2, column 3 (value): 3841 isn't a critical value: no test would reject: is it in",
    ),
    "a boundary that isn't named": (
        lambda room: folder_of(
            room, sheet_with([*plant()["streams"], ["", "WASTE", "MILL", "RAIL", ""]], "streams")
        ),
        {},
        "line 4, column 4: RAIL has nothing going out, so its flows would be 0: write `env`, the "
        "world outside, or name it in a sheet boundaries",
    ),
    "a letter in a figure": (
        excel(wide(DAYS, ["1169O.5", 1, 1], numbers(PRODUCT))),
        {},
        "plant.xlsx!readings!B2: '1169O.5' isn't a number: correct it, or use --missing",
    ),
    "a formula without a value": (
        excel(wide(DAYS, [1, "=B2+1", 1], numbers(PRODUCT))),
        {},
        "plant.xlsx!readings!B3: its formula has no value: open the workbook",
    ),
    "a formula that fails": (
        excel(wide(DAYS, [1, 1, "#REF!"], numbers(PRODUCT))),
        {},
        "plant.xlsx!readings!B4: #REF!: the formula of this cell fails",
    ),
    "a figure shown as a date": (
        excel(wide(DAYS, [1, DAYS[0], 1], numbers(PRODUCT))),
        {},
        "plant.xlsx!readings!B3: 2024-04-01 is a date",
    ),
    "days at six": (
        excel(wide([day.replace(hour=6) for day in DAYS], numbers(FEED), numbers(PRODUCT))),
        {},
        "plant.xlsx!readings!A2: 2024-04-01 06:00:00 has a time of the day, 06:00, as all stamps "
        "have: does the plant's day begin then?",
    ),
    "a day that can be two": (
        english(wide(days("%d/%m/%Y"), FEED, PRODUCT)),
        {},
        "line 2, column 1 (day): '01/04/2024' can be read as two days: use --locale en_GB",
    ),
    "days of the United States read as British": (
        english(wide(days("%m/%d/%Y"), FEED, PRODUCT)),
        {"locale": "en_GB"},
        "read as en_US they do: use --locale en_US",
    ),
    "no day": (
        english(wide(["2024-04-31", *days("%Y-%m-%d")[1:]], FEED, PRODUCT)),
        {},
        "line 2, column 1 (day): '2024-04-31' isn't a day",
    ),
    "a day twice": (
        excel(wide([DAYS[0], DAYS[0], DAYS[2]], numbers(FEED), numbers(PRODUCT))),
        {},
        "plant.xlsx!readings!A3: 2024-04-01 is already given above (",
    ),
    "a tag that isn't there": (
        excel([["Day", "F-1", "P-l"], *wide(DAYS, numbers(FEED), numbers(PRODUCT))[1:]]),
        {},
        "plant.xlsx!readings!C1: there is no tag or stream 'P-l': did you mean P-1?",
    ),
    "a column that isn't there": (
        english([row[:2] for row in PLAIN]),
        {},
        "readings.csv: there is no column for P-1 (PRODUCT)",
    ),
    "a mistyped end": (
        lambda room: xlsx_of(
            room,
            plant()
            | {
                "streams": [
                    *plant()["streams"],
                    ["", "MIDDLINGS", "MILLL", "env", ""],
                ]
            },
        ),
        {},
        "plant.xlsx!streams!C4: MILLL has nothing coming in, so its flows would be 0: did you mean",
    ),
    "a name with a space": (
        lambda room: xlsx_of(
            room, sheet_with([*plant()["streams"], ["", "WET CAKE", "MILL", "env", ""]], "streams")
        ),
        {},
        "plant.xlsx!streams!B4: stream WET CAKE: NAME is 'WET CAKE' (refused 3, name)",
    ),
    "an error without a unit": (
        lambda room: xlsx_of(
            room,
            sheet_with(
                [["tag", "stream", "from", "to", "error"], ["F-1", "FEED", "env", "U", 5]],
                "streams",
            ),
        ),
        {},
        "plant.xlsx!streams!E2: '5' isn't an error with its unit: write `1.5 %`",
    ),
    "wet tonnes": (
        english(units_below(["", "t", "wmt"], FEED)),
        {},
        "12400 wmt of P-1 (PRODUCT) have no moisture on 2024-04-01: add it to a sheet moistures",
    ),
    "a critical value in thousandths": (
        lambda room: xlsx_of(
            room, sheet_with([["test", "dof", "value"], ["global", 1, 3841]], "critical")
        ),
        {},
        "plant.xlsx!critical!C2: 3841 isn't a critical value: no test would reject: is it in "
        "thousandths? Then write 3.841",
    ),
    "an unknown unit": (
        english(units_below(["", "t", "tons"], FEED)),
        {},
        "line 2, column 3 (unit): 'tons' isn't a unit: write t for 1,000 kg",
    ),
    "a volume without a density": (
        english(units_below(["", "m3", "t"], FEED)),
        {},
        "line 3, column 2 (F-1): 12408.5 m3 have no density: write a density",
    ),
    "a column without its head": (
        lambda room: xlsx_of(
            room, sheet_with([["tag", "stream", "form", "to"], ["", "A", "env", "U"]], "streams")
        ),
        {},
        "plant.xlsx!streams: line 1: there is no column 'from': form is nearly its name",
    ),
    "a sheet with a letter too few": (
        lambda room: xlsx_of(room, plant() | {"ticket": [["id"]]}),
        {},
        "plant.xlsx!ticket: there is no sheet of the kind 'ticket': call it tickets",
    ),
    "a great figure": (
        excel(wide(DAYS, [12408500000, 1, 1], numbers(PRODUCT))),
        {},
        "plant.xlsx!readings!B2: reading F-1_2024-04-01: GRAMS is '12408500000000000'",
    ),
    "a figure with an odd head": (
        english([PLAIN[0], [*PLAIN[1], "", "7.5"], *PLAIN[2:]]),
        {},
        "line 2, column 5: this column has no head",
    ),
    "a meter by its stream, without an error": (
        lambda room: xlsx_of(
            room,
            plant()
            | {
                "streams": [
                    ["stream", "from", "to", "kind"],
                    ["FEED", "env", "MILL", "metered"],
                    ["PRODUCT", "MILL", "env", "plain"],
                ],
                "readings": [["", "FEED"], *(row[:2] for row in PLAIN[1:])],
            },
        ),
        {},
        "plant.xlsx!streams!A2: the meter of FEED has no error: write it into its row",
    ),
    "a column twice": (
        lambda room: xlsx_of(
            room, sheet_with([[*row, row[4]] for row in plant()["streams"]], "streams")
        ),
        {},
        "plant.xlsx!streams!F1: there are two columns 'error'",
    ),
    "rows of a session with a fault": (
        lambda room: folder_of(
            room, plant() | {"rows": [["amend", "F-2_x", "1", "1", "why"]]}, ";"
        ),
        {},
        "rows.csv: line 1, column 2: amend F-2_x: there is no fact F-2_x (refused 6, unknown)",
    ),
}


@pytest.mark.parametrize("make, words, said", REFUSED.values(), ids=REFUSED)
def test_refused(tmp_path: Path, make: Make, words: dict[str, Any], said: str) -> None:
    found = convert(make(tmp_path), **words)
    assert not found.ok
    assert any(said in line for line in found.said()), found.said()


def test_all_faults_at_once(say: Desk, tmp_path: Path) -> None:
    rows = wide([DAYS[0], "30.02.2024", DAYS[2]], ["x1", 2, "3,5"], [1, "12408.5O", 3])
    out = tmp_path / "session.csv"
    said = say("convert", xlsx_of(tmp_path, sheet_with(rows)), "--out", out)
    assert said.status == 1 and said.out == "" and not out.exists()
    for cell in ("B2", "A3", "C3", "B4"):
        assert f"readings!{cell}: " in said.err
    assert said.err.endswith("4 faults, and no session is written\n")
    assert "no reading of" not in said.err  # which would follow from them


def test_many_alike_are_counted(tmp_path: Path) -> None:
    start = datetime.date(2024, 4, 1)
    rows = [[str(start + datetime.timedelta(at)), f"{at}x1", "1"] for at in range(30)]
    found = convert(folder_of(tmp_path, sheet_with([PLAIN[0], *rows])))
    assert len(found.faults) == 30
    (said,) = found.said()
    assert (
        "readings.csv: line 2, column 2 (F-1): '0x1'" in said
        and "(30 like this; the next: " in said
    )
    assert said.endswith("line 4, column 2 (F-1))")


# ---- months and days that lack


def april(skip: set[int]) -> Book:
    book = plant()
    del book["periods"]
    rows = [[f"2024-04-{day:02}", "12000", "12000"] for day in range(1, 31) if day not in skip]
    return book | {"readings": [PLAIN[0], *rows]}


@pytest.mark.parametrize(
    "skip, lacks",
    [
        (set(), ""),
        ({30}, "on 2024-04-30,"),
        ({1}, "on 2024-04-01,"),
        ({3, 4, 5, 17}, "on 2024-04-03 to 2024-04-05, 2024-04-17,"),
    ],
)
def test_a_period_is_the_month(tmp_path: Path, skip: set[int], lacks: str) -> None:
    found = convert(folder_of(tmp_path, april(skip)))
    assert found.ok
    assert ("period", "2024-04", "2024-04-01", "2024-04-30") in list(found.session)
    assert [lacks in note for note in found.notes] == [True, True] * bool(lacks)


def test_a_period_from_the_26th_to_the_25th(tmp_path: Path) -> None:
    book = april({30})
    book["periods"] = [["name", "first", "last"], ["IV", "2024-03-26", "2024-04-25"]]
    found = convert(folder_of(tmp_path, book))
    assert found.ok and [period.name for period in found.session.periods] == ["IV"]
    lacks = "IV: no reading of F-1 (FEED) on 2024-03-26 to 2024-03-31, so"
    assert found.notes[0].startswith(lacks)
    assert found.notes[-1].startswith("8 figures are in no period, the first in ")


@pytest.mark.parametrize("word", ["", "-", "n/a", "#NV", "#N/A", "Bad", "no data", "offline"])
def test_words_for_missing(tmp_path: Path, word: str) -> None:
    rows = wide(days("%Y-%m-%d"), [FEED[0], word, FEED[2]], PRODUCT)
    found = convert(folder_of(tmp_path, sheet_with(rows)), missing=["offline"])
    assert found.ok
    assert [row[1] for row in readings_of(found.session) if row[2] == "FEED"] == [
        "F-1_2024-04-01",
        "F-1_2024-04-03",
    ]
    assert found.notes[0].startswith("early: no reading of F-1 (FEED) on 2024-04-02, so")


def test_an_estimate_fills_a_day(tmp_path: Path) -> None:
    rows = wide(days("%Y-%m-%d"), [FEED[0], "", FEED[2]], PRODUCT)
    estimates = [
        ["tag", "day", "amount", "unit", "error"],
        ["F-1", "2024-04-02", "11700000", "kg", "20 t"],
    ]
    found = convert(folder_of(tmp_path, sheet_with(rows) | {"estimates": estimates}))
    assert (found.said(), found.notes) == ([], [])
    wanted = (
        "reading",
        "F-1_2024-04-02.est",
        "FEED",
        "2024-04-02",
        "11700000000",
        str(400 * 10**12),
    )
    assert wanted in list(found.session)
    estimates[1][1] = "2024-04-01"
    found = convert(folder_of(tmp_path, sheet_with(rows) | {"estimates": estimates}))
    assert "line 2, column 3: F-1 (FEED) has a figure of 2024-04-01 already (" in found.said()[0]


def test_days_of_one_guess_share_its_error(tmp_path: Path) -> None:
    """Two days of 20 t each are 40 t together: the variances add up to the square of that."""
    rows = wide(days("%Y-%m-%d"), [FEED[0], "", ""], PRODUCT)
    estimates = [
        ["tag", "day", "last", "amount", "unit", "error"],
        ["F-1", "2024-04-02", "2024-04-03", "11700000", "kg", "20 t"],
    ]
    found = convert(folder_of(tmp_path, sheet_with(rows) | {"estimates": estimates}))
    guessed = [row for row in found.session if row[0] == "reading" and row[1].endswith(".est")]
    assert (found.said(), len(guessed)) == ([], 2)
    assert sum(int(row[5]) for row in guessed) == (40 * 10**6) ** 2


def test_float_noise_is_rounded_and_said(tmp_path: Path) -> None:
    rows = wide(GERMAN_DAYS, ["12408,499999999998", *comma(FEED[1:])], comma(PRODUCT))
    found = convert(german(rows)(tmp_path), locale="de")
    assert readings_of(found.session)[0][4] == "12408500000"
    assert found.notes == [
        "readings: 1 figure was rounded to whole grams or other whole units, by at most "
        f"0.000 of one, the first in {tmp_path}/readings.csv: line 2, column 2"
    ]


def test_percent_of_excel(tmp_path: Path) -> None:
    book = plant()
    book["streams"][1][4] = 0.015
    found = convert(xlsx_of(tmp_path, book, {"streams!E2": "0.0%"}))
    assert found.ok
    variance = readings_of(found.session)[0][5]
    assert int(variance) == (12408500000 * 15 // 1000) ** 2


# ---- rows of a session that a spreadsheet has saved


def test_a_session_saved_by_a_spreadsheet(tmp_path: Path) -> None:
    rows = [row.split(",") for row in text_of(example("refinery_day.csv")).splitlines()]
    most = max(map(len, rows))
    saved = []
    for row in rows:
        fields = [
            f"{Decimal(text):.14E}".replace(".", ",") if text.isdigit() and len(text) > 11 else text
            for text in row
        ]
        saved.append([*fields, *[""] * (most - len(row))])
    found = convert(folder_of(tmp_path, {"rows": saved}, ";"), locale="de")
    assert found.said() == []
    assert found.session.to_csv() == text_of(example("refinery_day.csv"))


# ---- the refinery day


def as_xlsx(room: Path) -> Path:
    """The refinery day as a workbook of Excel, numbers and days as Excel keeps them."""
    book: Book = {}
    for path in sorted(example("refinery_workbook").glob("*.csv")):
        rows = list(csv.reader(io.StringIO(text_of(path))))
        book[path.stem] = [[_excel(text) for text in row] for row in rows]
    return xlsx_of(room, book)


def _excel(text: str) -> Any:
    try:
        return (
            datetime.datetime.fromisoformat(text)
            if len(text) == 10 and text[4] == "-"
            else float(text)
        )
    except ValueError:
        return text or None


@pytest.mark.parametrize("kind", ["folder", "xlsx"])
def test_refinery_day(say: Desk, program: Path, tmp_path: Path, kind: str) -> None:
    path = example("refinery_workbook") if kind == "folder" else as_xlsx(tmp_path)
    said = say("convert", path, "--design")
    assert (said.status, said.err) == (0, "")
    _, report = call(["run"], said.out.encode(), program=program)
    assert report.decode() == text_of(example("refinery_day.out.csv"))


def refinery(room: Path, sheet: str, line: int, old: str, new: str) -> Path:
    """The refinery's folder with one line changed."""
    room.mkdir(exist_ok=True)
    for path in example("refinery_workbook").glob("*.csv"):
        (room / path.name).write_text(text_of(path), encoding="utf-8")
    lines = text_of(room / f"{sheet}.csv").splitlines()
    assert old in lines[line - 1]
    lines[line - 1] = lines[line - 1].replace(old, new, 1)
    (room / f"{sheet}.csv").write_text("\n".join(lines) + "\n", encoding="utf-8")
    return room


def fact(session: Session, identity: str) -> tuple[str, ...]:
    return next(row for row in session if row[1] == identity)


def test_variance_of_a_dip_by_its_table(tmp_path: Path) -> None:
    found = convert(refinery(tmp_path, "tanks", 2, "8 t", "3 mm"))
    slope = Fraction(56_520_000_000 - 28_240_000_000, 10_000) * 862_000 / 10**6
    wanted = -int(-((3 * slope) ** 2) // 1)
    assert fact(found.session, "TK_CRUDE_2024-04-30")[-1] == str(wanted)


REFINERY = [
    (
        "tickets",
        2,
        "24012346,kg",
        "151000,bbl",
        "tickets.csv: line 2, column 5 (amount): 151000 bbl have no density",
    ),
    ("tickets", 2, "48 t", "", "tickets.csv: line 2, column 7 (error): the ticket has no error"),
    (
        "tickets",
        2,
        "TANKER",
        "TANKR",
        "tickets.csv: line 2, column 2 (stream): there is no tag or stream 'TANKR': did you mean",
    ),
    (
        "tickets",
        3,
        "pipe-311",
        "bl-0417",
        "tickets.csv: line 3, column 1: transfer bl-0417: the id bl-0417",
    ),
    ("tickets", 2, "2024-05-02", "2024-04-02", "(refused 8, order)"),
    (
        "dips",
        2,
        "14620",
        "146200",
        "dips.csv: line 2, column 3: dip TK_CRUDE_2024-04-30: MM is '146200'",
    ),
    (
        "dips",
        2,
        "14620",
        "14.62",
        "dips.csv: line 2, column 3 (level): the level 14.62 has decimals and no unit: 14.62 m",
    ),
    (
        "dips",
        2,
        "14620",
        "14.6207",
        "write 14620.7 mm if it is in m, or 15 mm if it isn't",
    ),
    ("dips", 2, "14620", "14620.4", "was rounded"),
    (
        "dips",
        2,
        "862",
        "862000",
        "dips.csv: line 2, column 4 (density): 862000 kg/m3 isn't a density",
    ),
    ("dips", 2, "862", "", "dips.csv: line 2, column 4 (density): the dip has no density"),
    (
        "dips",
        3,
        "2024-05-01",
        "2024-04-30",
        "dips.csv: line 3, column 3: TK_CRUDE has a dip of 2024-04-30 already",
    ),
    (
        "dips",
        2,
        "TK_CRUDE",
        "TK_CRUD",
        "dips.csv: line 2, column 1 (tank): there is no tank 'TK_CRUD': did you mean TK_CRUDE?",
    ),
    (
        "tanks",
        2,
        "8 t",
        "8",
        "tanks.csv: line 2, column 2 (error): '8' isn't an error with its unit: write `3 mm` or `8 t`",
    ),
    ("tanks", 2, "8 t", "", "dips.csv: line 2: the dip has no error"),
    ("straps", 3, "500", "0", "straps.csv: line 3, column 2: strap TK_CRUDE: MM is 0"),
    (
        "streams",
        3,
        "CDU",
        "CDV",
        "streams.csv: line 3, column 4: stream CHARGE: there is no unit or tank CDV (refused 6,",
    ),
    (
        "streams",
        3,
        "metered",
        "meter",
        "streams.csv: line 3, column 5 (kind): 'meter' isn't a kind of stream",
    ),
    (
        "streams",
        3,
        "30 t",
        "",
        "streams.csv: line 3, column 6 (error): the meter FI-101 has no error",
    ),
    (
        "streams",
        4,
        "FI-102",
        "FI-101",
        "streams.csv: line 4, column 1: FI-101 is the tag of CHARGE too",
    ),
    ("periods", 2, "2024-05-01,", "2024-05-02,", "(refused 8, order)"),
]


@pytest.mark.parametrize(
    "sheet, line, old, new, said", REFINERY, ids=[f"{c[0]} {c[3]}" for c in REFINERY]
)
def test_refinery_with_a_fault(
    tmp_path: Path, sheet: str, line: int, old: str, new: str, said: str
) -> None:
    found = convert(refinery(tmp_path, sheet, line, old, new))
    if said == "was rounded":
        assert any("dips: 1 figure was rounded" in note for note in found.notes)
        return
    assert not found.ok
    assert any(said in text for text in found.said()), found.said()


UNITS = [
    ("24012346,kg", "24012.346,t"),
    ("24012346,kg", "24012346000,g"),
    ("24012346,kg", "24012346 kg,t"),
    ("24012346,kg", "24.012346 kt,t"),
]


@pytest.mark.parametrize("old, new", UNITS)
def test_units_of_mass(tmp_path: Path, old: str, new: str) -> None:
    found = convert(refinery(tmp_path, "tickets", 2, old, new), locale="en")
    assert fact(found.session, "bl-0417")[5] == "24012346000"


VOLUMES = [
    ("151000", "bbl", "862", round(Fraction("0.158987294928") * 151000 * 862_000)),
    ("24000", "m3", "0.862 t/m3", 24000 * 862_000),
    ("24000000", "L", "862", 24000 * 862_000),
    ("1000", "klb", "", 453_592_370),
]


@pytest.mark.parametrize("amount, unit, density, grams", VOLUMES)
def test_units_of_volume(tmp_path: Path, amount: str, unit: str, density: str, grams: int) -> None:
    book = plant()
    book["streams"].append(["", "SHIP", "MILL", "env", "2 t"])
    book["streams"][0] += ["kind", "density"]
    book["streams"][-1] += ["batch", density]
    book["tickets"] = [
        ["id", "stream", "first", "amount", "unit"],
        ["s1", "SHIP", "2024-04-02", amount, unit],
    ]
    found = convert(folder_of(tmp_path, book))
    assert found.said() == []
    assert fact(found.session, "s1")[3:6] == ("2024-04-02", "2024-04-02", str(grams))


# ---- files as such


@pytest.mark.parametrize(
    "name, data, said",
    [
        (
            "plant.xls",
            b"\xd0\xcf\x11\xe0old",
            "this is a workbook of the old form: save it as xlsx",
        ),
        ("plant.xlsx", b"PKnot", "this workbook can't be read"),
        ("plant.xlsx", b"text", "this isn't an xlsx or ods workbook"),
        (
            "none/streams.csv",
            b"",
            "there is no sheet streams: plantbal-desk map proposes how it is read",
        ),
    ],
)
def test_other_files(say: Desk, tmp_path: Path, name: str, data: bytes, said: str) -> None:
    path = tmp_path / name
    path.parent.mkdir(exist_ok=True)
    path.write_bytes(data)
    found = say("convert", path.parent if "none" in name else path)
    assert found.status == 1 and said in found.err and str(tmp_path) in found.err


def test_no_file_and_no_locale(say: Desk, tmp_path: Path) -> None:
    assert "No such file" in say("convert", tmp_path / "none.xlsx").err
    assert "there is no CSV file in this folder" in say("convert", tmp_path).err
    assert "there is no locale 'xx_YY'" in say("convert", "--locale", "xx_YY", tmp_path).err


# ---- properties


def cell_of(value: Any) -> Cell:
    return Cell(Sheet("file", "sheet", []), 1, 1, value)


AMOUNTS = st.integers(-(10**13), 10**13).map(lambda grams: Decimal(grams).scaleb(-6))


@settings(deadline=None, max_examples=60)
@given(AMOUNTS, st.sampled_from(["de", "en", "fr", "de_CH", "sv", "es", "pl", "pt_BR"]))
def test_what_a_locale_writes_is_read(tonnes: Decimal, locale: str) -> None:
    from babel.numbers import format_decimal

    text = format_decimal(tonnes, locale=locale, decimal_quantization=False)
    assert Reader(locale).number(cell_of(text)) == tonnes


@settings(deadline=None, max_examples=60)
@given(st.dates(datetime.date(1960, 1, 1), datetime.date(2100, 1, 1)))
def test_days_in_all_forms(day: datetime.date) -> None:
    serial = Decimal((day - EPOCH).days)
    midnight = datetime.datetime.combine(day, datetime.time())
    for value in (serial, f"{serial}", midnight, str(day), f"{midnight}", f"{day:%d.%m.%Y}"):
        assert Reader().day(cell_of(value)) == day
    assert Reader("en_US").day(cell_of(f"{day:%m/%d/%Y}")) == day
    assert Reader("en_GB").day(cell_of(f"{day:%d/%m/%Y 00:00}")) == day


@settings(deadline=None, max_examples=60)
@given(st.text(alphabet="0123456789.,'-+eE% tkgm\u00a0#/", max_size=12))
def test_a_text_is_read_or_refused_with_its_cell(text: str) -> None:
    """No text ends otherwise than with a figure, or with a fault that has its place."""
    for locale in ("", "de", "en"):
        for read in (
            Reader(locale).number,
            Reader(locale).day,
            Reader(locale).level,
            Reader(locale).error,
        ):
            try:
                read(cell_of(text or None))
            except Fault as fault:
                assert str(fault).startswith("file!sheet!A1: ")


def test_letters_of_columns() -> None:
    assert [letters(number) for number in (1, 26, 27, 702, 703)] == ["A", "Z", "AA", "ZZ", "AAA"]


# ---- templates


@pytest.mark.parametrize("kind", KINDS)
def test_template(say: Desk, tmp_path: Path, kind: str) -> None:
    path = tmp_path / "plant.xlsx"
    assert say("template", kind, path).status == 0
    book = openpyxl.load_workbook(path)
    assert book.sheetnames == ["about", *KINDS[kind]]
    rules = {rule.formula1 for sheet in book for rule in sheet.data_validations.dataValidation}
    assert {'"metered,batch,plain"', '"global,nodal,measure"'} <= rules
    assert ("tanks!$A$2:$A$2000" in rules) == (kind != "utility")
    for sheet in read_workbook(path)[1:]:
        assert tuple(sheet.lines[0][1]) == SHEETS[sheet.name].heads and len(sheet.lines) == 1
    for name, rows in plant().items():
        if name == "readings":
            book[name]["B1"], book[name]["C1"] = "F-1", "P-1"
        places = {head: at for at, head in enumerate(SHEETS[name].heads, 1)}
        for line, row in enumerate(rows[1:], 2):
            for column, value in enumerate(row, 1):
                at = column if name == "readings" else places[rows[0][column - 1]]
                book[name].cell(line, at).value = value
    book.save(path)
    found = convert(path)
    assert (found.said(), found.notes) == ([], [])
    assert len(readings_of(found.session)) == 6


def test_a_plant_alone(tmp_path: Path) -> None:
    """It is enough for a design, and for `advise`."""
    path = folder_of(tmp_path, {"streams": plant()["streams"]})
    assert "; --design asks for the design alone" in str(convert(path).faults[0])
    found = convert(path, design=True)
    assert found.ok and list(found.session)[-1] == ("design",)


def test_empty_template(say: Desk, tmp_path: Path) -> None:
    path = tmp_path / "plant.xlsx"
    template("utility", path)
    said = say("convert", path)
    assert said.status == 1 and "there is no stream: write the rows" in said.err
    assert say("template", "refinery", tmp_path / "plant.ods").status == 2
    assert say("template", "bakery", path).status == 2


def test_lint_of_the_session(say: Desk, tmp_path: Path) -> None:
    """What of a converted session is accepted and looks wrong is said in a line."""
    folder = tmp_path / "refinery"
    shutil.copytree(example("refinery_workbook"), folder)
    assert say("convert", folder, "--out", tmp_path / "day.csv").err == ""
    dips = folder / "dips.csv"
    dips.write_text(dips.read_text(encoding="utf-8").replace("TK_DIESEL,2024-05-01,7095,842\n", ""))
    said = say("convert", folder, "--out", tmp_path / "day.csv")
    assert said.status == 0
    assert "lint of the session: " in said.err and "missing-dip" in said.err
