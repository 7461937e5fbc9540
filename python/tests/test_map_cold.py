"""Workbooks typed as people keep them, whose mapping wasn't made with them in view."""

from __future__ import annotations

import datetime
from decimal import Decimal
from pathlib import Path

import openpyxl
import pytest
from libre import DAYS, EVE, Rows, office, written

from plantbal import convert
from plantbal.workbook.conversion import Conversion
from plantbal.workbook.mapping.finding import sheet_mapping
from plantbal.workbook.mapping.command import proposal_text
from plantbal.workbook.mapping.form import parse_mapping
from plantbal.workbook.mapping.months import month_of_sheet, pattern_of, short_year_of
from plantbal.workbook.mapping.proposing import propose
from plantbal.workbook.sheets import Sheet, read_workbook

Sheets = dict[str, Rows]
ENDS = [EVE, *DAYS]
TONNE = 10**6


def read(path: Path, answers: dict[str, str]) -> tuple[list[str], Conversion]:
    """A workbook by the mapping that is proposed, with the answers to its questions in it."""
    found = propose(read_workbook(path))
    text = proposal_text(found, path)
    for key, answer in answers.items():
        assert f'{key} = "?"' in text, (key, found.open())
        text = text.replace(f'{key} = "?"', f'{key} = "{answer}"')
    return found.open(), convert(path, mapping=parse_mapping("plant.toml", text))


def sums(found: Conversion) -> dict[str, int]:
    """What each stream has, in grams."""
    total: dict[str, int] = {}
    for row in found.session:
        if row[0] in ("reading", "transfer"):
            total[row[2]] = total.get(row[2], 0) + int(row[-2])
    return total


def level(tank: int, day: int) -> int:
    """The level of a tank in mm at the end of a day."""
    return 6200 * tank + 13 * day - 450 * (day // 5)


def comma(number: Decimal | float, places: int) -> str:
    """A number as a German text."""
    return f"{number:,.{places}f}".translate(str.maketrans(",.", ".,"))


def nordhafen() -> Sheets:
    """A refinery's January: cover, numbered streams, cm, mm and m, two-digit years, remarks."""
    daily: Rows = [
        ["Tagesmengen Januar 2024"],
        ["Tag", "Rohöl", "Benzin", "Gasöl", "Summe"],
        [None, "FQ-100", "FQ-201", "FQ-203", None],
        [None, "t", "m³", "m³", None],
    ]
    for at, day in enumerate(DAYS):
        daily.append([f"{day:%d.%m.%Y}", 3200.5 + at, 900 + at % 7, 1100 + 2 * at, "=B5+C5"])
        if at == 14:
            daily.append(["Pumpentausch P-203 am 15.01., Menge geschätzt"])
    daily.append(["Monatssumme", "=SUM(B5:B36)", None, None, None])
    trucks: Rows = [
        [f"W-{at}", day, "GASOEL_TKW", comma(22.4 + at / 10, 2)] for at, day in enumerate(DAYS)
    ]
    return {
        "Deckblatt": [["Raffinerie Nordhafen"], ["Stand:", datetime.datetime(2024, 2, 3)]],
        "Ströme": [
            [None, "Stoffstromliste"],
            [],
            [None, "Lfd. Nr.", "Messstelle", "Bezeichnung", "Strom", "Quelle", "Senke", "Einheit"]
            + ["Messunsicherheit", "Dichte (kg/m³)"],
            [None, 1, "FQ-100", "vom Kai", "ROHOEL", "Extern", "OFEN", "t", "0,5 %", None],
            [None, 2, "FQ-201", "SR", "BENZIN", "OFEN", "B-11", "m³", "1 %", None],
            [None, 3, "FQ-203", "leicht", "GASOEL", "OFEN", "B-12", "m³", "1 %", 848.5],
            [None, 4, "FQ-204", "Sumpf", "REST", "OFEN", "Extern", "t", "1,5 %", None],
            [None, 5, None, "Schiff", "BENZIN_SCHIFF", "B-11", "Extern", "t", "0,3 %", None],
            [None, 6, None, "TKW", "GASOEL_TKW", "B-12", "Extern", "t", "0,3 %", None],
        ],
        "Behälter": [
            ["Tankliste"],
            ["Behälter", "Produkt", "Messfehler [mm]", "Dichte [kg/m³]"],
            ["B-11", "Benzin", 3, 745],
            ["B-12", "Gasöl", 3, 848.5],
        ],
        "Peiltabellen": [
            ["Peiltabellen (Eichamt 2018), Volumen in m³"],
            ["Peilhöhe [cm]", "B-11", "B-12"],
            *([cm, cm * 6.25, cm * 4.5] for cm in range(0, 1601, 100)),
        ],
        "Füllstände Januar 24": [
            ["Füllstände 24:00 Uhr"],
            ["Datum", "B-11 [mm]", "B-12 [m]", "Kürzel"],
            *(
                [day, level(1, at), comma(level(2, at) / 1000, 3), "kb"]
                for at, day in enumerate(ENDS)
            ),
        ],
        "Labordichten 2024": [
            ["Dichten bei 15 °C, Monatsmittel, in t/m³"],
            ["Strom", "Dez 23", "Jan 24", "Feb 24"],
            ["BENZIN", 0.7441, 0.7449, 0.7452],
        ],
        "Tagesmengen Jan 24": daily,
        "FQ-204 stündlich": [
            ["Datum", "Stunde", "FQ-204 [t/h]"],
            *([DAYS[at // 24], at % 24, 38.5 + at % 24 / 8] for at in range(24 * 31)),
        ],
        "Lieferscheine": [
            ["Beleg-Nr.", "Lieferdatum", "Strom", "Netto (t)", "Fahrer"],
            ["S-401", DAYS[8], "BENZIN_SCHIFF", "12.345,670", "–"],
            ["ab hier die neue Waage"],
            *trucks,
        ],
    }


def test_a_german_refinery(tmp_path: Path) -> None:
    """One question, the error of the densities, with merged and hidden cells, as ods."""
    path = written(nordhafen(), tmp_path / "nordhafen.xlsx")
    book = openpyxl.load_workbook(path)
    book["Tagesmengen Jan 24"].merge_cells("A2:A3")
    book["Ströme"].merge_cells("B1:G1")
    book["Füllstände Januar 24"].column_dimensions["D"].hidden = True
    book.save(path)
    (tmp_path / "saved").mkdir()
    asked, found = read(office(path, "ods", tmp_path / "saved"), {'"error"': "0.5"})
    assert len(asked) == 1 and found.said() == [], (asked, found.said())
    wanted = {
        "ROHOEL": sum(Decimal("3200.5") + at for at in range(31)) * TONNE,
        "BENZIN": sum(900 + at % 7 for at in range(31)) * 744_900,
        "GASOEL": sum(1100 + 2 * at for at in range(31)) * 848_500,
        "REST": sum(Decimal("38.5") + Decimal(at % 24) / 8 for at in range(24 * 31)) * TONNE,
        "BENZIN_SCHIFF": Decimal("12345.67") * TONNE,
        "GASOEL_TKW": sum(Decimal("22.4") + Decimal(at) / 10 for at in range(31)) * TONNE,
    }
    assert sums(found) == wanted
    dips = {(row[2], row[3]): int(row[4]) for row in found.session if row[0] == "dip"}
    days = {f"{day:%Y-%m-%d}": at for at, day in enumerate(ENDS)}
    assert dips == {
        (f"B-1{tank}", day): level(tank, at) for tank in (1, 2) for day, at in days.items()
    }
    for text in ("am 15.01., Menge geschätzt' is skipped", "'ab hier die neue Waage' is skipped"):
        assert any(text in note for note in found.notes), found.notes


# ---- a general rule each


def small(**changes: Rows) -> Sheets:
    """Two tanks with two meters and a line between them, of which a sheet may be another."""
    sheets: Sheets = {
        "streams": [
            ["tag", "stream", "from", "to", "unit", "error", "density"],
            ["F 1", "IN", "env", "T 1", "t", "1 %", None],
            ["F2", "OUT", "T 2", "env", "t", "1 %", None],
            ["F3", "MID", "T 1", "T 2", "t", "1 %", None],
        ],
        "tanks": [["tank", "error", "density"], ["T 1", "3 mm", 850], ["T 2", "3 mm", 850]],
        "straps": [["level [mm]", "T 1 [m3]", "T 2 [m3]"], *([n * 1000] * 3 for n in range(17))],
        "daily": [["Date", "F 1", "F2", "F3"], *([day, 100, 90, 95] for day in DAYS)],
        "levels": [["Date", "T 1 [mm]", "T 2 [mm]"], *([day, 5000, 6000] for day in ENDS)],
    }
    return sheets | changes


PAIRS: Rows = [
    ["Barèmes"],
    ["T 1", None, "T 2", None],
    ["Hauteur", "Volume", "Hauteur", "Volume"],
    ["mm", "m3", "cm", "m3"],
    *([n * 1000, n * 1000, n * 100, n * 1000] for n in range(17)),
]
BESIDE: Rows = [
    ["Bac", "Hauteur (mm)", "Volume (m3)", None] + ["Bac", "Hauteur (mm)", "Volume (m3)"],
    *(["T 1", n * 1000, n * 1000, None, "T 2", n * 1000, n * 1000] for n in range(17)),
]
NAMES: Rows = [
    ["Date", "In", "Out", "Mid", "Total"],
    [None, "F 1", "F2", "F3", None],
    *([day, 100, 90, 95, 285] for day in DAYS),
    ["Wochensumme", 1, 2, 3, 4],
]
SAME = {"IN": 3100 * TONNE, "OUT": 2790 * TONNE, "MID": 2945 * TONNE}
READ: dict[str, Sheets] = {
    "names with spaces": {},
    "pairs of columns under the names of tanks": {"straps": [[None]], "Barèmes": PAIRS},
    "tables side by side with French heads": {"straps": [[None]], "Barèmes": BESIDE},
    "streams over their tags, and a column of sums": {"daily": NAMES},
    "names in small letters": {
        "daily": [["Date", "in", "out", "mid"], *([day, 100, 90, 95] for day in DAYS)]
    },
    "an empty first column, and a remark with a day in it": {
        "daily": [
            [None, "Datum", "F 1", "F2", "F3"],
            [None, "Anlage stand ab 3.1. bis mittags"],
            *([None, day, 100, 90, 95] for day in DAYS),
        ]
    },
    "a sheet of periods whose names are those of a column Period": {
        "Periods": [["Period", "First", "Last"], ["2024-01", DAYS[0], DAYS[-1]]]
    },
    "a cover with a version, and running numbers": {
        "Page de garde": [["Usine"], ["Version", 3]],
        "streams": [
            ["No", "tag", "stream", "from", "to", "unit", "error"],
            [1, "F 1", "IN", "env", "T 1", "t", "1 %"],
            [2, "F2", "OUT", "T 2", "env", "t", "1 %"],
            [3, "F3", "MID", "T 1", "T 2", "t", "1 %"],
        ],
    },
}


@pytest.mark.parametrize("case", READ)
def test_read_without_a_question(tmp_path: Path, case: str) -> None:
    asked, found = read(written(small(**READ[case]), tmp_path / "a.xlsx"), {})
    assert (asked, found.said(), sums(found)) == ([], [], SAME), (asked, found.said())
    straps = {row[1:] for row in found.session if row[0] == "strap"}
    assert {("T_1", "16000", "16000000000"), ("T_2", "3000", "3000000000")} <= straps


# ---- sheets whose figures were asked about, or lost, before they were read


def second(at: int) -> int:
    """The level of the second tank in mm, at the end of a day."""
    return 6000 + 10 * (at - 1) if at else 5999


FLOWS = ["F 1 [t]", "F2 [t]", "F3 [t]"]
BY_DAY = [100, 90, 95]
SHAPES: dict[str, Sheets] = {
    "levels and flows in one table": {
        "levels": [[None]],
        "daily": [
            ["Date", *FLOWS, "T 1 [mm]", "T 2 [cm]"],
            [EVE, None, None, None, 4999, "599.9"],
            *([day, *BY_DAY, 5000 + at, 600 + at] for at, day in enumerate(DAYS)),
        ],
    },
    "levels beside flows, with days of their own": {
        "levels": [[None]],
        "daily": [
            ["Flows", None, None, None, None, "Levels", None, None],
            ["Date", *FLOWS, None, "Date", "T 1 [mm]", "T 2 [m]"],
            [None, None, None, None, None, EVE, 4999, Decimal("5.999")],
            *(
                [day, *BY_DAY, None, day, 5000 + at, 6 + Decimal(at) / 100]
                for at, day in enumerate(DAYS)
            ),
        ],
    },
    "days of the month across, by their numbers, and gauges that are levels": {
        "levels": [[None]],
        "daily": [[None]],
        "Produktion Januar 2024": [
            ["Tagesmengen [t]"],
            ["Messstelle", "Bezeichnung", *range(1, 32), "Summe"],
            *([tag, tag, *[n] * 31, 31 * n] for tag, n in zip(("F 1", "F2", "F3"), BY_DAY)),
            ["Summe", None, *[285] * 31, 8835],
        ],
        "Gauges EOD": [
            ["Date", "Tank", "Gauge (mm)"],
            *(
                [f"{day.month}/{day.day}/{day.year}", tank, second(at) if n else 4999 + at]
                for at, day in enumerate(ENDS)
                for n, tank in enumerate(("T 1", "T 2"))
            ),
        ],
    },
    "a historian's list": {
        "levels": [
            ["Tank", "Time Stamp", "Level [mm]"],
            *(
                [tank, f"{day:%d-%b-%Y} 00:00:00", second(at) if n else 4999 + at]
                for at, day in enumerate(ENDS)
                for n, tank in enumerate(("T 1", "T 2"))
            ),
        ],
        "daily": [[None]],
        "PI export": [
            ["Tag Name", "Time Stamp", "Value", "Quality", "Units"],
            *(
                [tag, f"{day:%d-%b-%Y} {hour:02}:00:00", f"{value / 24:.4f}", "Good", "t/h"]
                for tag, value in (("F 1", 108), ("F2", 84), ("F3", 96))
                for day in DAYS
                for hour in range(24)
            ),
        ],
    },
}


@pytest.mark.parametrize("case", SHAPES)
def test_shapes_are_read_without_a_question(tmp_path: Path, case: str) -> None:
    """Flows and levels, also those of the day before."""
    asked, found = read(written(small(**SHAPES[case]), tmp_path / "a.xlsx"), {})
    assert (asked, found.said()) == ([], []), (asked, found.said())
    wanted = SAME
    if case == "a historian's list":
        wanted = {"IN": 3348 * TONNE, "OUT": 2604 * TONNE, "MID": 2976 * TONNE}
    assert sums(found) == wanted
    dips = {(row[2], row[3]): int(row[4]) for row in found.session if row[0] == "dip"}
    days = {f"{day:%Y-%m-%d}": at for at, day in enumerate(ENDS)}
    first = {("T_1", day): 4999 + at for day, at in days.items()}
    assert dips == first | {("T_2", day): second(at) for day, at in days.items()}


def test_rows_of_figures_without_heads_are_asked_about(tmp_path: Path) -> None:
    """They were skipped, since no row of theirs has the heads."""
    sheets = small(Zahlen=[["Werte"], *([day, day + 1, day + 2] for day in range(9))])
    found = propose(read_workbook(written(sheets, tmp_path / "a.xlsx")))
    assert any("Zahlen: kind: there are rows of figures in it" in said for said in found.open())


@pytest.mark.parametrize("word", ["Bunker", "Estanque", "Silo", "Trémie"])
def test_words_for_tanks(tmp_path: Path, word: str) -> None:
    tanks: Rows = [[word, "Error", "Density"], *([f"T {n}", "3 mm", 850] for n in (1, 2))]
    plural = {"Bunker": "Bunker", "Estanque": "Estanques", "Silo": "Silos", "Trémie": "Trémies"}
    sheets = small(tanks=[[None]], **{plural[word]: tanks})
    assert read(written(sheets, tmp_path / "a.xlsx"), {})[0] == []


ASKED: dict[str, tuple[Sheets, str]] = {
    "a tank column twice": (
        {"levels": [["Date", "T 1 [mm]", "T 1 [mm]"], *([day, 5000, 5001] for day in DAYS)]},
        "levels: columns column B: T 1 is in its head or over it; T 1 has 2 columns",
    ),
    "errors of densities in another unit": (
        {"Densities": [["Name", "Month", "Density [t/m3]", "Error"], ["T 1", "2024-01", 0.85, 1]]},
        "Densities: units Error: no unit is given, and the densities are in t/m3",
    ),
    "two digits that may be years or days": (
        {"Densities": [["Stream", "Jan 24", "Feb 24", "error"], ["IN", 850, 851, 0.5]]},
        "Densities: year: 'Jan 24' may be a month of 2024, or a day",
    ),
}


@pytest.mark.parametrize("case", ASKED)
def test_asked(tmp_path: Path, case: str) -> None:
    sheets, said = ASKED[case]
    found = propose(read_workbook(written(small(**sheets), tmp_path / "a.xlsx")))
    assert any(said in each for each in found.open()), found.open()


def test_a_year_of_two_digits_that_differs_is_a_fault(tmp_path: Path) -> None:
    """A head of December 2023 isn't taken for one of the year that the mapping names."""
    densities: Rows = [["Stream", "Dez 23", "Jan 24", "error"], ["IN", 850, 851, 0.5]]
    path = written(small(Densities=densities), tmp_path / "a.xlsx")
    text = proposal_text(propose(read_workbook(path)), path)
    assert 'year = "head"' in text, text
    mapping = parse_mapping("plant.toml", text.replace('year = "head"', 'year = "2024"'))
    with pytest.raises(Exception, match="'Dez 23' may be of 2023, and the mapping has the year"):
        convert(path, mapping=mapping)


def test_months_of_names() -> None:
    names = {
        "Füllstände Januar 24": ((2024, 1), "Füllstände *"),
        "Tagesmengen Jan'24": ((2024, 1), "Tagesmengen *"),
        "März 2024": ((2024, 3), "*"),
        "Tank 24 Januar": (None, "Tank 24 *"),
    }
    for name, wanted in names.items():
        assert (month_of_sheet(name), pattern_of(name)) == wanted, name
    mapping = parse_mapping("m", '[[sheet]]\nname = "Werte [t] *"\nkind = "readings"\n')
    for name, is_found in (
        ("Werte [t] Mai", True),
        ("werte [T] juni", True),
        ("Werte t Mai", False),
    ):
        found = sheet_mapping(mapping, Sheet("a.xlsx", name, []))
        assert (found is not None) == is_found, name
    assert [short_year_of(text) for text in ("Dez 23", "Dez 2023", "23 Dez")] == ["2023", "", ""]
