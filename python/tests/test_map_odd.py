"""Workbooks in the styles of several offices: what is asked of each, and that the rest is read right."""

from __future__ import annotations

import datetime
from decimal import Decimal
from pathlib import Path

import pytest
from libre import DAYS, EVE, Rows, office, written

from plantbal import convert
from plantbal.workbook.conversion import Conversion
from plantbal.workbook.mapping.command import proposal_text
from plantbal.workbook.mapping.form import parse_mapping
from plantbal.workbook.mapping.proposing import propose
from plantbal.workbook.sheets import read_workbook

Sheets = dict[str, Rows]
ENDS = [EVE, *DAYS]
TONNE = 10**6


def read(path: Path, answers: dict[str, str], plant: str = "") -> tuple[list[str], Conversion]:
    """A workbook by the mapping that is proposed, with the answers to its questions in it."""
    found = propose(read_workbook(path), plant=plant)
    text = proposal_text(found, path)
    for key, answer in answers.items():
        assert f'{key} = "?"' in text, (key, found.open())
        text = text.replace(f'{key} = "?"', f'{key} = "{answer}"')
    return found.open(), convert(path, mapping=parse_mapping("plant.toml", text))


def sums(found: Conversion) -> dict[str, int]:
    """What each stream has, in grams."""
    total: dict[str, int] = {}
    for row in found.session:
        if row[0] in ("reading", "transfer"):
            total[row[2]] = total.get(row[2], 0) + int(row[-2])
    return total


# ---- English and Spanish, two plants, counters, tickets with temperatures


def of_site(site: str, at: int) -> Sheets:
    """The sheets of a plant."""
    tank, counter = f"TK-{at}", f"FT-{at}01"
    streams = [
        [f"Planta {site}"],
        ["Medidor", "Corriente", "Desde", "Hasta", "Unidad", "Densidad", "Incertidumbre"],
        ["", "", "", "", "", "kg/m3", ""],
        [counter, "CRUDO", "exterior", "TOPPING", "m3", 870, "0.5 %"],
        [f"FT-{at}02", "NAFTA", "TOPPING", "exterior", "t", None, "1 %"],
        [f"FT-{at}03", "DIESEL", "TOPPING", tank, "t", None, "1 %"],
        ["", "CAMIONES", tank, "exterior", "m3", 845, "0.3 %"],
    ]
    hours = [
        [DAYS[0] + datetime.timedelta(hour // 24), f"{hour % 24:02}:00", _counter(hour)]
        for hour in range(24 * 31 + 1)
    ]
    return {
        f"{site} Corrientes": streams,
        f"{site} Tanques": [["Tanque", "Incertidumbre", "Densidad [kg/m3]"], [tank, "3 mm", 845]],
        f"{site} Aforo": [["Altura mm", f"{tank} m3"], *([n * 1000, n * 300] for n in range(13))],
        f"{site} Niveles": [
            ["Fecha", f"{tank} [m]"],
            *([day, (4000 + 25 * n) / 1000] for n, day in enumerate(ENDS)),
        ],
        f"{site} Daily flows": [
            ["Date", f"FT-{at}02", f"FT-{at}03", "Operator"],
            *([day, 400, 600, "jm"] for day in DAYS),
        ],
        f"{site} Contadores": [["Fecha", "Hora", f"{counter} [m3]"], *hours],
        f"{site} Albaranes": [
            ["Albarán", "Fecha", "Corriente", "Volumen [m3]", "Temperatura [°C]", "Densidad 15"],
            [f"A{at}1", DAYS[11], "CAMIONES", 33.4, 25, 850],
            [f"A{at}2", DAYS[24], "CAMIONES", 34.1, 25, 850],
        ],
    }


def _counter(hour: int) -> int:
    """What a counter of six digits shows: it begins again on the first day."""
    return (999_000 + 70 * hour + hour % 5) % 1_000_000


SPANISH: Sheets = {
    **of_site("Norte", 1),
    **of_site("Sur", 2),
    "Products": [["Product", "ASTM table"], ["diesel", "54B"]],
    "Gauges": [["Name", "Product", "Temperature error"], ["CAMIONES", "diesel", 0.5]],
}


@pytest.mark.parametrize("form", ["xlsx", "ods"])
def test_two_plants_with_counters_and_temperatures(tmp_path: Path, form: str) -> None:
    """One question: at which figure the counter begins again. 54B of 850 kg/m3 at 25 °C: 0.99167."""
    (tmp_path / "saved").mkdir()
    workbook = office(written(SPANISH, tmp_path / "plantas.xlsx"), form, tmp_path / "saved")
    asked, found = read(workbook, {'"FT-101 [m3]"': "1000000"}, "Norte")
    assert len(asked) == 1 and "'Norte Contadores' says counter" in asked[0], asked
    assert found.said() == []
    trucks = Decimal("67.5") * 850 * Decimal("0.99167") * 1000
    crude = (70 * 24 * 31 + (24 * 31) % 5) * 870_000
    wanted = {"CRUDO": crude, "NAFTA": 12_400 * TONNE, "DIESEL": 18_600 * TONNE}
    assert {name: sums(found)[name] for name in wanted} == wanted
    assert abs(sums(found)["CAMIONES"] - trucks) <= 1


# ---- several columns for each tank, and names of streams


def english() -> Sheets:
    """Level, temperature and water of each tank side by side; streams have names and descriptions."""
    dips: Rows = [
        ["Tank dips, January 2024"],
        [None, "T1", None, None, "T2", None, None],
        ["Date", "Level", "Temp", "Water", "Level", "Temp", "Water"],
        ["", "mm", "°C", "mm", "mm", "°C", "mm"],
        *([day, 5000 + 10 * n, 25, 100, 6000 - 10 * n, 15, 0] for n, day in enumerate(ENDS)),
    ]
    return {
        "Streams": [
            ["Tag No", "Name", "Description", "From", "To", "UoM", "Accuracy"],
            ["F1", "IN", "crude in", "outside", "T1", "t", "1 %"],
            ["F2", "OUT", "to ship", "T2", "outside", "t", "1 %"],
            ["F3", "MID", "transfer", "T1", "T2", "t", "1 %"],
        ],
        "Tank list": [
            ["Tank", "Accuracy", "Density kg/m3"],
            ["T1", "3 mm", 850],
            ["T2", "3 mm", 850],
        ],
        "Straps": [["Level (mm)", "T1 (m3)", "T2 (m3)"], *([n * 1000] * 3 for n in range(17))],
        "Products": [["Product", "Group"], ["diesel", "products"]],
        "Gauges": [["Name", "Product"], ["T1", "diesel"], ["T2", "diesel"]],
        "Tank dips": dips,
        "Daily": [["Date", "F1", "F2", "F3"], *([day, 100, 90, 95] for day in DAYS)],
    }


def test_several_columns_for_each_tank(tmp_path: Path) -> None:
    """Two questions: the errors of temperatures and of water. The eve is 4,900 m3 at 850 * 0.99167."""
    answers = {'"temperature error"': "0.5", '"water error"': "2 mm"}
    asked, found = read(written(english(), tmp_path / "a.xlsx"), answers)
    assert len(asked) == 2 and found.said() == [], (asked, found.said())
    dips = {row[1]: row for row in found.session if row[0] == "dip"}
    assert len(dips) == 64
    level, density = map(int, dips["T1_2023-12-31"][4:6])
    grams = Decimal(4900 * 850) * Decimal("0.99167") * 1000
    assert level == 5000 and abs(level * density - grams) < 2500 + level
    assert dips["T2_2023-12-31"][4:6] == (
        "6000",
        "850000",
    ), "15 degrees and no water change nothing"
    assert [row[1] for row in found.session if row[0] == "stream"] == ["IN", "OUT", "MID"]


def test_a_column_of_a_tank_that_says_nothing_is_asked(tmp_path: Path) -> None:
    sheets = english()
    sheets["Tank dips"][2] = ["Date", "Level", "Temp", "X", "Level", "Temp", "Water"]
    found = propose(read_workbook(written(sheets, tmp_path / "a.xlsx")))
    asked = [each for each in found.open() if "columns X: " in each]
    assert (
        len(asked) == 1 and "T1 has 3 columns: is it level, temperature" in asked[0]
    ), found.open()


# ---- French, texts for figures, a density with a row for each month


def french() -> Sheets:
    """Decimal commas, spaces between thousands, levels in cm, days by their numbers."""
    levels = [[f"{day:%d/%m/%Y}", f"{500 + n},{n % 10}"] for n, day in enumerate(ENDS)]
    return {
        "Flux": [
            ["Raffinerie X - flux"],
            ["Repère", "Désignation", "De", "Vers", "Unité", "Incertitude"],
            ["FI 101", "Brut", "extérieur", "DISTILLATION", "t", "0,5 %"],
            ["FI 102", "Naphta", "DISTILLATION", "extérieur", "m3", "1 %"],
            ["FI 103", "Gazole", "DISTILLATION", "B-201", "t", "1 %"],
            [None, "Navires", "B-201", "extérieur", "t", "0,3 %"],
        ],
        "Bacs": [["Bac", "Incertitude", "Densité (kg/m3)"], ["B-201", "3 mm", 842]],
        "Barème": [["Niveau (cm)", "B-201"], ["", "m3"], *([n * 100, n * 500] for n in range(17))],
        "Masses volumiques": [
            ["Mois", "Flux", "Masse volumique (kg/m3)"],
            ["janvier 2024", "Naphta", "719,5"],
            ["février 2024", "Naphta", "720,5"],
        ],
        "Niveaux": [["Jour", "B-201 Niveau (cm)"], *levels],
        "Relevés janvier 2024": [
            ["Jour", "FI 101", "FI 102", "FI 103", "Remarques"],
            *([day, "1 500,25", "400,5", "620,75", None] for day in range(1, 32)),
            ["Total", "46 507,75", "12 415,5", "19 243,25", None],
        ],
        "Bons": [
            ["Bon n°", "Date", "Flux", "Quantité (t)"],
            ["B1", "12/01/2024", "Navires", "5 123,456"],
            ["B2", "25/01/2024", "Navires", "4 987,5"],
        ],
    }


def test_french(tmp_path: Path) -> None:
    asked, found = read(written(french(), tmp_path / "a.xlsx"), {'"error"': "0.5"})
    assert len(asked) == 1 and found.said() == [], (asked, found.said())
    naphtha = round(Decimal("400.5") * Decimal("719.5") * 1000) * 31
    wanted = {"Brut": 46_507_750_000, "Naphta": naphtha, "Navires": 10_110_956_000}
    assert {name: sums(found)[name] for name in wanted} == wanted
    dips = {row[3]: row[4] for row in found.session if row[0] == "dip"}
    assert (dips["2023-12-31"], dips["2024-01-31"]) == ("5000", "5311")


# ---- what must be asked


def small(**changes: Rows) -> Sheets:
    """A unit with two meters, of which a sheet may be another."""
    sheets: Sheets = {
        "streams": [
            ["tag", "stream", "from", "to", "unit", "density", "error"],
            ["F1", "IN", "env", "U", "t", None, "1 %"],
            ["F2", "OUT", "U", "env", "m3", 850, "1 %"],
        ],
        "daily": [["Date", "F1", "F2"], *([day, 100, 90] for day in DAYS)],
    }
    return sheets | changes


RISING = [[day, 500 + 15 * n + n * n % 7, 90] for n, day in enumerate(DAYS)]
ASKED: dict[str, tuple[Sheets, str]] = {
    "figures that only rise": (
        small(daily=[["Date", "F1", "F2"], *RISING]),
        "daily: counters F1: its figures only rise: the figure at which it begins again",
    ),
    "a counter by its name": (
        small(
            Zählerstände=[["Date", "F1", "F2"], [DAYS[0], 1, 5], [DAYS[1], 2, 4], [DAYS[2], 3, 5]]
        ),
        "Zählerstände: counters F1: 'Zählerstände' says counter",
    ),
    "a density without an error": (
        small(Densities=[["Month", "Stream", "Density"], ["Jan 2024", "OUT", 849.5]]),
        "Densities: given error: no error is given",
    ),
    "months without a year": (
        small(Densities=[["Stream", "Jan", "Feb"], ["OUT", 849.5, 850]]),
        "Densities: year: no year is given of Jan",
    ),
    "a density of figures that are none": (
        small(Densities=[["Stream", "Jan 2024", "Feb 2024"], ["OUT", 5.5, 6.5]]),
        "Densities: unit: no unit is given for 5.5 to 6.5",
    ),
}


@pytest.mark.parametrize("case", ASKED)
def test_asked(tmp_path: Path, case: str) -> None:
    sheets, said = ASKED[case]
    found = propose(read_workbook(written(sheets, tmp_path / "a.xlsx")))
    assert any(said in each for each in found.open()), found.open()


def test_figures_that_rise_may_be_amounts(tmp_path: Path) -> None:
    """With the answer that they are no counter's each is a figure of its day."""
    path = written(small(daily=[["Date", "F1", "F2"], *RISING]), tmp_path / "a.xlsx")
    _, found = read(path, {'"F1"': ""})
    assert found.said() == []
    assert sums(found)["IN"] == sum(row[1] for row in RISING) * TONNE


def test_months_across_with_names_of_months(tmp_path: Path) -> None:
    """The year stands above; a figure of another month isn't taken for January's."""
    densities: Rows = [["Densities 2024, t/m3"], ["Stream", "Jan", "Feb"], ["OUT", 0.8495, 0.851]]
    sheets = small(Densities=densities)
    asked, found = read(written(sheets, tmp_path / "a.xlsx"), {'"error"': "0.5"})
    assert len(asked) == 1 and found.said() == [], (asked, found.said())
    assert sums(found)["OUT"] == 31 * 90 * 849_500
