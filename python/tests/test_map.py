"""The mapping of a workbook as a plant keeps it: what is proposed, what is asked, what is read."""

from __future__ import annotations

import datetime
import re
from decimal import Decimal
from pathlib import Path
from typing import Any

import pytest
from conftest import Desk
from libre import DAYS, Rows, grams_of_streams, level, office, refinery, written

from plantbal import convert
from plantbal.faults import Fault, InputFault
from plantbal.workbook.conversion import Conversion
from plantbal.workbook.mapping.form import parse_mapping, read_mapping
from plantbal.workbook.mapping.known import KnownPlant
from plantbal.workbook.mapping.proposing import MappingProposal, propose
from plantbal.workbook.mapping.command import proposal_text
from plantbal.workbook.sheets import read_workbook

Sheets = dict[str, Rows]


def proposed(
    room: Path, sheets: Sheets, plant: str = "", known: KnownPlant = KnownPlant()
) -> MappingProposal:
    path = written(sheets, room / "plant.xlsx")
    return propose(read_workbook(path), known, plant)


def read_by(room: Path, sheets: Sheets, changes: dict[str, str] | None = None) -> Conversion:
    """A workbook by the mapping that is proposed, with a few changes in its text."""
    found = proposed(room, sheets)
    text = proposal_text(found, "plant.xlsx")
    for old, new in (changes or {}).items():
        assert old in text, (old, text)
        text = text.replace(old, new)
    return convert(room / "plant.xlsx", mapping=parse_mapping("plant.toml", text))


def sums(found: Conversion) -> dict[str, Decimal]:
    """What each stream has, in grams."""
    total: dict[str, Decimal] = {}
    for row in found.session:
        if row[0] == "reading":
            total[row[2]] = total.get(row[2], Decimal(0)) + Decimal(row[4])
        elif row[0] == "transfer":
            total[row[2]] = total.get(row[2], Decimal(0)) + Decimal(row[5])
    return total


# ---- a refinery's workbook, as LibreOffice saves it


@pytest.mark.parametrize("form", ["xlsx", "ods"])
def test_a_refinery_as_an_office_keeps_it(say: Desk, tmp_path: Path, form: str) -> None:
    """One mapping with two corrections, and each figure is that of arithmetic."""
    source = written(refinery(), tmp_path / "haldenbek.xlsx")
    (tmp_path / "saved").mkdir()
    workbook = office(source, form, tmp_path / "saved")
    out = tmp_path / "haldenbek.toml"
    said = say("map", workbook, "--out", out)
    text = out.read_text(encoding="utf-8")
    assert said.status == 1 and said.err.count(": ? ") == 2, said.err
    assert "Dichten: given error: no error is given" in said.err
    assert "Tankstände: locale: '7,000' is a decimal number in one country" in said.err
    assert "a question is" not in say("convert", workbook, "--mapping", out).out
    for old, new in (('locale = "?"', 'locale = "de"'), ('"error" = "?"', '"error" = "0.5"')):
        text = text.replace(old, new)
    out.write_text(text, encoding="utf-8")
    found = convert(workbook, mapping=read_mapping(out))
    assert found.said() == []
    assert sums(found) == grams_of_streams()
    dips = {(row[2], row[3]): int(row[4]) for row in found.session if row[0] == "dip"}
    days = [DAYS[0] - datetime.timedelta(1), *DAYS]
    wanted = {
        (f"T10{tank}", f"{day:%Y-%m-%d}"): level(tank, at)
        for tank in (1, 2)
        for at, day in enumerate(days)
    }
    assert dips == wanted
    straps = {row[1:] for row in found.session if row[0] == "strap"}
    assert {("T102", "16000", "11200000000"), ("T101", "1000", "500000000")} <= straps


# ---- four languages


def concentrator(words: dict[str, str], figure: str, names: tuple[str, str]) -> Sheets:
    """A small plant whose heads and sheets are called by other words."""
    say = words.__getitem__
    return {
        say("streams"): [
            [say(head) for head in ("tag", "stream", "from", "to", "unit", "error")],
            ["WI-1", "ORE", say("env"), "MILL", "t", f"{figure} %"],
            ["FI-2", "PRODUCT", "MILL", say("env"), "t", "2 %"],
            ["FI-3", "WASTE", "MILL", say("env"), "t", "2 %"],
        ],
        say("readings"): [
            [f"{say('readings')} {names[0]}"],
            [say("day"), "WI-1", "FI-2", "FI-3", say("remark")],
            *([datetime.datetime(2024, 4, day), 100 + day, 60, 41, "ok"] for day in range(1, 31)),
            [names[1], 3465, 1800, 1230],
        ],
    }


LANGUAGES = {
    "en": (
        "streams=Streams readings=Daily_readings tag=Tag stream=Stream from=From to=To unit=Unit "
        "error=Uncertainty env=outside day=Date remark=Remarks",
        "1.5",
        ("April", "Total"),
    ),
    "de": (
        "streams=Stoffströme readings=Tageswerte tag=Messstelle stream=Strom from=Von to=Nach "
        "unit=Einheit error=Messunsicherheit env=außen day=Tag remark=Bemerkung",
        "1,5",
        ("April", "Summe"),
    ),
    "es": (
        "streams=Corrientes readings=Lecturas_diarias tag=Instrumento stream=Corriente from=Desde "
        "to=Hasta unit=Unidad error=Incertidumbre env=exterior day=Fecha remark=Observaciones",
        "1,5",
        ("abril", "Suma"),
    ),
    "fr": (
        "streams=Flux readings=Relevés_journaliers tag=Repère stream=Courant from=De to=Vers "
        "unit=Unité error=Incertitude env=extérieur day=Jour remark=Remarques",
        "1,5",
        ("avril", "Somme"),
    ),
}


@pytest.mark.parametrize("language", LANGUAGES)
def test_words_of_four_languages(tmp_path: Path, language: str) -> None:
    """A workbook in each has no question, and gives the same session."""
    pairs, figure, names = LANGUAGES[language]
    words = {
        key: word.replace("_", " ") for key, _, word in (p.partition("=") for p in pairs.split())
    }
    sheets = concentrator(words, figure, names)
    found = proposed(tmp_path, sheets)
    assert found.open() == [], found.open()
    assert (language == "en") == (found.mapping.locale.startswith("en")), found.mapping.locale
    done = read_by(tmp_path, sheets)
    assert done.said() == []
    want = {"ORE": Decimal(3465), "PRODUCT": Decimal(1800), "WASTE": Decimal(1230)}
    assert sums(done) == {name: tonnes * 10**6 for name, tonnes in want.items()}
    ends = [row[1:4] for row in done.session if row[0] == "stream"]
    assert ends == [("ORE", "env", "MILL"), ("PRODUCT", "MILL", "env"), ("WASTE", "MILL", "env")]
    for at, sheet in enumerate(found.mapping.sheets):
        for head in sheet.columns:
            assert found.evidence["sheet", at, "columns", head], (sheet.name, head)


# ---- what can be read in two ways


def plain(**changes: Any) -> Sheets:
    """A plant with a tank, of which a sheet may be another."""
    sheets: Sheets = {
        "streams": [
            ["tag", "stream", "from", "to", "unit", "error"],
            ["F1", "IN", "env", "T1", "t", "1 %"],
            ["F2", "OUT", "T1", "env", "t", "1 %"],
        ],
        "tanks": [["tank", "error", "density"], ["T1", "3 mm", 850]],
        "straps": [["tank", "height [mm]", "volume [m3]"], ["T1", 0, 0], ["T1", 16000, 16000]],
        "daily": [["Date", "F1", "F2"], *([day, 100, 90] for day in DAYS)],
        "levels": [["Date", "T1"], [None, "mm"], *([day, 5000 + day.day] for day in DAYS)],
    }
    return sheets | changes


ASKED: dict[str, tuple[Sheets, str]] = {
    "levels with decimals": (
        {"levels": [["Date", "T1"], *([day, 5.368] for day in DAYS)]},
        "levels: unit: no unit is given for 5.368 to 5.368",
    ),
    "levels that may be cm or mm": (
        {"levels": [["Date", "T1"], *([day, 1200] for day in DAYS)]},
        "levels: unit: no unit is given for 1200 to 1200",
    ),
    "thousands or decimals": (
        {"daily": [["Date", "F1", "F2"], *([day, "12.408", "11.408"] for day in DAYS)]},
        "locale: '12.408' is a decimal number in one country, thousands in another",
    ),
    "day and month": (
        {"daily": [["Date", "F1", "F2"], *([f"0{n}/02/2024", 1, 2] for n in (1, 3, 7))]},
        "locale: '01/02/2024' can be read as two days",
    ),
    "a volume without a unit": (
        {"straps": [["tank", "level [mm]", "volume"], ["T1", 0, 0], ["T1", 16000, 16000]]},
        "straps: units volume: no unit is given",
    ),
    "a column of figures that nobody names": (
        {"daily": [["Date", "F1", "F2", "F9"], *([day, 1, 2, 3] for day in DAYS)]},
        "daily: columns F9: it has figures",
    ),
    "days of a month without a year": (
        {
            "January": [["Date", "F1", "F2"], *([day, 1, 2] for day in range(1, 32))],
            "daily": [[None]],
        },
        "*: month: days are numbers, and no year is given of January",
    ),
    "figures that nobody knows": (
        {"Lab 7": [["A", "B"], [1, 2.5], [2, 3.5]]},
        "Lab 7: columns A: it has figures",
    ),
}


@pytest.mark.parametrize("case", ASKED)
def test_what_can_be_read_in_two_ways_is_asked(tmp_path: Path, case: str) -> None:
    changes, said = ASKED[case]
    found = proposed(tmp_path, plain(**changes))
    assert any(said in each for each in found.open()), found.open()
    with pytest.raises(InputFault, match=r'open: a "\?" is in the line'):
        parse_mapping("plant.toml", proposal_text(found, "plant.xlsx"))


def test_days_that_follow_each_other_decide(tmp_path: Path) -> None:
    """Slashed days without one above 12 are read as the order in which they follow each other."""
    days = [f"{day:02}/03/2024" for day in range(1, 13)]
    for texts, locale in (
        (days, "en_GB"),
        ([f"03/{day:02}/2024" for day in range(1, 13)], "en_US"),
    ):
        daily = [["Date", "F1", "F2"], *([text, 100, 90] for text in texts)]
        found = proposed(tmp_path, plain(daily=daily))
        assert found.mapping.locale == locale, (texts[0], found.evidence)


# ---- shapes


def test_hours_days_and_sums_of_other_sheets(tmp_path: Path) -> None:
    """Days by their numbers, hours in a column of their own, remarks and sums, a filled day."""
    hours: Rows = [[None, at % 24, 2, 1] for at in range(24 * 31)]
    for day in range(31):
        hours[24 * day][0] = DAYS[day]
    sheets = plain(
        daily=[["Date", "Hour", "F1 [t/h]", "F2 [t/h]"], *hours],
        levels=[
            ["Tank levels"],
            ["Tag", "T1 [m]"],
            *([day, 5 + day / 100] for day in range(1, 32)),
        ],
    )
    sheets["levels January 2024"] = sheets.pop("levels")
    found = read_by(tmp_path, sheets)
    assert found.said() == []
    assert sums(found) == {"IN": Decimal(24 * 31 * 2) * 10**6, "OUT": Decimal(24 * 31) * 10**6}
    dips = {row[3]: row[4] for row in found.session if row[0] == "dip"}
    assert (len(dips), dips["2024-01-31"]) == (31, "5310")


def test_a_workbook_of_several_plants(say: Desk, tmp_path: Path) -> None:
    """A plant is named: its sheets are read, the other's passed over; or its rows."""
    both = {f"North {name}": rows for name, rows in plain().items()}
    both |= {f"South {name}": rows for name, rows in plain().items()}
    found = proposed(tmp_path, both)
    assert found.open() == [
        "plant: the workbook has several plants, North, South: each has a sheet of streams"
    ]
    path, out = tmp_path / "plant.xlsx", tmp_path / "plant.toml"
    assert say("map", path, "--plant", "south", "--out", out).status == 0
    done = convert(path, mapping=read_mapping(out))
    assert done.said() == []
    assert sum("it is of the plant North" in note for note in done.notes) == 5
    rows = [["Site", *plain()["daily"][0]]]
    rows += [[site, *row] for row in plain()["daily"][1:] for site in ("North", "South")]
    column = plain(daily=rows)
    found = proposed(tmp_path, column, "North")
    done = convert(path, mapping=parse_mapping("m", proposal_text(found, "plant.xlsx")))
    assert done.said() == [] and sums(done)["IN"] == Decimal(3100) * 10**6
    assert any("31 rows of other plants are skipped" in note for note in done.notes)


# ---- the file

WRONG: dict[str, tuple[str, str]] = {
    "no TOML": ("form = ", "this isn't TOML"),
    "an unknown key": ("form = 1\nlocal = 'de'\n", "has no key 'local': did you mean locale?"),
    "another form": ("form = 2\n", "this is a mapping of the form"),
    "no such locale": ("form = 1\nlocale = 'xx'\n", "there is no locale 'xx'"),
    "a number for a text": ("form = 1\nplant = 3\n", "plant of the mapping is of another form"),
    "no such kind": ("[[sheet]]\nname = 'A'\nkind = 'dip'\n", "there is no kind of sheet 'dip'"),
    "no such column": (
        "[[sheet]]\nname = 'A'\nkind = 'streams'\n[sheet.columns]\nQ = 'form'\n",
        "the sheet streams has no column 'form': did you mean from?",
    ),
    "one name for two": ("[names]\nA = 'X'\nB = 'X'\n", "'A' and 'B' would both be X"),
    "a month that is none": (
        "[[sheet]]\nname = 'A'\nkind = 'dips'\nmonth = '2024-13'\n",
        "'2024-13' isn't a month",
    ),
    "a question": ('locale = "?"\n', '1 question is open: a "?" is in the lines 1'),
    "no name": ("[[sheet]]\nkind = 'dips'\n", "a sheet has no name"),
    "deep": ("a = " + "[" * 5000, "this isn't TOML"),
}


@pytest.mark.parametrize("case", WRONG)
def test_a_wrong_mapping_is_a_fault_with_its_line(case: str) -> None:
    text, said = WRONG[case]
    with pytest.raises(InputFault) as fault:
        parse_mapping("m.toml", text)
    assert said in str(fault.value) and str(fault.value).startswith("m.toml:"), fault.value


MISFITS: dict[str, tuple[Sheets, str]] = {
    "a sheet that the mapping doesn't have": (
        {"extra": [["Date", "F1"], [DAYS[0], 1]]},
        "plant.xlsx!extra: the mapping has no sheet of this name",
    ),
    "another unit in the row of units": (
        {"levels": [["Date", "T1"], [None, "cm"], *([day, 500] for day in DAYS)]},
        "cm is here, but the mapping has mm",
    ),
    "another unit in a head": (
        {"straps": [["tank", "height [cm]", "volume [m3]"], ["T1", 0, 0], ["T1", 1600, 16000]]},
        "no column of levels beside those of",
    ),
    "a new column of figures": (
        {"daily": [["Date", "F1", "F2", "F9"], *([day, 100, 90, 5] for day in DAYS)]},
        "there is no tag or stream 'F9'",
    ),
    "heads that are gone": (
        {"levels": [["When", "Nought"], *([day, 5000] for day in DAYS)]},
        "no row has the heads of the mapping: Date",
    ),
}


@pytest.mark.parametrize("case", MISFITS)
def test_a_later_workbook_that_differs_is_a_fault(tmp_path: Path, case: str) -> None:
    mapping = parse_mapping("m", proposal_text(proposed(tmp_path, plain()), "plant.xlsx"))
    changes, said = MISFITS[case]
    path = written(plain(**changes), tmp_path / "plant.xlsx")
    try:
        lines = convert(path, mapping=mapping).said()
    except Fault as fault:
        lines = [str(fault)]
    assert any(said in line for line in lines), lines


def test_what_is_written_is_read(tmp_path: Path) -> None:
    """The text of a mapping gives the mapping back, whatever names stand in it."""
    odd = plain()
    odd["streams"][1][1] = 'Öl "roh"\\ №1'
    found = proposed(tmp_path, odd)
    text = proposal_text(found, "plant.xlsx")
    assert parse_mapping("m", text) == found.mapping
    assert found.mapping.names == {'Öl "roh"\\ №1': "Oel_roh_No._1"}, found.mapping.names


# ---- a book


def test_a_book_keeps_the_mapping(say: Desk, tmp_path: Path, program: Path) -> None:
    """It is written with the book, and later workbooks are read by it, with its locale."""
    path, out, book = tmp_path / "plant.xlsx", tmp_path / "plant.toml", tmp_path / "book"
    sheets = plain()
    written(sheets, path)
    assert say("map", path, "--out", out).status == 0
    said = say("book", "new", "--book", book, "2024", path, "--mapping", out, "--program", program)
    assert said.status == 0, said.err
    kept = (book / "mapping.toml").read_text(encoding="utf-8")
    assert parse_mapping("kept", kept) == read_mapping(out)
    said = say("book", "add", "--book", book, path)
    assert said.status == 0 and "62 readings, 31 dips" in said.out, said
    assert say("book", "verify", "--book", book).status == 0
    (book / "mapping.toml").write_text(kept.replace('"mm"', '"cm"'), encoding="utf-8")
    said = say("book", "add", "--book", book, path)
    assert said.status == 1 and "mapping.toml" in said.err, said
    (book / "mapping.toml").write_text(kept, encoding="utf-8")
    sheets["daily"][5][1] = 101
    written(sheets, path)
    said = say("book", "add", "--book", book, path, "--why", "typed wrong")
    assert said.status == 0 and re.search("F1_2024-01-05.* 100 t becomes 101 t", said.out), said


def test_a_book_keeps_its_locale(say: Desk, tmp_path: Path, program: Path) -> None:
    """Without a mapping, too: what `new` was told holds for each `add`."""
    path, book = tmp_path / "plant.xlsx", tmp_path / "book"
    readings = [["day", "F1", "F2"], *([f"{day:%d.%m.%Y}", "1.000,5", "900"] for day in DAYS)]
    straps = [["tank", "level", "volume"], ["T1", 0, 0], ["T1", 16000, 16000]]
    others = {"readings": readings, "straps": straps, "daily": [[None]], "levels": [[None]]}
    written({**plain(), **others}, path)
    words = ("--book", book, "2024", path, "--locale", "de", "--program", program)
    assert say("book", "new", *words).status == 0
    said = say("book", "add", "--book", book, path)
    assert said.status == 0 and "62 readings" in said.out, said
