"""Sheets with the hours of a day across: what is proposed, what is asked, and sums by hand."""

from __future__ import annotations

import datetime
from pathlib import Path
from typing import Any

import pytest
from conftest import Desk, text_of
from libre import Rows, office, written
from test_map import proposed
from test_shapes import adds_up

from plantbal import convert
from plantbal.causes import CausedFault
from plantbal.faults import InputFault
from plantbal.workbook.causes import SheetCause
from plantbal.workbook.conversion import Conversion
from plantbal.workbook.hourheads import HourHead, hour_head
from plantbal.workbook.mapping.command import proposal_text
from plantbal.workbook.mapping.form import OPEN, parse_mapping
from plantbal.workbook.mapping.proposing import MappingProposal, propose
from plantbal.workbook.sheets import read_workbook
from plantbal.workbook.summed import read_summed

Sheets = dict[str, Rows]
MAY = [datetime.datetime(2024, 5, day) for day in (1, 2)]
EVE, MARCH_31, OCTOBER_27 = (datetime.datetime(2024, *day) for day in ((3, 30), (3, 31), (10, 27)))
BERLIN: Rows = [["zone", "Europe/Berlin", None]]
TAGGED = ["Datum", "Messstelle"]
TONNE = 10**6


def plant(hours: Rows, *settings: list[Any], name: str = "Stundenwerte") -> Sheets:
    """A mill with a meter on each side."""
    found: Sheets = {
        "streams": [
            ["tag", "stream", "from", "to", "error"],
            ["F-1", "FEED", "env", "MILL", "1 t"],
            ["F-2", "OUT", "MILL", "env", "1 t"],
        ],
        name: hours,
    }
    if settings:
        found["settings"] = [["setting", "value", "for"], *settings]
    return found


def across(heads: list[Any], unit: str = "t", days: list[datetime.datetime] = MAY) -> Rows:
    """A row a day and a tag: 1 t in the first hour of the row, 2 t in the second and so on."""
    figures = list(range(1, len(heads) + 1))
    rows = [[day, tag, *figures] for day in days for tag in ("F-1", "F-2")]
    return [[f"Mengen [{unit}]"], [*TAGGED, *heads], *rows]


def of_day(heads: list[Any], figures: list[Any], day: datetime.datetime, unit: str = "t") -> Rows:
    """One row."""
    return [[f"Mengen [{unit}]"], [*TAGGED, *heads], [day, "F-1", *figures]]


def read_by(
    room: Path, sheets: Sheets, changes: dict[str, str] | None = None
) -> tuple[MappingProposal, Conversion]:
    """What is proposed, and what is read by it with a few changes in its text."""
    path = written(sheets, room / "plant.xlsx")
    found = propose(read_workbook(path))
    text = proposal_text(found, path)
    for old, new in (changes or {}).items():
        assert old in text, (old, text)
        text = text.replace(old, new)
    return found, convert(path, mapping=parse_mapping("plant.toml", text))


def days_of(found: Conversion) -> dict[tuple[str, str], int]:
    """The tonnes of each stream and day."""
    rows = [row for row in found.session if row[0] == "reading"]
    return {(row[2], row[3]): int(row[4]) // TONNE for row in rows}


def causes(found: Conversion) -> list[SheetCause]:
    """Why each fault is one."""
    return [each.case.cause for each in found.faults if isinstance(each, CausedFault)]


def cells(found: Conversion) -> list[str]:
    """Where each fault is."""
    return [each.place.cell for each in found.faults if each.place is not None]


def clock(hours: range, form: str = "{:02}:00") -> list[str]:
    return [form.format(hour) for hour in hours]


# ---- heads

BEGIN, END, COUNT = "begin", "end", "count"
HEADS: dict[str, tuple[list[Any], str]] = {
    "0 to 23": ([*range(24)], BEGIN),
    "1 to 24": ([*range(1, 25)], END),
    "00:00 to 23:00": (clock(range(24)), BEGIN),
    "01:00 to 24:00": (clock(range(1, 25)), END),
    "01:00 to 00:00": ([*clock(range(1, 24)), "00:00"], END),
    "times of the clock": ([datetime.time(hour) for hour in range(24)], BEGIN),
    "00-01": ([f"{hour:02}-{hour + 1:02}" for hour in range(24)], BEGIN),
    "0:00 - 1:00": ([f"{hour}:00 - {(hour + 1) % 24}:00" for hour in range(24)], BEGIN),
    "1 h": ([f"{hour} h" for hour in range(1, 25)], END),
    "H01": ([f"H{hour:02}" for hour in range(1, 25)], END),
    "7 Uhr bis 6 Uhr, by their ends": (
        [f"{hour} Uhr" for hour in [*range(7, 25), *range(1, 7)]],
        END,
    ),
    "06-07 from six": ([f"{h:02}-{(h + 1) % 24:02}" for h in [*range(6, 24), *range(6)]], BEGIN),
}


@pytest.mark.parametrize("case", HEADS)
def test_heads_that_are_hours(case: str, tmp_path: Path) -> None:
    """The hours from six are those of the plant's day, which begins then."""
    heads, named = HEADS[case]
    of_six = [["day begins", "06:00", None]] if "six" in case or "7 Uhr" in case else []
    proposal, found = read_by(tmp_path, plant(across(heads), *of_six))
    (own,) = [each for each in proposal.mapping.sheets if each.hours]
    assert (own.kind, own.hours, own.unit) == ("readings", named, "t")
    assert proposal.open() == [] and found.said() == []
    wanted = {(name, f"{day:%Y-%m-%d}"): 300 for day in MAY for name in ("FEED", "OUT")}
    assert days_of(found) == wanted
    adds_up(found)


@pytest.mark.parametrize(
    "heads",
    [[*range(6, 24), *range(6)], clock(range(6, 22)), [*range(25)]],
    ids=["6 to 5", "06:00 to 21:00", "0 to 24"],
)
def test_heads_that_can_be_read_in_two_ways_are_asked_about(
    heads: list[Any], tmp_path: Path
) -> None:
    found = proposed(tmp_path, plant(across(heads)))
    (own,) = [each for each in found.mapping.sheets if each.kind == "readings"]
    assert own.hours == OPEN and len(found.open()) == 1


def test_the_answer_decides(tmp_path: Path) -> None:
    """From 6 to 5, by their beginnings or by their ends: 1 t is that of 06:00, or of 05:00."""
    heads = [*range(6, 24), *range(6)]
    for answer, begins in ((BEGIN, "06:00"), (END, "05:00")):
        sheets = plant(across(heads), ["day begins", begins, None])
        _, found = read_by(tmp_path, sheets, {'hours = "?"': f'hours = "{answer}"'})
        assert found.said() == [] and set(days_of(found).values()) == {300}
    sheets = plant(across(heads), ["day begins", "06:00", None])
    _, found = read_by(tmp_path, sheets, {'hours = "?"': 'hours = "end"'})
    assert SheetCause.HOURS_LACK in causes(found)


NO_HOURS: dict[str, Rows] = {
    "days of the month": [["Tag", *range(1, 32)], *[[tag, *[5] * 31] for tag in ("F-1", "F-2")]],
    "few numbers": [["Datum", *range(1, 13)], *[[day, *range(12)] for day in MAY]],
    "figures that rise": [["Datum", "F-1"], *[[day, *range(1, 25)] for day in MAY]],
}


@pytest.mark.parametrize("case", NO_HOURS)
def test_other_numbers_are_no_hours(case: str, tmp_path: Path) -> None:
    found = proposed(tmp_path, plant(NO_HOURS[case], name="Mai 2024"))
    assert not any(each.hours for each in found.mapping.sheets)


@pytest.mark.parametrize("text", ["26", "-1", "1.5", "00:30", "H", "1-3", "5-4", "Total", "2C"])
def test_what_is_no_hour(text: str) -> None:
    assert hour_head(text) is None


def test_the_second_of_two_hours() -> None:
    assert hour_head("2B") == hour_head("2 *") == HourHead(2, is_again=True)
    assert hour_head("02-03B") == HourHead(2, 3, is_again=True)
    assert hour_head("2A") == HourHead(2)


# ---- shapes


def test_an_office_saves_the_hours_as_times(tmp_path: Path) -> None:
    """Both forms, with figures in t/h, a column of units, one of sums and a row of sums."""
    heads = [datetime.time(hour) for hour in range(24)]
    rows: Rows = [["Datum", "Messstelle", "Einheit", *heads, "Summe", "Bemerkung"]]
    for day in MAY:
        rows.append([day, "F-1", "kg/h", *range(1000, 25_000, 1000), 300_000, "in Ordnung"])
        rows.append([None, "F-2", "t/h", *range(1, 25), 300, None])
    rows.append(["Summe", None, None, *[0] * 25])
    source = written(plant(rows), tmp_path / "source.xlsx")
    (tmp_path / "saved").mkdir()
    for form in ("xlsx", "ods"):
        path = office(source, form, tmp_path / "saved")
        proposal = propose(read_workbook(path))
        assert proposal.open() == []
        text = proposal_text(proposal, path)
        found = convert(path, mapping=parse_mapping("plant.toml", text))
        assert found.said() == [] and set(days_of(found).values()) == {300}
        assert len(days_of(found)) == 4


def test_a_sheet_of_one_meter(tmp_path: Path) -> None:
    """Its name or a title says which one; otherwise it is asked."""
    rows: Rows = [["Datum", *range(24)], *[[day, *range(1, 25)] for day in MAY]]
    for name, title in (("F-1 May 2024", "Hours [t]"), ("May 2024", "F-1 hours [t]")):
        proposal, found = read_by(tmp_path, plant([[title], *rows], name=name))
        assert proposal.open() == [] and found.said() == []
        assert days_of(found) == {("FEED", "2024-05-01"): 300, ("FEED", "2024-05-02"): 300}
    found_ = proposed(tmp_path, plant([["Hours [t]"], *rows], name="May 2024"))
    assert [each.given for each in found_.mapping.sheets if each.hours] == [{"tag": OPEN}]


def test_days_by_their_numbers(tmp_path: Path) -> None:
    rows: Rows = [["Mengen [t]"], ["Tag", "Messstelle", *range(1, 25)]]
    rows += [[day, "F-2", *range(1, 25)] for day in (1, 2, 3)]
    proposal, found = read_by(tmp_path, plant(rows, name="Stunden Mai 2024"))
    assert proposal.open() == [] and found.said() == []
    assert days_of(found) == {("OUT", f"2024-05-0{day}"): 300 for day in (1, 2, 3)}


def test_a_counter_is_asked_about(tmp_path: Path) -> None:
    """By its instants: on each day it goes on by 24 steps of 2; the last row has the end of the second."""
    steps = [sum(1 + step % 3 for step in range(n)) for n in range(49)]
    rows: Rows = [["Mengen [t]"], [*TAGGED, *range(24)]]
    for n, day in enumerate([*MAY, MAY[1] + datetime.timedelta(1)]):
        rows.append([day, "F-1", *steps[24 * n : 24 * n + 24]])
    asked = [each for each in proposed(tmp_path, plant(rows)).mapping.sheets if each.hours]
    assert [each.counters for each in asked] == [{"F-1": OPEN}]
    _, found = read_by(tmp_path, plant(rows), {'"F-1" = "?"': '"F-1" = "1000000"'})
    assert found.said() == []
    assert days_of(found) == {("FEED", "2024-05-01"): 48, ("FEED", "2024-05-02"): 48}


# ---- 23 and 25 hours


def test_clocks_are_put_forward(tmp_path: Path) -> None:
    """The hour that isn't there is empty: 1 to 24 without 3 are 297."""
    figures = [None if hour == 2 else hour + 1 for hour in range(24)]
    _, found = read_by(tmp_path, plant(of_day([*range(24)], figures, MARCH_31), *BERLIN))
    assert found.said() == [] and days_of(found) == {("FEED", "2024-03-31"): 297}
    _, found = read_by(tmp_path, plant(of_day([*range(24)], [*range(24)], MARCH_31), *BERLIN))
    assert causes(found) == [SheetCause.CLOCKS_FORWARD]
    assert cells(found) == ["E3"]


def test_one_column_of_two_hours_is_asked_about(tmp_path: Path) -> None:
    """As an amount it is of both; as an amount in an hour it counts twice: 300, or 303."""
    for unit, wanted in (("t", 300), ("t/h", 303)):
        sheets = plant(of_day([*range(24)], [*range(1, 25)], OCTOBER_27, unit), *BERLIN)
        _, found = read_by(tmp_path, sheets)
        assert causes(found) == [SheetCause.HOUR_TWICE]
        assert cells(found) == ["E3"]
        said = {'hours = "begin"': 'hours = "begin"\ntwice = "both"'}
        _, found = read_by(tmp_path, sheets, said)
        assert found.said() == [] and days_of(found) == {("FEED", "2024-10-27"): wanted}


@pytest.mark.parametrize("named", [BEGIN, END])
def test_the_second_hour_has_a_column(named: str, tmp_path: Path) -> None:
    """On other days it is empty; 1 to 25 are 325."""
    heads = ["0", "1", "2A", "2B", *map(str, range(3, 24))]
    if named == END:
        heads = ["1", "2", "3A", "3B", *map(str, range(4, 25))]
    rows = of_day(heads, [*range(1, 26)], OCTOBER_27)
    other = [n + 1 if heads[n][-1] != "B" else None for n in range(25)]
    rows.append([OCTOBER_27 + datetime.timedelta(1), "F-1", *other])
    _, found = read_by(tmp_path, plant(rows, *BERLIN))
    assert found.said() == []
    assert days_of(found) == {("FEED", "2024-10-27"): 325, ("FEED", "2024-10-28"): 321}
    rows[-1][heads.index("2B" if named == BEGIN else "3B") + 2] = 4
    _, found = read_by(tmp_path, plant(rows, *BERLIN))
    assert causes(found) == [SheetCause.STAMP_TWICE]


def test_hours_that_are_counted(tmp_path: Path) -> None:
    """1 to 25: the last ones are empty if the day doesn't have them."""
    rows: Rows = [["Mengen [t]"], [*TAGGED, *range(1, 26)]]
    for day, count in ((EVE, 24), (MARCH_31, 23), (OCTOBER_27, 25)):
        rows.append([day, "F-1", *range(1, count + 1), *[None] * (25 - count)])
    proposal, found = read_by(tmp_path, plant(rows, *BERLIN))
    assert [each.hours for each in proposal.mapping.sheets if each.hours] == [COUNT]
    assert found.said() == []
    days = ("2024-03-30", 300), ("2024-03-31", 276), ("2024-10-27", 325)
    assert days_of(found) == {("FEED", day): total for day, total in days}
    rows[3][25] = 24
    _, found = read_by(tmp_path, plant(rows, *BERLIN))
    assert causes(found) == [SheetCause.NO_HOUR_OF_DAY]


def test_a_missing_hour(tmp_path: Path) -> None:
    figures = [None if hour == 4 else hour + 1 for hour in range(24)]
    sheets = plant(of_day([*range(24)], figures, MAY[0]))
    assert causes(read_by(tmp_path, sheets)[1]) == [SheetCause.HOURS_LACK]
    sheets = plant(of_day([*range(24)], figures, MAY[0]), ["missing hours", 0, None])
    assert days_of(read_by(tmp_path, sheets)[1]) == {("FEED", "2024-05-01"): 295}


FAULTS: dict[str, tuple[Rows, dict[str, str], SheetCause]] = {
    "a day twice": (
        [*of_day([*range(24)], [*range(24)], MAY[0]), [MAY[0], "F-1", *range(24)]],
        {},
        SheetCause.STAMP_TWICE,
    ),
    "two units of a tag": (
        [
            [*TAGGED, "Einheit", *range(24)],
            *[[day, "F-1", unit, *range(24)] for day, unit in zip(MAY, ("t/h", "kg/h"))],
        ],
        {},
        SheetCause.UNITS_OF_TAG_DIFFER,
    ),
    "a tag that isn't known": (
        [*across([*range(24)]), [MAY[0], "F-9", *range(24)]],
        {},
        SheetCause.TAG_UNKNOWN,
    ),
    "0 to 24": (
        across([*range(25)]),
        {'hours = "?"': 'hours = "begin"'},
        SheetCause.HEAD_NOT_NEXT_HOUR,
    ),
}


@pytest.mark.parametrize("case", FAULTS)
def test_faults_of_hours_across(case: str, tmp_path: Path) -> None:
    rows, changes, cause = FAULTS[case]
    _, found = read_by(tmp_path, plant(rows), changes)
    assert cause in causes(found), found.said()


# ---- the mapping

HELD = """form = 1
locale = ""
[[sheet]]
name = "Stundenwerte"
kind = "readings"
hours = "begin"
[sheet.columns]
"Datum" = "day"
"Messstelle" = "tag"
"""


@pytest.mark.parametrize(
    "old, new, line",
    [
        ('"begin"', '"start"', 6),
        ('"begin"', '"?"', 6),
        ('"begin"', '"begin"\ntwice = "first"', 7),
        ('hours = "begin"', 'twice = "both"', 6),
        ('"readings"', '"dips"', 6),
    ],
)
def test_a_mapping_that_says_something_else(old: str, new: str, line: int) -> None:
    parse_mapping("m.toml", HELD)
    with pytest.raises(InputFault) as fault:
        parse_mapping("m.toml", HELD.replace(old, new))
    assert fault.value.place is not None and fault.value.place.line == line


@pytest.mark.parametrize(
    "heads", [["Datum", "Messstelle", "Wert"], ["Datum", *range(24)], ["Messstelle", *range(24)]]
)
def test_a_later_workbook_has_to_fit(heads: list[Any], tmp_path: Path) -> None:
    """Without hours, without a tag, without a day."""
    path = written(plant([heads, [MAY[0], *range(24)]]), tmp_path / "later.xlsx")
    with pytest.raises(InputFault) as fault:
        convert(path, mapping=parse_mapping("m.toml", HELD))
    place = fault.value.place
    assert place is not None and (place.sheet, place.cell) == ("Stundenwerte", "A1")


def test_a_book_keeps_mapping_and_cells(say: Desk, tmp_path: Path) -> None:
    """The next month's sheet is read by it, and each reading has its cells."""
    book = "--book", tmp_path / "mill"
    first = written(plant(across([*range(24)], "t/h")), tmp_path / "plant.xlsx")
    assert say("map", first, "--out", tmp_path / "m.toml").status == 0
    new = say("book", "new", "2024", first, "--mapping", tmp_path / "m.toml", *book)
    assert new.status == 0, new.err
    june = [datetime.datetime(2024, 6, 1)]
    later = {"Stundenwerte": across([*range(24)], "t/h", june)}
    assert say("book", "add", written(later, tmp_path / "june.xlsx"), *book).status == 0
    kept = read_summed(text_of(tmp_path / "mill" / "summed.csv"))
    told = [(each.fact, each.figure, each.cells, each.count, each.hours) for each in kept]
    assert told == [
        ("F-1_2024-06-01", "300", "C3:Z3", 24, 24),
        ("F-2_2024-06-01", "300", "C4:Z4", 24, 24),
    ]


def test_without_a_mapping_the_remedy_is_one(tmp_path: Path) -> None:
    """No row has tags over its columns: if it has hours, the mapping reads them."""
    remedies = set()
    for heads in ([*range(24)], [*range(3)]):
        rows: Rows = [["day", "tag", *heads], *[[day, "F-1", *heads] for day in MAY]]
        found = convert(written(plant(rows, name="readings"), tmp_path / "a.xlsx"))
        assert SheetCause.NO_TAGS in causes(found)
        remedies |= {each.remedy for each in found.faults if each.place and not each.place.cell}
    assert len(remedies) == 2
