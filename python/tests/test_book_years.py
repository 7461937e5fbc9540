"""The years of a book: what goes over, what belongs to both, and what may not change."""

from __future__ import annotations

import datetime
from pathlib import Path

import pytest
from books import (
    ANYWAY,
    PLANT,
    Sheets,
    Type,
    files_of,
    fixture_book,
    fixture_two,
    folder,
    journal_of,
    month,
    rows_of,
)
from conftest import Desk, Said

from plantbal.book.contents import grams_by_program
from plantbal.book.ledger import BookFact

__all__ = ["fixture_book", "fixture_two"]


def test_next(two: Type, tmp_path: Path) -> None:
    rows = rows_of(tmp_path, "2024-2")
    assert rows[:10] == rows_of(tmp_path)[:10]
    assert rows[10:] == [row for row in rows_of(tmp_path) if "SILO_2024-04-30" in row]
    assert two("next", "2024-2").out == "2024-2.csv already exists\n"
    assert two("next", "2023").status == 1 and two("next", "24").status == 1


def test_a_dip_of_the_eve_is_one_in_both_years(two: Type, tmp_path: Path) -> None:
    assert two("amend", "SILO", "2024-04-30", "9501", "--why", "again").status == 0
    for year in ("2024", "2024-2"):
        assert rows_of(tmp_path, year)[-1].startswith("amend,SILO_2024-04-30,9501,")
    assert journal_of(tmp_path / "mill")[-1][-1] == "2024: 21; 2024-2: 12"
    sheets = month(month="05")
    sheets["dips"][1][2] = "9502"
    two("add", folder(tmp_path / "may", sheets), "--why", "once more")
    assert rows_of(tmp_path)[-1].startswith("amend,SILO_2024-04-30,9502,")
    assert "period,2024-05,2024-05-01,2024-05-31" in rows_of(tmp_path, "2024-2")
    assert "amend one of the two" not in two("status").out


def test_late_facts_go_to_their_year(two: Type, tmp_path: Path) -> None:
    sheets = month(last=5)
    sheets["tickets"].append(["bl-7", "TRUCKS", "2024-04-29", "90"])
    sheets["tickets"][0].append("last")
    sheets["tickets"][2].append("2024-05-02")
    two("add", folder(tmp_path / "april", sheets))
    assert rows_of(tmp_path)[-1] == rows_of(tmp_path, "2024-2")[-1]
    assert rows_of(tmp_path)[-1].startswith("transfer,bl-7,TRUCKS,2024-04-29,2024-05-02,")
    assert rows_of(tmp_path)[-2].startswith("reading,P-1_2024-04-05")


def test_a_year_begins_after_the_last_period(book: Type) -> None:
    said = book("next", "2025")
    assert "ends on 2024-04-30, and 2025 begins on 2025-01-01: add what" in said.err
    assert "use --first 2024-05-01" in said.err
    assert book("next", "2025", "--first", "2024-05-01").status == 0


TABLES = {
    "another table": (
        {"straps": [["tank", "level", "volume"], ["SILO", "0", "2"], ["SILO", "20000", "4711"]]},
        "by the other table",
    ),
    "no tank": (
        {
            "streams": [*PLANT["streams"][:2], ["P-1", "PRODUCT", "MILL", "env", "", "2 t"]],
            "tanks": [["tank"]],
            "straps": [["tank", "level", "volume"]],
        },
        "and isn't in the plant of 2024-2",
    ),
}


@pytest.mark.parametrize("sheets, said", TABLES.values(), ids=TABLES)
def test_contents_that_would_change(book: Type, tmp_path: Path, sheets: Sheets, said: str) -> None:
    before = files_of(tmp_path / "mill")
    found = book("next", "2024-2", "--plant", folder(tmp_path / "other", PLANT | sheets))
    assert found.status == 1 and "SILO holds 2,797.875 t" in found.err and said in found.err
    assert files_of(tmp_path / "mill") == before


def test_a_new_meter_with_the_next_year(book: Type, tmp_path: Path) -> None:
    book("close", "2024-04", *ANYWAY)
    new = PLANT | {"streams": [*PLANT["streams"], ["W-1", "WASTE", "MILL", "env", "", "1 t"]]}
    said = book("next", "2024-2", "--plant", folder(tmp_path / "plant2", new))
    assert (said.status, said.err) == (0, "")
    sheets = month(month="05")
    sheets["readings"] = [["day", "W-1"], ["2024-05-01", "5"]]
    assert "1 reading" in book("add", folder(tmp_path / "may", sheets)).out
    assert "meters.csv" not in book("amend", "W-1", "2024-05-01", "6", "--why", "x").err


@pytest.mark.parametrize("first", [(0, 0), (0, 2_000_000), (500, 0), (500, 7_000_000)])
def test_contents_by_the_program(program: Path, first: tuple[int, int]) -> None:
    plant = [("strap", "T", str(first[0]), str(first[1])), ("strap", "T", "9999", "99999999")]
    day = datetime.date(2024, 4, 30)
    dip = BookFact("dip", "d", "T", day, day, (777, 861_234), 1)
    volume = first[1] + (777 - first[0]) * (99_999_999 - first[1]) // (9999 - first[0])
    assert grams_by_program(plant, [dip]) == {"T": volume * 861_234 // 10**6}


def test_a_ticket_with_the_id_of_another_year(two: Type, tmp_path: Path) -> None:
    """It is another ticket, and a command that names it by its day finds the one of this day."""
    sheets = month(month="05")
    sheets["tickets"][1][0] = "truck-04"
    assert two("add", folder(tmp_path / "may", sheets)).status == 0
    two("amend", "truck-04", "801 t", "--why", "scale")
    assert rows_of(tmp_path, "2024-2")[-1] == "amend,truck-04,801000000,10000000000,scale"
    assert "amend" not in rows_of(tmp_path)[-1]
    two("amend", "truck-04", "2024-04-01", "802 t", "--why", "scale")
    assert rows_of(tmp_path)[-1] == "amend,truck-04,802000000,10000000000,scale"


def test_the_plant_of_an_older_year(book: Type, tmp_path: Path) -> None:
    new = PLANT | {"streams": [*PLANT["streams"][:3], ["", "CARTS", "SILO", "env", "batch", "1 t"]]}
    book("next", "2024-2", "--plant", folder(tmp_path / "plant2", new))
    late = {"tickets": [["id", "stream", "first", "amount"], ["t-7", "TRUCKS", "2024-04-30", "9"]]}
    said = book("add", folder(tmp_path / "late", late))
    assert said.status == 1 and "there is no tag or stream 'TRUCKS'" in said.err
    assert book("add", tmp_path / "late", "--year", "2024").status == 0
    assert rows_of(tmp_path)[-1].startswith("transfer,t-7,TRUCKS,2024-04-30")
    found = book("add", tmp_path / "late", "--year", "2023")
    assert "there is no year 2023: use one of 2024, 2024-2" in found.err


def test_a_plant_that_was_spoilt(book: Type, tmp_path: Path) -> None:
    path = tmp_path / "mill" / "plant.csv"
    plant = path.read_text(encoding="utf-8")
    path.write_text(plant + "unit,WET MILL\n", encoding="utf-8")
    assert (
        "plant.csv: line 11: there is 1 line after what action 1 (new" in book("next", "2025").err
    )
    assert book("accept", "plant.csv", "--why", "a new mill").status == 0
    said = book("next", "2024-2")
    assert "plant.csv: line 11, record 11: unit WET MILL: NAME is 'WET MILL'" in said.err
    path.write_text(plant + "close,2024-04\n", encoding="utf-8")
    assert book("accept", "plant.csv", "--why", "closed").status == 0
    said = book("next", "2024-2")
    assert said.status == 1 and "plant.csv: line 11, record 11: close 2024-04" in said.err


def test_a_ticket_that_moves_from_year_to_year(two: Type, tmp_path: Path) -> None:
    """It is struck where its days are no more, and keeps its id where it is booked anew."""
    both = month()
    both["readings"] += month(month="05")["readings"][1:]
    both["tickets"][0].append("last")
    for days in (["2024-04-30", "2024-05-02"], ["2024-05-03"], ["2024-04-02"]):
        both["tickets"][1][2] = days[0]
        both["tickets"][1][4:] = days[1:]
        assert two("add", folder(tmp_path / "both", both), "--why", "wrong day").status == 0
        assert "nothing new" in two("add", tmp_path / "both").out
    assert [row.split(",")[:2] for row in rows_of(tmp_path) if "truck" in row] == [
        ["transfer", "truck-04"],
        ["strike", "truck-04"],
        ["transfer", "truck-04.2"],
        ["strike", "truck-04.2"],
        ["transfer", "truck-04.3"],
    ]
    assert [row.split(",")[:2] for row in rows_of(tmp_path, "2024-2") if "truck" in row] == [
        ["transfer", "truck-04"],
        ["strike", "truck-04"],
        ["transfer", "truck-04.2"],
        ["strike", "truck-04.2"],
    ]


def test_a_ticket_goes_over_with_its_own_id(book: Type, tmp_path: Path) -> None:
    sheets = month()
    sheets["tickets"][0].append("last")
    sheets["tickets"][1][2:] = ["2024-04-30", "800", "2024-05-02"]
    book("add", folder(tmp_path / "april", sheets), "--why", "wrong day")
    book("next", "2024-2")
    assert rows_of(tmp_path, "2024-2")[-1].startswith("transfer,truck-04,TRUCKS,2024-04-30,")
    assert "nothing new" in book("add", tmp_path / "april").out
    assert book("amend", "truck-04", "801", "--why", "scale").status == 0
    assert rows_of(tmp_path)[-1].startswith("amend,truck-04.2,801000000,")
    assert rows_of(tmp_path, "2024-2")[-1].startswith("amend,truck-04,801000000,")


def test_months_from_the_26th_to_the_25th(say: Desk, tmp_path: Path) -> None:
    def typed(*words: object) -> Said:
        return say("book", *words, "--book", tmp_path / "mill")

    def december(last: str, *more: list[str]) -> Path:
        first = datetime.date(2024, 11, 26)
        days = [first + datetime.timedelta(at) for at in range(61)]
        rows = [[str(day), "1200", "1199.5"] for day in days if str(day) <= last]
        periods = [["name", "first", "last"], ["XII", "2024-11-26", "2024-12-25"], *more]
        sheets: Sheets = {"readings": [["day", "F-1", "P-1"], *rows], "periods": periods}
        return folder(tmp_path / "sheets", sheets)

    january = ["I", "2024-12-26", "2025-01-25"]
    typed("new", "2024", folder(tmp_path / "plant", PLANT))
    assert "new: 1 period, 72 readings" in typed("add", december("2024-12-31")).out
    assert "isn't within a year of this book" in typed("add", december("2024-12-31", january)).err
    assert "comes after 2024: correct the day, or begin" in typed("add", december("2025-01-02")).err
    assert "or use --first 2024-12-26" in typed("next", "2025").err
    assert typed("next", "2025", "--first", "2024-12-26").status == 0
    assert sum(row.startswith("reading") for row in rows_of(tmp_path, "2025")) == 12
    said = typed("add", december("2025-01-25", january))
    assert said.out.startswith("2024.csv: nothing new\n2025.csv: new: 1 period, 50 readings\n")
    (tmp_path / "more.csv").write_text("day,F-1\n2025-01-26,1\n", encoding="utf-8")
    said = typed("add", tmp_path / "more.csv")
    assert "it shares a day with period I" in said.err and "into a sheet periods" in said.err


def test_a_period_has_its_name_in_one_year(two: Type, tmp_path: Path) -> None:
    periods = [["name", "first", "last"], ["2024-04", "2024-05-01", "2024-05-31"]]
    said = two("add", folder(tmp_path / "may", month(month="05") | {"periods": periods}))
    what = "2024 has a period 2024-04 already: give it another name, such as 2024-2-2024-04"
    assert what in said.err
