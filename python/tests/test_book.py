"""A plant's book: what is added, amended, struck, closed, and begun with a year."""

from __future__ import annotations

import datetime
from fractions import Fraction
from pathlib import Path

import pytest
from books import (
    ANYWAY,
    PLANT,
    Sheets,
    Type,
    files_of,
    fixture_book,
    folder,
    journal_of,
    month,
    rows_of,
)
from conftest import Desk, text_of

from plantbal.book.meters import error_text, exact_decimal, read_meters
from plantbal.book.store import Store
from plantbal.program import call
from plantbal.workbook.cells import Error

__all__ = ["fixture_book"]

# ---- adding


def test_new_and_add(book: Type, tmp_path: Path) -> None:
    rows = rows_of(tmp_path)
    assert rows[:2] == ["version,2", "unit,MILL"] and rows[9:11] == [
        "critical,global,2,5990",
        "period,2024-04,2024-04-01,2024-04-30",
    ]
    assert rows[-3:] == [
        "transfer,truck-04,TRUCKS,2024-04-01,2024-04-01,800000000,10000000000",
        f"dip,SILO_2024-03-31,SILO,2024-03-31,8000,1250000,{rows[-2].rsplit(',', 1)[1]}",
        f"dip,SILO_2024-04-30,SILO,2024-04-30,9500,1250000,{rows[-1].rsplit(',', 1)[1]}",
    ]
    assert text_of(tmp_path / "mill" / "meters.csv").splitlines() == [
        "name,tag,unit,density,error",
        "FEED,F-1,,,1 % or 5 t",
        "PRODUCT,P-1,,,2 t",
        "TRUCKS,,,,0.1 t",
        "SILO,,,1250 kg/m3,3 mm",
    ]
    assert journal_of(tmp_path / "mill") == [
        ["who", "action", "of", "what", "why", "rows"],
        ["anna", "new", "2024", "plant", "", "2024: 1 to 10"],
        ["anna", "add", "", "april", "", "2024: 11 to 20"],
    ]


def test_adding_again_books_nothing(book: Type, tmp_path: Path) -> None:
    before = files_of(tmp_path / "mill")
    said = book("add", tmp_path / "april")
    assert said.out.startswith("2024.csv: nothing new\n9 facts are booked already\n")
    assert files_of(tmp_path / "mill") == before


def test_more_days_and_another_month(book: Type, tmp_path: Path) -> None:
    said = book("add", folder(tmp_path / "april", month(last=30)))
    assert said.out == "2024.csv: new: 54 readings\n9 facts are booked already\n"
    said = book("add", folder(tmp_path / "may", month(last=30, month="05")))
    assert said.out.splitlines() == [
        "2024.csv: new: 1 period, 60 readings, 1 ticket, 1 dip",
        "1 fact is booked already",
        "2024-05: no reading of F-1 (FEED), P-1 (PRODUCT) on 2024-05-31",
    ]


def test_a_changed_figure_wants_a_reason(book: Type, tmp_path: Path) -> None:
    sheets = month()
    sheets["readings"][2][1] = "1210"
    before = files_of(tmp_path / "mill")
    said = book("add", folder(tmp_path / "april", sheets))
    assert said.status == 1 and said.out == "F-1_2024-04-02: 1,200 t becomes 1,210 t\n"
    assert "1 fact is booked with other values: say why: --why" in said.err
    assert files_of(tmp_path / "mill") == before
    said = book("add", tmp_path / "april", "--why", "second look")
    assert "2024.csv: amended: 1\nF-1_2024-04-02: 1,200 t becomes 1,210 t\n" in said.out
    variance = (12_100_000) ** 2
    assert rows_of(tmp_path)[-1] == f"amend,F-1_2024-04-02,1210000000,{variance},second look"
    last = ["anna", "add", "", "april", "second look", "2024: 21"]
    assert journal_of(tmp_path / "mill")[-1] == last


def test_a_reason_is_asked_for(
    book: Type, tmp_path: Path, monkeypatch: pytest.MonkeyPatch, say: Desk
) -> None:
    sheets = month()
    sheets["readings"][1][1:] = ["1210", "1200"]
    asked: list[str] = []
    answers = iter(["", "typed wrong", ""])

    def answer(prompt: str) -> str:
        asked.append(prompt)
        return next(answers)

    monkeypatch.setattr("builtins.input", answer)
    monkeypatch.setattr("plantbal.commands.book.adding.may_ask", lambda: True)
    assert book("add", folder(tmp_path / "april", sheets)).status == 0
    assert asked[0] == asked[1] == "F-1_2024-04-01: 1,200 t becomes 1,210 t. Why? "
    assert asked[2] == "P-1_2024-04-01: 1,199.5 t becomes 1,200 t. Why? [typed wrong] "
    assert [row.rsplit(",", 1)[1] for row in rows_of(tmp_path)[-2:]] == ["typed wrong"] * 2
    assert journal_of(tmp_path / "mill")[-1][4] == "typed wrong"
    monkeypatch.undo()
    monkeypatch.setattr("plantbal.commands.book.adding.may_ask", lambda: True)
    before = files_of(tmp_path / "mill")
    said = book("add", folder(tmp_path / "april", month()))
    assert said.status == 2 and "no reason given: use --why TEXT" in said.err
    assert files_of(tmp_path / "mill") == before


def test_what_is_gone_stays_unless_it_is_struck(book: Type, tmp_path: Path) -> None:
    sheets = month()
    sheets["readings"][2][1] = ""
    sheets["tickets"].append(["truck-9", "TRUCKS", "2024-04-02", "10"])
    book("add", folder(tmp_path / "april", sheets))
    del sheets["tickets"][1]
    said = book("add", folder(tmp_path / "april", sheets))
    what = "2 facts are booked and not in april: F-1_2024-04-02, truck-04"
    assert f"{what}; kept, and --strike takes them out" in said.out
    said = book("add", tmp_path / "april", "--strike", "--why", "never came")
    assert f"{what}; struck" in said.out
    assert rows_of(tmp_path)[-2:] == [
        "strike,F-1_2024-04-02,never came",
        "strike,truck-04,never came",
    ]
    assert "no reading of F-1 (FEED) on 2024-04-02, 2024-04-04 to 2024-04-30" in said.out
    # What comes again after it was struck has another id.
    book("add", folder(tmp_path / "april", month()))
    assert [row.split(",")[:2] for row in rows_of(tmp_path)[-2:]] == [
        ["reading", "F-1_2024-04-02.2"],
        ["transfer", "truck-04.2"],
    ]
    assert "nothing new" in book("add", tmp_path / "april").out


@pytest.mark.parametrize("year", ["2024", "2024-2"])
def test_a_dip_that_closes_the_month_before(book: Type, tmp_path: Path, year: str) -> None:
    """May's workbook needn't have April's last dip again, and doesn't strike it."""
    if year == "2024-2":
        book("next", year)
    may = month(month="05")
    del may["dips"][1]
    said = book("add", folder(tmp_path / "may", may))
    assert said.out.startswith(f"{year}.csv: new: 1 period, 6 readings, 1 ticket, 1 dip\n")
    assert "not in may" not in said.out
    may["readings"][2][1] = ""
    said = book("add", folder(tmp_path / "may", may), "--strike", "--why", "read wrong")
    assert "1 fact is booked and not in may: F-1_2024-05-02; struck" in said.out
    assert rows_of(tmp_path, year)[-1] == "strike,F-1_2024-05-02,read wrong"
    # Of the book's first month it is the workbook's own.
    april = month()
    del april["dips"][1]
    said = book("add", folder(tmp_path / "april", april), "--strike", "--why", "read wrong")
    assert "1 fact is booked and not in april: SILO_2024-03-31; struck" in said.out


def test_what_began_in_the_month_before_is_not_gone(book: Type, tmp_path: Path) -> None:
    """The dip that opens May stands in April's workbook, as does a ticket that lasts into May."""
    april, may = month(), month(month="05")
    april["tickets"] = [["id", "stream", "first", "last", "amount"]]
    april["tickets"] += [["truck-9", "TRUCKS", "2024-04-30", "2024-05-01", "10"]]
    book("add", folder(tmp_path / "april", april))
    del may["dips"][1]
    for last in (4, 3):
        may["readings"] = month(last=last, month="05")["readings"]
        said = book("add", folder(tmp_path / "may", may), "--strike", "--why", "frozen")
    assert "2 facts are booked and not in may: F-1_2024-05-04, P-1_2024-05-04; struck" in said.out
    assert [row for row in rows_of(tmp_path) if row.startswith("strike")] == [
        "strike,F-1_2024-05-04,frozen",
        "strike,P-1_2024-05-04,frozen",
    ]


def test_a_part_of_a_workbook_strikes_nothing(book: Type, tmp_path: Path) -> None:
    """Without the word for it: mostly it is the wrong file."""
    path, before = tmp_path / "part.csv", rows_of(tmp_path)
    path.write_text("day,F-1,P-1\n2024-04-02,1200,1199.5\n", encoding="utf-8")
    said = book("add", path, "--strike", "--why", "tidy up")
    assert "4 of 6 facts that are booked aren't in part.csv: is it a part of the" in said.err
    assert said.status == 1 and rows_of(tmp_path) == before
    assert book("add", path, "--strike", "--anyway", "--why", "tidy up").status == 0
    assert sum(row.startswith("strike") for row in rows_of(tmp_path)) == 4


def test_a_ticket_of_another_day_is_struck_and_booked_again(book: Type, tmp_path: Path) -> None:
    sheets = month()
    sheets["tickets"][1][2] = "2024-04-03"
    said = book("add", folder(tmp_path / "april", sheets), "--why", "wrong day")
    days = "truck-04: TRUCKS 2024-04-01 800 t becomes TRUCKS 2024-04-03 800 t"
    assert days in said.out
    assert rows_of(tmp_path)[-2:] == [
        "strike,truck-04,wrong day",
        "transfer,truck-04.2,TRUCKS,2024-04-03,2024-04-03,800000000,10000000000",
    ]
    assert "nothing new" in book("add", tmp_path / "april").out


def test_one_file_and_an_estimate(book: Type, tmp_path: Path) -> None:
    (tmp_path / "second.csv").write_text("day,P-1\n2024-04-04,1180\n", encoding="utf-8")
    assert "new: 1 reading" in book("add", tmp_path / "second.csv").out
    rows = "tag,day,amount,error\nF-1,2024-04-04,1190,60 t\n"
    (tmp_path / "guessed.csv").write_text(rows, encoding="utf-8")
    assert "new: 1 reading" in book("add", tmp_path / "guessed.csv").out
    wanted = f"reading,F-1_2024-04-04.est,FEED,2024-04-04,1190000000,{60_000_000**2}"
    assert rows_of(tmp_path)[-1] == wanted
    (tmp_path / "other.csv").write_text("checked,by\ncu,FEED\n", encoding="utf-8")
    said = book("add", tmp_path / "other.csv").out
    assert "other.csv: line 2: there is no day below this row" in said


FAULTY: dict[str, tuple[Sheets, str]] = {
    "a tag that isn't there": (
        {"readings": [["day", "F-1", "P-l"], ["2024-04-05", "1", "2"]]},
        "did you mean P-1?",
    ),
    "a year too early": (
        {"readings": [["day", "F-1"], ["2023-04-05", "1"]]},
        "F-1_2023-04-05: 2023-04-05 is before 2024, the book's first year: correct the day",
    ),
    "the next year": (
        {"readings": [["day", "F-1"], ["2025-01-05", "1"]]},
        "2025-01-05 comes after 2024: correct the day, or begin the next year: plantbal-desk book",
    ),
    "an edit": (
        {"rows": [["strike", "F-1_2024-04-01", "why"]]},
        "take it out, and type plantbal-desk book strike",
    ),
    "another end": (
        PLANT | {"streams": [*PLANT["streams"][:3], ["", "TRUCKS", "MILL", "env", "batch", "1 t"]]},
        "the next one by plantbal-desk book next YEAR --plant WORKBOOK",
    ),
    "other days of a period": (
        {
            "periods": [["name", "first", "last"], ["2024-04", "2024-04-01", "2024-04-29"]],
            "readings": [["day", "F-1"], ["2024-04-05", "1"]],
        },
        "and from 2024-04-01 to 2024-04-30 in the book: correct the sheet periods",
    ),
    "a level above the table": (
        {"dips": [["tank", "day", "level"], ["SILO", "2024-04-05", "20001"]]},
        "MM is 20001",
    ),
}


@pytest.mark.parametrize("sheets, said", FAULTY.values(), ids=FAULTY)
def test_faults_book_nothing(book: Type, tmp_path: Path, sheets: Sheets, said: str) -> None:
    before = files_of(tmp_path / "mill")
    found = book("add", folder(tmp_path / "bad", sheets))
    assert found.status == 1 and said in found.err, found.err
    assert files_of(tmp_path / "mill") == before


def test_another_unit_is_told(book: Type, tmp_path: Path) -> None:
    """It is booked, since it may be right; the next time nothing is said of it."""
    sheets = month(last=4)
    sheets["readings"][4][2] = "119950"
    said = book("add", folder(tmp_path / "april", sheets))
    assert "look at it: reading P-1_2024-04-04 of PRODUCT is 119,950.000 t, 100 times" in said.out
    assert "look at it" not in book("add", folder(tmp_path / "april", month(last=3))).out


def test_a_dry_run_books_nothing(book: Type, tmp_path: Path) -> None:
    before = files_of(tmp_path / "mill")
    said = book("add", folder(tmp_path / "april", month(last=4)), "--dry-run")
    assert "new: 2 readings" in said.out and "--dry-run" in said.out
    assert files_of(tmp_path / "mill") == before


def test_a_workbook_of_excel(book: Type, tmp_path: Path) -> None:
    import openpyxl

    made = openpyxl.Workbook()
    made.remove(made.active)
    for name, rows in month(last=4).items():
        sheet = made.create_sheet(name)
        for row in rows:
            sheet.append([_excel(text) for text in row])
    made.save(tmp_path / "april.xlsx")
    said = book("add", tmp_path / "april.xlsx")
    assert said.out.startswith("2024.csv: new: 2 readings\n9 facts are booked already\n")


def _excel(text: str) -> object:
    try:
        return datetime.datetime.fromisoformat(text) if "-" in text[4:5] else float(text)
    except ValueError:
        return text


# ---- the plant


def test_a_new_meter(book: Type, tmp_path: Path) -> None:
    """It is added before the first close, and after it with the day on which it begins."""
    new = PLANT | {"streams": [*PLANT["streams"], ["W-1", "WASTE", "MILL", "env", "", "1 t"]]}
    assert "1 row of the plant" in book("add", folder(tmp_path / "plant", new)).out
    assert text_of(tmp_path / "mill" / "plant.csv").splitlines()[-1].startswith("stream,WASTE")
    assert text_of(tmp_path / "mill" / "meters.csv").splitlines()[-1] == "WASTE,W-1,,,1 t"
    book("close", "2024-04", *ANYWAY)
    more = PLANT | {"streams": [*new["streams"], ["W-2", "LOSS", "MILL", "env", "", "1 t"]]}
    said = book("add", folder(tmp_path / "plant", more))
    assert (
        said.status == 1
        and "write a day after the closed periods into its column since" in said.err
    )
    days = ["since", "", "", "", "", "2024-05-01"]
    more["streams"] = [[*row, day] for row, day in zip(more["streams"], days, strict=True)]
    assert "1 row of the plant" in book("add", folder(tmp_path / "plant", more)).out
    assert rows_of(tmp_path)[-1].startswith("stream,LOSS,MILL,env,metered,1,2024-05-01,")


@pytest.mark.parametrize("names", ["streams", "streams tanks", "streams straps", "tanks straps"])
def test_parts_of_the_plant(book: Type, tmp_path: Path, names: str) -> None:
    """What a workbook lacks of the plant is the book's."""
    parts = {name: PLANT[name] for name in names.split()}
    said = book("add", folder(tmp_path / "parts", parts | month(last=4)))
    assert said.err == "" and said.out.startswith("2024.csv: new: 2 readings\n9 facts are")
    assert ("the sheet is skipped" in said.out) == ("streams" not in names)


def test_more_critical_values(book: Type, tmp_path: Path) -> None:
    """They need no other sheet, and may come after a close."""
    book("close", "2024-04", *ANYWAY)
    values = [*PLANT["critical"], ["measure", "", "5.7"]]
    assert (
        "new: 1 row of the plant" in book("add", folder(tmp_path / "m", {"critical": values})).out
    )
    assert rows_of(tmp_path)[-1] == "critical,measure,5700"
    assert text_of(tmp_path / "mill" / "plant.csv").splitlines()[-1] == "critical,measure,5700"
    values[1] = ["global", "1", "6.63"]
    said = book("add", folder(tmp_path / "m", {"critical": values}))
    assert said.status == 1 and "critical.csv: line 2, column 3: critical global" in said.err


def test_a_sheet_of_another_name(say: Desk, tmp_path: Path) -> None:
    plant = folder(tmp_path / "plant", PLANT | {"piles": [["pile", "error"], ["ORE", "2 %"]]})
    said = say("book", "new", "2024", plant, "--book", tmp_path / "mill")
    assert said.out.endswith(f"{plant / 'piles.csv'}: the sheet is skipped\n")


def test_a_sheet_with_only_what_is_new(book: Type, tmp_path: Path) -> None:
    """What it lacks is said before what follows from that."""
    streams = [PLANT["streams"][0], ["W-1", "WASTE", "MILL", "env", "", "1 t"]]
    tanks = [PLANT["tanks"][0], ["SILO2", "3 mm", "1250"]]
    sheets = {"streams": streams, "tanks": tanks, **month()}
    lines = book("add", folder(tmp_path / "part", sheets)).err.splitlines()
    what = "of the book {} here: {}: write the whole plant into this sheet, with what is new"
    assert lines[0].endswith("3 streams " + what.format("aren't", "FEED, PRODUCT, TRUCKS"))
    assert lines[1].endswith("1 tank " + what.format("isn't", "SILO"))
    assert "MILL has nothing coming in" in lines[2]


def test_critical_values_come_alone(book: Type, tmp_path: Path) -> None:
    """After a close too; one that is there already stays."""
    book("close", "2024-04", *ANYWAY)
    path = tmp_path / "critical.csv"
    path.write_text("test,dof,value\nglobal,1,3.84\nglobal,3,7.815\n", encoding="utf-8")
    said = book("add", path, "--locale", "en")
    assert said.out == "2024.csv: new: 1 row of the plant\n"
    assert rows_of(tmp_path)[-1] == "critical,global,3,7815"
    assert text_of(tmp_path / "mill" / "plant.csv").splitlines()[-1] == "critical,global,3,7815"
    assert book("add", path, "--locale", "en").out == "2024.csv: nothing new\n"
    path.write_text("test,dof,value\nglobal,3,11.3\n", encoding="utf-8")
    assert "what is declared stays to the end of a year" in book("add", path).err


def test_another_error_of_a_meter(book: Type, tmp_path: Path) -> None:
    streams = [row[:] for row in PLANT["streams"]]
    streams[2][5] = "1.5 t"
    said = book("add", folder(tmp_path / "plant", {"streams": streams}))
    assert "meters.csv: PRODUCT: error 2 t becomes 1.5 t" in said.out
    assert read_meters(Store(tmp_path / "mill"))["PRODUCT"].error == Error(grams=1_500_000)
    book("amend", "P-1", "2024-04-02", "1195 t", "--why", "log book")
    assert rows_of(tmp_path)[-1].split(",")[3] == str(1_500_000**2)


# ---- single facts


AMENDED = [
    (["F-1", "2024-04-02", "1300 t"], "amend,F-1_2024-04-02,1300000000,169000000000000,why"),
    (["FEED", "2024-04-02", "1300000 kg"], "amend,F-1_2024-04-02,1300000000,169000000000000,why"),
    (["F-1_2024-04-02", "-1 t"], "amend,F-1_2024-04-02,-1000000,25000000000000,why"),
    (["truck-04", "801"], "amend,truck-04,801000000,10000000000,why"),
    (
        ["truck-04", "801,5", "--error", "0,3 t", "--locale", "de"],
        "amend,truck-04,801500000,90000000000,why",
    ),
    (["SILO", "2024-04-30", "9.6 m"], "amend,SILO_2024-04-30,9600,1250000,779247562500,why"),
    (
        ["SILO", "2024-04-30", "9600 mm", "--density", "1260"],
        "amend,SILO_2024-04-30,9600,1260000,791765395344,why",
    ),
]


@pytest.mark.parametrize("words, row", AMENDED, ids=[" ".join(words) for words, _ in AMENDED])
def test_amend(book: Type, tmp_path: Path, words: list[str], row: str) -> None:
    said = book("amend", *words, "--why", "why")
    assert (said.status, said.err) == (0, "")
    assert rows_of(tmp_path)[-1] == row
    before = files_of(tmp_path / "mill")
    assert "already" in book("amend", *words, "--why", "why").out
    assert files_of(tmp_path / "mill") == before


NOT_AMENDED = [
    (["F-1", "2024-04-09", "1 t"], "F-1 has no figure of 2024-04-09 in this book"),
    (["F-9", "2024-04-01", "1 t"], "there is no tag, stream or tank F-9: the tags are F-1, P-1"),
    (["truck-9", "1 t"], "there is no fact truck-9 in this book"),
    (["F-1", "2024-04-01", "1 mm"], "'1 mm' isn't a number"),
    (["F-1", "2024-04-01", "1.234 t"], "'1.234' is a decimal number in one country"),
    (["F-1", "2024-04-01", "99999999 t"], "GRAMS is '99999999000000'"),
    (["F-1", "04/05/2024", "1 t"], "'04/05/2024' can be read as two days"),
    (["SILO", "2024-04-30", "1 t"], "'1 t' isn't a number"),
    (["SILO", "2024-04-30", "25 m"], "MM is 25000, and the table of SILO goes from 0 to 20000"),
]


@pytest.mark.parametrize("words, said", NOT_AMENDED, ids=[words[-1] for words, _ in NOT_AMENDED])
def test_not_amended(book: Type, tmp_path: Path, words: list[str], said: str) -> None:
    before = files_of(tmp_path / "mill")
    found = book("amend", *words, "--why", "why")
    assert found.status == 1 and said in found.err, found.err
    assert files_of(tmp_path / "mill") == before


@pytest.mark.parametrize(
    ("why", "row"),
    [
        ("Schätzung: Zähler außer Betrieb", "Schaetzung: Zaehler ausser Betrieb"),
        ("erreur à la saisie, corrigée", '"erreur a la saisie, corrigee"'),
        ("ошибка", "oshibka"),
    ],
)
def test_a_reason_in_any_language(
    book: Type, say: Desk, program: Path, tmp_path: Path, why: str, row: str
) -> None:
    """The journal keeps it as it was typed, the row has it in plain letters, the statement both."""
    assert book("amend", "F-1", "2024-04-02", "1210 t", "--why", why).status == 0
    assert rows_of(tmp_path)[-1].startswith("amend,F-1_2024-04-02,1210000000,")
    assert rows_of(tmp_path)[-1].endswith(f",{row}")
    assert journal_of(tmp_path / "mill")[-1][4] == why
    session = tmp_path / "2024.csv"
    text = text_of(tmp_path / "mill" / "2024.csv") + "report,2024-04\nhistory,2024-04\n"
    session.write_text(text, encoding="utf-8")
    words = "--run", "--book", tmp_path / "mill", "--program", program
    shown = say("page", session, *words).out
    plain = row.strip('"')
    assert f"{why}<br><small>in its row: {plain}</small>" in shown, "both are on the statement"


@pytest.mark.parametrize("why", ["Zähler\n", "x" * 81])
def test_a_reason_that_a_session_cannot_hold(book: Type, tmp_path: Path, why: str) -> None:
    before = files_of(tmp_path / "mill")
    sheets = month()
    sheets["readings"][2][1] = "1210"
    for words in (
        ["amend", "F-1", "2024-04-02", "1 t"],
        ["strike", "F-1", "2024-04-02"],
        ["add", folder(tmp_path / "april", sheets)],
    ):
        assert "1 to 80 plain characters" in book(*words, "--why", why).err
    assert files_of(tmp_path / "mill") == before


def test_a_full_year(book: Type, tmp_path: Path, monkeypatch: pytest.MonkeyPatch) -> None:
    from plantbal.schema import schema

    before = files_of(tmp_path / "mill")
    monkeypatch.setattr("plantbal.model.core._is_installed", lambda _: False)  # it has its own
    monkeypatch.setitem(schema().limits, "most_facts", 10)
    (tmp_path / "more.csv").write_text("day,F-1,P-1\n2024-04-04,1,1\n", encoding="utf-8")
    said = book("add", tmp_path / "more.csv")
    assert "(refused 13, full): begin another part of the year: plantbal-desk book next" in said.err
    assert files_of(tmp_path / "mill") == before


def test_what_a_command_has_changed_stays(book: Type, tmp_path: Path) -> None:
    """The workbook has the old figures still, so adding it again changes nothing."""
    book("amend", "F-1", "2024-04-02", "1300 t", "--why", "log book")
    book("amend", "F-1", "2024-04-02", "1301 t", "--why", "log book again")
    book("strike", "truck-04", "--why", "twice")
    book("strike", "P-1", "2024-04-03", "--why", "frozen")
    before = rows_of(tmp_path)
    said = book("add", tmp_path / "april")
    assert "F-1_2024-04-02: it stays amended to 1,301 t; april still has 1,200 t" in said.out
    assert "truck-04: it stays struck; april still has 800 t" in said.out
    assert rows_of(tmp_path) == before
    sheets = month()
    sheets["readings"][2][1], sheets["readings"][3][2] = "1302", "1191"
    book("add", folder(tmp_path / "april", sheets), "--why", "corrected")
    assert [row.split(",")[1:5] for row in rows_of(tmp_path)[-2:]] == [
        ["F-1_2024-04-02", "1302000000", "169520400000000", "corrected"],
        ["P-1_2024-04-03.2", "PRODUCT", "2024-04-03", "1191000000"],
    ]


def test_struck_twice(book: Type, tmp_path: Path) -> None:
    assert "is struck" in book("strike", "P-1", "2024-04-03", "--why", "frozen").out
    before = files_of(tmp_path / "mill")
    said = book("strike", "P-1", "2024-04-03", "--why", "frozen")
    assert (said.status, said.out) == (0, "P-1_2024-04-03 is struck already\n")
    assert book("amend", "P-1", "2024-04-03", "1 t", "--why", "x").status == 1
    assert files_of(tmp_path / "mill") == before


# ---- reports and closing


def test_report_close_and_late(book: Type, tmp_path: Path) -> None:
    book("add", folder(tmp_path / "april", month(last=30)))
    said = book("report")
    assert said.status == 1 and "suspects" not in said.out
    assert said.out.startswith("2024-04: converged, rejected by the global test: ")
    said = book("close", "2024-04")
    assert said.status == 1 and "2024-04 isn't closed: 2024-04 is rejected" in said.err
    assert not any(row.startswith("close") for row in rows_of(tmp_path))
    book("amend", "truck-04", "35543 t", "--why", "a digit short", "--error", "9 t")
    said = book("close", "2024-04")
    assert said.status == 0 and "2024-04 is closed, with the report" in said.out
    assert said.out.splitlines()[-1] == book("verify").out.splitlines()[-1]
    assert "closed already" in book("close", "2024-04").out
    assert "1 period closed, 0 open" in book("status").out
    sheets = month(last=30)
    sheets["tickets"].append(["truck-5", "TRUCKS", "2024-04-29", "10"])
    assert "late: 1 of them" in book("add", folder(tmp_path / "april", sheets)).out
    said = book("status")
    assert "2024-04: closed, changed since its report: plantbal-desk book report" in said.out
    assert "with 3 edits" in book("report", "2024-04").out
    reports = tmp_path / "mill/reports"
    assert sorted(str(path.relative_to(reports)) for path in reports.rglob("*.csv")) == [
        "2024-04.csv",
        "earlier/2024-04.1.csv",
    ]
    assert text_of(tmp_path / "mill/reports/2024-04.csv").splitlines()[-3:] == [
        "edit,75,amend,truck-04,a digit short",
        "edit,76,close,,",
        "edit,77,late,truck-5,",
    ]
    assert "as it was" in book("report", "2024-04").out
    assert book("report", "2024-03").err.endswith("in this book: the periods are 2024-04\n")
    assert "no period is open" in book("report").err


def test_the_session_of_a_report(book: Type, tmp_path: Path) -> None:
    """Run by itself it gives the report, so that it can be put into a bundle."""
    book("report", "2024-04", "--session", tmp_path / "april.session.csv")
    asked = text_of(tmp_path / "april.session.csv")
    assert asked == text_of(tmp_path / "mill/2024.csv") + "report,2024-04\nhistory,2024-04\n"
    _, output = call(["run", "--tests"], asked.encode())
    assert output.decode() == text_of(tmp_path / "mill/reports/2024-04.csv")


def test_status(book: Type, tmp_path: Path) -> None:
    assert book("status").out.splitlines() == [
        "2024: 0 periods closed, 1 open; 9 of 200,000 facts (0.0 %), 1 of 1,000 periods (0.1 %)",
        "2024-04: open, not reported yet",
        "2024-04: no reading of F-1 (FEED), P-1 (PRODUCT) on 2024-04-04 to 2024-04-30",
    ]


def test_nearly_full(book: Type, monkeypatch: pytest.MonkeyPatch) -> None:
    from plantbal.schema import schema

    monkeypatch.setitem(schema().limits, "most_facts", 11)
    assert "nearly full: begin another part: plantbal-desk book next 2024-2" in book("status").out


# ---- what isn't a book


def test_no_book(say: Desk, tmp_path: Path) -> None:
    said = say("book", "status", "--book", tmp_path)
    assert said.status == 3 and "there is no book in" in said.err
    assert list(tmp_path.iterdir()) == []
    said = say("book", "new", "24", tmp_path, "--book", tmp_path)
    assert "'24' isn't a year: write four digits" in said.err


def test_a_book_that_was_changed_by_hand(book: Type, tmp_path: Path) -> None:
    path = tmp_path / "mill" / "2024.csv"
    before = path.read_text(encoding="utf-8")
    path.write_text(before + "reading,x,FEED,2024-04-09,1.5,1\n", encoding="utf-8")
    said = book("status")
    assert "2024.csv: line 21: there is 1 line after what action 2 (add april" in said.err
    assert "put the file back as it was" in said.err
    assert book("accept", "2024.csv", "--why", "a try").status == 0
    said = book("status")
    assert "2024.csv: line 21, record 21: reading x: GRAMS is '1.5' (refused 4, number)" in said.err
    assert "rows of a book are written by its commands alone" in said.err
    path.write_text(before + "amend,F-1_2024-04-01,1,1,wh", encoding="utf-8")
    assert book("status").status == 1
    assert book("accept", "2024.csv", "--why", "another").status == 0
    assert "2024.csv: line 21: its last line has no end" in book("status").err
    assert "there is a book in" in book("new", "2025", tmp_path / "plant").err


def test_errors_as_texts() -> None:
    assert error_text(None) == "" and error_text(Error()) == "0 t"
    assert exact_decimal(Fraction(-1, 8)) == "-0.125"


# ---- ids that come again


def test_a_ticket_with_the_id_of_another_month(book: Type, tmp_path: Path) -> None:
    sheets = month(month="05")
    sheets["tickets"][1][0] = "truck-04"
    before = files_of(tmp_path / "mill")
    said = book("add", folder(tmp_path / "may", sheets), "--why", "whatever")
    assert "truck-04: the book has a ticket of this id already, of TRUCKS on 2024-04-01" in said.err
    assert "give it another id, such as 2024-05-truck-04" in said.err
    assert files_of(tmp_path / "mill") == before


def test_show(book: Type, tmp_path: Path) -> None:
    book("amend", "F-1", "2024-04-02", "1300 t", "--why", "log book")
    book("strike", "F-1", "2024-04-03", "--why", "frozen")
    assert book("show", "F-1", "2024-04-02").out.splitlines() == [
        "F-1_2024-04-02: 1,300 t, error 13 t; before 1,200 t",
        "F-1_2024-04-03: 1,200 t, error 12 t; struck",
    ]
    assert (
        book("show", "SILO")
        .out.splitlines()[0]
        .startswith("SILO_2024-03-31: 8,000 mm at 1,250 kg/m3, error 0.883 t")
    )
    assert book("show", "F-9").status == 1


def test_show_in_the_unit_of_the_meter(say: Desk, tmp_path: Path) -> None:
    """As the sheet has it, so that a figure is found there."""
    streams = [["tag", "stream", "from", "to", "error", "unit", "density"]]
    streams.append(["F-1", "FEED", "env", "MILL", "1 % or 5 t", "klb", ""])
    streams.append(["P-1", "PRODUCT", "MILL", "env", "2 t", "m3", "0.8 t/m3"])
    words = ["--book", tmp_path / "mill"]
    say("book", "new", "2024", folder(tmp_path / "plant", {"streams": streams}), *words)
    rows = {"readings": [["day", "F-1", "P-1"], ["2024-04-01", "2645.5", "1500"]]}
    say("book", "add", folder(tmp_path / "april", rows), *words)
    for name, line in (
        ("F-1", "F-1_2024-04-01: 1,199.978615 t (2,645.5 klb), error 12 t\n"),
        ("P-1", "P-1_2024-04-01: 1,200 t (1,500 m3), error 2 t\n"),
    ):
        assert say("book", "show", name, *words).out == line


def test_a_csv_file_in_the_folder_is_no_year(book: Type, tmp_path: Path) -> None:
    (tmp_path / "mill" / "2024-05.csv").write_text("day,F-1\n", encoding="utf-8")
    assert book("status").status == 0
