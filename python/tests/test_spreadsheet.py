"""From a spreadsheet to a session, and what is said of wrong fields."""

from __future__ import annotations

import re
from pathlib import Path

import pytest
from conftest import Desk, example, text_of

from plantbal.program import call

FOLDER = example("concentrator")
WORDS = ["--decimal", "comma", "--date", "%d.%m.%Y", "--skip", "Remark"]
BEFORE = ["--before", FOLDER / "critical.csv"]
MISSING = "no reading of WIC-401 (FILTERED) on 2024-05-17\n"


def corrected(room: Path, name: str, line: int, old: str, new: str) -> Path:
    """A sheet of the concentrator with one line changed."""
    lines = text_of(FOLDER / name).splitlines(keepends=True)
    if old:
        assert old in lines[line - 1]
        lines[line - 1] = lines[line - 1].replace(old, new, 1)
    else:
        lines[line - 1] = lines[line - 1].rstrip("\n") + new + "\n"
    path = room / name
    path.write_text("".join(lines), encoding="utf-8")
    return path


def test_session(say: Desk) -> None:
    said = say("from-spreadsheet", *WORDS, *BEFORE, FOLDER / "tags.csv", FOLDER / "readings.csv")
    assert (said.status, said.out) == (0, text_of(FOLDER / "session.csv"))
    assert said.err == (
        f"plantbal-desk from-spreadsheet: {MISSING}"
        "plantbal-desk from-spreadsheet: lint of the session: 2 warnings: missing-reading, "
        "worse-class (plantbal-desk lint SESSION says more)\n"
    )


@pytest.mark.parametrize("words, wanted", [([], "session"), (["--tests"], "tested")])
def test_reports(program: Path, words: list[str], wanted: str) -> None:
    session = (FOLDER / "session.csv").read_bytes()
    _, text = call(["run", *words], session, program=program)
    assert text.decode() == text_of(FOLDER / f"{wanted}.out.csv")


READINGS = [
    (3, "11697,5", "1169O,5", "line 3, column 2 (WIC-101): '1169O,5' isn't a number"),
    (
        3,
        "11697,5",
        "11697.5",
        "line 3, column 2 (WIC-101): '11697.5' has a decimal point: use --decimal point",
    ),
    (
        4,
        "12047,5",
        "12.047,5",
        "line 4, column 2 (WIC-101): '12.047,5' has marks between thousands",
    ),
    (3, "346,97", "Bad", "line 3, column 4 (WIC-301): 'Bad' isn't a number"),
    (3, "346,97", "346,9700001", "line 3, column 4 (WIC-301): '346,9700001' is finer than a gram"),
    (3, "11482", "11482000", "line 3, column 3 (FI-201): '11482000' is above 10,000,000 t"),
    (3, "02.04", "31.04", "line 3, column 1 (Day): '31.04.2024' isn't a day"),
    (3, "02.04", "01.04", "line 3, column 1 (Day): 2024-04-01 is already given above"),
    (1, "FI-201", "FI-202", "line 1, column 3 (FI-202): the table of tags has no tag 'FI-202'"),
    (1, "FI-302", "FI-201", "line 1, column 5 (FI-201): column 3 has this tag too"),
    (1, "FI-302", "Remark", "line 1: there is no column for the tag FI-302"),
    (5, "", ";;1", "line 5, column 9: this column has no head"),
]


@pytest.mark.parametrize("line, old, new, said", READINGS, ids=[case[3] for case in READINGS])
def test_wrong_readings(
    say: Desk, tmp_path: Path, line: int, old: str, new: str, said: str
) -> None:
    path = corrected(tmp_path, "readings.csv", line, old, new)
    found = say("from-spreadsheet", *WORDS, *BEFORE, FOLDER / "tags.csv", path)
    assert (found.status, found.out) == (1, "")
    assert f"readings.csv: {said}" in found.err


TAGS = [
    (3, "1,5 % or 10 t", "1,5", "line 3, column 5 (error): '1,5' isn't an error"),
    (3, "1,5 % or 10 t", "1.5 %", "line 3, column 5 (error): '1.5 %' isn't an error"),
    (3, "1,5 % or 10 t", "", "line 3, column 5 (error): a stream with a tag has an error"),
    (4, "CONCENTRATE", "WET CAKE", "line 4, column 2 (stream): 'WET CAKE' isn't a name"),
    (4, "CONCENTRATE", "PULP", "line 4, column 2 (stream): PULP is in line 3 too"),
    (1, "error", "percent", "line 1: there is no column 'error'"),
]


@pytest.mark.parametrize("line, old, new, said", TAGS, ids=[case[3] for case in TAGS])
def test_wrong_tags(say: Desk, tmp_path: Path, line: int, old: str, new: str, said: str) -> None:
    path = corrected(tmp_path, "tags.csv", line, old, new)
    found = say("from-spreadsheet", *WORDS, *BEFORE, path, FOLDER / "readings.csv")
    assert (found.status, found.out) == (1, "")
    assert f"tags.csv: {said}" in found.err


def test_reading_of_nothing(say: Desk, tmp_path: Path) -> None:
    tags = corrected(tmp_path, "tags.csv", 2, " or 5 t", "")
    readings = corrected(tmp_path, "readings.csv", 3, "11697,5", "0")
    found = say("from-spreadsheet", *WORDS, tags, readings)
    assert found.status == 1
    assert "line 3, column 2 (WIC-101): a reading of 0 has no error" in found.err


def test_missing(say: Desk, tmp_path: Path) -> None:
    readings = corrected(tmp_path, "readings.csv", 3, "346,97", "Bad")
    words = [*WORDS, *BEFORE, "--missing", "Bad"]
    found = say("from-spreadsheet", *words, FOLDER / "tags.csv", readings)
    session = text_of(FOLDER / "session.csv")
    assert found.out == re.sub(r"(?m)^reading,WIC-301_2024-04-02,.*\n", "", session)


@pytest.mark.parametrize("data, said", [("ä;b\n".encode("cp1252"), "isn't UTF-8"), (b"", "no row")])
def test_other_texts(say: Desk, tmp_path: Path, data: bytes, said: str) -> None:
    path = tmp_path / "tags.csv"
    path.write_bytes(data)
    found = say("from-spreadsheet", path, FOLDER / "readings.csv")
    assert found.status == 1 and said in found.err and str(path) in found.err


TWO = "tag,stream,from,to,error\nFI1,A,env,MILL,1 %\nFI2,B,MILL,env,1 %\n"
OWN = {
    "thousands": (
        TWO,
        'day,FI1,FI2\n2024-04-01,"12,408",1\n',
        "'12,408' has marks between thousands, or a decimal comma: take these marks out",
    ),
    "thousands and decimals": (
        TWO,
        'day,FI1,FI2\n2024-04-01,"12,408.5",1\n',
        "has marks between thousands: take these marks out, or let plantbal-desk convert read",
    ),
    "apostrophes": (TWO, "day,FI1,FI2\n2024-04-01,11'482.5,1\n", "has marks between thousands: "),
    "decimal comma": (
        TWO,
        'day,FI1,FI2\n2024-04-01,"12,4",1\n',
        "'12,4' has a decimal comma: use --decimal comma",
    ),
    "an end mistyped": (
        TWO.replace("B,MILL", "B,MLIL"),
        "day,FI1,FI2\n2024-04-01,1,1\n",
        "a unit's flows would be 0, and no session is written: correct the ends of its streams",
    ),
}


@pytest.mark.parametrize("tags, readings, said", OWN.values(), ids=OWN)
def test_own(say: Desk, tmp_path: Path, tags: str, readings: str, said: str) -> None:
    (tmp_path / "tags.csv").write_text(tags)
    (tmp_path / "readings.csv").write_text(readings)
    found = say("from-spreadsheet", tmp_path / "tags.csv", tmp_path / "readings.csv")
    assert (found.status, found.out) == (1, "")
    assert said in found.err and str(tmp_path) in found.err, found.err


def test_a_mistyped_end_is_guessed(say: Desk, tmp_path: Path) -> None:
    (tmp_path / "tags.csv").write_text(TWO.replace("B,MILL", "B,MILLL"))
    (tmp_path / "readings.csv").write_text("day,FI1,FI2\n2024-04-01,1,1\n")
    found = say("from-spreadsheet", tmp_path / "tags.csv", tmp_path / "readings.csv")
    assert "nothing comes in at unit MILLL: B is booked as 0" in found.err
    assert "did you mean MILL?" in found.err


SHORT = {
    "2024-04-01 2024-04-29": [
        "2024-04 goes from 2024-04-01 to 2024-04-29",
        "are missing, its last 1",
    ],
    "2024-04-02 2024-04-30": [
        "2024-04 goes from 2024-04-02 to 2024-04-30",
        "are missing, its first 1",
    ],
    "2024-04-01 2024-04-30": [],
    # days and months exchanged: three months of a day each
    "2024-01-04 2024-02-04 2024-03-04": [
        "2024-01 goes from 2024-01-04 to 2024-01-04: days of the month are missing, its first 3 "
        "and its last 27",
        "2024-02 goes from 2024-02-04 to 2024-02-04",
        "2024-03 goes from 2024-03-04 to 2024-03-04",
    ],
}


@pytest.mark.parametrize("days, said", SHORT.items(), ids=SHORT)
def test_ends_of_months(say: Desk, tmp_path: Path, days: str, said: list[str]) -> None:
    """A month's first or last day that lacks makes the period shorter, which is said."""
    (tmp_path / "tags.csv").write_text(TWO)
    rows = "".join(f"{day},1,1\n" for day in days.split())
    (tmp_path / "readings.csv").write_text(f"day,FI1,FI2\n{rows}")
    found = say("from-spreadsheet", tmp_path / "tags.csv", tmp_path / "readings.csv")
    assert found.status == 0
    assert ("goes from" in found.err) == bool(said)
    assert all(each in found.err for each in said), found.err


def test_rows_before_of_another_form(say: Desk, tmp_path: Path) -> None:
    before = tmp_path / "plant.csv"
    before.write_text("critical,global,1,3841\ntank;SILO;1\n")
    found = say("from-spreadsheet", *WORDS, "--before", before, FOLDER / "tags.csv", "none.csv")
    assert found.status == 3 and "none.csv: No such file" in found.err
    files = [FOLDER / "tags.csv", FOLDER / "readings.csv"]
    found = say("from-spreadsheet", *WORDS, "--before", before, *files)
    assert (found.status, found.out) == (1, "")
    assert f"{before}: line 2: a session has no row of the kind 'tank;SILO;1'" in found.err
    assert "with commas between fields" in found.err
