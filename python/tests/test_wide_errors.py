"""Systematic errors that are wider than a row bears: shared to the gram, or refused in tonnes."""

from __future__ import annotations

import calendar
from pathlib import Path
from typing import Any

import pytest
from books import Sheets, folder
from conftest import Desk, text_of

from plantbal import convert
from plantbal.session import Session

MONTHS = (7, 8)
WIDE = 4_600_000_000**2  # 4,600 t, in squared grams


def mine(base: str = "4600 t", **more: Any) -> Sheets:
    """A belt that weighs a mine's ore over two months, and a heap's tickets."""
    days = [
        f"2024-{month:02}-{day:02}"
        for month in MONTHS
        for day in range(1, calendar.monthrange(2024, month)[1] + 1)
    ]
    return {
        "streams": [
            ["tag", "stream", "from", "to", "kind", "error", "base"],
            ["W-1", "ORE", "env", "MILL", "", "0.5 % or 5 t", base],
            ["W-2", "PULP", "MILL", "env", "", "1 %", ""],
        ],
        "readings": [["day", "W-1", "W-2"], *([day, "30000", "29900"] for day in days)],
        **more,
    }


def sums(session: Session, stream: str) -> list[int]:
    """The variance of a stream in each period, as the program adds it up."""
    (base,) = [int(row[5]) for row in session if row[:2] == ("stream", stream)]
    periods = [row[2:] for row in session if row[0] == "period"]
    rows = [row[3:] for row in session if row[0] == "reading" and row[2] == stream]
    return [
        base + sum(int(variance) for day, _, variance in rows if first <= day <= last)
        for first, last in periods
    ]


def test_the_variance_of_a_period_is_the_same(tmp_path: Path) -> None:
    found = convert(folder(tmp_path / "mine", mine()))
    assert found.ok, found.said()
    assert sums(found.session, "ORE") == [WIDE + 31 * (150 * 10**6) ** 2] * 2
    said = "streams.csv: line 2, column 7: a base of 4600 t is wider than the 3,162 t of a row"
    assert said in found.notes[-1]
    narrow = convert(folder(tmp_path / "mine", mine("3100 t")))
    assert sums(narrow.session, "ORE") == [3_100_000_000**2 + 31 * (150 * 10**6) ** 2] * 2
    assert not narrow.notes


def test_some_days_have_the_shares_that_all_have(tmp_path: Path) -> None:
    whole = convert(folder(tmp_path / "a", mine())).session
    sheets = mine()
    sheets["readings"] = sheets["readings"][:12]
    part = convert(folder(tmp_path / "b", sheets)).session
    assert {row for row in part if row[0] == "reading"} < set(whole)


QUARTER = [["name", "first", "last"], ["q", "2024-07-01", "2024-08-31"]]
BOTH = [*QUARTER, ["july", "2024-07-01", "2024-07-31"]]


@pytest.mark.parametrize(
    ("sheets", "said"),
    [
        (mine("20 kt"), "the error of 30000 is 3,"),
        (mine("0.5 %"), "a base has no figure to be a part of"),
        (mine(periods=BOTH), "no day may be in two periods"),
        (
            mine(tanks=[["tank", "error", "density", "base"], ["T", "3 mm", "860", "4 kt"]]),
            "a tank has a systematic error of at most 3,162 t",
        ),
        (
            mine(estimates=[["tag", "day", "amount", "error"], ["W-2", "2024-09-01", "1", "4 kt"]]),
            "the error of 1 is 4,000 t, and a row bears at most 3,162 t",
        ),
    ],
)
def test_what_cannot_be_is_said_in_tonnes(tmp_path: Path, sheets: Sheets, said: str) -> None:
    found = convert(folder(tmp_path / "mine", sheets))
    assert not found.ok
    assert any(said in line for line in found.said()), (said, found.said())
    assert not any("BASEVAR" in line or "VARIANCE" in line for line in found.said())


def test_a_period_of_its_own_has_its_own_shares(tmp_path: Path) -> None:
    found = convert(folder(tmp_path / "mine", mine(periods=QUARTER)))
    assert sums(found.session, "ORE") == [WIDE + 62 * (150 * 10**6) ** 2]


def test_a_book_keeps_it(say: Desk, tmp_path: Path) -> None:
    def book(*words: object) -> None:
        said = say("book", *words, "--book", tmp_path / "mine.book", "--who", "anna")
        assert said.status == 0, said.err

    sheets = mine()
    book("new", "2024", folder(tmp_path / "plant", {"streams": sheets["streams"]}))
    book("add", folder(tmp_path / "some", {"readings": sheets["readings"][:20]}))
    book("add", folder(tmp_path / "all", {"readings": sheets["readings"]}))
    book("amend", "W-1", "2024-07-03", "30000.5 t", "--why", "typed")
    lines = text_of(tmp_path / "mine.book" / "2024.csv").splitlines()
    rows = [line.split(",") for line in lines]
    ore = [int(row[5]) for row in rows if row[0] == "reading" and row[2] == "ORE"]
    (base,) = [int(row[5]) for row in rows if row[:2] == ["stream", "ORE"]]
    assert len(ore) == 62
    assert base + sum(ore[:31]) == WIDE + 31 * (150 * 10**6) ** 2
    (amended,) = [int(row[3]) for row in rows if row[0] == "amend"]
    (before,) = [int(row[5]) for row in rows if row[:2] == ["reading", "W-1_2024-07-03"]]
    # 0.5 % of 30,000.5 t are 150.0025 t, and of 30,000 t 150 t
    assert amended - before == 150_002_500**2 - 150_000_000**2
