"""A tank or stream that is booked goes out of service."""

from __future__ import annotations

from pathlib import Path

import pytest
from books import Type, files_of, fixture_book, folder, journal_of, month, rows_of

__all__ = ["fixture_book"]


def test_a_tank_ends_with_its_streams(book: Type, tmp_path: Path) -> None:
    """A new part begins, the tank's stock goes over, and what comes after its last day is refused."""
    said = book("retire", "SILO", "2024-05-02")
    assert (said.status, said.err) == (0, "")
    assert said.out.splitlines()[0].startswith("2024b.csv: from 2024-05-01 on; ")
    assert "TRUCKS: in service until 2024-05-02" in said.out
    rows = rows_of(tmp_path, "2024b")
    assert rows[0] == "version,2"
    ends = [row.rsplit(",", 2) for row in rows if row.endswith(",1900-01-01,2024-05-02")]
    assert [each[0].split(",")[1] for each in ends] == ["SILO", "PRODUCT", "TRUCKS"]
    assert any(row.startswith("dip,SILO_2024-04-30,") for row in rows)
    assert journal_of(tmp_path / "mill")[-1][1:4] == ["next", "2024b", "SILO until 2024-05-02"]
    said = book("add", folder(tmp_path / "may", {"readings": month(1, 2, "05")["readings"]}))
    assert said.err == "" and "new: 1 period, 4 readings" in said.out
    late = [["day", "P-1"], ["2024-05-03", "1199"]]
    assert "PRODUCT" in book("add", folder(tmp_path / "late", {"readings": late})).err


def test_parts_follow_each_other(book: Type, tmp_path: Path) -> None:
    assert book("retire", "TRUCKS", "2024-05-31").status == 0
    assert book("add", folder(tmp_path / "may", month(1, 2, "05"))).err == ""
    said = book("retire", "FEED", "2024-06-30")
    assert said.out.startswith("2024c.csv: from 2024-06-01 on; "), said
    assert said.out.splitlines()[-1] == "FEED: in service until 2024-06-30"


@pytest.mark.parametrize(
    ("words", "what"),
    [
        (["SILO", "2024-04-20"], "2024-04-20 is before 2024-05-01"),
        (["SILO9", "2024-05-20"], "there is no tank or stream 'SILO9'"),
        (["MILL", "2024-05-20"], "there is no tank or stream 'MILL'"),
        (["SILO", "20 May"], "'20 May'"),
    ],
)
def test_not_retired(book: Type, tmp_path: Path, words: list[str], what: str) -> None:
    before = files_of(tmp_path / "mill")
    said = book("retire", *words)
    assert said.status == 1 and what in said.err, said
    assert files_of(tmp_path / "mill") == before
