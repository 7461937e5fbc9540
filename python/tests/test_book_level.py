"""Critical values by a level in the workbook, and those that `critical` writes."""

from __future__ import annotations

from pathlib import Path

import pytest
from books import PLANT, Type, fixture_book, folder, month, rows_of
from conftest import Desk

from plantbal import convert

__all__ = ["fixture_book"]

# Chi-squared with 1 to 4 degrees of freedom at 5 % and at 1 %, of any table of it.
FIVE, ONE = [3841, 5991, 7815, 9488], [6635, 9210, 11345, 13277]
LEVELS = [("5 %", FIVE), ("0.05", FIVE), ("1 %", ONE)]


def with_level(level: str) -> dict[str, list[list[str]]]:
    """A plant with a unit, a tank, two meters and tickets."""
    plant = {name: rows for name, rows in PLANT.items() if name != "critical"}
    return plant | {"settings": [["setting", "value"], ["tests", level]]}


@pytest.mark.parametrize(("level", "values"), LEVELS)
def test_a_level_gives_the_values(say: Desk, tmp_path: Path, level: str, values: list[int]) -> None:
    book = ("--book", tmp_path / "mill")
    assert (
        say("book", "new", "2024", folder(tmp_path / "plant", with_level(level)), *book).err == ""
    )
    rows = [row for row in rows_of(tmp_path) if row.startswith("critical,global,")]
    assert rows == [f"critical,global,{dof},{value}" for dof, value in enumerate(values, 1)]
    assert say("book", "add", folder(tmp_path / "april", month()), *book).err == ""
    assert "no critical value" not in say("book", "report", "2024-04", *book).out


def test_many_tests_keep_the_level(tmp_path: Path) -> None:
    """1 - 0.95^(1/2) = 0.025321 and 1 - 0.95^(1/4) = 0.012741: chi-squared 5.002 and 6.205."""
    session = convert(folder(tmp_path / "plant", with_level("5 %")), design=True).session
    assert [row for row in session if row[:2] == ("critical", "nodal")] == [
        ("critical", "nodal", "5002")
    ]
    assert [row for row in session if row[:2] == ("critical", "measure")] == [
        ("critical", "measure", "6205")
    ]


def test_a_value_that_is_there_stays(book: Type, tmp_path: Path) -> None:
    """A level in a later workbook adds what lacks, and nothing the second time."""
    level = {"settings": [["setting", "value"], ["tests", "5 %"]]}
    said = book("add", folder(tmp_path / "level", level))
    assert "new: 4 rows of the plant" in said.out, said
    assert [row for row in rows_of(tmp_path) if row.startswith("critical,global,")] == [
        "critical,global,1,3840",
        "critical,global,2,5990",
        "critical,global,3,7815",
        "critical,global,4,9488",
    ]
    assert "nothing new" in book("add", folder(tmp_path / "level", level)).out


@pytest.mark.parametrize("name", ["critical.csv", "values.csv"])
def test_what_critical_writes_is_added(book: Type, say: Desk, tmp_path: Path, name: str) -> None:
    (tmp_path / name).write_text(say("critical", "0.05", "3-4", "--nodal", "2").out)
    assert "new: 3 rows of the plant" in book("add", tmp_path / name).out
    assert rows_of(tmp_path)[-3:] == [
        "critical,global,3,7815",
        "critical,global,4,9488",
        "critical,nodal,5002",
    ]
    assert "nothing new" in book("add", tmp_path / name).out


@pytest.mark.parametrize("level", ["5", "0", "100 %", "often"])
def test_what_is_no_level(tmp_path: Path, level: str) -> None:
    found = convert(folder(tmp_path / "plant", with_level(level)), design=True)
    assert any("settings.csv: line 2, column 2" in said for said in found.said()), found.said()
