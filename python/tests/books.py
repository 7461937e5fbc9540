"""What tests of books share: a small plant, its months, workbooks, and the files of a book."""

from __future__ import annotations

import csv
import io
import shutil
from collections.abc import Callable
from pathlib import Path
from typing import Any

import pytest
from conftest import Desk, Said, text_of

from plantbal import desk
from plantbal.gates import Gate

# A reason for each gate, for closes of which the gates aren't the subject.
ANYWAY = [word for gate in Gate for word in ("--anyway", f"{gate}=as it is")]

Rows = list[list[Any]]
Sheets = dict[str, Rows]
Type = Callable[..., Said]

PLANT: Sheets = {
    "streams": [
        ["tag", "stream", "from", "to", "kind", "error"],
        ["F-1", "FEED", "env", "MILL", "", "1 % or 5 t"],
        ["P-1", "PRODUCT", "MILL", "SILO", "", "2 t"],
        ["", "TRUCKS", "SILO", "env", "batch", "0.1 t"],
    ],
    "tanks": [["tank", "error", "density"], ["SILO", "3 mm", "1250"]],
    "straps": [["tank", "level", "volume"], ["SILO", "0", "2"], ["SILO", "20000", "4710"]],
    "critical": [["test", "dof", "value"], ["global", "1", "3.84"], ["global", "2", "5.99"]],
}


def month(first: int = 1, last: int = 3, month: str = "04") -> Sheets:
    """Some days of a month: readings, a ticket, and dips of the eve and of the last day."""
    eve, end = {"04": ("2024-03-31", "2024-04-30"), "05": ("2024-04-30", "2024-05-31")}[month]
    levels = {"04": ("8000", "9500"), "05": ("9500", "9000")}[month]
    days = [f"2024-{month}-{day:02}" for day in range(first, last + 1)]
    return {
        "readings": [["day", "F-1", "P-1"], *([day, "1200", "1199.5"] for day in days)],
        "tickets": [
            ["id", "stream", "first", "amount"],
            [f"truck-{month}", "TRUCKS", days[0], "800"],
        ],
        "dips": [["tank", "day", "level"], ["SILO", eve, levels[0]], ["SILO", end, levels[1]]],
    }


def folder(room: Path, sheets: Sheets) -> Path:
    """A workbook as a folder of CSV files."""
    shutil.rmtree(room, ignore_errors=True)
    room.mkdir(parents=True)
    for name, rows in sheets.items():
        out = io.StringIO()
        csv.writer(out, lineterminator="\n").writerows(rows)
        (room / f"{name}.csv").write_text(out.getvalue(), encoding="utf-8")
    return room


def files_of(folder: Path) -> dict[str, str]:
    """The files of a book but for its lock; the journal without its times and digests of lines."""
    found = {}
    for path in sorted(folder.rglob("*")):
        if path.is_file() and path.name != ".lock":
            text = text_of(path)
            if path.name == "journal.csv":
                rows = csv.DictReader(io.StringIO(text))
                text = "\n".join(f"{row | UNLIKE}" for row in rows)
            if path.name == ".checks":
                lines = text.splitlines()
                text = "\n".join(each for each in lines if not each.startswith("journal"))
            found[str(path.relative_to(folder))] = text
    return found


# What two journals of the same actions have otherwise.
UNLIKE = {"when": "", "before": "", "digest": ""}


def journal_of(folder: Path) -> list[list[str]]:
    """The lines of a book's journal: who, action, of, what, why, rows."""
    rows = csv.reader(io.StringIO(text_of(folder / "journal.csv")))
    return [row[3:9] for row in rows]


def typed(*words: object) -> int:
    """Type a command on a book, and return its status; what it says isn't kept."""
    command = next(command for command in desk.COMMANDS if command.word == "book")
    return desk.run_words(
        desk.parser_of(command, "plantbal-desk book"), [str(word) for word in words]
    )


@pytest.fixture(name="book")
def fixture_book(say: Desk, tmp_path: Path) -> Type:
    """Types a command on the book in `mill`, which has a year and April's first days."""

    def typed(*words: object) -> Said:
        return say("book", *words, "--book", tmp_path / "mill", "--who", "anna")

    assert typed("new", "2024", folder(tmp_path / "plant", PLANT)).status == 0
    said = typed("add", folder(tmp_path / "april", month()))
    assert (said.status, said.err) == (0, "")
    return typed


def rows_of(folder: Path, year: str = "2024") -> list[str]:
    return text_of(folder / "mill" / f"{year}.csv").splitlines()


@pytest.fixture(name="two")
def fixture_two(book: Type, tmp_path: Path) -> Type:
    """A book whose first year ends with April."""
    said = book("next", "2024-2")
    assert (said.status, said.err) == (0, "")
    grams = (9500 * 4_708_000_000 // 20_000 + 2_000_000) * 1_250_000 // 10**6
    assert said.out.splitlines() == [
        "2024-2.csv: from 2024-05-01 on; 10 rows of the plant",
        f"SILO: {grams / 10**6:,} t at the end of 2024-04-30 and as the opening",
    ]
    return book
