"""What commands say as JSON: the same as in lines, for programs."""

from __future__ import annotations

import datetime
import json
import os
import re
import shutil
from dataclasses import dataclass
from decimal import Decimal
from enum import Enum
from fractions import Fraction
from pathlib import Path
from typing import Any

import pytest
from books import ANYWAY, PLANT, Type, fixture_book, folder, month
from conftest import Desk, example

from plantbal.commands.book.command import COMMANDS as INNER
from plantbal.commands.data import data_of

__all__ = ["fixture_book"]


class Colour(Enum):
    """A word of an enum."""

    DARK_RED = 1


@dataclass
class Inner:
    """A result within another one."""

    name: str
    values: tuple[object, ...]


def test_values() -> None:
    """Whole numbers beyond what a float has are texts, and nothing is rounded."""
    for value, shown in (
        (2**53 - 1, 2**53 - 1),
        (2**53, "9007199254740992"),
        (-(2**60), "-1152921504606846976"),
        (Decimal("0.10"), "0.10"),
        (Fraction(1, 3), "1/3"),
        (float("nan"), None),
        (Colour.DARK_RED, "dark_red"),
        (datetime.date(2024, 4, 30), "2024-04-30"),
        (Path("a/b"), "a/b"),
        (Inner("x", (1, None, True)), {"name": "x", "values": [1, None, True]}),
        ({Colour.DARK_RED: (1,)}, {"dark_red": [1]}),
    ):
        assert data_of(value) == shown, value
    with pytest.raises(TypeError, match="object isn't written as JSON"):
        data_of(object())


SHAPE = ["command", "status", "found", "said", "fault"]


def read(said: Any) -> Any:
    """What a command found; its object has the shape of all, and the status that it ended with."""
    whole = json.loads(said.out)
    assert list(whole) == SHAPE and whole["status"] == said.status, whole
    assert (whole["fault"] is None) or said.status in (1, 2, 3)
    return whole["found"]


def test_check(say: Desk) -> None:
    """The file of AUDIT: one block is good, two aren't, and then a row can't be read."""
    found = say("check", "--json", example("handed_in.csv"))
    rows = read(found)
    assert (found.status, [row["verdict"] for row in rows]) == (
        1,
        ["no", "yes", "no", "unreadable"],
    )
    assert (rows[0]["subject"], rows[0]["name"], str(rows[0]["stated"])) == ("d1", "A", "100999998")
    assert say("check", "--json", example("refinery_day.out.csv")).status == 0


def test_audit(say: Desk, tmp_path: Path) -> None:
    bundle = tmp_path / "b.zip"
    say("archive", example("refinery_day.csv"), "--out", bundle)
    found = read(say("audit", "--json", bundle))
    lines = say("audit", bundle).out.splitlines()[:-1]
    assert [f"{each['kind']}: {each['text']}" for each in found["said"]] == lines
    assert (found["holds"], found["wrong"], len(found["sha256"])) == (True, 0, 64)


def test_books(book: Type, tmp_path: Path) -> None:
    status = read(book("status", "--json"))
    (year,) = status["years"]
    assert (year["name"], year["facts"]) == ("2024", 9)
    assert [(p["name"], p["closed"], p["report"]) for p in year["periods"]] == [
        ("2024-04", False, "missing")
    ]
    verified = read(book("verify", "--json"))
    assert verified["ok"] and verified["head"]["number"] == 2
    assert read(book("head", "--json")) == verified["head"]
    shown = read(book("show", "--json", "F-1"))["shown"]
    assert len(shown) == 3 and shown[0]["fact"]["values"] == [1_200_000_000]
    found = book("report", "--json")
    (report,) = read(found)
    assert (report["period"], report["ok"], found.status) == (
        "2024-04",
        found.status == 0,
        found.status,
    )
    year_file = tmp_path / "mill" / "2024.csv"
    year_file.write_text(year_file.read_text().replace("1200000000", "1300000000", 1))
    found = book("verify", "--json")
    assert found.status == 1 and not read(found)["ok"] and "2024.csv" in read(found)["wrong"][0]


# Commands on the book of the fixture, in an order in which all can be done, and an item of what each
# finds. {head} is the head of what waits, {april} a workbook, {new} a folder without a book.
COMMANDS: list[tuple[str, str]] = [
    ("status", "years"),
    ("show F-1", "shown"),
    ("add {april}", "years"),
    ("amend F-1 2024-04-01 1210t --why typed", "new"),
    ("amend F-1 2024-04-01 1210t --why typed", "is_booked"),
    ("strike F-1 2024-04-02 --why twice", "old"),
    ("undo F-1 2024-04-01 --why right", "new"),
    ("estimate 2024-04 F-1", "proposals"),
    ("quiet missing-reading FEED --why stands", "rule"),
    ("quiet", ""),
    ("window 2024-04 2024-05", ""),
    ("report 2024-04", ""),
    ("close 2024-04", ""),
    ("close 2024-04 {anyway}", "reasons"),
    ("account 2024-04", ""),
    ("posted 2024-04", ""),
    ("difference 2024-04", ""),
    ("verify", "ok"),
    ("head", "number"),
    ("accept meters.csv --why right", "file"),
    ("rules {rules}", "number"),
    ("rules", "people"),
    ("submitted", ""),
    ("submit 2024-04", ""),
    ("approve --head 00", ""),
    ("reject --head 00 --why no", ""),
    ("signed", ""),
    ("next 2024-2", "first"),
    ("retire F-1 2024-05-03", ""),
    ("new 2024 {plant} --book {new}", "classes"),
    ("show NOTHING", ""),
]
RULES = f"""
[wants]
close = true
[people.anna]
users = [{os.getuid()}]
may = ["submit"]
[people.paul]
users = [99999]
may = ["approve"]
"""
UNLIKE = re.compile(r"[0-9a-f]{64}|20[0-9]{2}-[0-9]{2}-[0-9]{2}T[0-9:]{8}Z")


def test_each_command_on_a_book(book: Type, tmp_path: Path, say: Desk) -> None:
    """With the word a command does the same, and has the lines that it has without it."""
    (tmp_path / "rules.toml").write_text(RULES)
    places = {
        "april": folder(tmp_path / "april", month()),
        "plant": folder(tmp_path / "plant", PLANT),
        "rules": tmp_path / "rules.toml",
        "new": "NEW",
        "anyway": "{anyway}",
    }
    shutil.copytree(tmp_path / "mill", tmp_path / "plain")
    for command, item in COMMANDS:
        words = [word.format(**places) for word in command.split()]
        words = [each for word in words for each in (ANYWAY if word == "{anyway}" else [word])]
        found = []
        for name, more in (("plain", []), ("mill", ["--json"])):
            typed = [word.replace("NEW", str(tmp_path / f"new-{name}")) for word in words]
            where = [] if "--book" in typed else ["--book", tmp_path / name]
            found.append(say("book", *typed, *where, "--who", "anna", *more))
        plain, whole = found[0], json.loads(found[1].out)
        assert (list(whole), whole["command"]) == (SHAPE, f"book {words[0]}"), command
        assert whole["status"] == found[1].status == plain.status, (command, plain, whole)
        lines = [
            UNLIKE.sub("..", line).replace("/plain", "/mill") for line in plain.out.splitlines()
        ]
        assert [UNLIKE.sub("..", line) for line in whole["said"]] == lines, command
        assert (whole["fault"] is not None) == (plain.err != ""), (command, plain.err)
        assert not item or item in whole["found"], (command, whole["found"])
    words_of_books = {inner.word for inner in INNER}
    assert {command.split()[0] for command, _ in COMMANDS} == words_of_books


def test_a_fault(say: Desk, tmp_path: Path) -> None:
    """What stops a command is in the object too; words that are none have no object."""
    found = say("check", "--json", tmp_path / "nosuch.csv")
    whole = json.loads(found.out)
    assert (found.status, whole["status"], whole["found"]) == (3, 3, None)
    assert whole["fault"]["fault"] == "FileFault" and "nosuch.csv" in found.err
    found = say("check", "--json", "--nosuch")
    assert (found.status, found.out) == (2, "")


def test_control_characters(say: Desk, tmp_path: Path) -> None:
    """A stranger's text is data, and no command for a terminal."""
    path = tmp_path / "a\u202eb\x9b.csv"
    path.write_text("x\n")
    found = say("check", "--json", path)
    assert "\\u202e" in found.out and "\u202e" not in found.out and "\x9b" not in found.out
    assert "a\u202eb\x9b" in json.loads(found.out)["fault"]["place"]["file"]
