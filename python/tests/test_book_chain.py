"""The chain of a book's journal: each change by hand is told with its place, and an older copy."""

from __future__ import annotations

import csv
import io
import shutil
import time
import zipfile
from collections.abc import Callable
from pathlib import Path

import pytest
from books import Type, files_of, fixture_book, folder, journal_of, month, rows_of
from conftest import Desk, text_of

from plantbal.audit import linked
from plantbal.audit.linked import bundle_manifest
from plantbal.book.chain import Chain, FileCause, checks_of, checks_text
from plantbal.book.journal import HEAD_TEXT, Act, JournalLine, Kept, chained, read_journal
from plantbal.book.store import Action, Store
from plantbal.causes import CausedFault
from plantbal.faults import InputFault

__all__ = ["fixture_book"]

Edit = Callable[[Path], object]


def put(name: str, old: str, new: str) -> Edit:
    """An edit that puts another text in the place of the last that is there."""

    def edit(mill: Path) -> None:
        path = mill / name
        before, found, after = text_of(path).rpartition(old)
        assert found or not old, (name, old)
        path.write_bytes((before + new + after).encode())

    return edit


def lines(name: str, change: Callable[[list[str]], object]) -> Edit:
    """An edit of the lines of a file."""

    def edit(mill: Path) -> None:
        found = text_of(mill / name).splitlines(keepends=True)
        change(found)
        (mill / name).write_bytes("".join(found).encode())

    return edit


def swap(first: int) -> Callable[[list[str]], None]:
    """A change that swaps a line and the next."""

    def change(found: list[str]) -> None:
        found[first - 1 : first + 1] = reversed(found[first - 1 : first + 1])

    return change


def as_bytes(name: str, change: Callable[[bytes], bytes]) -> Edit:
    """An edit of the bytes of a file."""
    return lambda mill: (mill / name).write_bytes(change((mill / name).read_bytes()))


def lose(name: str) -> Edit:
    """An edit that loses a file."""
    return lambda mill: (mill / name).unlink()


# What is changed by hand in a book, and what is said: the file and its line, and how it is wrong.
EDITS: dict[str, tuple[Edit, str, str]] = {
    "a unit": (put("2024.csv", "unit,MILL", "unit,MILK"), "2024.csv: line 2:", "unit,MILK"),
    "a table": (put("2024.csv", "20000,4710", "20000,4711"), "2024.csv: line 5:", "action 1 (new"),
    "a stream": (put("2024.csv", "MILL,SILO", "SILO,MILL"), "2024.csv: line 7:", "this isn't what"),
    "a limit": (put("2024.csv", "global,2,5990", "global,2,9990"), "2024.csv: line 10:", "9990"),
    "a period": (put("2024.csv", "04-30\nread", "04-29\nread"), "2024.csv: line 11:", "(add april"),
    "a reading": (put("2024.csv", "02,FEED,2024-04-02,12", "02,FEED,2024-04-02,13"), "14:", "1300"),
    "a ticket": (put("2024.csv", "04-01,800000000", "04-01,900000000"), "line 18:", "9000000"),
    "a dip": (put("2024.csv", ",9500,", ",9600,"), "2024.csv: line 20:", "SILO_2024-04-30"),
    "an amendment": (put("2024.csv", "1300000000", "1400000000"), "line 21:", "(amend F-1_2024-04"),
    "a reason": (put("2024.csv", "log book", "log bock"), "2024.csv: line 21:", "action 3 (amend"),
    "a struck fact": (
        put("2024.csv", "strike,P-1_", "strike,F-1_"),
        "line 22:",
        "action 4 (strike",
    ),
    "a row less": (
        lines("2024.csv", lambda rows: rows.pop(12)),
        "2024.csv: line 13:",
        "(add april",
    ),
    "the last row": (
        lines("2024.csv", lambda rows: rows.pop()),
        "line 22:",
        "the last line is gone",
    ),
    "a row more": (
        lines("2024.csv", lambda rows: rows.insert(13, "unit,Y\n")),
        "line 14:",
        "unit,Y",
    ),
    "a row at the end": (
        as_bytes("2024.csv", lambda data: data + b"unit,Z\n"),
        "line 23:",
        "after what action 5",
    ),
    "rows swapped": (lines("2024.csv", swap(12)), "2024.csv: line 12:", "this isn't what action 2"),
    "other line ends": (
        as_bytes("2024.csv", lambda data: data.replace(b"\n", b"\r\n")),
        "2024.csv: line 1:",
        "version,2\\r",
    ),
    "a mark at its begin": (
        as_bytes("2024.csv", lambda data: b"\xef\xbb\xbf" + data),
        "line 1:",
        "\\ufeffversion",
    ),
    "the year is lost": (
        lose("2024.csv"),
        "2024.csv:",
        "it no longer exists; action 5 (report 2024-04;",
    ),
    "the plant": (put("plant.csv", "unit,MILL", "unit,MILK"), "plant.csv: line 2:", "unit,MILK"),
    "a meter": (put("meters.csv", "1 % or 5 t", "9 % or 5 t"), "meters.csv: line 2:", "9 % or"),
    "a report": (
        put("reports/2024-04.csv", "2024-04,second", "2024-04,third"),
        "reports/2024-04.csv: line 1:",
        "report,2024-04,third",
    ),
    "an earlier report": (
        put("reports/earlier/2024-04.1.csv", "first", "other"),
        "2024-04.1.csv: line 1:",
        "other",
    ),
    "a report is lost": (
        lose("reports/2024-04.csv"),
        "2024-04.csv:",
        "it no longer exists; action 5",
    ),
    "who did it": (put("journal.csv", ",anna,amend", ",otto,amend"), "line 4:", "was changed"),
    "when": (put("journal.csv", "Z,", "Y,"), "journal.csv: line 6:", "was changed"),
    "an action": (lines("journal.csv", lambda rows: rows.pop(3)), "line 4:", "doesn't follow"),
    "the first action": (
        lines("journal.csv", lambda rows: rows.pop(1)),
        "line 2:",
        "doesn't begin",
    ),
    "the last action": (
        lines("journal.csv", lambda rows: rows.pop()),
        "journal.csv: line 6:",
        "it is cut here: a line is gone",
    ),
    "actions swapped": (lines("journal.csv", swap(4)), "journal.csv: line 4:", "doesn't follow"),
    "a quote more": (put("journal.csv", ",anna,amend", ',"anna,amend'), "line 4:", "isn't a line"),
    "its heads": (put("journal.csv", "number,when", "when,number"), "line 1:", "the first line"),
    "its last line is cut": (
        as_bytes("journal.csv", lambda data: data[:-9]),
        "journal.csv: line 6:",
        "is cut",
    ),
    "a journal of one letter": (
        as_bytes("journal.csv", lambda data: b"x"),
        "line 1:",
        "isn't the first line of a journal",
    ),
    "an empty journal": (as_bytes("journal.csv", lambda data: b""), "line 1:", "the first line"),
    "a journal of no text": (
        as_bytes("journal.csv", lambda data: b"\xff" + data),
        "journal.csv:",
        "isn't UTF-8 text",
    ),
    "a journal without a line": (
        as_bytes("journal.csv", lambda data: HEAD_TEXT.encode()),
        "line 2:",
        "doesn't begin with",
    ),
    "the journal is lost": (lose("journal.csv"), "mill:", "put back journal.csv, from a backup"),
}


@pytest.fixture(name="mill")
def fixture_mill(book: Type, tmp_path: Path) -> Path:
    """A book with a row of each kind that such a plant has, a report, and one that went out."""
    book("amend", "F-1", "2024-04-02", "1300 t", "--why", "log book")
    book("strike", "P-1", "2024-04-03", "--why", "frozen")
    kept = Store(tmp_path / "mill")
    with kept.opened():
        action = Action(Act.REPORT, "2024-04", who="anna", seen=["2024.csv"])
        action.written = {
            "reports/2024-04.csv": "report,2024-04,second\n",
            "reports/earlier/2024-04.1.csv": "report,2024-04,first\n",
        }
        kept.do(action)
    return tmp_path / "mill"


def test_what_the_journal_says(mill: Path) -> None:
    """Each line has its place, the digest of the line before, and of what its action left."""
    rows = list(csv.DictReader(io.StringIO(text_of(mill / "journal.csv"))))
    assert [row["number"] for row in rows] == ["1", "2", "3", "4", "5"]
    assert [row["before"] for row in rows[1:]] == [row["digest"] for row in rows[:-1]]
    files = [[each.split(" ")[0] for each in row["files"].split("; ")] for row in rows]
    year, reports = "2024.csv", ["reports/2024-04.csv", "reports/earlier/2024-04.1.csv"]
    assert files == [["plant.csv", "meters.csv", year], [year], [year], [year], [*reports, year]]
    assert [row["files"].split("2024.csv ")[1].split(" ")[0] for row in rows] == [
        "10",
        "20",
        "21",
        "22",
        "22",
    ]
    assert len(rows[0]["program"]) == 64 and rows[1]["program"] == ""


def test_each_change_by_hand(mill: Path, say: Desk, tmp_path: Path) -> None:
    """The command that comes next stops, says the place, and changes nothing."""
    copy = tmp_path / "copy" / "mill"
    words = ("--book", copy)
    for name, (edit, place, what) in EDITS.items():
        shutil.rmtree(copy, ignore_errors=True)
        shutil.copytree(mill, copy)
        edit(copy)
        before = files_of(copy) if "journal" not in place else {}
        for command in (("status",), ("strike", "F-1", "2024-04-01", "--why", "x"), ("verify",)):
            said = say("book", *command, *words)
            text = said.out + said.err
            assert said.status == 1 and place in text and what in text, (name, command, text)
            assert "Traceback" not in text and "backup" in text, (name, text)
        assert before == (files_of(copy) if before else {}), name


def test_without_the_digits_of_lines(mill: Path, say: Desk, tmp_path: Path) -> None:
    """Then the action is named whose rows it is in; the digits themselves prove nothing."""
    (mill / ".checks").unlink()
    words = ("--book", mill)
    assert say("book", "status", *words).status == 0
    before = text_of(mill / "2024.csv")
    put("2024.csv", "02,FEED,2024-04-02,12", "02,FEED,2024-04-02,13")(mill)
    said = say("book", "status", *words).err
    assert "2024.csv: it isn't what action 2 (add april; " in said
    assert "in its lines 11 to 20: put the file back" in said
    (mill / ".checks").write_text(checks_text({"2024.csv": checks_of(before.encode())}), "ascii")
    assert "2024.csv: line 14:" in say("book", "status", *words).err
    (mill / ".checks").write_bytes(b"\xff2024.csv zz\n\n 1\n2024.csv 12345678")
    assert "in its lines 11 to 20" in say("book", "status", *words).err
    (mill / "2024.csv").write_text(before, encoding="utf-8")
    (mill / ".checks").write_bytes("2024-ü.csv 12345678\nplant.csv 1234567ü\n".encode())
    assert say("book", "strike", "F-1", "2024-04-01", "--why", "x", *words).status == 0


def test_to_take_a_file_as_it_is(mill: Path, book: Type) -> None:
    """With a reason, which the journal keeps."""
    put("meters.csv", "1 % or 5 t", "2 % or 5 t")(mill)
    lose("reports/earlier/2024-04.1.csv")(mill)
    assert "meters.csv: line 2" in book("amend", "F-1", "2024-04-01", "9 t", "--why", "x").err
    said = book("accept", "2024.csv", "--why", "new meter")
    assert "2024.csv is as the journal says" in said.out
    assert "differs from its journal: these are: " in book("accept", "x.csv", "--why", "y").err
    said = book("accept", "./meters.csv", "--why", "new meter")
    assert said.out.startswith(
        "meters.csv is taken as it is: line 2: this isn't what action 1 (new"
    )
    assert book("accept", "reports/earlier/2024-04.1.csv", "--why", "lost").status == 0
    assert journal_of(mill)[-1][1:3] == ["accept", "reports/earlier/2024-04.1.csv"]
    assert book("status").status == 0
    put("2024.csv", "02,FEED,2024-04-02,12", "02,FEED,2024-04-02,13")(mill)
    assert book("accept", "2024.csv", "--why", "typed into it").status == 0
    assert book("amend", "F-1", "2024-04-01", "9 t", "--why", "x").status == 0
    said = book("verify")
    assert said.status == 0 and "action 8 (accept 2024.csv line 14: this isn't what" in said.out
    assert "a file was taken as it was: typed into it" in said.out
    put("2024.csv", "9000000", "8000000")(mill)
    assert "2024.csv: line 23: this isn't what action 9 (amend" in book("status").err
    put("2024.csv", "8000000", "9000000")(mill)
    lines("journal.csv", lambda rows: rows.pop())(mill)
    assert "journal.csv: line 10: it is cut here" in book("status").err
    assert book("accept", "journal.csv", "--why", "as it is").status == 0
    assert "2024.csv: line 23: there is 1 line after what action 8 (accept" in book("status").err
    assert book("accept", "2024.csv", "--why", "as it is").status == 0
    assert book("status").status == 0


def test_rows_that_no_command_writes(mill: Path, book: Type, say: Desk, tmp_path: Path) -> None:
    """A file that was taken as it is, or a stranger's whose chain fits, is said at its row."""
    saved = tmp_path / "saved"
    mill.rename(saved)
    for old, new, what in (
        ("2024-04-30\n", "1200000000\n", "this period row isn't one that a command writes"),
        ("2024-04-30\n", "2024-04-31\n", "this period row isn't one that a command writes"),
        (",2024-04-01,2024-04-30\n", "\n", "this period row isn't one that a command writes"),
        ("period,2024-04,", "close,2024-04,", "this close row isn't one that a command writes"),
    ):
        shutil.rmtree(mill, ignore_errors=True)
        shutil.copytree(saved, mill)
        put("2024.csv", old, new)(mill)
        assert book("accept", "2024.csv", "--why", "x").status == 0
        for words in (("status",), ("show", "F-1"), ("add", tmp_path / "april")):
            said = book(*words)
            assert said.status == 1 and f"2024.csv: line 11: {what}" in said.err, (new, said.err)
    for year in ("0000", "0001", "9999", "1899"):
        said = say("book", "new", year, tmp_path / "plant", "--book", tmp_path / "other")
        assert (
            said.status == 1 and "isn't a year: write four digits, 1900 to 2199" in said.err
        ), year


def test_an_older_copy(mill: Path, book: Type, tmp_path: Path) -> None:
    """It is detected by a head that was kept elsewhere, and by nothing else."""
    head = book("head").out.strip()
    shutil.copytree(mill, tmp_path / "older")
    assert book("verify", "--head", head).out.endswith(f"5 actions left them\nhead {head}\n")
    book("amend", "F-1", "2024-04-01", "9 t", "--why", "x")
    later = book("head").out.strip()
    assert book("verify", "--head", head, "--head", later).status == 0
    shutil.rmtree(mill)
    (tmp_path / "older").rename(mill)
    assert book("verify").status == 0 and book("verify", "--head", head).status == 0
    said = book("verify", "--head", later)
    assert said.status == 1 and "this book doesn't have the head of action 6" in said.out
    assert "it is an older copy" in said.out
    assert book("verify", "--head", later.split(" ")[1]).status == 1
    assert book("verify", "--head", f"6 {head.split(' ')[1]}").status == 1
    assert "isn't a head of a book" in book("verify", "--head", "xyz").err


# What somebody may put into a book's folder, and whether it may be taken as it is.
PUT = {
    "mapping.toml": ('form = 1\nlocale = ""\nmissing = ["1200"]\n', True),
    "accounts.csv": ("name,kind,product\nFEED,loss,WASTE\n", True),
    "posted/2024-04.1.csv": ("id,period\nx,2024-04\n", False),
    "reports/2024-05.csv": ("report,2024-05,first\n", False),
    "rules.toml": ("approvers = 0\n", False),
}


def test_files_that_no_action_has_written(mill: Path, book: Type, tmp_path: Path) -> None:
    """They aren't used: what reads says so and goes on, what writes stops and says what to do."""
    before = [book(*words).out for words in (("status",), ("show", "F-1"), ("verify",))]
    may = folder(tmp_path / "may", month(4, 5))
    for name, (text, acceptable) in PUT.items():
        (mill / name).parent.mkdir(exist_ok=True)
        (mill / name).write_text(text, encoding="utf-8")
        what = f"{name}: no action of this book has written it, so it isn't used: move it away"
        what += f"; if it is to stay as it is: plantbal-desk book accept {name} " * acceptable
        said = [book(*words) for words in (("status",), ("show", "F-1"), ("verify",))]
        assert [each.status for each in said] == [0, 0, 0], name
        assert [each.out for each in said[:2]] == before[:2], name
        assert all(what in each.err + each.out for each in said), name
        written = [book("add", may), book("report", "2024-04"), book("posted", "2024-04")]
        assert all(each.status == 1 and what in each.err for each in written), name
        if not acceptable:
            assert book("accept", name, "--why", "mine").status == 1, name
        (mill / name).unlink()
    (mill / "2025.csv").write_text("version,2\nunit,MILL\n", encoding="utf-8")  # perhaps a workbook
    assert "2025.csv: no action of this book has written it" in book("verify").out
    assert book("add", may, "--why", "x").status == 0
    assert (
        "2025.csv: no action of this book has written it"
        in book("next", "2025", "--first", "2024-05-01").err
    )


def test_a_mapping_that_was_put_in_is_taken_for_good(
    mill: Path, book: Type, tmp_path: Path
) -> None:
    """It is in the journal then, what it passes over is said each time, and it is tested."""
    (mill / "mapping.toml").write_text(PUT["mapping.toml"][0], encoding="utf-8")
    assert book("accept", "mapping.toml", "--why", "ours").status == 0
    assert journal_of(mill)[-1][1:3] == ["accept", "mapping.toml"]
    for _ in range(2):
        said = book("add", folder(tmp_path / "may", month(4, 5)), "--why", "x")
        what = "cells with '1200' are taken for missing figures, as --missing has it"
        assert said.status == 0 and f"readings.csv: line 2, column 2: {what}" in said.out
    put("mapping.toml", "1200", "1300")(mill)
    assert "mapping.toml: it isn't what action" in book("status").err
    kept = Store(mill)
    with pytest.raises(CausedFault) as fault, kept.opened(tested=False):
        (mill / "accounts.csv").write_text("mine\n", encoding="utf-8")
        kept.do(Action(Act.REPORT, "2024-05", written={"accounts.csv": "x\n"}))
    assert fault.value.case.cause is FileCause.NOT_WRITTEN_HERE


def test_a_file_that_is_changed_meanwhile_is_not_used(mill: Path) -> None:
    """What a command reads is what it has tested, and what it writes."""
    kept = Store(mill)
    with kept.opened():
        before = kept.text("2024.csv")
        kept.do(Action(Act.REPORT, "2024-04", written={"reports/2024-04.csv": "x\n"}))
        assert (kept.text("2024.csv"), kept.text("reports/2024-04.csv")) == (before, "x\n")
        put("2024.csv", "02,FEED,2024-04-02,12", "02,FEED,2024-04-02,13")(mill)
        with pytest.raises(CausedFault) as read:
            kept.text("2024.csv")
        with pytest.raises(CausedFault) as done:
            kept.do(Action(Act.REPORT, "2024-04", seen=["2024.csv"]))
    causes = {read.value.case.cause, done.value.case.cause}
    assert causes == {FileCause.CHANGED_MEANWHILE}


def test_what_stood_there(mill: Path, book: Type) -> None:
    """It is said if a bundle has it, or a report of the row's edit."""
    reports = "reports/2024-04.csv"
    with zipfile.ZipFile(mill / "mill_2024-04.zip", "w") as bundle:
        bundle.writestr("session.csv", text_of(mill / "2024.csv") + "report,2024-04\n")
        bundle.writestr("output.csv", text_of(mill / reports))
    (mill / "other.zip").write_bytes(b"no zip")
    put("2024.csv", "02,FEED,2024-04-02,12", "02,FEED,2024-04-02,13")(mill)
    said = book("status").err
    assert "2024-04-02,1300000000,144000000000000; there stood reading,F-1_2024-04-02,FEED," in said
    assert "2024-04-02,1200000000,144000000000000 (by mill_2024-04.zip)" in said
    put("2024.csv", "02,FEED,2024-04-02,13", "02,FEED,2024-04-02,12")(mill)
    put(reports, "second", "third")(mill)
    assert "there stood report,2024-04,second (by mill_2024-04.zip)" in book("status").err
    put(reports, "third", "second")(mill)
    (mill / "mill_2024-04.zip").unlink()
    kept = Store(mill)
    with kept.opened():
        row = "report,2024-04,third\nedit,21,amend,F-1_2024-04-02,log book\n"
        kept.do(Action(Act.REPORT, "2024-04", written={reports: row}))
    put("2024.csv", "log book", "log bock")(mill)
    what = f"there stood what {reports} calls edit,21,amend,F-1_2024-04-02,log book"
    assert what in book("status").err


# ---- books of older versions

OLD = """when,who,what,why,rows
2024-05-01T08:00:00Z,anna,new 2024 plant,,2024: 1 to 10
2024-05-01T08:01:00Z,anna,add april,,2024: 11 to 20
2024-05-02T08:01:00Z,anna,"amend F-1_2024-04-02 1,300 t",log book,2024: 21
2024-05-02T08:02:00Z,anna,strike P-1_2024-04-03,"two
lines",2024: 22
2024-05-02T08:03:00Z,anna,report 2024-04,,2024: up to 22
2024-05-02T08:04:00Z,anna,window 2024-04 2024-05,,2024: up to 21
"""


def test_an_old_book_begins_its_chain(mill: Path, book: Type, tmp_path: Path) -> None:
    """It is read as it is; the first command that writes binds all that is there."""
    (mill / "journal.csv").write_text(OLD, encoding="utf-8")
    (mill / ".checks").unlink()
    before = files_of(mill)
    assert "2024-04: open, reported" in book("status").out
    assert "of an older version, without digests" in book("head").err
    assert text_of(mill / "journal.csv") == OLD and files_of(mill) == before
    assert book("add", folder(tmp_path / "april", month())).status == 0
    assert text_of(mill / "journal.csv") == OLD, "nothing was booked"
    assert book("strike", "F-1", "2024-04-03", "--why", "frozen").status == 0
    assert [row[1:3] for row in journal_of(mill)[1:]] == [
        ["new", "2024"],
        ["add", ""],
        ["amend", "F-1_2024-04-02"],
        ["strike", "P-1_2024-04-03"],
        ["report", "2024-04"],
        ["window", "2024-04 2024-05"],
        ["begin", ""],
        ["strike", "F-1_2024-04-03"],
    ]
    assert [row[3] for row in journal_of(mill)[1:5]] == ["plant", "april", "1,300 t", ""]
    said = book("verify")
    assert said.status == 0 and "what was changed before it can't be known" in said.out
    assert "2024-04: open, changed since its report" in book("status").out
    put("2024.csv", "02,FEED,2024-04-02,12", "02,FEED,2024-04-02,13")(mill)
    assert "2024.csv: line 14: this isn't what action 7 (begin" in book("status").err


def test_old_journals_that_were_spoilt(mill: Path, book: Type) -> None:
    for text, said in (
        (OLD[:-7], "its last line is cut"),
        (OLD + "2024,anna,report 2024-04\n", "line 8: this isn't a line of a journal"),
        (OLD.replace("anna,strike", "anna,struck"), "line 5: this isn't a line of a journal"),
        (OLD.partition("\n")[0] + "\n", "doesn't begin with the action that made the book"),
    ):
        (mill / "journal.csv").write_text(text, encoding="utf-8")
        assert said in book("status").err, said


# ---- lines


def test_lines_there_and_back() -> None:
    """Whatever stands in their cells; a line of one letter more is none."""
    texts = ["", "a", 'quote " and, comma', "'; drop", "Zürich", "=1+1", "\\n"]
    made = chained(
        JournalLine(0, "2024-05-01T08:00:00Z", text, text, act, of, text, text, text, "", files)
        for text, act in zip(texts, [Act.NEW, *Act])
        for of in ("2024" if act in (Act.NEW, Act.NEXT) else text,)
        for files in ({"2024.csv": Kept.of(b"a\n"), "plant.csv": Kept.of(None)},)
    )
    whole = HEAD_TEXT + "".join(line.text for line in made)
    assert read_journal("j", whole) == (made, False)
    for at in range(0, len(whole), 7):
        for other in (whole[:at] + whole[at + 1 :], whole[:at] + "~" + whole[at + 1 :]):
            with pytest.raises(InputFault):
                read_journal("j", other)


@pytest.mark.parametrize("year", ["", "24", "2024/x", "2024" + "a" * 29, "[" * 5000])
def test_a_year_of_another_form(year: str) -> None:
    """Its name is that of a file, so a stranger's journal can't choose it freely."""
    line = JournalLine(0, "2024-05-01T08:00:00Z", "", "", Act.NEW, year)
    whole = HEAD_TEXT + "".join(each.text for each in chained([line]))
    with pytest.raises(InputFault, match="j: line 2: "):
        read_journal("j", whole)


def test_how_long_a_test_takes(tmp_path: Path) -> None:
    """A year of 200,000 facts is tested in some tenths of a second."""
    row = b"reading,FI-302_2024-04-18,TAILS,2024-04-18,12188000000,33423360000000000\n"
    data = row * 200_000
    last = chained([JournalLine(0, "", "", "", Act.NEW, files={"2024.csv": Kept.of(data)})])
    chain = Chain(last, lambda name: data, str, tmp_path)
    begin = time.process_time()
    assert list(chain.differences()) == []
    assert time.process_time() - begin < 0.5


def test_rows_stay(mill: Path, tmp_path: Path) -> None:
    """The fixture's rows are those that the table of edits means."""
    assert [row.split(",")[0] for row in rows_of(tmp_path)] == [
        *["version", "unit", "tank", "strap", "strap", "stream", "stream", "stream"],
        *["critical", "critical"],
        "period",
        *["reading"] * 6,
        "transfer",
        *["dip"] * 2,
        "amend",
        "strike",
    ]


# ---- what names a head


def test_bundles_are_a_chain(mill: Path, book: Type, say: Desk, tmp_path: Path) -> None:
    """Each names the head of the book and the bundle before it; an older copy is told by them."""
    session = tmp_path / "plant.csv"
    time_ = ("--time", "2024-05-02T06:00:00Z", "--plant", "mill")
    bundles: list[Path] = []
    for number in range(3):
        shutil.rmtree(tmp_path / "older", ignore_errors=True)
        shutil.copytree(mill, tmp_path / "older")
        book("amend", "F-1", "2024-04-01", f"{number + 5} t", "--why", "x")
        bundles.append(tmp_path / f"{number}.zip")
        before = ("--before", bundles[-2]) if number else ()
        out = ("--out", bundles[-1])
        session.write_text(text_of(mill / "2024.csv") + "report,2024-04\n", encoding="utf-8")
        assert say("archive", session, *out, "--book", mill, *before, *time_).status in (0, 1)
    assert book("verify", *bundles).status == 0
    heads = [
        (bundle_manifest(str(path)).book, bundle_manifest(str(path)).before) for path in bundles
    ]
    assert [head["number"] for head, _ in heads] == ["6", "7", "8"] and heads[0][1] == {}
    assert [before["head"] for _, before in heads[1:]] == [head["head"] for head, _ in heads[:-1]]
    assert say("audit", "--no-program", bundles[1]).status == 0
    said = book("verify", bundles[0], bundles[2])
    assert "2.zip: it doesn't name" in said.out and said.status == 1
    said = say("book", "verify", *bundles, "--book", tmp_path / "older")
    assert said.status == 1
    assert f"{bundles[2]}: this book doesn't have the head of action 8" in said.out
    for rows in ("amend,F-1_2024-04-01,9000000,1,typed\n", None):  # more rows, and others
        text = text_of(mill / "2024.csv")
        text = text.replace(",8000,", ",8001,") if rows is None else text + rows
        session.write_text(text + "report,2024-04\n", encoding="utf-8")
        bundles.append(tmp_path / f"{len(bundles)}.zip")
        out = ("--out", bundles[-1], "--before", bundles[0])
        said = say("archive", session, *out, "--book", mill, *time_)
        assert said.status == 1 and "this session isn't one of " in said.err, said
        with pytest.MonkeyPatch.context() as patch:
            patch.setattr(linked, "rows_in", lambda *_: "2024.csv")
            assert say("archive", session, *out, "--book", mill, *time_).status in (0, 1)
    book("amend", "F-1", "2024-04-01", "9 t", "--why", "x")
    for number, words, kind, what in (
        (0, (), "note", "it names the head of a book of action 6 "),
        (1, (), "note", "it names the bundle before it "),
        (
            1,
            ("--before", bundles[0]),
            "good",
            f"{bundles[0]} is the bundle before it that it names",
        ),
        (1, ("--before", bundles[2]), "wrong", f"and {bundles[2]} is "),
        (0, ("--before", bundles[1]), "wrong", "it names no bundle before it"),
        (0, ("--book", mill), "good", "its session has the rows of 2024.csv as they were by then"),
        (3, ("--book", mill), "wrong", "its session doesn't have the rows, and no others, that a"),
        (4, ("--book", mill), "wrong", "its session doesn't have the rows, and no others, that a"),
        (3, ("--book", tmp_path / "older"), "wrong", "doesn't have the head of action 8"),
    ):
        said = say("audit", "--no-program", bundles[number], *words)
        found = [line for line in said.out.splitlines() if line.startswith(f"{kind}: ")]
        assert any(what in line for line in found), (number, words, said.out)
        assert said.status == (1 if kind == "wrong" else 0), (number, words, said.out)
    put("plant.csv", "unit,MILL", "unit,MILK")(mill)
    said = say("archive", session, "--out", tmp_path / "no.zip", "--book", mill)
    assert (
        said.status == 1 and "plant.csv: line 2" in said.err and not (tmp_path / "no.zip").exists()
    )


def test_the_statement_names_the_head(book: Type, say: Desk, tmp_path: Path) -> None:
    mill = tmp_path / "mill"
    page, session = tmp_path / "page.html", tmp_path / "s.csv"
    head = book("head").out.strip()
    session.write_text(text_of(mill / "2024.csv") + "unit,X\nreport,2024-04\n", encoding="utf-8")
    said = say("page", session, "--run", "--book", mill, "--out", page)
    assert "s.csv isn't of " in said.err and head not in text_of(page)
    session.write_text(text_of(mill / "2024.csv") + "report,2024-04\n", encoding="utf-8")
    assert say("page", session, "--run", "--book", mill, "--out", page).status in (0, 1)
    assert "Head of the book" in text_of(page) and head in text_of(page)
    assert book("verify", "--head", head).status == 0
