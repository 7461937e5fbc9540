"""The statuses of plantbal-desk: good, look, usage and failed, the same in every subcommand."""

from __future__ import annotations

import os
import subprocess
import sys
from pathlib import Path

import pytest
from conftest import TOP, Desk, example

from plantbal import desk, faults
from plantbal.commands.book import command as book_command
from plantbal.faults import Fault, Faults, ToolMissing
from plantbal.statuses import ExitStatus

GOOD, LOOK, USAGE, FAILED = 0, 1, 2, 3
SESSION, REPORT = example("refinery_day.csv"), example("refinery_day.out.csv")
# The words of each subcommand that read a file, FILE being that file; the others read none.
READING: dict[str, tuple[str, ...]] = {
    "run": ("FILE",),
    "lint": ("FILE",),
    "explain": ("FILE",),
    "check": ("FILE",),
    "archive": ("FILE",),
    "audit": ("FILE", "FILE"),
    "report": ("FILE",),
    "solve": ("FILE",),
    "convert": ("FILE",),
    "book": ("new", "2024", "FILE"),
    "from-spreadsheet": ("FILE", "FILE"),
    "tables": ("flows", "FILE"),
    "uncertainty": ("FILE",),
    "advise": ("FILE",),
    "balance": ("FILE", "may1"),
    "recovery": ("FILE",),
    "draw": ("FILE",),
    "chart": ("FILE",),
    "page": ("FILE",),
    "fleet": ("--out", "OUT", "FILE"),
    "tell": ("FILE",),
    "across": ("--out", "OUT", "FILE"),
    "map": ("FILE",),
    "pull": ("FILE",),
    "push": ("FILE",),
    "from-scipy": ("FILE",),
}
# `serve` opens its books when it is called from a browser: it has tests of its own.
READS_NOTHING = ("critical", "schema", "serve", "template")
BOOK: dict[str, tuple[str, ...]] = {
    "new": ("2024", "none.xlsx"),
    "add": ("none.xlsx",),
    "show": ("A",),
    "amend": ("A", "2024-04-01", "1 t", "--why", "x"),
    "strike": ("A", "2024-04-01", "--why", "x"),
    "undo": ("A", "2024-04-01", "--why", "x"),
    "estimate": ("2024-04",),
    "report": (),
    "window": ("2024-04", "2024-05"),
    "close": ("2024-04",),
    "submit": ("2024-04",),
    "submitted": (),
    "approve": ("--head", "1 " + "0" * 64),
    "reject": ("--head", "1 " + "0" * 64, "--why", "x"),
    "rules": (),
    "signed": (),
    "quiet": ("unused-dip", "A", "--why", "x"),
    "difference": ("2024-04",),
    "posted": ("2024-04",),
    "account": ("2024-04",),
    "status": (),
    "next": ("2025",),
    "retire": ("A", "2024-04-01"),
    "verify": (),
    "head": (),
    "accept": ("meters.csv", "--why", "x"),
}


def test_every_subcommand_is_here() -> None:
    """A new one is tried with the words that it has at least."""
    assert {each.word for each in desk.COMMANDS} == {*READING, *READS_NOTHING}
    assert {each.word for each in book_command.COMMANDS} == set(BOOK)


@pytest.mark.parametrize("word", [*READING, *READS_NOTHING])
def test_words_of_no_command(say: Desk, word: str) -> None:
    told = say(word, "--no-such-word")
    assert told.status == USAGE, told
    assert told.err.startswith("usage: "), told.err


@pytest.mark.parametrize("word", READING)
def test_a_file_that_is_not_there(say: Desk, word: str, tmp_path: Path) -> None:
    """It is for who keeps the machine: nothing was looked at."""
    given = {"FILE": str(tmp_path / "none"), "OUT": str(tmp_path / "out")}
    told = say(word, *(given.get(each, each) for each in READING[word]))
    assert (told.status, "none" in told.err, told.out) == (FAILED, True, ""), told


@pytest.mark.parametrize("word", READING)
def test_a_program_that_is_missing(
    say: Desk, word: str, tmp_path: Path, monkeypatch: pytest.MonkeyPatch
) -> None:
    """Either a command doesn't run the program, or it fails: nobody has to look at the figures."""
    monkeypatch.setenv("PLANTBAL", str(tmp_path / "gone"))
    (tmp_path / "folder").mkdir()
    (tmp_path / "folder" / "a.csv").write_bytes(SESSION.read_bytes())
    given = {"FILE": str(SESSION), "OUT": str(tmp_path / "out")}
    if word == "fleet":
        given["FILE"] = str(tmp_path / "folder")
    told = say(word, *(given.get(each, each) for each in READING[word]))
    if "gone" in told.err:
        assert told.status == FAILED, told


@pytest.mark.parametrize("word", BOOK)
def test_no_book(say: Desk, word: str, tmp_path: Path) -> None:
    told = say("book", word, *BOOK[word], "--book", tmp_path / "none")
    assert (told.status, told.out) == (FAILED, ""), told
    assert say("book", word, "--no-such-word").status == USAGE


def test_good_and_look(say: Desk, tmp_path: Path) -> None:
    """The same file, as it is and with a mistake in it."""
    bad, report = tmp_path / "bad.csv", tmp_path / "report.csv"
    bad.write_text(SESSION.read_text() + "reading,x1,NOSUCH,2024-05-01,1,1\n")
    report.write_text(REPORT.read_text().replace(",converged,", ",unconverged,", 1))
    folders = [tmp_path / "good", tmp_path / "look"]
    for folder, file in zip(folders, (SESSION, bad)):
        folder.mkdir()
        (folder / "plant.csv").write_bytes(file.read_bytes())
    bundles = [tmp_path / "good.zip", tmp_path / "look.zip"]
    out = ("--out", tmp_path / "out")
    table = (
        (("run", SESSION), GOOD),
        (("run", bad), LOOK),
        (("explain", SESSION), GOOD),
        (("explain", bad), LOOK),
        (("lint", bad), LOOK),
        (("check", REPORT), GOOD),
        (("check", report), LOOK),
        (("archive", SESSION, "--out", bundles[0]), GOOD),
        (("archive", bad, "--out", bundles[1]), LOOK),
        (("audit", bundles[0]), GOOD),
        (("audit", REPORT, bad), LOOK),
        (("page", SESSION, "--run", *out), GOOD),
        (("page", bad, "--run", *out), LOOK),
        (("fleet", "--out", tmp_path / "nights", folders[0]), GOOD),
        (("fleet", "--out", tmp_path / "nights", folders[1], "--again"), LOOK),
        (("convert", SESSION), LOOK),  # it is no workbook
        (("report", SESSION), LOOK),  # it is no report
    )
    for words, status in table:
        told = say(*words)
        assert told.status == status, (words, told)


def test_words_that_do_not_go_together(say: Desk, tmp_path: Path) -> None:
    for words in (
        ("run", SESSION, "--out", tmp_path / "x.pdf"),
        ("archive", SESSION, "--time", "yesterday"),
        ("page", SESSION, "--eliminate", "2"),
        ("draw", REPORT, "--component", "cu", "--window"),
        ("fleet", "--out", tmp_path, tmp_path, "--engine", "parallel", "--send"),
        ("fleet", "--out", tmp_path, tmp_path, "--scheduler", "tcp://127.0.0.1:1"),
    ):
        told = say(*words)
        assert told.status == USAGE and told.err, (words, told)


def test_no_room(say: Desk, tmp_path: Path) -> None:
    """A disk that is full isn't something that an accountant looks at."""
    full = open("/dev/full", "wb")
    for words in (("run", SESSION), ("report", REPORT), ("schema",)):
        done = subprocess.run(
            [sys.executable, "-m", "plantbal", *map(str, words)],
            stdout=full,
            stderr=subprocess.PIPE,
            env={**os.environ, "PYTHONPATH": str(TOP / "python")},
            check=False,
        )
        assert done.returncode == FAILED and b"No space left" in done.stderr, (words, done)


def test_a_mistake_of_our_own(monkeypatch: pytest.MonkeyPatch) -> None:
    """A traceback ends with FAILED: nothing is known of the figures."""

    def wrong(_: object) -> int:
        raise RuntimeError("ours")

    monkeypatch.setattr("plantbal.commands.running.SCHEMA.run", wrong)
    monkeypatch.setattr(sys, "argv", ["plantbal-desk", "schema"])
    with pytest.raises(SystemExit) as ended:
        desk.main()
    assert ended.value.code == FAILED


def test_faults_have_a_status() -> None:
    """That of several faults is theirs if they have the same one; else somebody has to look."""
    look, failed = Fault("x"), ToolMissing("x", "y")
    assert [Faults(some, (), "z").ends for some in ([look], [failed], [look, failed])] == [1, 3, 1]
    kinds = [each for each in vars(faults).values() if isinstance(each, type)]
    for kind in kinds:
        if issubclass(kind, Fault):
            assert isinstance(kind.ends, ExitStatus), kind
