"""A book whose commands are killed, come at the same time, or meet another program."""

from __future__ import annotations

import os
import shutil
import signal
import subprocess
import sys
from pathlib import Path
from typing import Any

import pytest
from books import ANYWAY, PLANT, files_of, folder, journal_of, month, typed
from conftest import TOP, Desk

from plantbal.book.lock import locked
from plantbal.book.store import Act, Action, Store
from plantbal.faults import Fault


def killed_at(number: int, folder: Path, words: list[str]) -> bool:
    """Type a command in a child that kills itself before its Nth step on the book's files.

    Returns
    -------
    bool
        Whether it was killed; else it came to its end.
    """
    child = os.fork()
    if child:
        _, status = os.waitpid(child, 0)
        return os.WIFSIGNALED(status)
    steps = 0

    def step(event: str, arguments: tuple[Any, ...]) -> None:
        nonlocal steps
        reads = event == "open" and arguments[1] in ("r", "rb")
        if event in ("open", "os.rename", "os.remove", "os.mkdir", "os.chmod") and not reads:
            if str(arguments[0]).startswith(str(folder)):
                steps += 1
                if steps == number:
                    os.kill(os.getpid(), signal.SIGKILL)

    sys.addaudithook(step)
    try:
        os.dup2(os.open(os.devnull, os.O_WRONLY), 1)
        typed(*words)
    finally:
        os._exit(0)


@pytest.fixture(name="moments")
def fixture_moments(tmp_path: Path) -> dict[str, list[str]]:
    """Commands that are killed: each follows the one before it."""
    changed = month(last=30)
    changed["readings"][2][1] = ""
    changed["readings"][3][1] = "1210"
    for name, sheets in {"plant": PLANT, "april": month(last=30), "corrected": changed}.items():
        folder(tmp_path / name, sheets)
    why = ["--why", "a look at the log"]
    return {
        "new": ["new", "2024", str(tmp_path / "plant")],
        "add": ["add", str(tmp_path / "april")],
        "amend": ["amend", "truck-04", "32000 t", *why, "--error", "500 t"],
        "add again": ["add", str(tmp_path / "corrected"), "--strike", *why],
        "strike": ["strike", "P-1", "2024-04-03", *why],
        "report": ["report", "--no-tests"],
        "close": ["close", "2024-04", *ANYWAY],
        "next": ["next", "2024-2"],
        "in both": ["amend", "SILO", "2024-04-30", "9400", *why],
    }


def test_killed_at_any_moment(moments: dict[str, list[str]], tmp_path: Path, program: Path) -> None:
    """It is as before or as after, and typing the command again gives the same end."""
    mill, whole, saved = tmp_path / "mill", tmp_path / "whole", tmp_path / "saved"
    mill.mkdir()
    for name, command in moments.items():
        words = [*command, "--book", str(mill), "--who", "anna"]
        before = files_of(mill)
        shutil.copytree(mill, saved)
        assert typed(*words) == 0
        after = files_of(mill)
        assert after != before
        shutil.copytree(mill, whole)
        for number in range(1, 200):
            shutil.rmtree(mill)
            shutil.copytree(saved, mill)
            if not killed_at(number, mill, words):
                break
            with Store(mill).opened(new=True):
                found = files_of(mill)
            assert found in (before, after), (name, number)
            typed(*words)
            assert files_of(mill) == after, (name, number)
        assert number > 8, name
        shutil.rmtree(mill)
        shutil.rmtree(saved)
        whole.rename(mill)


def test_killed_in_the_middle_of_its_time(moments: dict[str, list[str]], tmp_path: Path) -> None:
    mill = tmp_path / "mill"
    typed(*moments["new"], "--book", mill)
    before = files_of(mill)
    words = ["book", *moments["add"], "--book", str(mill), "--who", "anna"]
    command = [sys.executable, "-m", "plantbal", *words]
    surroundings = os.environ | {"PYTHONPATH": str(TOP / "python")}
    found = []
    for wait in (0.1, 0.2, 0.3, 0.4, 0.5):
        process = subprocess.Popen(command, env=surroundings, stdout=subprocess.DEVNULL)
        try:
            process.wait(wait)
        except subprocess.TimeoutExpired:
            process.kill()
            process.wait()
        with Store(mill).opened():
            found.append(files_of(mill))
    typed(*words[1:])
    after = files_of(mill)
    assert before != after and all(files in (before, after) for files in found)
    typed(*words[1:])
    assert files_of(mill) == after


def test_many_at_the_same_time(moments: dict[str, list[str]], tmp_path: Path) -> None:
    mill = tmp_path / "mill"
    typed(*moments["new"], "--book", mill)
    words = ["book", *moments["add"], "--book", str(mill), "--who", "anna"]
    command = [sys.executable, "-m", "plantbal", *words]
    surroundings = os.environ | {"PYTHONPATH": str(TOP / "python")}
    ran = [
        subprocess.Popen(command, env=surroundings, stdout=subprocess.PIPE, text=True)
        for _ in range(4)
    ]
    said = sorted(process.communicate()[0] for process in ran)
    assert [text.splitlines()[0] for text in said] == [
        "2024.csv: new: 1 period, 60 readings, 1 ticket, 2 dips",
        *["2024.csv: nothing new"] * 3,
    ]
    assert len(journal_of(mill)) == 3


def test_a_book_that_is_locked(moments: dict[str, list[str]], tmp_path: Path) -> None:
    mill = tmp_path / "mill"
    typed(*moments["new"], "--book", mill)
    with locked(mill / ".lock", 1), pytest.raises(Fault, match="another command is at work"):
        with Store(mill, seconds=0.2).opened():
            pass


def test_another_program_writes_between(
    moments: dict[str, list[str]], tmp_path: Path, say: Desk
) -> None:
    """What waits isn't put after rows that nobody here has written."""
    typed(*moments["new"], "--book", tmp_path / "mill")
    kept = Store(tmp_path / "mill")
    with kept.opened():
        kept.do(Action(Act.ADD))
        text = '[{"file": "2024.csv", "from": 5, "text": "unit,X\\n"}]'
        (tmp_path / "mill" / ".pending").write_text(text, encoding="utf-8")
    said = say("book", "status", "--book", tmp_path / "mill")
    assert said.status == 1 and "another program has changed it, and 1 rows wait" in said.err
