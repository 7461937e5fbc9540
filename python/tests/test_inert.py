"""Texts of strangers in workbooks and tables: shown, and never computed."""

from __future__ import annotations

import os
import re
import subprocess
import time
from pathlib import Path

import openpyxl
import pytest
from conftest import TOP, Desk, example

from plantbal.faults import Fault
from plantbal.inert import csv_text, inert, is_computed, printable
from plantbal.page import paper
from plantbal.report.output import parse_report

FORMULA = '=HYPERLINK("http://evil/","x")'


def test_which_texts_are_computed() -> None:
    for text, computed in (
        ("=1", True),
        (FORMULA, True),
        ("+A1", True),
        ("-A1", True),
        ("@SUM(1)", True),
        ("\t=1", True),
        ("\r=1", True),
        ("-rf", True),
        ("-1", False),
        ("+1.5", False),
        ("-1,5", False),
        ("-1e-7", False),
        ("-.5", False),
        ("--1", True),
        ("FEED", False),
        ("", False),
        ("a=1", False),
    ):
        assert is_computed(text) is computed, text
        assert inert(text) == ("'" + text if computed else text), text
    assert csv_text([["a", "=1"], ['b"', "-1"]]) == 'a,\'=1\n"b""",-1\n'
    assert printable("a\x1b[2J\ud800\ufffe\tb") == "a\\x1b[2J\\ud800\\ufffe\tb"


def test_no_workbook_computes_a_text(tmp_path: Path, say: Desk) -> None:
    """A reason with a formula or a control character is a text in each workbook."""
    text = example("month_end.out.csv").read_text(encoding="utf-8")
    row = next(line for line in text.splitlines() if line.startswith("edit,"))
    for reason, shown in ((FORMULA, FORMULA), ("+cmd|x", "+cmd|x"), ("#N/A", "#N/A")):
        quoted = reason.replace('"', '""')
        edited = text.replace(row, f'{row.rpartition(",")[0]},"{quoted}"')
        parse_report(edited).to_xlsx(tmp_path / "a.xlsx")
        book = openpyxl.load_workbook(tmp_path / "a.xlsx")
        cells = [cell for sheet in book for line in sheet for cell in line]
        assert not {"f", "e"} & {cell.data_type for cell in cells}, reason
        (found,) = [cell for cell in cells if cell.value == shown]
        assert found.quotePrefix is is_computed(shown), reason


def test_no_table_computes_a_text(tmp_path: Path, say: Desk) -> None:
    """A stream whose name begins with a minus is a text in each table."""
    output = tmp_path / "output.csv"
    text = example("two_meters.out.csv").read_text(encoding="utf-8")
    output.write_text(re.sub(r"\bA\b", "-A", text), encoding="utf-8")
    for words in (("tables", "flows"), ("tables", "classes"), ("uncertainty", "--form", "csv")):
        said = say(*words, output)
        assert said.status == 0, (words, said)
        assert "'-A" in said.out and not re.search(r"[\n,]-A", said.out), words


def test_the_browser_has_its_sandbox(monkeypatch: pytest.MonkeyPatch) -> None:
    for user, words in ((1000, []), (0, ["--no-sandbox"])):
        monkeypatch.setattr("os.geteuid", lambda user=user: user)
        assert paper._without_sandbox() == words, user


def test_a_browser_that_hangs(tmp_path: Path, monkeypatch: pytest.MonkeyPatch) -> None:
    """It is stopped with all that it started; one that fails is told with its status."""
    browser = tmp_path / "chromium"
    pids = tmp_path / "pids"
    for script, said in (
        (f"sleep 600 & echo $! >{pids}; wait", "the browser didn't finish within 0.5 s"),
        ("exit 9", "the browser ended with the status 9"),
    ):
        browser.write_text(f"#!/bin/sh\n{script}\n", encoding="utf-8")
        browser.chmod(0o755)
        monkeypatch.setenv("PATH", f"{tmp_path}:{os.environ['PATH']}")
        with pytest.raises(Fault, match=said):
            paper.in_browser(tmp_path / "page.html", seconds=0.5)
    pid = int(pids.read_text())
    until = time.monotonic() + 5
    while Path(f"/proc/{pid}").exists() and time.monotonic() < until:
        state = Path(f"/proc/{pid}/stat").read_text().rpartition(")")[2].split()[0]
        if state == "Z":
            break
        time.sleep(0.05)
    else:
        assert not Path(f"/proc/{pid}").exists()


def test_a_folder_with_a_space(tmp_path: Path) -> None:
    """`make install` goes where DESTDIR says, a space in its name or none."""
    folder = tmp_path / "the folder"
    words = [f"DESTDIR={folder}", "PREFIX=/usr", "PYTHON=/usr/bin/python3"]
    subprocess.run(["make", "-s", "-C", TOP, "install-desk", *words], check=True)
    for name in ("bin/plantbal-desk", "lib/systemd/system/plantbal-fleet.service"):
        assert (folder / "usr" / name).is_file(), name
    assert [path.name for path in tmp_path.iterdir()] == ["the folder"]
