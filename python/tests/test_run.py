"""What `plantbal-desk run` says on standard error, its statuses, and what it shows of a long run."""

from __future__ import annotations

import io
import os
import pty
import subprocess
import sys
from pathlib import Path

import pytest
from conftest import TOP, Desk, example, text_of

from plantbal.commands.progress import Progress, reports_asked

PLANT = """unit,U
stream,A,env,U,metered,1
stream,B,U,env,metered,1
period,may,2024-05-01,2024-05-01
period,june,2024-06-01,2024-06-01
critical,global,1,3841
reading,a,A,2024-05-01,{},1000000000000
reading,b,B,2024-05-01,100000000,1000000000000
"""
GOOD = PLANT.format(101_000_000)
OVER = "".join(f"transfer,t{i},T,2024-05-01,2024-05-01,10000000000000,1\n" for i in range(101))

# What is run, the status, and what is said.
CASES: list[tuple[str, list[str], int, list[str]]] = [
    (
        GOOD + "report,may\n",
        [],
        0,
        [
            "plantbal-desk run: may: a report, converged, accepted by the global test\n",
            "plantbal-desk run: june: no report was asked for; the row report,june asks for it\n",
        ],
    ),
    (
        GOOD + "report,may\nunit,V W\n",
        [],
        1,
        ["1 row of the session was refused", ":10: unit V W"],
    ),
    (
        PLANT.format(110_000_000) + "report,may\n",
        [],
        1,
        ["may: a report, converged, rejected by the global test"],
    ),
    (
        GOOD.replace("global,1,", "global,2,") + "report,may\n",
        [],
        0,
        ["may: a report, converged, no global test: no critical value for 1 degree of freedom"],
    ),
    (
        GOOD + "report,may\n",
        ["--sweeps", "0"],
        1,
        ["may: a report, unconverged", "may isn't converged"],
    ),
    (GOOD, [], 1, ["there is no report", "it asks for nothing; add a row report,PERIOD"]),
    ("", [], 1, ["there is no report", "it has no row"]),
    (
        GOOD + "stream,T,env,U,batch,1\n" + OVER + "report,may\n",
        [],
        1,
        ["may: no report: the total of T is beyond the limits"],
    ),
    (GOOD + "report,may\n", ["--gap", "0"], 2, ["'0' isn't a whole number from 1 to 1,000,000"]),
    (GOOD.replace(",", ";"), [], 1, ["fields have semicolons between them"]),
]


@pytest.mark.parametrize(
    "text, words, status, said", CASES, ids=[case[3][0].strip()[:60] for case in CASES]
)
def test_statuses(
    program: Path,
    say: Desk,
    tmp_path: Path,
    text: str,
    words: list[str],
    status: int,
    said: list[str],
) -> None:
    (tmp_path / "day.csv").write_text(text, encoding="ascii")
    out = tmp_path / "out.csv"
    found = say("run", "--program", program, *words, "--out", out, tmp_path / "day.csv")
    assert found.status == status, found.err
    for part in said:
        assert part in found.err
    assert out.exists() == (status < 2)
    if status < 2:
        assert f"plantbal-desk run: the output is in {out}\n" in found.err


def test_first_few(program: Path, say: Desk) -> None:
    path = example("badly_typed.csv")
    found = say("run", "--program", program, "--no-tests", path)
    assert (found.status, found.out) == (1, text_of(example("badly_typed.out.csv")))
    assert found.err.startswith("plantbal-desk run: 17 rows of the session were refused\n")
    assert found.err.count("^\n") == 5
    assert f"12 more rows are refused: plantbal-desk explain {path} says why" in found.err
    assert found.err.endswith("plantbal-desk run: mar1: a report, converged\n")
    found = say("run", "--program", program, text=path.read_bytes())
    assert "standard input:3: unit MILL" in found.err and "plantbal-desk explain says" in found.err


def test_status_of_the_program(program: Path, say: Desk, tmp_path: Path) -> None:
    (tmp_path / "big").write_bytes(b"\n" * 67_108_865)
    found = say("run", "--program", program, tmp_path / "big")
    assert found.status == 3 and "(TooLarge)" in found.err and "split it" in found.err


SLOW = """#!/bin/sh
printf 'report,p,0,2,2,10,5000\\nstream,A\\nstream,B\\nmeasure,A\\n'
sleep 4
"""


def test_progress_on_a_terminal(tmp_path: Path) -> None:
    """A long run shows on a terminal that it lives, and wipes that out in the end."""
    slow = tmp_path / "slow"
    slow.write_text(SLOW, encoding="ascii")
    slow.chmod(0o755)
    (tmp_path / "s.csv").write_text("report,p\nreport,p\n", encoding="ascii")
    words = ["-m", "plantbal", "run", "--program", slow, "--out", tmp_path / "o.csv"]
    command = [sys.executable, *map(str, words), str(tmp_path / "s.csv")]
    master, slave = pty.openpty()
    with subprocess.Popen(command, cwd=TOP / "python", stderr=slave) as process:
        os.close(slave)
        said = b""
        while True:
            try:
                piece = os.read(master, 4096)
            except OSError:
                break
            if not piece:
                break
            said += piece
        process.wait()
    os.close(master)
    assert b" s, report 1 of 2: 1 of 2 streams tested" in said
    assert said.count(b"\r") >= 4


def test_progress_elsewhere() -> None:
    assert Progress("run", b"report,p\n", to=io.StringIO()).watch() is None
    assert reports_asked(b"unit,U\nreport,p\n\nreport,q\n") == 2


class Terminal(io.StringIO):
    """A text that says that it is a terminal."""

    def isatty(self) -> bool:
        """Say so."""
        return True


def test_progress_counts() -> None:
    progress = Progress("run", b"report,p\nreport,q\n", to=Terminal())
    assert progress.watch() is progress
    assert progress.says(3) == "run: 3 s, report 1 of 2: sweeps"
    for piece in (b"report,p,0,2,1,1,1\nno", b"de,env,0\nstream,A,..\nstr", b"eam,B,..\n"):
        progress(piece)
    assert progress.says(3.4) == "run: 3 s, report 1 of 2: 2 streams written"
    progress(b"measure,A\nend,p,0\n")
    assert progress.says(9).startswith("run: 9 s, report 2 of 2")
    progress(b"report,q,0,2,1,1,1\nend,q,0\n")
    assert progress.says(9) == "run: 9 s, 2 rounds of reports done"


def test_a_window_is_called_one(program: Path, say: Desk, tmp_path: Path) -> None:
    words = ["run", "--program", program, "--out", tmp_path / "out.csv"]
    found = say(*words, example("missed_dip.csv"))
    assert "plantbal-desk run: may2 to may3: a window, converged" in found.err
