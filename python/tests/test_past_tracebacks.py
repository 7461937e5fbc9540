"""Inputs that once ended in a traceback, or passed as right: each a sentence now, or read right."""

from __future__ import annotations

import re
import subprocess
import sys
from pathlib import Path

import pytest
from conftest import Desk, example, text_of

from plantbal import desk
from plantbal.faults import Fault
from plantbal.plain import plain
from plantbal.report import picture

DAY = text_of(example("refinery_day.out.csv"))
TESTED = text_of(example("heat_exchanger_suspect.out.csv"))
MAY = text_of(example("month_end.out.csv"))
WINDOW = text_of(example("missed_dip.out.csv"))
# What is changed in an output, by what, and what is said of it.
CHANGES = [
    (DAY, r"^solved,\d+", "solved,x", "k of a solved row is 'x': it has to be a whole number"),
    (DAY, r",redundant,", ",redundan,", "class of a class row is 'redundan': it has to be one of"),
    (DAY, r"(?<=,)\d(\d{9}),", r"\g<1>x,", "a whole number"),
    (DAY, r"^report,(\w+),0,9", r"report,\1,0,x", "nodes of a report row is 'x'"),
    (DAY, r"^report,(\w+),0,", r"report,\1,1,", "there is no round before round 1"),
    (DAY, r"^node,env,", "node,VDU,", "the node VDU already exists"),
    (TESTED, r"^nodal,\w+", "nodal,NONE", "there is no node NONE"),
    (TESTED, r"^measure,\w+", "measure,NONE", "there is no stream NONE"),
    (TESTED, r"^measure,\w+", "measure," + "9" * 5000, "stream of a measure row is '9999"),
    (DAY, r"\+(\w+)$", r"+NONE", "there is no stream NONE"),
    (DAY, r"^(stream,.*,cut,)", r"\1NONE ", "there is no node NONE"),
    (DAY, r"^report,[^\n]*\n", "", "is in no report"),
    (DAY, r"^(stream,\w+,)\w+", r"\1NONE", "there is no node NONE"),
    (DAY, r"\d+,\d+(,\w+,cut)", r",\1", "or the other way round"),
    (WINDOW, r"^place,n1.1", "place,n9.9", "no place of the window has the code n1.1"),
    (WINDOW, r"^window,[^\n]*\n", "", "this place row is in no window"),
    (MAY, r"^refused,\d+", "refused,x", "at of a refused row is 'x'"),
    (MAY, r"^end,\w+", "end,NONE", "this ends the report of NONE, which hasn't begun"),
]
WORDS = (
    "report|tables flows|tables imbalance|draw --dot|uncertainty|chart|page --seconds 0|from-scipy"
)


@pytest.mark.parametrize(("text", "old", "new", "said"), CHANGES, ids=[c[1] for c in CHANGES])
def test_a_changed_output(say: Desk, text: str, old: str, new: str, said: str) -> None:
    changed, count = re.subn(old, new, text, count=1, flags=re.MULTILINE)
    assert count == 1
    for word in WORDS.split("|"):
        found = say(*word.split(), text=changed)
        assert (found.status, found.out) == (1, ""), (word, found.err)
        assert "standard input: record" in found.err and said in found.err, (word, found.err)


def test_of_json_lines(say: Desk) -> None:
    lines = say("report", "--help").status == 0 and text_of(example("heat_exchanger_suspect.jsonl"))
    assert lines
    changed = re.sub(r'"k":"\d+"', '"k":"x"', lines, count=1)
    for word in ("report", "uncertainty", "tables flows"):
        found = say(*word.split(), text=changed)
        assert found.status == 1 and "k of a solved row is 'x'" in found.err, word


def test_a_cell_that_is_no_text(say: Desk, tmp_path: Path) -> None:
    path = tmp_path / "streams.csv"
    for data, said in (
        (b"\xff\xfea", "this is UTF-16 that is cut off or damaged"),
        (b"\xff\xfe\x00\xd8a\x00", "this is UTF-16 that is cut off or damaged"),
        (b"stream,from,to\n\xff\0,a,b\n", "this isn't text"),
        (
            b"stream,from,to\n" + b"9" * 40_000 + b",env,U\n",
            "more than 32,767 characters in a cell",
        ),
        (b"," * 20_000 + b"x\n", "more than 16,384 columns in a row"),
    ):
        path.write_bytes(data)
        found = say("convert", path)
        assert found.status == 1 and said in found.err, found.err


def test_a_figure_of_many_digits(say: Desk, tmp_path: Path) -> None:
    tags, readings = tmp_path / "tags.csv", tmp_path / "readings.csv"
    tags.write_text("tag,stream,from,to,error\nF-1,F,env,U,1 t\nP-1,P,U,env,1 t\n")
    readings.write_text(f"day,F-1,P-1\n2024-05-01,{'9' * 5000},5\n")
    found = say("from-spreadsheet", tags, readings)
    assert found.status == 1 and "line 2, column 2 (F-1)" in found.err, found.err
    assert "isn't a number" in found.err
    readings.write_text('day,F-1,P-1\n2024-05-01,"5,5\n2024-05-02,6,6\n')
    found = say("from-spreadsheet", tags, readings)
    assert found.status == 1 and "line 2: a double quote in this row isn't closed" in found.err


# ---- texts that reach a terminal


def test_no_escape_reaches_a_terminal(say: Desk, tmp_path: Path) -> None:
    escape = "\x1b]0;owned\x07\x1b[2J\x9b31m"
    path = tmp_path / f"{escape}.csv"
    path.write_text(f"unit,U\nunit,{escape}\nstream,{escape},env,U,plain,0\n", encoding="latin-1")
    out = tmp_path / "out.csv"
    out.write_text(DAY.replace("redundant", escape, 1), encoding="utf-8")
    for words in (
        *(("lint", path), ("explain", path), ("lint", tmp_path / escape), ("convert", path)),
        *(("tables", "flows", out), ("draw", out), ("uncertainty", out), ("chart", path)),
        *(("page", out), ("tables", "flows", path), ("draw", path), ("uncertainty", path)),
    ):
        found = say(*words)
        assert found.status == (3 if words[-1] == tmp_path / escape else 1), words
        for sign in ("\x1b", "\x07", "\x9b"):
            assert sign not in found.out + found.err, words


def test_plain() -> None:
    assert plain("Käse\t5 t\nµ") == "Käse\t5 t\nµ"
    assert plain("a\x1b[2J\rb\u202ec\udce4") == "a\ufffd[2J\ufffdb\ufffdc\\xe4"


def test_what_is_full_is_named() -> None:
    code = "from plantbal import desk; import sys; sys.argv = ['d', 'schema']; desk.main()"
    folder = Path(desk.__file__).parents[1]
    with open("/dev/full", "wb") as full:
        done = subprocess.run(
            [sys.executable, "-c", code], stdout=full, stderr=subprocess.PIPE, cwd=folder
        )
    assert done.returncode == 3
    assert done.stderr.startswith(b"plantbal-desk schema: standard output: No space left on device")


def test_a_drawing_that_takes_too_long(tmp_path: Path, monkeypatch: pytest.MonkeyPatch) -> None:
    slow = tmp_path / "dot"
    slow.write_text("#!/bin/sh\nexec sleep 30\n")
    slow.chmod(0o755)
    monkeypatch.setenv("PATH", f"{tmp_path}:/usr/bin:/bin")
    monkeypatch.setattr("plantbal.limits.DRAWING_SECONDS", 0.1)
    with pytest.raises(Fault, match="dot didn't finish within 0.1 seconds"):
        picture.svg("graph {}")
