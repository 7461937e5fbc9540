"""What an IT department, an auditor and a developer typed and stumbled on, typed again, briefly.

Each stumble has tests of its own elsewhere; here it is typed as they typed it. What needs a booted
systemd, packages or a browser is typed by .ci/booted and .ci/packages.
"""

from __future__ import annotations

import datetime
import zipfile
from collections.abc import Callable
from concurrent.futures import ProcessPoolExecutor
from pathlib import Path
from typing import Any

import pandas
import pytest
from books import ANYWAY, Type, fixture_book
from conftest import Desk, example, session_of
from test_fleet import SITE, folder_of, row_of

import plantbal

__all__ = ["fixture_book"]

TWO = """unit,U
stream,A,env,U,metered,1
stream,B,U,env,metered,1
period,d,2024-01-01,2024-01-01
reading,a,A,2024-01-01,100000000,1000000000000
reading,b,B,2024-01-01,104000000,1000000000000
report,d"""


def edit(path: Path, change: Callable[[list[str]], list[str]]) -> None:
    """Edit a file as sed does: by its lines."""
    path.write_text("".join(change(path.read_text().splitlines(keepends=True))))


def without(kind: str) -> Callable[[list[str]], list[str]]:
    return lambda lines: [line for line in lines if not line.startswith(kind)]


def other(text: str, made: str) -> Callable[[list[str]], list[str]]:
    return lambda lines: [line.replace(text, made, 1) for line in lines]


# The six edits by hand of a book whose month is closed: a file, and what is done to it.
EDITS: dict[str, tuple[str, Callable[[list[str]], list[str]]]] = {
    "a closed reading": ("2024.csv", other("1200000000", "1210000000")),
    "a closed reading's line": ("2024.csv", without("reading,F-1_2024-04-02")),
    "the amend row": ("2024.csv", without("amend")),
    "the close row": ("2024.csv", without("close")),
    "a report": ("reports/2024-04.csv", other("stream,FEED", "stream,FEED2")),
    "a name": ("journal.csv", other("anna", "eva")),
}


def test_a_book_that_is_edited_by_hand(book: Type, tmp_path: Path) -> None:
    """A1: each of six edits of a closed month is told, with the file."""
    mill = tmp_path / "mill"
    assert book("amend", "F-1", "2024-04-01", "1201 t", "--why", "typed wrong").status == 0
    assert book("close", "2024-04", *ANYWAY).status == 0
    for what, (name, change) in EDITS.items():
        path = mill / name
        before = path.read_bytes()
        edit(path, change)
        assert path.read_bytes() != before, what
        found = book("status")
        assert (found.status, Path(name).name in found.err) == (1, True), (what, found)
        path.write_bytes(before)
    assert book("status").status == 0


def test_nights_that_alarm(say: Desk, tmp_path: Path, program: Path) -> None:
    """A3, A4, B5, B6, B7: stale, vanished, untested, statuses, metrics, and books in the folder."""
    good = SITE.format(100_000_000).encode()
    tested = good.replace(b"report,may", b"critical,global,1,3841\nreport,may")
    today = datetime.date.today().isoformat().encode()
    room = folder_of(
        tmp_path / "plants",
        {
            "old.csv": tested,
            "gone.csv": tested.replace(b"2024-05-01", today),
            "untested.csv": good.replace(b"2024-05-01", today),
        },
    )
    out = tmp_path / "out"
    words = ["fleet", "--program", program, "--out", out, "--stale", "26h"]
    tests = [room, "--", "run", "--tests"]
    first = say(*words, "--date", "2026-12-01", *tests)
    assert (
        first.status == 1 and "its last fact is of 2024-05-01" in row_of(first.out, "old")["look"]
    )
    assert "nothing tests it" in row_of(first.out, "untested")["look"]
    (room / "gone.csv").unlink()
    for day in ("2026-12-02", "2026-12-03"):  # told until it is forgotten
        assert (
            "its session has gone" in row_of(say(*words, "--date", day, *tests).out, "gone")["look"]
        )
    last = say(*words, "--date", "2026-12-04", "--forget", "gone", *tests)
    assert "gone" not in last.out and (out / "night.json").is_file()
    assert 'plantbal_night_plant_look{site="old"} 1' in (out / "night.prom").read_text()
    assert say("fleet", "--program", tmp_path / "none", "--out", out, room).status == 3
    assert say("fleet", "--out", out, "--nosuch", room).status == 2
    found = say(
        "fleet", "--scheduler", "tls://127.0.0.1:9", "--program", program, "--out", out, room
    )
    assert (found.status, "Traceback" in found.err) == (3, False), found.err  # B10


def test_objects(program: Path) -> None:
    """A5, A6: a table changed in place, and a fault in a pool of processes."""
    output = plantbal.run(example("refinery_day.csv"), program=program)
    before = output.tonnes(anyway=True).to_csv()
    streams = output.streams
    streams["flow"] = streams["flow"] // 1000
    assert output.tonnes(anyway=True).to_csv() == before
    with ProcessPoolExecutor(1) as pool:
        with pytest.raises(plantbal.InputFault, match="nofile.csv"):
            pool.submit(plantbal.run, "nofile.csv", program=program).result(timeout=120)
        assert pool.submit(len, "good").result(timeout=120) == 4


def test_any_engine(program: Path) -> None:
    """B1, B2: figures of one's own, an engine of one's own, and a fallback that is named."""
    session = session_of(TWO)
    certified = plantbal.certify(session, {"A": 102, "B": 102}, program=program)
    assert [int(flow) for flow in certified.streams["flow"]] == [102_000_000] * 2
    with pytest.raises(plantbal.Uncertified):
        plantbal.certify(session, {"A": 99, "B": 99}, program=program)
    loose = plantbal.run(session, sweeps=0, program=program)
    assert not loose.ok and "plantbal.solve" in loose.why[0]
    assert plantbal.run(session, sweeps=0, fallback="scipy", program=program).reports[-1].solved


def test_frames_as_they_are() -> None:
    """B3: a historian's frame, of floats, with days down and streams across."""
    streams = pandas.DataFrame(
        [("A", "env", "U", "1"), ("B", "U", "env", "1")],
        columns=["name", "from", "to", "deviation_tonnes"],
    )
    days = pandas.date_range("2024-05-01", periods=2, tz="Europe/Berlin")
    wide = pandas.DataFrame({"A": [304_000.1, 1.5], "B": [304_000.0, 1.25]}, index=days)
    session = plantbal.Session.from_frames(
        streams=streams, readings=wide, round="gram", error="1 % or 0.2 t"
    )
    readings = [row for row in session if row[0] == "reading"]
    assert readings[0][-2:] == ("304000100000", str(3_040_001_000**2))


def test_what_a_text_is(program: Path) -> None:
    """B13: a text is the name of a file, or rows by `run_text`, and never both."""
    with pytest.raises(plantbal.InputFault, match="run_text"):
        plantbal.run(TWO, program=program)
    assert plantbal.run_text(TWO, program=program).reports
    assert plantbal.run_text("/etc/passwd", program=program).why[-1] == "there is no report"


def test_a_bundle_that_was_zipped_again(say: Desk, tmp_path: Path) -> None:
    """B11: unpacked and zipped again, as mail gateways do, it holds, with a note."""
    bundle, again = tmp_path / "b.zip", tmp_path / "again.zip"
    assert say("archive", example("refinery_day.csv"), "--out", bundle).status == 0
    with zipfile.ZipFile(bundle) as own, zipfile.ZipFile(again, "w") as made:
        for name in own.namelist():
            made.writestr(name, own.read(name))
    found = say("audit", again)
    assert (found.status, "wrong:" in found.out) == (0, False), found.out
    assert "another packer has zipped it again" in found.out


def test_ranges_and_columns(program: Path) -> None:
    """C3, C5: a range is named, and a frame's own column."""
    how: dict[str, Any] = {"gap": 0}
    with pytest.raises(plantbal.InputFault, match="give a whole number from 1 to 1,000,000"):
        plantbal.run(example("refinery_day.csv"), program=program, **how)
    streams = pandas.DataFrame(
        [("A", "env", "U", "0")], columns=["name", "from", "to", "deviation_tonnes"]
    )
    with pytest.raises(plantbal.Refusal, match="row 0, column deviation_tonnes: .* is '0'"):
        plantbal.Session.from_frames(streams=streams)
