"""Books in the folder of a fleet, what lies beside them, and a fleet with one of each fault."""

from __future__ import annotations

import csv
import datetime
import io
import json
from pathlib import Path

import pytest
import test_fleet_limits
from books import PLANT, folder, month, typed
from conftest import Desk
from hostile import NAMES, hanging
from test_fleet import SITE, folder_of, row_of, rows_of

from plantbal.fleet.sites import sites

fixture_shut = test_fleet_limits.fixture_shut

NIGHT = "2026-11-29"


@pytest.fixture(name="plants")
def fixture_plants(tmp_path: Path, say: Desk) -> Path:
    """A folder with a session, and a book of one open period."""
    data = SITE.format(100_000_000).encode()
    found = folder_of(tmp_path / "plants", {"north.csv": data})
    mill = found / "mill"
    book = ("--book", mill, "--who", "anna")
    assert typed("new", "2024", folder(tmp_path / "plant", PLANT), *book) == 0
    assert typed("add", folder(tmp_path / "april", month(last=30)), *book) == 0
    return found


def test_a_book_is_run_by_its_open_periods(say: Desk, plants: Path, tmp_path: Path) -> None:
    """What the fleet reports of it is what `book report` writes: by the same session."""
    words = ("fleet", "--out", tmp_path / "out", "--date", NIGHT)
    found = say(*words, plants, "--", "run", "--tests")
    assert {row["site"] for row in rows_of(found.out)} == {"mill", "north"}, found
    row = row_of(found.out, "mill")
    assert (row["period"], row["days"]) == ("2024-04", "2024-04-01..2024-04-30"), row
    written = (tmp_path / "out" / "mill" / NIGHT / "output.csv").read_text()
    typed("report", "2024-04", "--session", tmp_path / "asks.csv", "--book", plants / "mill")
    own = (plants / "mill" / "reports" / "2024-04.csv").read_text()
    assert [line for line in written.splitlines() if line.startswith("stream,")] == [
        line for line in own.splitlines() if line.startswith("stream,")
    ]
    # the session is kept with the night, and a night that goes on doesn't run it again
    session = tmp_path / "out" / "nights" / NIGHT / "books" / "mill.csv"
    assert session.read_text() == (tmp_path / "asks.csv").read_text()
    before = (tmp_path / "out" / "mill" / NIGHT / "run.json").read_text()
    say(*words, plants, "--", "run", "--tests")
    assert (tmp_path / "out" / "mill" / NIGHT / "run.json").read_text() == before


def test_a_book_that_was_changed(say: Desk, plants: Path, tmp_path: Path) -> None:
    """Its chain is tested first: it isn't run, and the plant needs a person."""
    year = plants / "mill" / "2024.csv"
    year.write_text(year.read_text().replace("1200000000", "1300000000", 1))
    found = say("fleet", "--out", tmp_path / "out", plants)
    row = row_of(found.out, "mill")
    assert (found.status, row["state"]) == (1, "nosession"), found.err
    assert "2024.csv" in row["look"], row


def test_a_book_without_an_open_period(say: Desk, plants: Path, tmp_path: Path) -> None:
    book = ("--book", plants / "mill", "--who", "anna")
    from books import ANYWAY

    assert typed("close", "2024-04", *ANYWAY, *book) == 0
    found = say("fleet", "--out", tmp_path / "out", plants)
    row = row_of(found.out, "mill")
    assert (found.status, row["state"], row["look"]) == (0, "closed", ""), found.err


def test_what_is_no_session(say: Desk, plants: Path, tmp_path: Path) -> None:
    """Journals, workbooks and the files of a book aren't run, and it is said."""
    folder(plants / "mill workbook", month())
    (plants / "south").mkdir()
    (plants / "south" / "readings.csv").write_bytes((plants / "north.csv").read_bytes())
    chosen = sites(plants, recursive=True)
    assert [site.name for site in chosen.sites] == ["north", "south/readings"]
    assert [site.name for site in chosen.books] == ["mill"]
    assert any("the sheets of a workbook aren't run: dips.csv" in said for said in chosen.left)
    # what a folder of sessions itself has is run, whatever it is called: a failed export is told
    (plants / "readings.csv").write_text("<html>")
    assert "readings" in {site.name for site in sites(plants).sites}
    # the folder of a book is a fleet of one
    assert [site.name for site in sites(plants / "mill").books] == ["mill"]


def test_two_of_a_name(plants: Path) -> None:
    (plants / "mill.csv").write_bytes((plants / "north.csv").read_bytes())
    chosen = sites(plants)
    assert not chosen.books and [site.name for site in chosen.sites] == ["north"]
    assert ["it would be the same plant as mill.csv" in said for said in chosen.wrong.values()]


# ---- forty plants, one of each fault

FAULTS = ("stale", "vanished", "empty", "untested", "hangs", "huge", "hostile", "shut")


def forty(room: Path) -> None:
    """Plants of which eight have a fault each, and the others none."""
    today = datetime.date.today().isoformat()
    good = SITE.format(100_000_000).replace("2024-05-01", today)
    good = good.replace("report,may", "critical,global,1,3841\nreport,may")
    room.mkdir()
    for k in range(32):
        (room / f"plant {k:02}.csv").write_text(good)
    (room / "vanished.csv").write_text(good)
    (room / "stale.csv").write_text(
        SITE.format(100_000_000).replace("report", "critical,global,1,3841\nreport")
    )
    (room / "untested.csv").write_text(good.replace("critical,global,1,3841\n", ""))
    (room / "empty.csv").write_text("")
    (room / "hangs.csv").write_text(good)
    with (room / "huge.csv").open("wb") as file:
        file.truncate(20 << 30)
    (room / f"{NAMES[8]}.csv").write_text(good)
    (room / "shut").mkdir(mode=0)


def test_forty_plants(
    say: Desk, tmp_path: Path, program: Path, monkeypatch: pytest.MonkeyPatch, shut: None
) -> None:
    """Each fault is told, with what it is, and no plant besides."""
    room, out = tmp_path / "plants", tmp_path / "out"
    forty(room)
    words = ["fleet", "--recursive", "--program", hanging(program, tmp_path), "--out", out]
    words += ["--stale", "26h", "--timeout", "8", "--jobs", "2"]
    tests = ("--", "run", "--tests")
    say(*words, "--date", "2026-11-28", room, *tests)
    (room / "vanished.csv").unlink()
    found = say(*words, "--date", NIGHT, room, *tests)
    assert found.status == 1, found.err
    night = json.loads((out / "night.json").read_text())
    looks = {each["site"]: " ".join(each["why"]) for each in night["sites"] if each["look"]}
    said = {
        "stale": "its last fact is of 2024-05-01",
        "vanished": "its session has gone",
        "empty": "empty",
        "untested": "nothing tests it",
        "hangs": "stopped by the time limit",
        "huge": "more than 67,108,864 bytes",
        "shut": "Permission denied",
    }
    for site, text in said.items():
        assert text in looks.get(site, ""), (site, looks.get(site))
    (hostile,) = set(looks) - set(said)
    assert "its name has other characters" in looks[hostile], looks[hostile]
    assert (night["plants"], night["wanting"]) == (40, len(FAULTS)), night
    table = list(csv.DictReader(io.StringIO(found.out)))
    assert sum(bool(row["look"]) for row in table) == len(FAULTS)
