"""All nights and books of a group in one database: which report counts, and what the views say."""

from __future__ import annotations

import sqlite3
from contextlib import closing
from pathlib import Path

import pytest
from books import PLANT, folder, month, typed
from conftest import Desk
from test_fleet import folder_of

# Six months of a plant whose feed reads some tonnes more than its product's 100 t each time. Both
# have the variance 2 t2, so each is moved by half the difference, which is 1 / sqrt(2) sd a t.
MORE = (6, 4, 5, 6, 4, 5)


def months(more: tuple[int, ...] = MORE) -> bytes:
    """A session with a report for each month."""
    rows = ["unit,U", "stream,FEED,env,U,metered,1", "stream,PRODUCT,U,env,metered,1"]
    for number, tonnes in enumerate(more, 1):
        day = f"2024-{number:02}-01"
        rows.append(f"period,m{number},{day},{day}")
        for id_, name, grams in (("f", "FEED", 100 + tonnes), ("p", "PRODUCT", 100)):
            rows.append(f"reading,{id_}{number},{name},{day},{grams}000000,1999999999999")
        rows.append(f"report,m{number}")
    return "".join(f"{row}\n" for row in rows).encode("ascii")


def asked(path: Path, query: str) -> list[tuple[object, ...]]:
    with closing(sqlite3.connect(path)) as base:
        return base.execute(query).fetchall()


@pytest.fixture(name="nights")
def fixture_nights(say: Desk, tmp_path: Path) -> Path:
    """Two nights of two plants; on the second one the feed of `south` was corrected."""
    data = {"north.csv": months(), "south.csv": months((9,))}
    room, out = folder_of(tmp_path / "sessions", data), tmp_path / "out"
    assert say("fleet", "--out", out, "--date", "2026-11-28", room).status == 0
    (room / "south.csv").write_bytes(months((2,)))
    assert say("fleet", "--out", out, "--date", "2026-11-29", room).status == 0
    return out


def test_nights(say: Desk, nights: Path, tmp_path: Path) -> None:
    store = tmp_path / "group.sqlite"
    found = say("across", "--out", store, nights)
    assert (found.status, "7 reports of 2 plants" in found.err) == (0, True), found
    # the loss is what was measured in, less what was measured out: by the numbers above
    losses = asked(store, "SELECT site, month, in_t, out_t, loss_t FROM loss_by_month")
    assert losses == [
        *(("north", f"2024-{k:02}", 100.0 + t, 100.0, float(t)) for k, t in enumerate(MORE, 1)),
        ("south", "2024-01", 102.0, 100.0, 2.0),
    ]
    (feed, _) = asked(store, "SELECT * FROM adjustments_by_meter WHERE site = 'north'")
    # half of 30 t in six months; the mean is 2.5 t of sqrt(2) t
    assert feed[:6] == ("north", "FEED", "2024", 6, 630.0, -15.0)
    assert feed[6] == pytest.approx(-2.5 / 2**0.5, abs=1e-6)
    drifts = asked(store, "SELECT site, stream, periods, significance FROM drifting_meters")
    assert [row[:3] for row in drifts] == [("north", "FEED", 6), ("north", "PRODUCT", 6)]
    assert drifts[0][3] == pytest.approx(-15 / 2**0.5 / 6**0.5, abs=1e-6)
    assert asked(store, "SELECT night FROM reports WHERE site = 'south'") == [("2026-11-29",)]


def test_books(say: Desk, nights: Path, tmp_path: Path) -> None:
    """A book's reports stand beside those of nights; its plant has the name of its folder."""
    book = ("--book", tmp_path / "mill", "--who", "anna")
    assert typed("new", "2024", folder(tmp_path / "plant", PLANT), *book) == 0
    assert typed("add", folder(tmp_path / "april", month(last=30)), *book) == 0
    typed("report", "2024-04", *book)
    store = tmp_path / "group.sqlite"
    found = say("across", "--out", store, nights, tmp_path / "mill")
    assert found.status == 0, found
    rows = asked(store, "SELECT period, first, last, night FROM reports WHERE site = 'mill'")
    assert rows == [("2024-04", "2024-04-01", "2024-04-30", "")]
    # 30 days of 1,200 t, and the trucks' 800 t; the silo's gain is a stream of the plant
    (flow,) = asked(store, "SELECT measured FROM flows WHERE site = 'mill' AND stream = 'FEED'")
    assert flow == (36_000_000_000,)


def test_what_cannot_be_read(say: Desk, nights: Path, tmp_path: Path) -> None:
    (nights / "south" / "2026-11-29" / "output.csv").write_text("report,x\n")
    store = tmp_path / "group.sqlite"
    found = say("across", "--out", store, nights)
    assert found.status == 1 and "south: " in found.err, found
    # the night before has the plant's last report that can be read
    assert asked(store, "SELECT night FROM reports WHERE site = 'south'") == [("2026-11-28",)]
    assert say("across", "--out", store, tmp_path).status == 1
    assert say("across", "--out", store, tmp_path / "none").status == 3
