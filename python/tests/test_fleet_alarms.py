"""What ought to alarm although each plant ran, and what a night says to other programs."""

from __future__ import annotations

import datetime
import json
import sqlite3
from contextlib import closing
from pathlib import Path

import pytest
from conftest import Desk
from test_fleet import SITE, folder_of, row_of, rows_of

from plantbal.fleet.alarms import age_of, last_day, level_of
from plantbal.fleet.rows import HEADS

ZONE = datetime.datetime.now().astimezone().tzinfo
Words = list[object]


def session_of(tonnes: int = 100, more: str = "") -> bytes:
    """The session of a unit whose feed reads some tonnes, and whose product reads 100 t."""
    rows = SITE.format(tonnes * 1_000_000)
    return rows.replace("report,may", f"{more}report,may").encode("ascii")


@pytest.fixture(name="words")
def fixture_words(tmp_path: Path, program: Path) -> Words:
    """A fleet of one plant, `a`."""
    folder = folder_of(tmp_path / "sessions", {"a.csv": session_of()})
    return ["fleet", "--program", program, "--out", tmp_path / "out", folder]


def with_tests(words: Words, night: str, *more: str) -> Words:
    return [*words[:-1], "--date", night, *more, words[-1], "--", "run", "--tests"]


# The statistic of a feed of 103 t is 9 t^2 / 4 t^2 = 2.25, of one of 110 t 25: with one degree of
# freedom these are 1.5 and 5 standard deviations, with the probabilities 0.1336 and 5.73e-7.
LEVELS = [
    (103, "", [], 1, "nothing tests it: there is no critical value for 1 degrees"),
    (103, "", ["--level", "0.01"], 0, ""),
    (110, "", ["--level", "0.01"], 1, "has the probability 5.74e-07, below the level 0.01"),
    (103, "critical,global,7,14067\n", [], 1, "there are critical values, but none for 1 degrees"),
    (103, "critical,global,7,14067\n", ["--level", "0.2"], 1, "the probability 0.134, below"),
    (103, "critical,global,1,3841\n", [], 0, ""),
    (110, "critical,global,1,3841\n", ["--level", "1e-9"], 1, "the global test rejects"),
]


@pytest.mark.parametrize("tonnes, more, level, status, said", LEVELS)
def test_an_untested_report(
    say: Desk,
    words: Words,
    tmp_path: Path,
    tonnes: int,
    more: str,
    level: list[str],
    status: int,
    said: str,
) -> None:
    (tmp_path / "sessions" / "a.csv").write_bytes(session_of(tonnes, more))
    found = say(*with_tests(words, "2026-11-29", *level))
    assert found.status == status and said in found.err, found.err
    assert bool(row_of(found.out, "a")["look"]) == bool(status)


def test_probabilities(say: Desk, words: Words) -> None:
    """Without tests a statistic has its probability too, and nobody has to look."""
    found = say(*words, "--date", "2026-11-29")
    assert (found.status, row_of(found.out, "a")["p"]) == (0, "1")


def older(out: Path, night: str, hours: float) -> None:
    """Let a night of plant `a` have been some hours ago."""
    path = out / "a" / night / "run.json"
    run = json.loads(path.read_bytes())
    begun = datetime.datetime.now().timestamp() - hours * 3600
    path.write_text(json.dumps({**run, "begun": begun, "session_begun": begun}))


STALE = [
    ("same", 30, "26h", 1, "it is the same as on "),
    ("same", 20, "26h", 0, ""),
    ("same", 24 * 80, "79d", 1, "80 days ago"),
    ("changed", 30, "26h", 0, ""),
]


@pytest.mark.parametrize("session, hours, limit, status, said", STALE)
def test_a_session_that_stays(
    say: Desk,
    words: Words,
    tmp_path: Path,
    session: str,
    hours: float,
    limit: str,
    status: int,
    said: str,
) -> None:
    """An export that fails leaves the session of the night before; it is told until it is mended."""
    day = datetime.date.today().isoformat()
    data = session_of().replace(b"2024-05-01", day.encode())
    path = tmp_path / "sessions" / "a.csv"
    path.write_bytes(data)
    words[1:1] = ["--stale", limit]
    assert say(*words, "--date", "2026-11-01").status == 0
    older(tmp_path / "out", "2026-11-01", hours)
    if session == "changed":
        path.write_bytes(data.replace(b"report", b"unit,V\nreport"))
    for night in ("2026-11-02", "2026-11-03", "2026-11-03"):
        found = say(*words, "--date", night)
        assert found.status == status and said in found.err, (night, found.err)


def test_facts_that_are_old(say: Desk, words: Words, tmp_path: Path) -> None:
    today = datetime.datetime.now(ZONE).date()
    for days, status in ((1, 0), (3, 1)):
        day = (today - datetime.timedelta(days=days)).isoformat()
        data = session_of().replace(b"2024-05-01", day.encode())
        (tmp_path / "sessions" / "a.csv").write_bytes(data)
        found = say(words[0], "--stale", "48h", *words[1:], "--date", f"2026-11-0{days}")
        assert found.status == status, found.err
        assert (f"its last fact is of {day}" in found.err) == bool(status)


def test_last_day() -> None:
    rows = [
        ("unit,U\nreading,r,A,2024-05-03,1,1\ndip,d,T,2024-05-02,1,1,1\n", "2024-05-03"),
        ("transfer,t,A,2024-05-01,2024-05-09,1,1\n", "2024-05-09"),
        ("late,dip,d,T,2024-06-01,1,1,1\r\n", "2024-06-01"),
        ("reading,r,A,someday,1,1\nreading,r\nperiod,p,2024-01-01,2024-12-31\n", ""),
        ("", ""),
    ]
    for text, day in rows:
        assert last_day(text.encode()) == day, text


@pytest.mark.parametrize("text, seconds", [("26h", 93600), ("3d", 259200)])
def test_ages(text: str, seconds: float) -> None:
    assert age_of(text) == seconds


@pytest.mark.parametrize(
    "name, text", [("--stale", "26"), ("--stale", "0h"), ("--level", "5 %"), ("--level", "1")]
)
def test_words_that_are_none(say: Desk, words: Words, name: str, text: str) -> None:
    found = say(words[0], name, text, *words[1:])
    assert found.status == 2 and repr(text) in found.err
    assert level_of("0.05") == 0.05


def test_signals(say: Desk, words: Words, tmp_path: Path) -> None:
    """Other programs read which plants want a person, by libraries of their own."""
    parser = pytest.importorskip("prometheus_client.parser")
    (tmp_path / "sessions" / 'b "x".csv').write_bytes(b"unit,U\nunit,U\n")
    assert say(*words, "--date", "2026-11-29").status == 1
    found = json.loads((tmp_path / "out" / "night.json").read_text())
    assert (found["plants"], found["wanting"], found["status"]) == (2, 1, 1)
    (good, bad) = found["sites"]
    assert (good["look"], good["why"], list(good["rows"][0])) == (False, [], HEADS)
    assert bad["look"] and "1 row is refused" in bad["why"][0]
    told = json.loads((tmp_path / "out" / "tell.json").read_text())
    assert [each["site"] for each in told["sites"]] == ['b "x"'] and told["wanting"] == 1
    text = (tmp_path / "out" / "night.prom").read_text()
    samples = [
        each for family in parser.text_string_to_metric_families(text) for each in family.samples
    ]
    values = {
        (each.name.removeprefix("plantbal_night_"), each.labels.get("site")): each.value
        for each in samples
    }
    assert values["plants", None] == 2 and values["plants_wanting", None] == 1
    assert values["plant_look", "a"] == 0 and values["plant_look", 'b "x"'] == 1
    assert values["plant_session_age_seconds", "a"] == 0 and values["status", None] == 1


def test_nights_are_thinned_out(say: Desk, words: Words, tmp_path: Path) -> None:
    out = tmp_path / "out"
    (tmp_path / "sessions" / "b.csv").write_bytes(session_of())
    assert say(*words, "--date", "2026-11-01").status == 0
    (tmp_path / "sessions" / "b.csv").unlink()
    for day in (2, 3, 4):
        say(words[0], "--keep", "2", *words[1:], "--date", f"2026-11-0{day}")
    kept = ["2026-11-03", "2026-11-04"]
    assert sorted(path.name for path in (out / "nights").iterdir()) == kept
    assert sorted(path.name for path in (out / "a").iterdir()) == [*kept, "latest"]
    # the last output of a plant that has gone stays
    assert sorted(path.name for path in (out / "b").iterdir()) == ["2026-11-01", "latest"]
    with closing(sqlite3.connect(out / "fleet.sqlite")) as base:
        assert base.execute("SELECT COUNT(*) FROM nights").fetchone() == (4,)


def test_a_database_of_before(say: Desk, words: Words, tmp_path: Path) -> None:
    """One without the column p gets it, and keeps its nights."""
    assert say(*words, "--date", "2026-11-01").status == 0
    path = tmp_path / "out" / "fleet.sqlite"
    with closing(sqlite3.connect(path)) as base, base:
        base.execute("ALTER TABLE plants DROP COLUMN p")
    assert say(*words, "--date", "2026-11-02").status == 0
    with closing(sqlite3.connect(path)) as base:
        assert base.execute("SELECT night, p FROM plants ORDER BY night").fetchall() == [
            ("2026-11-01", None),
            ("2026-11-02", 1.0),
        ]
    assert rows_of((tmp_path / "out/nights/2026-11-02/table.csv").read_text())[0]["p"] == "1"
