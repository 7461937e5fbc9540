"""A night's outputs in one file: what is in it, what finds them there, and nights that stop."""

from __future__ import annotations

import os
import sqlite3
import subprocess
import sys
import time
import zlib
from contextlib import closing
from pathlib import Path

import pytest
from conftest import TOP, Desk
from test_across import months
from test_fleet import SITE, folder_of, rows_of

from plantbal import packed
from plantbal.faults import FileFault, InputFault, read_bytes
from plantbal.fleet.night import Night
from plantbal.fleet.pack import Packer
from plantbal.fleet.sites import Site

NIGHT, NEXT = "2026-11-28", "2026-11-29"
FILES = {"output.csv", "run.json", "stderr.txt"}


def sessions_of(count: int) -> dict[str, bytes]:
    return {f"p{k}.csv": SITE.format((100 + k) * 1_000_000).encode() for k in range(count)}


def names(out: Path, night: str = NIGHT) -> set[str]:
    return set(packed.names_in(out / "nights" / night / packed.PACK, ""))


@pytest.fixture(name="words")
def fixture_words(tmp_path: Path, program: Path) -> list[object]:
    """A fleet of three plants, one of which has a refused row."""
    data = sessions_of(3)
    data["p2.csv"] += b"unit,V W\n"
    room = folder_of(tmp_path / "sessions", data)
    return ["fleet", "--program", program, "--out", tmp_path / "out", room]


def night(words: list[object], name: str, *more: object) -> list[object]:
    return [*words[:-1], "--date", name, "--pack", *more, words[-1]]


def test_what_a_pack_has(say: Desk, words: list[object], tmp_path: Path) -> None:
    """The same files to the byte as without it, but the times; and nothing of them beside it."""
    out, apart = tmp_path / "out", tmp_path / "apart"
    first = say(*night(words, NIGHT))
    words[4] = apart
    second = say(*words[:-1], "--date", NIGHT, words[-1])
    timed = [{**row, "seconds": ""} for row in rows_of(first.out)]
    assert timed == [{**row, "seconds": ""} for row in rows_of(second.out)]
    assert first.status == second.status == 1
    assert names(out) == {f"p{k}/{name}" for k in range(3) for name in FILES}
    for k in range(3):
        same = apart / f"p{k}" / NIGHT / "output.csv"
        for path in (
            out / "nights" / NIGHT / packed.PACK / f"p{k}" / "output.csv",
            out / f"p{k}" / NIGHT / "output.csv",
            out / f"p{k}" / "latest" / "output.csv",
            out / "latest" / packed.PACK / f"p{k}" / "output.csv",
        ):
            assert read_bytes(path)[1] == same.read_bytes(), path
        assert [path.name for path in (out / f"p{k}").iterdir()] == ["latest"]
    sums = subprocess.run(["sha256sum", "--check", "latest/SHA256SUMS"], cwd=out, check=False)
    assert sums.returncode == 0
    assert f"nights/{NIGHT}/outputs.sqlar" in (out / "latest" / "SHA256SUMS").read_text()
    assert "outputs.sqlar" in (out / "index.html").read_text()


def test_sqlite_unpacks_it(say: Desk, words: list[object], tmp_path: Path) -> None:
    say(*night(words, NIGHT))
    pack, room = tmp_path / "out" / "nights" / NIGHT / packed.PACK, tmp_path / "room"
    room.mkdir()
    subprocess.run(["sqlite3", pack, "-Ax"], cwd=room, check=True)
    found = {path.relative_to(room).as_posix() for path in room.rglob("*") if path.is_file()}
    assert found == names(tmp_path / "out")
    for name in found:
        assert (room / name).read_bytes() == packed.read_member(pack, name, 1 << 20), name


# What reads an output, and how it is named there.
READERS = [
    ["check", "{}"],
    ["page", "{}"],
    ["tables", "flows", "{}"],
    ["chart", "--out", "chart.svg", "{}"],
    ["report", "{}", "--out", "report.csv"],
    ["draw", "{}", "--out", "drawn.svg"],
    ["audit", "{}", "{session}"],
]


@pytest.mark.parametrize("reader", READERS, ids=[words[0] for words in READERS])
def test_commands_read_it(
    say: Desk,
    words: list[object],
    tmp_path: Path,
    monkeypatch: pytest.MonkeyPatch,
    reader: list[str],
) -> None:
    """Each says of an output in the pack what it says of the same file by itself."""
    say(*night(words, NIGHT))
    monkeypatch.chdir(tmp_path)
    inner = "out/nights/2026-11-28/outputs.sqlar/p1/output.csv"
    alone = tmp_path / "alone.csv"
    alone.write_bytes(read_bytes(inner)[1])
    said = []
    for name in (inner, "alone.csv"):
        found = say(*(word.format(name, session="sessions/p1.csv") for word in reader))
        out, err = (text.replace(name, "FILE") for text in (found.out, found.err))
        made = [path.read_bytes() for path in tmp_path.glob("*.svg")]
        said.append((found.status, out, err, made))
    assert said[0] == said[1] and said[0][0] in (0, 1), said[0]


def test_a_group_is_read(say: Desk, tmp_path: Path, program: Path) -> None:
    room = folder_of(tmp_path / "sessions", {"north.csv": months(), "south.csv": months((9,))})
    out = tmp_path / "out"
    word = ["fleet", "--program", program, "--out", out]
    assert say(*word, "--date", NIGHT, room).status == 0
    (room / "south.csv").write_bytes(months((2,)))
    assert say(*word, "--date", NEXT, "--pack", room).status == 0
    found = say("across", "--out", tmp_path / "group.sqlite", out)
    assert (found.status, "7 reports of 2 plants" in found.err) == (0, True), found
    with closing(sqlite3.connect(tmp_path / "group.sqlite")) as base:
        rows = base.execute(
            "SELECT night, loss_t FROM loss_by_month JOIN reports USING (site, month)"
            " WHERE site = 'south'"
        ).fetchall()
    assert rows == [(NEXT, 2.0)]


def test_what_is_done_is_not_run_again(say: Desk, words: list[object], tmp_path: Path) -> None:
    """A second time only a plant whose session was corrected runs, and its files are replaced."""
    out = tmp_path / "out"
    say(*night(words, NIGHT))
    before = {k: read_bytes(out / f"p{k}" / "latest" / "run.json")[1] for k in range(3)}
    (tmp_path / "sessions" / "p2.csv").write_bytes(sessions_of(3)["p2.csv"])
    again = say(*night(words, NIGHT))
    assert (again.status, len(rows_of(again.out))) == (0, 3), again
    after = {k: read_bytes(out / f"p{k}" / "latest" / "run.json")[1] for k in range(3)}
    assert [before[k] == after[k] for k in range(3)] == [True, True, False]
    assert b"refused" not in read_bytes(out / "p2" / NIGHT / "output.csv")[1]
    assert names(out) == {f"p{k}/{name}" for k in range(3) for name in FILES}
    # without the word what is packed stays so, and a plant that is run again has its folder
    assert say(*words[:-1], "--date", NIGHT, "--again", words[-1]).status == 0
    assert (out / "p1" / NIGHT / "output.csv").is_file() and len(names(out)) == 9
    assert say(*night(words, NIGHT)).status == 0
    assert not (out / "p1" / NIGHT).exists() and len(names(out)) == 9


def test_a_session_that_stays_is_told(say: Desk, words: list[object], tmp_path: Path) -> None:
    """When a session was first run is known from the pack of the night before."""
    assert say(*night(words, NIGHT)).status == 1
    first = read_bytes(tmp_path / "out" / "p1" / "latest" / "run.json")[1]
    assert say(*night(words, NEXT)).status == 1
    run = read_bytes(tmp_path / "out" / "p1" / "latest" / "run.json")[1]
    line = [each for each in first.splitlines() if b'"session_begun"' in each]
    assert line == [each for each in run.splitlines() if b'"session_begun"' in each]
    found = say(*night(words, "2026-11-30", "--stale", "1s"))
    assert found.status in (1, 2)


def test_an_old_pack_goes(say: Desk, words: list[object], tmp_path: Path) -> None:
    """The last output of a plant that has gone gets a folder of its own again."""
    out = tmp_path / "out"
    say(*night(words, NIGHT))
    old = read_bytes(out / "p2" / "latest" / "output.csv")[1]
    (tmp_path / "sessions" / "p2.csv").unlink()
    say(*night(words, NEXT, "--keep", "1"))
    assert [path.name for path in (out / "nights").iterdir()] == [NEXT]
    assert (out / "p2" / "latest" / "output.csv").read_bytes() == old
    assert read_bytes(out / "p1" / "latest" / "output.csv")[1]
    with pytest.raises(FileFault):
        read_bytes(out / "p1" / NIGHT / "output.csv")


# What is put in the place of a pack, and what is said.
DAMAGED = {
    "no archive": (b"north,south\n", "can't be read as an archive of SQLite"),
    "another database": (None, "no table sqlar"),
}


@pytest.mark.parametrize("data, said", DAMAGED.values(), ids=DAMAGED)
def test_a_pack_that_is_none(
    say: Desk, words: list[object], tmp_path: Path, data: bytes | None, said: str
) -> None:
    pack = tmp_path / "out" / "nights" / NIGHT / packed.PACK
    pack.parent.mkdir(parents=True)
    if data is None:
        with closing(sqlite3.connect(pack)) as base, base:
            base.execute("CREATE VIEW sqlar AS SELECT 1 AS name, 2 AS sz, x'' AS data")
    else:
        pack.write_bytes(data)
    with pytest.raises(FileFault) as fault:
        read_bytes(pack / "p1" / "output.csv")
    assert said in str(fault.value)
    found = say(*night(words, NIGHT))
    assert (found.status, "not all outputs are in it" in found.err) == (3, True), found
    assert all((tmp_path / "out" / f"p{k}" / NIGHT / "output.csv").is_file() for k in range(3))


def test_files_that_are_not_what_they_say(tmp_path: Path) -> None:
    """An archive of a stranger's: a file that isn't as long as it says, and one that swells."""
    pack = tmp_path / packed.PACK
    swollen = zlib.compress(bytes(50_000_000), 9)
    rows = {
        "short": (9, zlib.compress(b"1234")),
        "long": (2, zlib.compress(b"12345")),
        "swollen": (1 << 60, swollen),
        "damaged": (9, b"\x00\x01"),
        "text": (4, "1234"),
    }
    with closing(sqlite3.connect(pack)) as base, base:
        base.execute("CREATE TABLE sqlar (name TEXT PRIMARY KEY, mode, mtime, sz, data)")
        base.executemany(
            "INSERT INTO sqlar VALUES (?, 0, 0, ?, ?)", [(name, *row) for name, row in rows.items()]
        )
    for name in ("short", "long", "damaged"):
        with pytest.raises(InputFault, match="is damaged"):
            read_bytes(pack / name)
    with pytest.raises(InputFault, match="more than 1,000 bytes"):
        read_bytes(pack / "swollen", 1000)
    with pytest.raises(FileFault):
        read_bytes(pack / "text")
    with pytest.raises(InputFault, match="all outputs of a night"):
        read_bytes(pack)


def test_names(tmp_path: Path) -> None:
    """A plant's files are its own alone, whatever the others are called."""
    night_of = Night(tmp_path, NIGHT, Path("plantbal"), "", ["run"])
    sites = [Site(name, Path()) for name in ("a", "a/b", "a0", "a%", "a_", "A", "é", "a b", "a.b")]
    with Packer(night_of) as packer:
        for number, site in enumerate([*sites, *sites]):
            folder = night_of.folder_of(site)
            folder.mkdir(parents=True)
            (folder / "output.csv").write_text(f"{number}\n")
            packer.add(site)
            packer.finish()
            assert not folder.exists()
    for number, site in enumerate(sites, len(sites)):
        assert packed.packed_files(night_of.pack, site.name) == {"output.csv": b"%d\n" % number}
        assert read_bytes(night_of.output_of(site))[1] == b"%d\n" % number


def test_a_fleet_that_is_killed(tmp_path: Path, program: Path) -> None:
    """By signal 9 after some plants: the rest runs then, and none of them is twice in the pack."""
    room, out = folder_of(tmp_path / "sessions", sessions_of(12)), tmp_path / "out"
    slow = tmp_path / "slow"
    slow.write_text(f'#!/bin/sh\nsleep 0.3\nexec {program} "$@"\n')
    slow.chmod(0o755)
    words = [sys.executable, "-m", "plantbal", "fleet", "--pack", "--date", NIGHT, "--jobs", "2"]
    words += [
        "--retries",
        "1",
        "--timeout",
        "60",
        "--program",
        str(slow),
        "--out",
        str(out),
        str(room),
    ]
    environment = {**os.environ, "PYTHONPATH": str(TOP / "python")}
    with subprocess.Popen(words, env=environment, stdout=subprocess.DEVNULL) as fleet:
        while not list(out.glob(f"p*/{NIGHT}")) and fleet.poll() is None:
            time.sleep(0.05)
        fleet.kill()
    for _ in range(60):
        done = subprocess.run(words, env=environment, capture_output=True, text=True, check=False)
        if "a fleet is writing" not in done.stderr:
            break
    assert (done.returncode, len(rows_of(done.stdout))) == (0, 12), done.stderr
    assert names(out) == {f"p{k}/{name}" for k in range(12) for name in FILES}
    assert not list(out.glob(f"p*/{NIGHT}")) and not list(out.glob("p*/.*"))
