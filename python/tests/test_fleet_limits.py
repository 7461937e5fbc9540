"""One plant's fault is that plant's row: limits of memory, of size, of time and of folders."""

from __future__ import annotations

import csv
import datetime
import hashlib
import io
import os
import pickle
import stat
import time
from dataclasses import replace
from pathlib import Path
from typing import Any

import pytest
from conftest import Desk, text_of
from hostile import GOOD, NAMES, hanging, hostile_night

from plantbal.faults import InputFault
from plantbal.fleet import limits, outline
from plantbal.fleet.given import Given, SessionTooLarge, _digest
from plantbal.fleet.job import limits as limits_of_job
from plantbal.fleet.night import KeptPlant, Night, Run
from plantbal.fleet.outline import Outline, outline_of
from plantbal.fleet.rows import FleetPlant
from plantbal.fleet.sites import Site, sites
from plantbal.fleet.taking import Taker
from plantbal.inert import inert
from plantbal.limits import SESSION_BYTES
from plantbal.report.blocks import Subject

NIGHT = "2026-11-29"
BLOCK = """report,{0},{1},2,1,10,5000
node,env,0
stream,A,env,U,1,1,redundant,1,0,2,0,2,cut,env,-A +B
solved,1,converged,2,0,1,1999,2000
measure,A,9,9,3,{2}
end,{0},{1}
"""


@pytest.fixture(name="shut")
def fixture_shut(monkeypatch: pytest.MonkeyPatch) -> None:
    """Root may read each folder: here one without rights can't be read by root either."""
    scan = os.scandir

    def scandir(path: Any) -> Any:
        if not stat.S_IMODE(os.stat(path).st_mode):
            raise PermissionError(13, "Permission denied", str(path))
        return scan(path)

    monkeypatch.setattr("plantbal.fleet.sites.os.scandir", scandir)


def test_a_hostile_night(program: Path, tmp_path: Path, say: Desk, shut: None) -> None:
    """Forty plants, one of each hostile kind: forty rows, and the night ends in its time."""
    night = hostile_night(tmp_path / "sessions", letters=200_000, reports=2000)
    begun, out = time.monotonic(), tmp_path / "out"
    words = ("--recursive", "--timeout", "8", "--out", out, "--date", NIGHT)
    said = say("fleet", *words, "--program", hanging(program, tmp_path), night.folder)
    assert time.monotonic() - begun < 120
    rows = list(csv.DictReader(io.StringIO(said.out)))
    found = {row["site"]: row["state"] for row in rows}
    assert found == {inert(name): state for name, state in night.states.items()}, said.err
    assert (said.status, len(found)) == (1, 40)
    looks = {row["site"]: row["look"] for row in rows}
    assert "it has more than 67,108,864 bytes" in looks["sparse"]
    assert looks["letters"] == "100,000 rows are refused"
    assert "Permission denied" in looks["shut"]
    assert (
        "40 plants, of which " in said.err
        and "links to folders aren't followed: a, b, c" in said.err
    )
    page = text_of(out / "index.html")
    assert all(page.count(text) == 0 for text in ("<script>alert", "<td>=cmd"))
    assert not list(tmp_path.rglob("owned")) and not list(out.rglob("*.part"))


def test_folders(tmp_path: Path, shut: None) -> None:
    """Links to folders aren't followed, and a folder that can't be read costs only itself."""
    top = tmp_path / "sessions"
    inner = top / "north" / "deep"
    inner.mkdir(parents=True)
    for each in (top, inner):
        (each / "a.csv").write_text(GOOD)
        (each / "again").symlink_to(top)
    (top / "shut").mkdir(mode=0)
    chosen = sites(top, recursive=True)
    assert [site.name for site in chosen.sites] == ["a", "north/deep/a"]
    assert {site.name: said for site, said in chosen.wrong.items()} == {
        "shut": f"{top / 'shut'}: Permission denied"
    }
    linked = ": a link to a folder isn't followed: again"
    assert chosen.left == [f"{inner}{linked}", f"{top}{linked}"]
    chosen = sites(top)
    assert [site.name for site in chosen.sites] == ["a"] and not chosen.wrong
    assert [said.partition(": ")[0] for said in chosen.left] == [
        str(top / name) for name in ("north", "shut", "")
    ]


def test_very_many_links(tmp_path: Path) -> None:
    """What isn't run is said of some folders, and the others are counted."""
    for number in range(30):
        (tmp_path / f"f{number:02}").mkdir()
        (tmp_path / f"f{number:02}" / "loop").symlink_to("..")
    (tmp_path / "a.csv").write_text(GOOD)
    left = sites(tmp_path, recursive=True).left
    assert len(left) == 21 and left[-1] == f"{tmp_path}: 10 more such folders"


def test_very_many_folders(tmp_path: Path, monkeypatch: pytest.MonkeyPatch) -> None:
    """Neither their number nor their depth is without a limit."""
    inner = tmp_path / "sessions"
    inner.mkdir()
    (inner / "a.csv").write_text(GOOD)
    for number in range(5):
        inner = inner / f"f{number}"
        inner.mkdir()
        (inner / "a.csv").write_text(GOOD)
    for name, said in (("DEPTH", "3 within each other"), ("FOLDERS", "3")):
        with monkeypatch.context() as patch:
            patch.setattr(f"plantbal.fleet.sites.{name}", 3)
            chosen = sites(tmp_path / "sessions", recursive=True)
            assert f"there are more folders than {said}" in "".join(chosen.wrong.values()), name
            assert 3 <= len(chosen.sites) <= 4, name


def test_a_session_that_is_too_large(tmp_path: Path) -> None:
    """It isn't read: its size says enough."""
    path = tmp_path / "a.csv"
    path.touch()
    for size, refused in ((SESSION_BYTES + 1, True), (20 << 30, True), (1 << 20, False)):
        os.truncate(path, size)
        begun = time.monotonic()
        try:
            Given.read(path)
        except SessionTooLarge as fault:
            assert refused and "split it" in str(fault), size
        else:
            assert not refused, size
        assert time.monotonic() - begun < 1, size


def test_a_session_that_grows(tmp_path: Path, monkeypatch: pytest.MonkeyPatch) -> None:
    """Between two looks at it, or while it is read: it is read to its limit, and no further."""
    path = tmp_path / "a.csv"
    path.write_text(GOOD)
    before = Given.read(path)
    assert not before.changed(path)
    os.truncate(path, 20 << 30)
    begun = time.monotonic()
    assert before.changed(path) and time.monotonic() - begun < 1
    monkeypatch.setattr("plantbal.fleet.given.SESSION_BYTES", 10)
    monkeypatch.setattr("plantbal.fleet.given._PART", 4)
    growing = io.BytesIO(b"x" * 100)
    with pytest.raises(SessionTooLarge):
        _digest(growing, path, 5)
    assert growing.tell() == 12
    assert _digest(io.BytesIO(b"x" * 10), path, 5) == hashlib.sha256(b"x" * 10).hexdigest()


def test_what_is_left_of_a_night(tmp_path: Path) -> None:
    """A run that has the wrong form is none: the plant is run again."""
    night, site, what, given = kept(tmp_path, GOOD)
    asked, path = night.asked_of(site, given), night.folder_of(site) / "run.json"
    for name in ("output.csv", "stderr.txt"):
        (path.parent / name).write_text(GOOD)
    run = replace(asked, status=0, output_sha256=hashlib.sha256(GOOD.encode()).hexdigest())
    path.write_bytes(run.to_json())
    assert night.kept(site, asked) is not None
    for old, new in (
        ('"status": 0', '"status": true'),
        ('"begun": 0.0', '"begun": "x"'),
        ('"seconds": 0.0', '"seconds": ' + "[" * 300_000),
        ('"session": "', '"session": 1, "x": "'),
        ('"night": "2026-11-29"', '"night": null'),
    ):
        assert old in run.to_json().decode()
        path.write_text(run.to_json().decode().replace(old, new))
        assert night.kept(site, asked) is None, new


def kept(tmp_path: Path, output: str, session: str = GOOD) -> tuple[Night, Site, KeptPlant, Given]:
    """What is kept of a plant that has this output."""
    night = Night(tmp_path / "out", NIGHT, Path("plantbal"), "", ["other"])
    site = Site("a", tmp_path / "a.csv")
    site.path.write_text(session)
    run = Run("a", NIGHT, str(site.path), "", "plantbal", "", ["run"], status=0)
    folder = night.folder_of(site)
    folder.mkdir(parents=True, exist_ok=True)
    night.output_of(site).write_text(output)
    return night, site, KeptPlant(run, len(output), {}), Given.read(site.path)


def test_taking_in(tmp_path: Path) -> None:
    """Out of memory, out of time or with a fault: it is that plant's row, and the next one's is good."""
    good = BLOCK.format("may", 0, "accept")
    many = "".join(BLOCK.format(f"p{number}", 0, "reject") for number in range(40_000))
    for output, taker, state, said in (
        (many, Taker(memory=100 * limits.MIB), "NoMemory", "104,857,600 bytes of memory to read"),
        (many, Taker(seconds=0.05), "timeout", "its output takes more than 0.05 s to read"),
        (good.replace(",0,2,", ",x,2,"), Taker(), "unreadable", ""),
    ):
        with taker:
            plants: list[FleetPlant] = []
            taker.plant(*kept(tmp_path, output), plants.append)
            taker.finish()
            (plant,) = plants
            assert (plant.rows[0].state, said in "".join(plant.why)) == (state, True), plant
            taker.plant(*kept(tmp_path, good), plants.append)
            taker.finish(20)
            wanted = "timeout" if state == "timeout" else "converged"
            assert plants[1].rows[0].state in ("converged", wanted), plants[1]


def test_a_reader_that_is_killed(tmp_path: Path, monkeypatch: pytest.MonkeyPatch) -> None:
    """A process of a plant that ends otherwise is a row; so is one that has more to say."""
    from plantbal.fleet import taking

    night, site, what, given = kept(tmp_path, "")
    task, server = taking.TakingTask(site, night, what, given), taking.Server(1 << 30, 0.5)
    for done, end in (
        (lambda _: os._exit(9), taking.End.SIGNAL),
        (lambda _: "x" * 1000, taking.End.FAULT),
        (lambda _: 1 / 0, taking.End.FAULT),
        (lambda _: bytearray(1 << 40), taking.End.MEMORY),
        (lambda _: time.sleep(9), taking.End.TIME),
        (lambda _: 7, taking.End.DONE),
    ):
        monkeypatch.setattr(taking.TakingTask, "done", done)
        monkeypatch.setattr(taking, "TOLD_BYTES", 500)
        server.stop()
        assert pickle.loads(server.answer(task)).end is end, end
    assert pickle.loads(server.answer(task)).found == 7
    assert server.stop() in (0, -9) and server.stop() == 0


def test_outputs_are_streams(tmp_path: Path, monkeypatch: pytest.MonkeyPatch) -> None:
    """Of each subject the last report is kept, whatever pieces the output is read in."""
    path = tmp_path / "output.csv"
    rows = "refused,1,1,kind\nrefused,2,1,kind\nover,june,A\n"
    parts = [BLOCK.format("may", 0, "reject"), BLOCK.format("may", 1, "accept")]
    path.write_text(rows + "".join(parts) * 50 + "component,cu,may\n" + parts[0])
    wanted: Outline | None = None
    for piece in (1, 7, 100, 1 << 20):
        monkeypatch.setattr(outline, "_PIECE", piece)
        found = outline_of(path)
        assert wanted is None or found == wanted, piece
        wanted = found
    assert wanted is not None
    assert (wanted.refused, wanted.refused_count, wanted.has_components) == ({1, 2}, 2, True)
    assert [str(each) for each in wanted.last] == ["may", "cu in may"]
    assert len(wanted.answers) == 52 and len(wanted.last[Subject("may")]) == 7
    path.write_text(path.read_text() + "measure,A,9\n")
    with pytest.raises(Exception, match=r"line 611: a measure row has 6 columns, this one has 3"):
        outline_of(path)


def test_outputs_that_no_program_writes(tmp_path: Path) -> None:
    """A field that isn't of its column is a sentence, whichever row has it."""
    path = tmp_path / "output.csv"
    for row, said in (
        ("refused,x,1,kind", "at of a refused row is 'x': it has to be a whole number"),
        ("unreadable,None,1,kind", "at of a unreadable row is 'None'"),
        ("no,may,0,x,class,,0,0", "code of a no row is 'x'"),
        ("design,9,None", "streams of a design row is 'None'"),
        ("report,may,None,2,1,10,5000", "round of a report row is 'None'"),
    ):
        path.write_text(BLOCK.format("may", 0, "accept") + row + "\n")
        with pytest.raises(InputFault) as fault:
            outline_of(path)
        assert said in str(fault.value), row


def test_limits_of_the_program(tmp_path: Path, say: Desk) -> None:
    """A program that asks for more memory, or writes more, costs only its own plant."""
    assert limits_of_job(1 << 30, 1 << 20).startswith("trap '' XFSZ; ulimit -v 1048576; ulimit -f")
    (tmp_path / "sessions").mkdir()
    for name in ("memory", "size", "good"):
        (tmp_path / "sessions" / f"{name}.csv").write_text(f"{name}\n")
    program = tmp_path / "program"
    program.write_text(
        "#!/usr/bin/python3\nimport os, sys\nwhat = sys.stdin.read().strip()\n"
        "try:\n    held = bytearray((what == 'memory') << 32)\n"
        "    if what == 'size':\n        os.ftruncate(1, 1 << 30); os.lseek(1, 0, os.SEEK_END)\n"
        "        os.write(1, b'x')\n"
        "except MemoryError: sys.exit(6)\n"
        "except OSError: sys.exit(4)\n"
    )
    program.chmod(0o755)
    for more in ([], ["--retries", "2"], ["--engine", "dask"]):
        words = ("--program", program, "--date", NIGHT, "--jobs", "1", *more)
        said = say("fleet", *words, "--out", tmp_path / "out", "--again", tmp_path / "sessions")
        found = {row["site"]: row for row in csv.DictReader(io.StringIO(said.out))}
        assert found["memory"]["state"] == "NoMemory", (more, said.err)
        assert found["size"]["state"] == "WriteFault", (more, said.err)
        assert "more than 1,073,741,824 bytes: ask for fewer reports" in found["size"]["look"], more
        assert found["good"]["state"] == "none", more


def test_a_wrong_clock(program: Path, tmp_path: Path, say: Desk) -> None:
    """A night in the future holds `latest`: that is said in each night, with status 1."""
    (tmp_path / "sessions").mkdir()
    (tmp_path / "sessions" / "a.csv").write_text(GOOD)
    out, sessions = tmp_path / "out", tmp_path / "sessions"
    words = ("fleet", "--program", program, "--out", out, sessions)
    later = (datetime.date.today() + datetime.timedelta(days=400)).isoformat()
    for name in (later, NIGHT):
        said = say(*words, "--date", name)
        assert said.status == 1 and f"the night {later} lies in the future" in said.err, said
        assert (out / "latest").readlink().name == later
    for path in (out / "nights" / later, out / "a" / later):
        path.rename(tmp_path / path.parent.name)
    said = say(*words, "--date", NIGHT, "--again")
    assert (said.status, "future" in said.err) == (0, False), said.err
    assert (out / "latest").readlink().name == (out / "a" / "latest").readlink().name == NIGHT


def test_a_disk_that_fails(program: Path, tmp_path: Path, say: Desk) -> None:
    """`latest` stays if the files of a night may not be on the disk."""
    (tmp_path / "bin").mkdir()
    sync = tmp_path / "bin" / "sync"
    sync.write_text("#!/bin/sh\necho 'sync: error syncing: Input/output error' >&2\nexit 1\n")
    sync.chmod(0o755)
    (tmp_path / "sessions").mkdir()
    (tmp_path / "sessions" / "a.csv").write_text(GOOD)
    with pytest.MonkeyPatch.context() as patch:
        patch.setenv("PATH", f"{sync.parent}:{os.environ['PATH']}")
        words = ("--program", program, "--out", tmp_path / "out", "--date", NIGHT)
        said = say("fleet", *words, tmp_path / "sessions")
    assert said.status == 3 and "the night may not be on the disk: sync: error" in said.err
    assert not (tmp_path / "out" / "latest").is_symlink()


def test_a_program_that_is_not_believed(program: Path, tmp_path: Path, say: Desk) -> None:
    """An output that doesn't agree with itself is a row, and isn't kept under its name."""
    forger = tmp_path / "forger"
    forger.write_text(f'#!/bin/sh\n"{program}" "$@" | sed "s/^stream,FEED,.*redundant,/&1/"\n')
    (tmp_path / "sessions").mkdir()
    (tmp_path / "sessions" / "a.csv").write_text(GOOD)
    forger.chmod(0o755)
    out, words = tmp_path / "out", ("--out", tmp_path / "out", tmp_path / "sessions")
    assert say("fleet", "--program", program, "--date", "2026-11-28", *words).status == 0
    said = say("fleet", "--program", forger, "--date", NIGHT, *words)
    (row,) = csv.DictReader(io.StringIO(said.out))
    assert (said.status, row["state"], row["status"]) == (1, "refused", "0"), said
    assert "the block of may, round 0, fails the test " in said.err
    names = {path.name for path in (out / "a" / NIGHT).iterdir()}
    assert names == {"refused-output.csv", "stderr.txt", "run.json"}
    assert (out / "a" / "latest").readlink().name == "2026-11-28"
    sums = text_of(out / "nights" / NIGHT / "SHA256SUMS")
    assert f"a/{NIGHT}/refused-output.csv" in sums and f"{NIGHT}/output.csv" not in sums
    said = say("fleet", "--program", program, "--date", NIGHT, *words)
    assert said.status == 0 and (out / "a" / "latest").readlink().name == NIGHT, said


def test_the_names_are_hostile() -> None:
    """The names of the night are of each kind: words, formulas, commands, markup, direction."""
    firsts = {name[0] for name in NAMES}
    assert {"-", "=", "@", "$", "`", '"', "<"} <= firsts
    assert any(not name.isprintable() for name in NAMES)
