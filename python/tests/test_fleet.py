"""Fleets: what each plant's row says, what is kept, and what a fleet that was stopped does next."""

from __future__ import annotations

import csv
import io
import json
import os
import re
import signal
import sqlite3
import subprocess
import time
from collections.abc import Callable, Collection
from contextlib import closing
from dataclasses import replace
from pathlib import Path

import pytest
from conftest import TOP, Desk, example, text_of
from mistakes import BASE, MISTAKES, Mistake

from plantbal.faults import InputFault
from plantbal.fleet.gather import gap_and_sweeps, gather
from plantbal.fleet.given import Given, given_days, has_critical, sha256_of
from plantbal.fleet.job import run_here
from plantbal.fleet.keep import checksums
from plantbal.fleet.night import Night
from plantbal.fleet.rows import HEADS
from plantbal.fleet.sites import Site, sites
from plantbal.inert import inert
from plantbal.report.blocks import Subject, over_of, subjects_of
from plantbal.report.parsing import parse_rows

SITE = """unit,U
stream,FEED,env,U,metered,1
stream,PRODUCT,U,env,metered,1
period,may,2024-05-01,2024-05-01
reading,f,FEED,2024-05-01,{},1999999999999
reading,p,PRODUCT,2024-05-01,100000000,1999999999999
report,may
"""
NIGHT = "2026-11-29"
Row = dict[str, str]


def rows_of(text: str) -> list[Row]:
    """The rows of a table."""
    return list(csv.DictReader(io.StringIO(text)))


def row_of(text: str, site: str) -> Row:
    """The row of a site that has one."""
    (row,) = [row for row in rows_of(text) if row["site"] == site]
    return row


def folder_of(folder: Path, sessions: dict[str, bytes]) -> Path:
    """A folder of sessions."""
    folder.mkdir()
    for name, data in sessions.items():
        (folder / name).write_bytes(data)
    return folder


@pytest.fixture(name="plants", scope="module")
def fixture_plants(tmp_path_factory: pytest.TempPathFactory) -> Path:
    """Twenty plants of one unit, the feed's meter k t high at plant k."""
    sessions = {f"site {k:02}.csv": SITE.format((100 + k) * 1_000_000) for k in range(1, 21)}
    sessions["site 07.csv"] += "unit,V W\n"
    sessions["site 11.csv"] = "unit,U\n"
    data = {name: text.encode() for name, text in sessions.items()}
    return folder_of(tmp_path_factory.mktemp("plants") / "sessions", data)


def wanted(k: int) -> tuple[str, ...]:
    """The statistic is (k t)^2 / (4 t^2), the sum of both variances, less what roundings leave."""
    if k == 11:
        return "", "none", "", "0", "0"
    low = k * k * 250 - 1
    statistic = f"{low // 1000}.{low % 1000:03}"
    return "may", "converged", statistic, str(int(k == 7)), str(int(k == 7))


ENGINES = {
    "parallel": [],
    "dask": ["--engine", "dask"],
    "dask with bytes": ["--send"],
}


@pytest.mark.parametrize("words", ENGINES.values(), ids=ENGINES)
def test_engine(program: Path, plants: Path, tmp_path: Path, words: list[str]) -> None:
    out = tmp_path / "out"
    command = [
        TOP / "plantbal-desk",
        "fleet",
        "--program",
        program,
        "--jobs",
        "2",
        "--date",
        NIGHT,
        *words,
    ]
    done = subprocess.run(
        [*command, "--out", out, plants], capture_output=True, text=True, timeout=300, check=False
    )
    columns = ("period", "state", "statistic", "refused", "status")
    found = {row["site"]: tuple(row[name] for name in columns) for row in rows_of(done.stdout)}
    assert found == {f"site {k:02}": wanted(k) for k in range(1, 21)}, done.stderr
    said = done.stderr.splitlines()
    assert (
        said[0].startswith("plantbal-desk fleet: site 07: 1 row is refused: ")
        and "'V W'" in said[0]
    )
    assert "it asks for nothing; add a row report,PERIOD" in said[1]
    assert said[2:] == [
        f"plantbal-desk fleet: 20 plants, of which 2 need a person: {out / 'index.html'}"
    ]
    assert done.returncode == 1
    kept = {path.relative_to(out / "site 01").as_posix() for path in out.glob("site 01/**/*")}
    files = {f"{NIGHT}/{name}" for name in ("output.csv", "stderr.txt", "run.json")}
    assert kept == {NIGHT, "latest"} | files
    assert not list(out.rglob("*.part"))


def test_too_large(program: Path, tmp_path: Path, say: Desk) -> None:
    """A session that is a byte too long has a row, and isn't even read."""
    folder = folder_of(tmp_path / "sessions", {"a.csv": b""})
    os.truncate(folder / "a.csv", 67_108_865)
    out = tmp_path / "out"
    found = say("fleet", "--program", program, "--out", out, "--date", NIGHT, folder)
    row = row_of(found.out, "a")
    assert (found.status, row["state"], row["status"]) == (1, "TooLarge", "")
    said = f"fleet: a: {folder / 'a.csv'}: it has more than 67,108,864 bytes: split it"
    assert said in found.err, found.err
    assert not (out / "a").exists()


def test_what_is_kept(program: Path, tmp_path: Path, say: Desk) -> None:
    sessions = folder_of(tmp_path / "sessions", {"a b.csv": SITE.format(100_000_000).encode()})
    out = tmp_path / "out"
    words = ["fleet", "--program", program, "--out", out, sessions]
    first = say(*words[:-1], "--date", "2026-11-28", sessions)
    found = say(*words[:-1], "--date", NIGHT, "--level", "0.01", sessions, "--", "run", "--tests")
    assert (first.status, found.status) == (0, 0)
    assert (out / "latest").readlink() == Path("nights", NIGHT)
    assert (out / "a b" / "latest").readlink() == Path(NIGHT)
    assert text_of(out / "latest" / "table.csv") == found.out
    assert "measure,FEED" in text_of(out / "a b" / "latest" / "output.csv")
    assert "measure" not in text_of(out / "a b" / "2026-11-28" / "output.csv")
    kept = json.loads(text_of(out / "a b" / NIGHT / "run.json"))
    assert (kept["words"], kept["status"]) == (["run", "--tests"], 0)
    for sums in ("SHA256SUMS", "sessions.sha256"):
        subprocess.run(["sha256sum", "--check", f"latest/{sums}"], cwd=out, check=True)
    with closing(sqlite3.connect(out / "fleet.sqlite")) as base:
        nights = base.execute("SELECT night, words, plants, wanting FROM nights").fetchall()
        assert nights == [("2026-11-28", "run", 1, 0), (NIGHT, "run --tests", 1, 0)]
        plants = base.execute("SELECT night, site, state, statistic, dof, critical FROM plants")
        said = ("a b", "converged", 0.0, 1, None)
        assert plants.fetchall() == [("2026-11-28", *said), (NIGHT, *said)]
    page = text_of(out / "index.html")
    assert "<h1>1 plant, of which none needs a person</h1>" in page
    assert 'href="a%20b/2026-11-29/output.csv"' in page
    assert page.count('title="2026-11-') == 2
    # an older night changes no link
    assert say(*words[:-1], "--date", "2026-11-27", sessions).status == 0
    assert (out / "latest").readlink() == Path("nights", NIGHT)
    assert (out / "a b" / "latest").readlink() == Path(NIGHT)
    # words that are none take each night's output: the link leads to the last one that has its own
    for night, left in ((NIGHT, "2026-11-28"), ("2026-11-28", "2026-11-27"), ("2026-11-27", "")):
        assert say(*words[:-1], "--date", night, sessions, "--", "walk").status == 1
        newest = out / "a b" / "latest"
        assert (newest.readlink() == Path(left)) if left else not newest.is_symlink()


def test_each_mistake(program: Path, tmp_path: Path, say: Desk) -> None:
    """What is told by refused rows, by the global test or by lint is told by the plant's row."""
    data = {f"{each.name}.csv": each.session() for each in MISTAKES}
    sessions = folder_of(tmp_path / "sessions", {"00 base.csv": BASE, **data})
    out = tmp_path / "out"
    words = ["--program", program, "--lint", "--out", out, sessions, "--", "run", "--tests"]
    found = say("fleet", *words)
    assert found.status == 1
    assert len(rows_of(found.out)) == len(MISTAKES) + 1 > 40
    assert row_of(found.out, "00 base")["look"] == ""
    for each in MISTAKES:
        row = row_of(found.out, each.name)
        check_mistake(each, row)
        assert (f"plantbal-desk fleet: {each.name}" in found.err) == bool(
            row["look"] or row["warnings"]
        )
    assert f"{len(MISTAKES) + 1} plants, of which" in found.err.splitlines()[-1]


def check_mistake(mistake: Mistake, row: Row) -> None:
    """What is said of a plant with a mistake."""
    rejected = mistake.verdict == "reject"
    assert (row["state"] == "none") == (mistake.verdict == "-"), row
    assert row["verdict"] == mistake.verdict.replace("-", ""), row
    assert bool(row["suspects"]) == (rejected and mistake.suspects and not mistake.refused), row
    assert (row["refused"] != "0") == bool(mistake.refused), row
    assert bool(row["first_refusal"]) == bool(mistake.refused), row
    assert mistake.lint <= set(re.findall("[a-z-]+", row["warnings"])), row
    wants = mistake.refused or mistake.verdict in ("reject", "-", "nocritical")
    assert bool(row["look"]) == bool(wants), row


# A program that ends badly for sessions of some names, and else is plantbal.
ENDS = """#!/bin/sh
case $(readlink "/proc/$$/fd/0") in
*/garbage.csv) echo hello, world ;;
*/cut.csv) "$REAL" "$@" | head -n 30 ;;
*/nothing.csv) ;;
*/killed.csv) kill -9 $$ ;;
*/crashed.csv) kill -SEGV $$ ;;
*/memory.csv) echo NoMemory >&2; exit 6 ;;
*/usage.csv) echo Usage >&2; exit 2 ;;
*/slow.csv) exec sleep 600 ;;
*) exec "$REAL" "$@" ;;
esac
"""
TEXT = BASE.decode()
# Of each fault: the session, the state of its plant, and what is said of it.
FAULTS: dict[str, tuple[bytes, str, str]] = {
    "utf16": (b"\xff\xfe" + TEXT.encode("utf-16-le"), "none", "this is UTF-16"),
    "semicolons": (TEXT.replace(",", ";").encode(), "none", "semicolons"),
    "tabs": (TEXT.replace(",", "\t").encode(), "none", "tabs"),
    "empty": (b"", "none", "it has no row"),
    "asks nothing": (
        TEXT.replace("report,may1\n", "").encode(),
        "none",
        "there is no report; add a row",
    ),
    "workbook": (b"PK\3\4" + bytes(range(256)), "none", "workbook"),
    "refused": (TEXT.replace("FUEL_GAS", "FUEL GAS").encode(), "converged", "'FUEL GAS'"),
    "zeros": (
        re.sub(r"(?m)^(reading,.*,\d+)(,\d+)$", r"\1.0\2", TEXT).encode(),
        "converged",
        "without the refused rows nothing checks its flows: don't book them",
    ),
    "rejected": (
        next(each for each in MISTAKES if each.name == "kilograms").session(),
        "converged",
        "the global test rejects; suspects are",
    ),
    "no critical value": (
        re.sub(r"critical,global,4,.*\n", "", TEXT).encode(),
        "converged",
        "the global test can't be made",
    ),
    "over": (example("conformance/over.in").read_bytes(), "over", "is beyond the limits"),
    "garbage": (BASE, "unreadable", "output.csv: line 1"),
    "cut": (BASE, "unreadable", "its report is cut off"),
    "nothing": (BASE, "unreadable", "none of the reports that its session asks for"),
    "killed": (BASE, "ended", "signal 9 stopped it; often that means that memory ran out"),
    "crashed": (BASE, "ended", "status 139; signal 11 stopped it"),
    "memory": (BASE, "NoMemory", "it ran out of memory"),
    "usage": (BASE, "Usage", "this program has no such command"),
    "slow": (BASE, "timeout", "stopped by the time limit"),
    "latest": (BASE, "nosession", "is reserved for the nights"),
}


def test_forty_with_each_fault(
    program: Path, tmp_path: Path, say: Desk, monkeypatch: pytest.MonkeyPatch
) -> None:
    """Each plant with a fault is told by the table, the database and the page, and no other one."""
    stub = tmp_path / "plantbal"
    stub.write_text(ENDS)
    stub.chmod(0o755)
    monkeypatch.setenv("REAL", str(program))
    sessions = {f"{name}.csv": data for name, (data, _, _) in FAULTS.items()}
    sessions |= {f"{number:02}.csv": BASE for number in range(40 - len(FAULTS))}
    folder, out = folder_of(tmp_path / "sessions", sessions), tmp_path / "out"
    words = ["fleet", "--program", stub, "--timeout", 6, "--out", out, "--date", NIGHT, folder]
    found = say(*words, "--", "run", "--tests")
    assert found.status == 1
    rows = {row["site"]: row for row in rows_of(found.out)}
    assert len(rows) == len(rows_of(found.out)) == 40
    for name, (_, state, said) in FAULTS.items():
        row = rows[name]
        assert row["state"] == state and said in row["look"] + row["first_refusal"], row
        assert any(
            line.startswith(f"plantbal-desk fleet: {name}") for line in found.err.splitlines()
        )
    assert {name for name, row in rows.items() if row["look"]} == set(FAULTS)
    assert f"40 plants, of which {len(FAULTS)} need a person" in found.err.splitlines()[-1]
    with closing(sqlite3.connect(out / "fleet.sqlite")) as base:
        kept = base.execute("SELECT site, state, look FROM plants ORDER BY site").fetchall()
    assert kept == [(name, row["state"], row["look"]) for name, row in sorted(rows.items())]
    page = text_of(out / "index.html")
    assert page.count('<tr class="look">') == len(FAULTS)
    assert page.rindex('<tr class="look">') < page.index('<tr class="good">')
    assert text_of(out / "nights" / NIGHT / "table.csv") == found.out


def test_windows_and_balances(program: Path, tmp_path: Path, say: Desk) -> None:
    """Windows and balances of components have rows of their own, beside those of the periods."""
    shipped = ("flotation_copper.csv", "missed_dip.csv", "conformance/component.in")
    data = {f"{Path(name).stem}.csv": example(name).read_bytes() for name in shipped}
    over = example("conformance/window.in").read_bytes() + b"report,p6\nreport,p7\n"
    folder = folder_of(tmp_path / "sessions", {**data, "over.csv": over})
    words = ["--program", program, "--out", tmp_path / "out", folder, "--", "run", "--tests"]
    found = say("fleet", *words)
    rows = {(row["site"], row["period"]): row for row in rows_of(found.out)}
    said = ("state", "dof", "statistic", "verdict", "look")
    balance, report = rows["flotation_copper", "cu in jun03"], rows["flotation_copper", "jun03"]
    assert [balance[name] for name in said] == ["converged", "1", "0.090", "accept", ""]
    assert [report[name] for name in said] == ["converged", "2", "1.425", "accept", ""]
    window = rows["missed_dip", "may1 to may4"]
    assert [window[name] for name in said] == ["converged", "7", "1.786", "accept", ""]
    assert window["days"] == "2024-05-01..2024-05-04"
    assert "big in d2: no balance: the total of T is beyond the limits" in found.err
    assert "p6 to p7: no window: the total of s2.0 is beyond the limits" in found.err
    assert (rows["over", "p7"]["state"], rows["over", "p7 to p7"]["state"]) == ("over", "over")
    assert rows["over", "p6 to p6"]["state"] == rows["over", "p1 to p4"]["state"] == "converged"


MAY, CUT, REPORT = Subject("may"), "over,may,S", "report,may,0,1,0,10,5000"
JUNE, COPPER = Subject("may", last="june"), Subject("may", component="cu")
NONE = frozenset[int]()
ANSWERS = {
    "later over": ("report,may\nreport,may", NONE, [REPORT, CUT], {MAY: "S"}),
    "later report": ("report,may\nreport,may,,", NONE, [CUT, REPORT], {}),
    "refused": ("unit,U\nreport,june\nreport,may", {2}, [CUT], {MAY: "S"}),
    "window": ("window,may,june\ncomponent,cu,may", NONE, [CUT, REPORT], {JUNE: "S"}),
    "balance": ("report,may\ncomponent,cu,may", NONE, [REPORT, CUT], {COPPER: "S"}),
    "another session": ("report,may", NONE, [CUT, REPORT], {MAY: "S"}),
}


@pytest.mark.parametrize("session, refused, output, over", ANSWERS.values(), ids=ANSWERS)
def test_what_is_beyond_the_limits(
    session: str, refused: Collection[int], output: list[str], over: dict[Subject, str]
) -> None:
    """A total counts until a later answer to the same question, and stands beside other answers."""
    rows = parse_rows("out", "\n".join(output))
    assert over_of(rows, subjects_of(session.encode(), refused)) == over


OUTPUTS = {
    "garbage": ("echo hello, world", "unreadable", "output.csv: line 1"),
    "bytes": ("printf '\\377\\376'", "unreadable", "UTF-16"),
    "cut": ("sed '$d' $CANNED", "unreadable", "its report is cut off"),
    "window": ("echo window,may1,may2,2", "unreadable", "a window is cut off"),
    "advice": ("echo advise,2,3", "unreadable", "the advice is cut off"),
    "usage": (
        "echo Usage >&2; exit 2",
        "Usage",
        "status 2, Usage; this program has no such command",
    ),
    "memory": ("echo NoMemory >&2; exit 6", "NoMemory", "it ran out of memory"),
    "other": ("echo no such luck >&2; exit 17", "ended", "status 17; no such luck"),
    "killed": ("kill -9 $$", "ended", "signal 9 stopped it; often that means that memory ran out"),
    "crashed": ("kill -SEGV $$", "ended", "status 139; signal 11 stopped it"),
    "status 1": (
        'cat "$CANNED"; exit 1',
        "converged",
        "status 1, and no row of its output says why",
    ),
    "nothing": ("exit 0", "unreadable", "none of the reports that its session asks for"),
    "late": ("exec sleep 60", "timeout", "stopped by the time limit"),
}


@pytest.mark.parametrize("engine", ["parallel", "dask"])
def test_outputs(tmp_path: Path, say: Desk, monkeypatch: pytest.MonkeyPatch, engine: str) -> None:
    """An output that can't be read is a row, and so is each end of the program but its own."""
    monkeypatch.setenv("CANNED", str(example("refinery_day.out.csv")))
    cases = "".join(f"'{name}') {made} ;;\n" for name, (made, _, _) in OUTPUTS.items())
    program = tmp_path / "stub"
    program.write_text(f'#!/bin/sh\nread case\ncase $case in\n{cases}*) cat "$CANNED";;\nesac\n')
    program.chmod(0o755)
    texts = {name: f"{name}\nreport,may1\n" for name in [*OUTPUTS, "good"]}
    sessions = {f"{name}.csv": text.encode() for name, text in texts.items()}
    folder = folder_of(tmp_path / "sessions", sessions)
    words = ["fleet", "--program", program, "--timeout", "3", "--jobs", "4", "--engine", engine]
    found = say(*words, "--out", tmp_path / "out", folder)
    assert found.status == 1
    assert row_of(found.out, "good")["look"] == ""
    assert "memory" not in row_of(found.out, "crashed")["look"]
    for name, (_, state, said) in OUTPUTS.items():
        row = row_of(found.out, name)
        assert (row["state"], said in row["look"]) == (state, True), row
    assert f"{len(OUTPUTS) + 1} plants, of which {len(OUTPUTS)} need" in found.err


def test_sessions_share_a_job(tmp_path: Path, say: Desk, monkeypatch: pytest.MonkeyPatch) -> None:
    """Small sessions do: how each ends is its own, whatever becomes of those before it."""
    monkeypatch.setenv("CANNED", str(example("refinery_day.out.csv")))
    ends = {name: case for name, case in OUTPUTS.items() if name != "late"}
    cases = "".join(f"'{name}') {made} ;;\n" for name, (made, _, _) in ends.items())
    program = tmp_path / "stub"
    program.write_text(f'#!/bin/sh\nread case\ncase $case in\n{cases}*) cat "$CANNED";;\nesac\n')
    program.chmod(0o755)
    good = [f"good {number}" for number in range(40)]
    texts = {name: f"{name}\nreport,may1\n" for name in [*ends, *good]}
    sessions = {f"{name}.csv": text.encode() for name, text in texts.items()}
    folder, out = folder_of(tmp_path / "sessions", sessions), tmp_path / "out"
    words = ["fleet", "--program", program, "--jobs", "2", "--date", NIGHT, "--out", out, folder]
    found = say(*words)
    assert all(row_of(found.out, name)["look"] == "" for name in good)
    for name, (_, state, said) in ends.items():
        row = row_of(found.out, name)
        assert (row["state"], said in row["look"]) == (state, True), row
    log = out / "nights" / NIGHT / "joblog"
    assert 5 < len(text_of(log).splitlines()) - 1 < len(texts)
    for name in good:
        kept = json.loads(text_of(out / name / NIGHT / "run.json"))
        assert kept["status"] == 0 and kept["begun"] > 0 and kept["seconds"] >= 0
    assert not list(out.rglob("*.part"))
    # With these words each has a job of its own.
    for before, after in ((["--timeout", "60"], []), ([], ["--", "run", "--tests"])):
        assert say("fleet", "--again", *before, *words[1:], *after).status == 1
        assert len(text_of(log).splitlines()) - 1 == len(texts)


@pytest.mark.parametrize("engine", ["parallel", "dask"])
def test_a_plant_that_cannot_begin(tmp_path: Path, say: Desk, engine: str) -> None:
    """It has its row, and the one after it that the time limit stops is still known by its name."""
    program, canned = tmp_path / "stub", example("refinery_day.out.csv")
    program.write_text(f"#!/bin/sh\nread case\n[ $case != c ] || exec sleep 60\ncat {canned}\n")
    program.chmod(0o755)
    sessions = {f"{name}.csv": f"{name}\n".encode() for name in "abcd"}
    folder, out = folder_of(tmp_path / "sessions", sessions), tmp_path / "out"
    out.mkdir()
    (out / "b").write_text("no folder")
    words = ["fleet", "--engine", engine, "--program", program, "--timeout", 2, "--out", out]
    found = say(*words, folder)
    states = {row["site"]: row["state"] for row in rows_of(found.out)}
    assert states == {"a": "converged", "b": "nooutput", "c": "timeout", "d": "converged"}
    assert "b: " in found.err and "Not a directory" in found.err


def test_tries_again(tmp_path: Path, say: Desk) -> None:
    """A plant that fails once is tried again, if more tries are allowed."""
    program = tmp_path / "stub"
    canned = example("refinery_day.out.csv")
    text = f"#!/bin/sh\ncd {tmp_path}\n[ -e tried ] || {{ >tried; exit 6; }}\ncat {canned}\n"
    program.write_text(text)
    program.chmod(0o755)
    folder = folder_of(tmp_path / "sessions", {"a.csv": b"unit,U\n"})
    for engine in ("parallel", "dask"):
        words = ["fleet", "--engine", engine, "--program", program, "--out", tmp_path / engine]
        (tmp_path / "tried").unlink(missing_ok=True)
        assert row_of(say(*words, folder).out, "a")["state"] == "NoMemory"
        (tmp_path / "tried").unlink()
        found = say(*words, "--retries", 2, folder)
        assert row_of(found.out, "a")["state"] == "converged", found.err


def test_cluster(
    forty: tuple[Path, Path, list[object]], say: Desk, monkeypatch: pytest.MonkeyPatch
) -> None:
    """A machine of a cluster needs nothing of this package; one that sees no folder gets bytes."""
    distributed = pytest.importorskip("distributed")
    _, out, words = forty
    some_of(words, 10)
    plain = {name: value for name, value in os.environ.items() if name != "PYTHONPATH"}
    with distributed.LocalCluster(
        n_workers=0, processes=False, protocol="tcp", dashboard_address=None
    ) as cluster:
        monkeypatch.setattr("plantbal.fleet.by_dask._ANSWERS", 1)
        words = ["fleet", "--scheduler", cluster.scheduler_address, *words]
        assert "has no machine: start `dask-worker`" in say(*words).err
        monkeypatch.setattr("plantbal.fleet.by_dask._ANSWERS", 120)
        worker = ["dask-worker", "--no-nanny", "--no-dashboard", "--nthreads", "8"]
        with subprocess.Popen(
            [*worker, cluster.scheduler_address], cwd="/", env=plain, stderr=subprocess.DEVNULL
        ) as machine:
            shared, sent = say(*words), say(*words, "--again", "--send")
            machine.kill()
    assert (shared.status, sent.status) == (0, 0), shared.err + sent.err
    assert len(rows_of(shared.out)) == len(rows_of(sent.out)) == 10
    assert shared.err == sent.err
    assert len(list(out.glob("*/latest/output.csv"))) == 10
    digest = sha256_of(Path(str(words[words.index("--program") + 1])))
    for path in out.glob("*/latest/run.json"):  # of the program that the worker ran
        assert json.loads(path.read_text())["program_sha256"] == digest, path


def test_a_cluster_that_is_not_reached(say: Desk, tmp_path: Path, program: Path) -> None:
    """With TLS and no certificates it is a sentence, and no traceback."""
    folder = folder_of(tmp_path / "sessions", {"a.csv": SITE.format(100_000_000).encode()})
    words = ("fleet", "--scheduler", "tls://127.0.0.1:9", "--program", program)
    found = say(*words, "--out", tmp_path / "out", folder)
    assert found.status == 3 and "set its certificates, DASK_DISTRIBUTED__COMM__TLS" in found.err


def test_another_program_on_a_machine(tmp_path: Path, program: Path) -> None:
    """A plant that another program ran than the night's needs a person, as one with another gap."""
    session, out = tmp_path / "a.csv", tmp_path / "out"
    session.write_text(SITE.format(100_000_000))
    site, given = Site("a", session), Given.read(session)
    night = Night(out, NIGHT, program, "0" * 64, ["run", "--gap=20"])
    night.begin(site)
    part = night.part_of(site)
    digest = run_here([str(program), "run"], str(session), str(part / "output.csv"), None, "")
    assert digest == sha256_of(program)
    asked = replace(night.asked_of(site, given), program_sha256=digest)
    plant = gather(night, site, night.publish(site, asked), given)
    said = [*plant.why, *plant.why_of["may"]]
    assert any(
        "another program than the others, with the SHA-256 " + digest in each for each in said
    )
    assert "its report has the gap 10, and 20 was asked for" in said
    assert gap_and_sweeps(["run", "--sweeps", "7", "--gap=3", "--tests"]) == {
        "gap": "3",
        "sweeps": "7",
    }
    assert gap_and_sweeps(["check"]) == {}


STUB = """#!/bin/sh
read site
echo "$site" >>{log}
sleep 0.1
cat {canned}
"""


@pytest.fixture(name="forty")
def fixture_forty(tmp_path: Path) -> tuple[Path, Path, list[object]]:
    """Forty plants, a program that logs which it runs, and the words that run them."""
    log, program = tmp_path / "log", tmp_path / "stub"
    program.write_text(STUB.format(log=log, canned=example("refinery_day.out.csv")))
    program.chmod(0o755)
    data = {f"{k:02}.csv": f"{k:02}\n".encode() for k in range(40)}
    folder = folder_of(tmp_path / "sessions", data)
    out = tmp_path / "out"
    words = ["--program", program, "--jobs", 2, "--date", NIGHT, "--out", out, folder]
    return log, out, words


def some_of(words: list[object], count: int) -> Path:
    """The folder of the forty, of which only the first ones are left."""
    folder = Path(str(words[-1]))
    for path in sorted(folder.iterdir())[count:]:
        path.unlink()
    return folder


def wait_for(what: Callable[[], bool]) -> None:
    """Wait until something is so."""
    end = time.monotonic() + 60
    while not what():
        assert time.monotonic() < end
        time.sleep(0.02)


def take_interrupts() -> None:
    """Take Ctrl-C, which a shell has its background jobs ignore, and these what they start."""
    signal.signal(signal.SIGINT, signal.SIG_DFL)


STOPS = [("parallel", by) for by in (signal.SIGINT, signal.SIGTERM, signal.SIGKILL)]


@pytest.mark.parametrize("engine, by", [*STOPS, ("dask", signal.SIGINT)])
def test_stopped(
    forty: tuple[Path, Path, list[object]], say: Desk, engine: str, by: signal.Signals
) -> None:
    """What has its output isn't run again, and nothing looks whole that isn't."""
    log, out, words = forty
    words = ["--engine", engine, *words]
    command = [str(word) for word in [TOP / "plantbal-desk", "fleet", *words]]
    with subprocess.Popen(
        command,
        stdout=subprocess.PIPE,
        stderr=subprocess.PIPE,
        start_new_session=True,
        preexec_fn=take_interrupts,
    ) as fleet:
        wait_for(lambda: len(list(out.glob("*/latest"))) >= 8)
        if by == signal.SIGTERM:
            fleet.send_signal(by)
        else:
            os.killpg(fleet.pid, by)
        said = fleet.communicate(timeout=60)[1].decode()
    done = {path.parent.parent.name for path in out.glob(f"*/{NIGHT}/output.csv")}
    assert 8 <= len(done) < 40
    if by != signal.SIGKILL:
        assert fleet.returncode == 130, said
        assert f"the same command with --date {NIGHT} runs the others" in said
        assert "Traceback" not in said and not list(out.rglob("*.part"))
    assert not (out / "latest").exists()
    wait_for(lambda: subprocess.run(["flock", "-n", out / ".lock", "true"]).returncode == 0)
    log.write_text("")
    found = say("fleet", *words)
    assert found.status == 0, found.err
    ran = set(log.read_text().split())
    assert ran == {f"{k:02}" for k in range(40)} - done
    assert len(rows_of(found.out)) == 40
    log.write_text("")
    assert say("fleet", *words).out == found.out
    assert log.read_text() == ""


def test_changed(forty: tuple[Path, Path, list[object]], say: Desk) -> None:
    """A session that is changed, comes or goes, and an output that is lost, count as such."""
    log, out, words = forty
    folder = some_of(words, 15)
    words = [*words, "--jobs", 8]
    assert say("fleet", *words).status == 0
    log.write_text("")
    (folder / "03.csv").write_text("03\n\n")
    (folder / "035.csv").write_text("035\n")
    (folder / "10.csv").unlink()
    (out / "11" / NIGHT / "output.csv").unlink()
    (out / "12" / NIGHT / "output.csv").write_text("hello")
    assert len(rows_of(say("fleet", *words).out)) == 15
    assert sorted(log.read_text().split()) == ["03", "035", "11", "12"]
    log.write_text("")
    say("fleet", "--again", *words)
    assert len(log.read_text().split()) == 15
    log.write_text("")
    say("fleet", *words, "--", "run", "--tests")
    assert len(log.read_text().split()) == 15


def test_changed_meanwhile(tmp_path: Path, say: Desk) -> None:
    program = tmp_path / "stub"
    folder = folder_of(tmp_path / "sessions", {"a.csv": b"unit,U\n"})
    canned = example("refinery_day.out.csv")
    program.write_text(f"#!/bin/sh\necho >>{folder}/a.csv\ncat {canned}\n")
    program.chmod(0o755)
    found = say("fleet", "--program", program, "--out", tmp_path / "out", folder)
    assert found.status == 1 and "its session was changed while it ran" in found.err


def test_a_session_that_changed(tmp_path: Path, monkeypatch: pytest.MonkeyPatch) -> None:
    """A change shows in the file's times; one that was written just before is read again."""
    path = tmp_path / "a.csv"
    path.write_text("unit,U\n")
    given = Given.read(path)
    assert not given.settled and not given.changed(path)
    path.write_text("unit,V\n")
    assert given.changed(path)
    monkeypatch.setattr("plantbal.fleet.given._STEP", -(10**12))
    given = Given.read(path)
    monkeypatch.setattr("plantbal.fleet.given.sha256_of", lambda path: pytest.fail("read again"))
    assert given.settled and not given.changed(path)
    monkeypatch.setattr("plantbal.fleet.given.sha256_of", sha256_of)
    os.utime(path, (1, 1))
    assert not given.changed(path)
    path.write_text("unit,W\n")
    os.utime(path, (1, 1))
    assert given.changed(path)
    path.unlink()
    with pytest.raises(InputFault, match="No such file"):
        given.changed(path)


PERIODS = {
    "first": (b"period,may,2024-05-01,2024-05-31\nunit,U\n", set()),
    "after a mark": (b"\xef\xbb\xbfperiod,may,2024-05-01,2024-05-31\n", set()),
    "among others": (b"unit,U\nperiod,june,a,b\nperiod,may,2024-05-01,2024-05-31", set()),
    "quoted": (b'unit,U\n"period",may,"2024-05-01",2024-05-31\n', set()),
    "other ends": (b"unit,U\rperiod,may,2024-05-01,2024-05-31\r\n", set()),
    "refused before": (b"period,may,2024-05-02,1\nperiod,may,2024-05-01,2024-05-31\n", {1}),
}


@pytest.mark.parametrize("data, refused", PERIODS.values(), ids=PERIODS)
def test_days(data: bytes, refused: set[int]) -> None:
    assert given_days(data, ["may"], refused) == {"may": "2024-05-01..2024-05-31"}
    assert given_days(data, ["july"], refused) == {}
    assert not has_critical(data, refused)
    assert has_critical(data + b"\ncritical,global,1,3841\n", refused)


def test_alone(forty: tuple[Path, Path, list[object]], say: Desk) -> None:
    _, out, words = forty
    out.mkdir()
    with subprocess.Popen(["flock", out / ".lock", "sleep", "60"]) as other:
        wait_for(lambda: subprocess.run(["flock", "-n", out / ".lock", "true"]).returncode != 0)
        found = say("fleet", *words)
        other.kill()
    assert found.status == 3 and "a fleet is writing to" in found.err and "wait until" in found.err


def test_which_files(tmp_path: Path) -> None:
    """No file and no folder is skipped without a word, but hidden ones."""
    names = ["a.csv", "B.CSV", "c.Csv", ".d.csv", "e.txt", "f.csv.part", "april.xlsx"]
    folder = folder_of(tmp_path / "sessions", {name: b"" for name in names})
    folder_of(folder / "north", {"a.csv": b"", "g.csv": b""})
    folder_of(folder / "none", {})
    folder_of(folder / "nights of last year", {"h.csv": b""})
    folder_of(folder / "out", {"i.csv": b""})
    out = folder / "out"
    chosen = sites(folder, out=out)
    assert [site.name for site in chosen.sites] == ["B", "a", "c"]
    assert chosen.left == [
        f"{folder}/nights of last year: this folder has a session or more, which aren't run: use "
        "--recursive for them",
        f"{folder}/north: this folder has a session or more, which aren't run: use --recursive for "
        "them",
        f"{folder}: 3 files aren't run, since a session's name ends with .csv: april.xlsx, e.txt, "
        "f.csv.part",
    ]
    chosen = sites(folder, recursive=True, out=out)
    wanted = ["B", "a", "c", "nights of last year/h", "north/a", "north/g"]
    assert [site.name for site in chosen.sites] == wanted
    assert len(chosen.left) == 1


def test_folders_inside(tmp_path: Path, program: Path, say: Desk) -> None:
    folder = folder_of(tmp_path / "sessions", {"a.csv": SITE.format(100_000_000).encode()})
    folder_of(folder / "north", {"a.csv": SITE.format(100_000_000).encode()})
    out = tmp_path / "out"
    found = say("fleet", "--recursive", "--program", program, "--out", out, folder)
    assert [row["site"] for row in rows_of(found.out)] == ["a", "north/a"]
    assert (out / "north" / "a" / "latest" / "output.csv").exists()


ODD = ["-n", "a {2} b", "it's", '"quoted"', "$HOME", "`id`", "Dürnkrut", "a;b", "50%", "x\\y", "#"]


def test_odd_names(program: Path, tmp_path: Path, say: Desk) -> None:
    """Names may have whatever a shell, a table or a page would take for its own."""
    data = SITE.format(100_000_000).encode()
    folder = folder_of(tmp_path / "the sessions", {f"{name}.csv": data for name in ODD})
    out = tmp_path / "the nights"
    found = say("fleet", "--program", program, "--out", out, folder)
    assert found.status == 0, found.err
    assert [row["site"] for row in rows_of(found.out)] == [inert(name) for name in sorted(ODD)]
    subprocess.run(["sha256sum", "--quiet", "--check", "latest/SHA256SUMS"], cwd=out, check=True)
    assert "&#34;quoted&#34;" in text_of(out / "index.html")


NAMES = {
    "nights.csv": "the name nights is reserved for the nights: rename it",
    "latest.csv": "the name latest is reserved for the nights: rename it",
    "2026-11-29.csv": "the name 2026-11-29 is reserved for the nights: rename it",
    "two\nlines.csv": "its name has other characters than letters, digits, signs and spaces",
    os.fsdecode(b"\xff.csv"): "its name has other characters",
    "a.CSV": "it would be the same plant as a.csv, and none is run: rename one of them",
}


@pytest.mark.parametrize("name, said", NAMES.items(), ids=NAMES)
def test_names(tmp_path: Path, program: Path, say: Desk, name: str, said: str) -> None:
    """A name that won't do is that plant's fault, and the others are run."""
    data = SITE.format(100_000_000).encode()
    folder = folder_of(tmp_path / "sessions", {"a.csv": data, name: data, "b.csv": data})
    found = say("fleet", "--program", program, "--out", tmp_path / "out", folder)
    assert found.status == 1 and said in found.err
    states = [row["state"] for row in rows_of(found.out)]
    good = 1 if name == "a.CSV" else 2
    assert sorted(states) == ["converged"] * good + ["nosession"]
    assert (tmp_path / "out" / "b" / "latest" / "output.csv").exists()


def test_the_night_cannot_be_kept(
    tmp_path: Path, program: Path, say: Desk, monkeypatch: pytest.MonkeyPatch
) -> None:
    """What is known is said all the same, and a full disk is no reason to move the nights away."""
    folder = folder_of(tmp_path / "sessions", {"a.csv": b""})

    def full(base: sqlite3.Connection, *_: object) -> None:
        """Write more than may be written."""
        base.execute("PRAGMA max_page_count = 1")
        base.execute("CREATE TABLE more (text)")

    monkeypatch.setattr("plantbal.fleet.keep._insert", full)
    found = say("fleet", "--program", program, "--out", tmp_path / "out", folder)
    assert (found.status, row_of(found.out, "a")["state"]) == (3, "none")
    assert "1 plant, of which 1 needs a person\n" in found.err
    assert "database or disk is full: free some space, and run the fleet again" in found.err


def test_a_session_that_has_gone(tmp_path: Path, program: Path, say: Desk) -> None:
    """A plant that was run before and has no session now is reported until it is forgotten."""
    data = SITE.format(100_000_000).encode()
    folder = folder_of(tmp_path / "sessions", {"a.csv": data, "b.csv": data})
    words = ["fleet", "--program", program, "--out", tmp_path / "out", folder]
    assert say(*words, "--date", "2026-11-27").status == 0
    (folder / "b.csv").unlink()
    for _ in range(2):  # a night that is run again says it again
        found = say(*words, "--date", "2026-11-28")
        assert (found.status, row_of(found.out, "b")["state"]) == (1, "nosession")
        assert "fleet: b: its session has gone; it was run on 2026-11-27; --forget" in found.err
    found = say(*words, "--date", "2026-11-29")
    assert (found.status, row_of(found.out, "b")["state"]) == (1, "nosession")
    assert "fleet: b: its session has gone; it was run on 2026-11-27; --forget b ends" in found.err
    found = say(*words, "--date", "2026-11-30", "--forget", "a")
    assert found.status == 2 and "the session of a has not gone: those that have: b" in found.err
    for night, more in (("2026-11-30", ["--forget", "b"]), ("2026-12-01", [])):
        found = say(*words, "--date", night, *more)
        assert (found.status, [row["site"] for row in rows_of(found.out)]) == (0, ["a"])


def test_what_is_no_file(tmp_path: Path, program: Path, say: Desk) -> None:
    """A pipe isn't opened, since nobody may write to it: the night would wait for ever."""
    data = SITE.format(100_000_000).encode()
    folder = folder_of(tmp_path / "sessions", {"a.csv": data})
    (folder / "folder.csv").mkdir()
    (folder / "gone.csv").symlink_to("nowhere")
    (folder / "link.csv").symlink_to("a.csv")
    os.mkfifo(folder / "pipe.csv")
    found = say("fleet", "--lint", "--program", program, "--out", tmp_path / "out", folder)
    states = {row["site"]: row["state"] for row in rows_of(found.out)}
    wrong = dict.fromkeys(("folder", "gone", "pipe"), "nosession")
    assert states == wrong | dict.fromkeys(("a", "link"), "converged")
    assert found.status == 1 and "pipe.csv: it is a pipe or a device, not a file" in found.err


def test_check(program: Path, tmp_path: Path, say: Desk) -> None:
    """Reports of another program are checked plant by plant."""
    good = text_of(example("refinery_day.out.csv"))
    bad = good.replace("1180680924", "1180680925", 1)
    data = {"good.csv": good.encode(), "bad.csv": bad.encode(), "cut.csv": b"hello\n"}
    folder = folder_of(tmp_path / "reports", data)
    found = say("fleet", "--program", program, "--out", tmp_path / "out", folder, "--", "check")
    states = {row["site"]: row["state"] for row in rows_of(found.out)}
    assert states == {"good": "yes", "bad": "no", "cut": "unreadable"}
    assert found.status == 1 and "bad, may1: the check says no: " in found.err
    assert row_of(found.out, "good")["look"] == ""


def test_words(program: Path, tmp_path: Path, say: Desk) -> None:
    """JSON lines keep their ending; a session of the program's is no report."""
    folder = folder_of(tmp_path / "sessions", {"a.csv": SITE.format(100_000_000).encode()})
    words = ["fleet", "--program", program, "--out", tmp_path / "out", folder, "--"]
    found = say(*words, "run", "--format=json")
    assert (found.status, row_of(found.out, "a")["state"]) == (0, "converged")
    assert (tmp_path / "out" / "a" / "latest" / "output.jsonl").exists()
    found = say(*words, "make", "--streams", 3)
    assert (found.status, row_of(found.out, "a")["state"]) == (1, "unreadable")


WRONG = {
    "no folder": ({"folder": "nowhere"}, 3, "nowhere: No such file or directory"),
    "no session": ({"folder": "none"}, 3, "there is no session, no file that ends with .csv"),
    "a file": ({"folder": "file"}, 3, "file: Not a directory"),
    "no program": ({"--program": "nowhere"}, 3, "there is no program"),
    "no parallel": ({"PATH": "none"}, 3, "there is no `parallel`: install GNU parallel"),
    "out is a file": ({"--out": "file"}, 3, "file: "),
    "no database": ({"--out": "kept"}, 3, "fleet.sqlite: the nights can't be kept there: file is"),
    "no cluster": ({"--scheduler": "tcp://127.0.0.1:9"}, 3, "tcp://127.0.0.1:9 doesn't answer"),
    "jobs": ({"--jobs": "0"}, 2, "'0' isn't a number from 1 on"),
    "date": ({"--date": "yesterday"}, 2, "'yesterday' isn't a night: write 2026-11-29"),
    "timeout": ({"--timeout": "soon"}, 2, "'soon' isn't a number of seconds: write 600"),
    "words": ({"--engine": "parallel", "--send": None}, 2, "--send are options for dask"),
    "unknown": ({"--night": "1"}, 2, "unrecognized arguments: --night"),
}


@pytest.mark.parametrize("what, status, said", WRONG.values(), ids=WRONG)
def test_wrong(
    tmp_path: Path,
    program: Path,
    say: Desk,
    monkeypatch: pytest.MonkeyPatch,
    what: dict[str, str | None],
    status: int,
    said: str,
) -> None:
    monkeypatch.setattr("plantbal.fleet.by_dask._ANSWERS", 1)
    folder_of(tmp_path / "good", {"a.csv": SITE.format(100_000_000).encode()})
    folder_of(tmp_path / "none", {})
    folder_of(tmp_path / "kept", {"fleet.sqlite": b"hello, world\n" * 100})
    (tmp_path / "file").write_text("hello")
    words = {"--program": str(program), "--out": str(tmp_path / "out"), "folder": "good", **what}
    if path := words.pop("PATH", None):
        monkeypatch.setenv("PATH", str(tmp_path / path))
    folder = words.pop("folder")
    monkeypatch.chdir(tmp_path)
    options = [word for pair in words.items() for word in pair if word is not None]
    found = say("fleet", *options, folder)
    assert (found.status, said in found.err) == (status, True), found.err
    assert bool(found.out) == (
        "fleet.sqlite" in said
    )  # what came of the plants is said all the same
    assert "Traceback" not in found.err


def test_checksums_of_any_name() -> None:
    text = checksums([("0" * 64, "a\nb\\c"), ("1" * 64, "plain")])
    assert text == f"\\{'0' * 64}  a\\nb\\\\c\n{'1' * 64}  plain\n"


def test_heads_are_in_the_help(say: Desk) -> None:
    assert ",".join(HEADS) in "".join(say("fleet", "--help").out.split())


def test_pages(say: Desk, tmp_path: Path, program: Path, monkeypatch: pytest.MonkeyPatch) -> None:
    """A night of many plants has several pages; those that need a person are on the first ones."""
    monkeypatch.setattr("plantbal.fleet.index.PLANTS", 4)
    data = {f"p{k}.csv": SITE.format(100_000_000).encode() for k in range(9)} | {"z.csv": b""}
    folder, out = folder_of(tmp_path / "sessions", data), tmp_path / "out"
    words = ["fleet", "--program", program, "--out", out, "--jobs", 2]
    say(*words, "--date", "2026-11-28", folder)
    pages = sorted(path.name for path in out.glob("index*.html"))
    assert pages == ["index-2.html", "index-3.html", "index.html"]
    texts = [(out / name).read_text() for name in ("index.html", "index-2.html", "index-3.html")]
    found = [re.findall(r'class="(?:good|look)">\n<td>(?:<a [^>]*>)?(\w+)', text) for text in texts]
    assert found == [["z", "p0", "p1", "p2"], ["p3", "p4", "p5", "p6"], ["p7", "p8"]]
    assert all('aria-current="page"' in text and "10 plants, of which 1" in text for text in texts)
    for k in range(4, 9):
        (folder / f"p{k}.csv").unlink()
    forget = [word for k in range(4, 9) for word in ("--forget", f"p{k}")]
    say(*words, "--date", "2026-11-29", *forget, folder)
    assert sorted(path.name for path in out.glob("index*.html")) == ["index-2.html", "index.html"]
