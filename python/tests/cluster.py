"""A night on a scheduler and workers with disks of their own, one of which is killed in the middle.

The folder of sessions and outputs is hidden from the workers, where this process may do that (root,
by a name space of mounts): they get bytes and send bytes. Each has a folder of its own, in which the
program that it runs notes each run.
"""

from __future__ import annotations

import csv
import io
import json
import os
import shutil
import signal
import socket
import subprocess
import sys
import time
from collections.abc import Iterator
from contextlib import ExitStack, contextmanager, redirect_stdout
from dataclasses import dataclass
from pathlib import Path

from books import ANYWAY, PLANT, Sheets, folder, typed

from plantbal import packed

TOP = Path(__file__).resolve().parents[2]
NIGHT = "2026-11-29"
FILES = ("output.csv", "run.json", "stderr.txt")
SESSION = """unit,U
stream,FEED,env,U,metered,1
stream,PRODUCT,U,env,metered,1
period,may,2024-05-01,2024-05-01
critical,global,1,3841
critical,measure,3841
critical,nodal,3841
reading,f,FEED,2024-05-01,{},1999999999999
reading,p,PRODUCT,2024-05-01,100000000,1999999999999
report,may
"""
PROGRAM = """#!/bin/sh
echo run >>"$PLANTBAL_RAN"
sleep {pause}
exec {program} "$@"
"""


def make_plants(room: Path, count: int) -> None:
    """Sessions of two meters each; no two of them are alike."""
    room.mkdir(parents=True)
    for k in range(count):
        (room / f"plant{k:05}.csv").write_text(SESSION.format(100_000_000 + k))


def december(year: int) -> Sheets:
    """A December of the books' plant: readings, a ticket of all that left, dips before and after."""
    days = [f"{year}-12-{day:02}" for day in range(1, 32)]
    levels = (8000, 9500) if year % 2 else (9500, 8000)
    # 1,500 mm of the silo are 353.1 m3 of 1.25 t/m3
    gone = 31 * 1199.5 - (441.375 if year % 2 else -441.375)
    return {
        "readings": [["day", "F-1", "P-1"], *([day, "1199.4", "1199.5"] for day in days)],
        "tickets": [
            ["id", "stream", "first", "amount"],
            [f"t{year}", "TRUCKS", days[0], f"{gone}"],
        ],
        "dips": [
            ["tank", "day", "level"],
            ["SILO", f"{year}-11-30", f"{levels[0]}"],
            ["SILO", f"{year}-12-31", f"{levels[1]}"],
        ],
    }


def make_books(room: Path, count: int, years: int) -> None:
    """Books of some years, all of which but the last are closed; they are copies of one."""
    if count:
        with redirect_stdout(io.StringIO()):
            _make_books(room, count, years)


def _make_books(room: Path, count: int, years: int) -> None:
    first, work = room / "book000", room.parent.parent / "workbooks"
    book = ("--book", first, "--who", "anna")
    assert typed("new", "2020", folder(work / "plant", PLANT), *book) == 0
    for year in range(2020, 2020 + years):
        assert year == 2020 or typed("next", year, *book) == 0
        assert typed("add", folder(work / str(year), december(year)), *book) == 0
        if year < 2019 + years:
            assert typed("close", f"{year}-12", *ANYWAY, *book) == 0
    for k in range(1, count):
        shutil.copytree(first, room / f"book{k:03}")


@dataclass
class Worker:
    """A worker: its process, and what its program has noted."""

    process: subprocess.Popen[bytes]
    room: Path

    @property
    def runs(self) -> int:
        """How often the program was started there."""
        ran = self.room / "ran"
        return len(ran.read_bytes().splitlines()) if ran.exists() else 0


def free_port() -> int:
    with socket.socket() as found:
        found.bind(("127.0.0.1", 0))
        port: int = found.getsockname()[1]
        return port


def may_hide() -> bool:
    """Say whether a folder can be hidden from a process here."""
    words = ["unshare", "--mount", "true"]
    return (
        shutil.which("unshare") is not None and subprocess.run(words, check=False).returncode == 0
    )


@contextmanager
def cluster(room: Path, hidden: Path, count: int) -> Iterator[tuple[str, list[Worker]]]:
    """A scheduler and workers, each with a folder of its own."""
    address = f"tcp://127.0.0.1:{free_port()}"
    port = address.rpartition(":")[2]
    plain = {name: value for name, value in os.environ.items() if name != "PYTHONPATH"}
    quiet = {"stdout": subprocess.DEVNULL, "stderr": subprocess.DEVNULL}
    with ExitStack() as open_things:
        scheduler = ["dask-scheduler", "--host", "127.0.0.1", "--port", port, "--no-dashboard"]
        started = [subprocess.Popen(scheduler, cwd="/", env=plain, **quiet)]  # type: ignore[call-overload]
        open_things.callback(lambda: [each.kill() or each.wait() for each in started])
        workers = []
        for k in range(count):
            own = room / f"disk{k}"
            (own / "tmp").mkdir(parents=True)
            own_env = plain | {"TMPDIR": str(own / "tmp"), "PLANTBAL_RAN": str(own / "ran")}
            words = ["dask-worker", "--no-nanny", "--no-dashboard", "--nthreads", "2"]
            words += ["--local-directory", str(own / "tmp"), address]
            if may_hide():
                mount = f'mount -t tmpfs none "{hidden}" && exec "$@"'
                words = ["unshare", "--mount", "sh", "-c", mount, "worker", *words]
            process = subprocess.Popen(words, cwd=own, env=own_env, **quiet)  # type: ignore[call-overload]
            started.append(process)
            workers.append(Worker(process, own))
        yield address, workers


@dataclass
class Night:
    """What came of a night.

    Attributes
    ----------
    status, rows, said : int, list of dict, str
        The status, the rows of the table, and standard error.
    runs : list of int
        How often each worker began the program.
    seconds : float
        How long the night took.
    is_killed : bool
        Whether a worker was killed before the end.
    names : list of str
        What is in the pack.
    """

    status: int
    rows: list[dict[str, str]]
    said: str
    runs: list[int]
    seconds: float
    is_killed: bool
    names: list[str]


def night(room: Path, program: Path, plants: int, books: int, years: int, pause: float) -> Night:
    """Run plants and books on three workers, and kill one when a third of all has been begun."""
    hidden = room / "head"
    make_plants(hidden / "sessions", plants)
    make_books(hidden / "sessions", books, years)
    noting = room / "plantbal"
    noting.write_text(PROGRAM.format(program=program, pause=pause))
    noting.chmod(0o755)
    out = hidden / "out"
    with cluster(room, hidden, 3) as (address, workers):
        words = [sys.executable, "-m", "plantbal", "fleet", "--scheduler", address, "--send"]
        words += ["--pack", "--retries", "2", "--program", str(noting), "--date", NIGHT]
        words += ["--out", str(out), str(hidden / "sessions"), "--", "run", "--tests"]
        environment = os.environ | {"PYTHONPATH": str(TOP / "python")}
        begun = time.monotonic()
        with subprocess.Popen(
            words, env=environment, stdout=subprocess.PIPE, stderr=subprocess.PIPE, text=True
        ) as fleet:
            is_killed = False
            while fleet.poll() is None and not is_killed:
                if sum(each.runs for each in workers) > plants // 3 and workers[1].runs:
                    workers[1].process.send_signal(signal.SIGKILL)
                    is_killed = True
                time.sleep(0.02)
            table, said = fleet.communicate()
        seconds = time.monotonic() - begun
        runs = [each.runs for each in workers]
    rows = list(csv.DictReader(io.StringIO(table)))
    names = packed.names_in(out / "nights" / NIGHT / packed.PACK, "")
    return Night(fleet.returncode, rows, said, runs, seconds, is_killed, names)


def faults_of(found: Night, plants: int, books: int, room: Path) -> list[str]:
    """What of a night isn't as it has to be, a line each."""
    wrong = []
    sites = [f"plant{k:05}" for k in range(plants)] + [f"book{k:03}" for k in range(books)]
    named = [row["site"] for row in found.rows if row["site"].startswith("plant")]
    if sorted(named) != sites[:plants]:
        wrong.append(f"the table has {len(named)} rows of plants, {len(set(named))} of them apart")
    lacking = set(sites) - {row["site"].partition("/")[0] for row in found.rows}
    if lacking:
        wrong.append(f"{len(lacking)} have no row, such as {min(lacking)}")
    states = {row["state"] for row in found.rows if row["site"].startswith("plant")}
    if states - {"converged"}:
        wrong.append(f"plants are {', '.join(sorted(states))}: {found.said[-400:]}")
    for site in sites[:plants]:
        if [f"{site}/{name}" for name in FILES] != [
            n for n in found.names if n.startswith(f"{site}/")
        ]:
            wrong.append(f"the pack hasn't the files of {site}, each once")
            break
    pack = room / "head" / "out" / "nights" / NIGHT / packed.PACK
    for k in {0, plants // 2, plants - 1}:
        output = packed.read_member(pack, f"plant{k:05}/output.csv", 1 << 20) or b""
        if str(100_000_000 + k).encode() not in output:
            wrong.append(f"the output of plant {k} is that of another")
        run = json.loads(packed.read_member(pack, f"plant{k:05}/run.json", 1 << 20) or b"{}")
        if run.get("status") != 0:
            wrong.append(f"the record of plant {k} has the status {run.get('status')}")
    if list(room.glob("disk*/tmp/plantbal-*")):
        wrong.append("the killed worker has left a session where no other worker looks")
    if not found.is_killed:
        wrong.append("no worker was killed in the middle")
    # what the killed one had begun and not sent back runs once more, and nothing else does
    most = len(found.rows) + 4
    if not plants <= sum(found.runs) <= most + books:
        wrong.append(f"the program was begun {sum(found.runs)} times for {len(found.rows)} rows")
    return wrong
