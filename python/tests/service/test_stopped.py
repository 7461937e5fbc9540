"""Killed by -9, and without power: nothing that was said to be saved is lost, and nothing is half done.

A few tries of each are made here. `make office-kills N=200` and `make office-cuts N=200` make more.
"""

from __future__ import annotations

import concurrent.futures
import os
import random
import shutil
import signal
import subprocess
import sys
import time
from collections.abc import Iterator
from contextlib import contextmanager, suppress
from enum import Enum
from pathlib import Path

import doings
import pytest
import requests
import services
from doings import DAY, METER, PERIOD, Doing, Hands, State, amount_of, note_of, said_of, state_of

KILLS = int(os.environ.get("OFFICE_KILLS", "9"))
CUTS = int(os.environ.get("OFFICE_CUTS", "3"))
SEED = int(os.environ.get("OFFICE_SEED", "20241"))
LINES = '[sign_in]\nsecond = "none"\n'


class Part(Enum):
    """What is killed."""

    WORKER = "a worker of gunicorn"
    DATABASE = "PostgreSQL"
    COMMAND = "a command"


# ---- kills


@pytest.fixture(name="hands")
def fixture_hands() -> Iterator[Hands]:
    """Paul at work in a mill, as an engineer and an approver."""
    office = services.Service(LINES)
    try:
        doings.mill(office)
        office.person("paul", "engineer", "approver", "clerk")
        office.start(workers=2)
        yield Hands(office, "paul")
    finally:
        office.end()


def test_killed(hands: Hands) -> None:
    """A worker, the database or a command is killed at random: what was told stands, and stands once."""
    chance, takes, hit = random.Random(SEED), dict[Doing, float](), 0
    for number in range(KILLS):
        part = list(Part)[number % 3]
        doing = list(Doing)[number // 3 % (2 if part is Part.COMMAND else 3)]
        before = state_of(hands.book)
        told, killed = _once(
            hands, part, doing, number, chance.uniform(0, 1.2 * takes.get(doing, 1.5))
        )
        hit += killed
        _holds(hands, doing, number, before, told)
        if state_of(hands.book).closed:
            hands.reopened()
        begin = time.monotonic()
        if doing not in takes:
            assert hands.send(hands.form(doing, 1000 + number)) == 302, doing
            takes[doing] = time.monotonic() - begin
            if doing is Doing.CLOSE:
                hands.reopened()
    print(f"\n{KILLS} kills, {hit} of them before an answer; {hands.told} times something was done")
    assert "wrong:" not in hands.office.office("check")


def _once(hands: Hands, part: Part, doing: Doing, number: int, moment: float) -> tuple[bool, bool]:
    """Try once, and return whether it was told that it is done, and whether it was killed before."""
    if part is Part.COMMAND:
        return _killed_command(hands, doing, number, moment)
    form = hands.form(doing, number)
    with concurrent.futures.ThreadPoolExecutor(1) as pool:
        sent = pool.submit(hands.send, form)
        with suppress(concurrent.futures.TimeoutError):
            sent.result(timeout=moment)
        killed = not sent.done()
        if part is Part.WORKER:
            for each in hands.office.workers:
                with suppress(ProcessLookupError):
                    os.kill(each, signal.SIGKILL)
        else:
            hands.office.database.kill()
            hands.office.database.start()
        told = sent.result() == 302
    _answers(hands)
    again = hands.send(form)  # as somebody does who saw an error
    assert again in (302, 400), again
    return told or again == 302 and _is_done(hands, doing, number), killed


def _answers(hands: Hands) -> None:
    """Wait until the service answers again."""
    until, status = time.monotonic() + 180, 0
    while time.monotonic() < until:
        with suppress(requests.RequestException):
            status = hands.visitor.get("/p/mill/").status_code
        if status == 200:
            return
        time.sleep(0.2)
    raise AssertionError(f"the service doesn't answer again: {status}")


def _killed_command(hands: Hands, doing: Doing, number: int, moment: float) -> tuple[bool, bool]:
    """Kill a command, and return whether it had said that it is done."""
    words = ["amend", METER, DAY, amount_of(number), "--why", "tried"]
    if doing is Doing.CLOSE:
        words = ["close", PERIOD]
        words += [word for gate in hands.gates for word in ("--anyway", f"{gate[4:]}=as it is")]
    words += ["--book", str(hands.book)]
    here, pipe = hands.office.here, subprocess.PIPE
    command = subprocess.Popen(
        [sys.executable, "-u", "-m", "plantbal", "book", *words],
        env=here,
        stdout=pipe,
        stderr=pipe,
        text=True,
    )
    with suppress(subprocess.TimeoutExpired):
        command.wait(timeout=moment)
    killed = command.poll() is None
    command.kill()
    out, _ = command.communicate(timeout=60)
    return ("is closed" if doing is Doing.CLOSE else "becomes") in out, killed


def _is_done(hands: Hands, doing: Doing, number: int) -> bool:
    """Say whether a doing is in the book or in the database."""
    if doing is Doing.NOTE:
        return _notes(hands.office.database, hands.office.name, number) > 0
    state = state_of(hands.book)
    return state.closed if doing is Doing.CLOSE else state.amount == said_of(number)


def _notes(database: services.Database, name: str, number: int) -> int:
    """How often the comment of a try is in a database."""
    asks = f"SELECT count(*) FROM notes_note WHERE text = '{note_of(number)}'"
    return int(database.call("psql", "-Atc", asks, name))


def _holds(hands: Hands, doing: Doing, number: int, before: State, told: bool) -> None:
    """What was told stands, once; what wasn't stands as a whole or not at all."""
    state = state_of(hands.book)
    if doing is Doing.NOTE:
        _noted(hands.office.database, hands.office.name, hands.office.state, number, told)
        assert state == before
        return
    done = State(before.amount, True) if doing is Doing.CLOSE else State(said_of(number), False)
    assert state == done or (not told and state == before), (doing, told, before, state)


def _noted(database: services.Database, name: str, state: Path, number: int, told: bool) -> None:
    """A comment that was kept is there once, with its file."""
    count = _notes(database, name, number)
    assert count == 1 or (not told and count == 0), count
    asks = f"SELECT id FROM notes_note WHERE text = '{note_of(number)}'"
    for each in database.call("psql", "-Atc", asks, name).split():
        assert (state / "files" / "notes" / each).read_bytes() == doings.bytes_of(number)


# ---- power


class Disk:
    """A disk whose power can be cut: ext4 on a loop device, so what wasn't flushed isn't on the device.

    Parameters
    ----------
    room : Path
        A folder.
    """

    def __init__(self, room: Path) -> None:
        self.room, self.image, self.path = room, room / "image", room / "disk"
        self.path.mkdir()
        with self.image.open("wb") as file:
            file.truncate(320 << 20)
        services.run(["/usr/sbin/mkfs.ext4", "-q", "-F", self.image])
        done = services.run(["mount", "-o", "loop,commit=600", self.image, self.path])
        if done.returncode:
            pytest.skip(f"no disk can be mounted here, so no power is cut: {done.stderr.strip()}")

    @contextmanager
    def cut(self) -> Iterator[Path]:
        """What the device has at this moment, as it is found when the machine starts again."""
        copy, place = self.room / "copy", self.room / "after"
        services.run(["cp", "--sparse=always", self.image, copy])
        place.mkdir()
        try:
            done = services.run(["mount", "-o", "loop", copy, place])
            assert done.returncode == 0, done.stderr
            yield place
        finally:
            services.run(["umount", place])
            place.rmdir()
            copy.unlink()

    def end(self) -> None:
        """Unmount it."""
        services.run(["umount", self.path])


@pytest.fixture(name="disk")
def fixture_disk() -> Iterator[Disk]:
    """A disk in a folder of its own."""
    if os.geteuid() != 0:
        pytest.skip("no disk can be mounted without root, so no power is cut")
    room = services.new_room()
    room.chmod(0o755)
    disk = Disk(room)
    try:
        yield disk
    finally:
        disk.end()
        services.removed(room)


def test_a_cut_loses_what_was_not_flushed(disk: Disk) -> None:
    """Otherwise the test after this one would show nothing."""
    (disk.path / "flushed").write_text("x" * 5000)
    with open(disk.path / "flushed", "rb") as file:
        os.fsync(file.fileno())
    (disk.path / "lost").write_text("y" * 5000)
    with disk.cut() as found:
        assert (found / "flushed").read_text() == "x" * 5000
        assert not (found / "lost").exists() or not (found / "lost").read_text()


@pytest.fixture(name="on_disk")
def fixture_on_disk(disk: Disk) -> Iterator[Hands]:
    """Paul at work in a mill whose books, files and database are on that disk."""
    (disk.path / "database").mkdir()
    database = services.Database(disk.path / "database")
    office = services.Service(LINES, database, disk.path)
    try:
        doings.mill(office)
        office.person("paul", "engineer", "approver", "clerk")
        office.start(workers=1)
        yield Hands(office, "paul")
    finally:
        office.end()
        database.end()


def test_without_power(disk: Disk, on_disk: Hands) -> None:
    """Power is cut while something is done, and as it is told: then the machine starts again."""
    chance, takes, lost = random.Random(SEED), dict[Doing, float](), 0
    for number in range(CUTS):
        doing = list(Doing)[number % 3]
        before, form = state_of(on_disk.book), on_disk.form(doing, number)
        os.sync()
        moment = None if number // 3 % 2 == 0 else chance.uniform(0, 1.1 * takes[doing])
        with concurrent.futures.ThreadPoolExecutor(1) as pool:
            begin = time.monotonic()
            sent = pool.submit(on_disk.send, form)
            with suppress(concurrent.futures.TimeoutError):
                sent.result(timeout=moment)
            takes.setdefault(doing, time.monotonic() - begin)
            told = sent.done() and sent.result() == 302
            assert told or moment is not None, sent.result()
            with _still(on_disk.office), disk.cut() as found:
                lost += _starts_again(on_disk, found, doing, number, before, told)
            assert sent.result() == 302
        if state_of(on_disk.book).closed:
            on_disk.reopened()
    print(f"\n{CUTS} cuts, {lost} of them before it was done")


@contextmanager
def _still(office: services.Service) -> Iterator[None]:
    """Keep all processes still, so that nothing is written while a disk is copied."""
    master = int((office.room / f"gunicorn.{office.port}.pid").read_text())
    some = [master, *office.workers, *office.database.processes]
    try:
        _signal(some, signal.SIGSTOP)
        yield
    finally:
        _signal(some[::-1], signal.SIGCONT)


def _signal(some: list[int], number: signal.Signals) -> None:
    """Send processes a signal; one may have ended meanwhile."""
    for each in some:
        with suppress(ProcessLookupError):
            os.kill(each, number)


def _starts_again(
    hands: Hands, found: Path, doing: Doing, number: int, before: State, told: bool
) -> bool:
    """What was told is on the disk; say whether nothing of it is there, since it wasn't told."""
    state = state_of(found / "books" / "mill")
    room = services.new_room()
    room.chmod(0o755)
    database = services.Database.found(found / "database" / "pg" / "data", room)
    try:
        if doing is Doing.NOTE:
            _noted(database, hands.office.name, found / "state", number, told)
            assert state == before
            return not _notes(database, hands.office.name, number)
        assert "paul" in database.call(
            "psql", "-Atc", "SELECT username FROM people_person", hands.office.name
        )
    finally:
        database.end()
        shutil.rmtree(room)
    done = State(before.amount, True) if doing is Doing.CLOSE else State(said_of(number), False)
    assert state == done or (not told and state == before), (doing, told, before, state)
    return state == before
