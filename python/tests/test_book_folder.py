"""A book's folder: what may stand in it, whose it may be, and what a failed action leaves."""

from __future__ import annotations

import errno
import json
import os
import shutil
import subprocess
from collections.abc import Iterator
from contextlib import contextmanager
from pathlib import Path
from typing import Any

import pytest
from books import PLANT, Type, files_of, fixture_book, folder, journal_of, month, rows_of
from conftest import Desk, text_of

from plantbal.book.forms import is_begun, is_own
from plantbal.book.lock import locked
from plantbal.book.store import Act, Action, Store
from plantbal.faults import Fault

__all__ = ["fixture_book"]

AMEND = ("amend", "F-1", "2024-04-02", "1300 t", "--why", "log book")


def left(book: Path, *entries: dict[str, Any]) -> None:
    """Leave a `.pending` in a book."""
    (book / ".pending").write_text(json.dumps(entries), encoding="ascii")


@contextmanager
def failing(step: str, name: str, code: int, count: int = 10**6) -> Iterator[None]:
    """Has calls of a function of `os` fail that name a file with this in its name."""
    real = getattr(os, step)
    failed = 0

    def fails(first: Any, *others: Any, **more: Any) -> Any:
        nonlocal failed
        path = os.readlink(f"/proc/self/fd/{first}") if isinstance(first, int) else str(first)
        if name in Path(path).name and failed < count:
            failed += 1
            raise OSError(code, os.strerror(code))
        return real(first, *others, **more)

    setattr(os, step, fails)
    try:
        yield
    finally:
        setattr(os, step, real)


# ---- names


def test_names_of_files() -> None:
    """What a book names itself is no name that a period can have."""
    own = ["plant.csv", "2024.csv", "2024-25b.csv", "reports/a.b.csv", "reports/a+b.csv"]
    own += ["reports/earlier/2024-04.1.csv", "reports/may2_to_may3.csv", "reports/2024-04.1.csv"]
    others = ["", "a.csv", "/2024.csv", "../2024.csv", "reports/../2024.csv", "reports/a/b.csv"]
    others += [".pending", ".checks", "2024.csv\n", "reports/earlier/a.csv", "reports/.csv~"]
    assert [name for name in own if not is_own(name)] == []
    assert [name for name in others if is_own(name)] == []
    begun = [".2024.csv~", ".plant.abcdefgh.csv", ".journal.12345678.csv", "..pending.abcdefgh"]
    kept = [".a.abcdefgh.csv", ".checks", ".pending", "2024.csv", ".x", "2024.csv~", ".bashrc~"]
    assert [name for name in [*begun, "..checks~"] if not is_begun("", name)] == []
    assert [name for name in [*kept, ".a.csv~"] if is_begun("", name)] == []
    assert is_begun("reports", ".a.csv~") and not is_begun("reports", ".a.12345678.csv")


@pytest.mark.parametrize("name", [b"M\xe4rz", b"two\nlines", b"\x1b[31mred"])
def test_a_workbook_whose_name_is_no_text(book: Type, tmp_path: Path, name: bytes) -> None:
    """It is booked, and the journal has one line of printable text on it."""
    where = os.fsdecode(bytes(tmp_path) + b"/" + name)
    os.rename(folder(tmp_path / "more", month(last=30)), where)
    assert book("add", where).status == 0
    assert book("amend", "F-1", "2024-04-02", "1300 t", "--why", "x").status == 0
    what = journal_of(tmp_path / "mill")[-2][3]
    assert what.isprintable() and what == "".join(
        each if each.isprintable() else ascii(each)[1:-1] for each in os.fsdecode(name)
    )
    assert book("status").status == 0 and not (tmp_path / "mill" / ".pending").exists()


def test_who(say: Desk, book: Type, tmp_path: Path, monkeypatch: pytest.MonkeyPatch) -> None:
    """The user is known by the process, and what is said of oneself stands apart from that."""
    monkeypatch.setenv("LOGNAME", "ceo")
    monkeypatch.setenv("USER", "ceo")
    mill = ["--book", tmp_path / "mill"]
    assert say("book", *AMEND, *mill, "--who", "J\udcf6rg\n2020,boss,close").status == 0
    last = text_of(tmp_path / "mill" / "journal.csv").splitlines()[-1].split(",")
    assert last[2].endswith(f"({os.getuid()})") and "ceo" not in last[2]
    assert ",".join(last[3:7]) == '"J\\udcf6rg\\n2020,boss,close",amend'


# ---- an action that waits


def test_a_foreign_action(book: Type, tmp_path: Path) -> None:
    """Nothing is written but files of a book, and what is wrong is said."""
    mill, outside = tmp_path / "mill", tmp_path / "outside.csv"
    row = "unit,X\n"
    bad: dict[str, list[Any] | Any] = {
        "which isn't a file of a book": [
            [{"file": name, "from": None, "text": row}]
            for name in (str(outside), "../outside.csv", "reports/../../outside.csv", ".lock")
        ],
        "it isn't what a command writes": [
            [],
            None,
            {"file": "2024.csv"},
            ["2024.csv"],
            [1],
            [{"file": "2024.csv"}],
            [{"file": "2024.csv", "from": True, "text": row}],
            [{"file": "2024.csv", "from": -1, "text": row}],
            [{"file": 1, "from": 1, "text": row}],
            [{"file": "2024.csv", "from": None, "text": "\ud800"}],
        ],
    }
    before = files_of(mill)
    for said, items in bad.items():
        for item in items:
            (mill / ".pending").write_text(json.dumps(item), encoding="ascii")
            for words in (("status",), AMEND):
                found = book(*words)
                assert (found.status, said in found.err) == (1, True), (item, found.err)
                assert "move this file away" in found.err, item
    for text in (b"", b"x", b"\xff", b"[" * 100_000):
        (mill / ".pending").write_bytes(text)
        assert "it isn't what a command writes" in book("status").err, text[:9]
    (mill / ".pending").unlink()
    assert files_of(mill) == before and not outside.exists()


def test_links_lead_nowhere(book: Type, tmp_path: Path, monkeypatch: pytest.MonkeyPatch) -> None:
    """Nothing is written through a link, unless its folder is trusted; then it stays a link."""
    mill, outside = tmp_path / "mill", tmp_path / "outside.csv"
    (mill / "2024.csv").rename(outside)
    (mill / "2024.csv").symlink_to(outside)
    before = outside.read_bytes()
    assert book("status").status == 0
    found = book(*AMEND)
    assert f"it is a link, to {outside}, and nothing is written through it" in found.err
    left(mill, {"file": "2024.csv", "from": len(before), "text": "unit,X\n"})
    assert "where a link leads elsewhere" in book("status").err
    (mill / ".pending").unlink()
    (mill / "reports").symlink_to(tmp_path)
    left(mill, {"file": "reports/x.csv", "from": None, "text": "x\n"})
    assert "where a link leads elsewhere" in book(*AMEND).err
    (mill / ".pending").unlink()
    (mill / "reports").unlink()
    assert outside.read_bytes() == before and not (tmp_path / "x.csv").exists()
    monkeypatch.setenv("PLANTBAL_TRUST", f"/nowhere:{mill}")
    assert book(*AMEND).status == 0
    assert (mill / "2024.csv").is_symlink() and outside.read_bytes().startswith(before)
    assert outside.read_bytes() != before


def test_a_pipe_or_a_link_in_place_of_a_file(book: Type, tmp_path: Path) -> None:
    mill = tmp_path / "mill"
    for name in (".lock", ".pending"):
        for make in (os.mkfifo, lambda path: os.symlink("/etc/passwd", path), os.mkdir):
            path = mill / name
            path.unlink(missing_ok=True)
            make(path)
            for words in (("status",), AMEND):
                said = book(*words).err
                assert "it is a link, a folder or a device, not a file" in said, (name, said)
            path.rmdir() if path.is_dir() else path.unlink()
    assert book("status").status == 0


def test_a_reader_changes_nothing(book: Type, tmp_path: Path) -> None:
    """It sees an action that was stopped as done, and says so; the next that writes does it."""
    mill, saved = tmp_path / "mill", tmp_path / "saved"
    shutil.copytree(mill, saved)
    book(*AMEND)
    with Store(saved).opened(), failing("replace", ".2024.csv~", errno.EIO):
        pass
    entries = []
    for name in ("2024.csv", "journal.csv"):
        size = len((saved / name).read_bytes())
        text = (mill / name).read_bytes()[size:].decode()
        entries.append({"file": name, "from": size, "text": text})
    shutil.rmtree(mill)
    saved.rename(mill)
    left(mill, *entries)
    before = files_of(mill)
    said = book("show", "F-1", "2024-04-02")
    assert "F-1_2024-04-02: 1,300 t" in said.out and "before 1,200 t" in said.out
    assert said.out.startswith("action 3 (amend F-1_2024-04-02 1,300 t; ")
    assert "was stopped, and is shown as if it were done" in said.out
    assert "was stopped" in book("status").out
    assert files_of(mill) == before
    assert "2024.csv: nothing new" not in book("strike", "P-1", "2024-04-02", "--why", "x").out
    assert [row.split(",")[0] for row in rows_of(tmp_path)[-2:]] == ["amend", "strike"]
    assert "was stopped" not in book("status").out


# ---- failures


def test_what_fails_before_it_is_written_down(book: Type, tmp_path: Path) -> None:
    """A full disk shows before anything has changed: nothing is booked, then or later."""
    before = files_of(tmp_path / "mill")
    for step, name in (
        ("fsync", ".2024.csv~"),
        ("fsync", ".journal.csv~"),
        ("fsync", "..pending~"),
        ("replace", "..pending~"),
        ("replace", ".2024.csv~"),
    ):
        for code in (errno.ENOSPC, errno.EIO):
            with failing(step, name, code):
                said = book(*AMEND)
            assert said.status == 1 and "nothing was booked" in said.err, (step, name, said.err)
            assert files_of(tmp_path / "mill") == before, (step, name)
            assert "1,300" not in book("show", "F-1", "2024-04-02").out, (step, name)


def test_what_fails_after_that(book: Type, tmp_path: Path) -> None:
    """It is said that the next command does it, and it does."""
    with failing("replace", ".journal.csv~", errno.EIO):
        said = book(*AMEND)
    assert said.status == 1
    assert "the next command that writes to the book does it; part of it is done" in said.err
    assert "1,300 t" in book("show", "F-1", "2024-04-02").out
    assert book("strike", "P-1", "2024-04-02", "--why", "x").status == 0
    assert [row[1] for row in journal_of(tmp_path / "mill")] == [
        "action",
        "new",
        "add",
        "amend",
        "strike",
    ]
    with failing("unlink", ".pending", errno.EIO), failing("fsync", "mill", errno.EIO, 1):
        said = book("amend", "F-1", "2024-04-03", "1300 t", "--why", "x")
    assert "to drop it, remove that file" in said.err or said.status == 0


# ---- whose it is, and what stays as it was


def test_rights_are_kept(book: Type, tmp_path: Path) -> None:
    mill = tmp_path / "mill"
    for name, mode in (("2024.csv", 0o640), ("journal.csv", 0o600)):
        (mill / name).chmod(mode)
        if os.getuid() == 0:
            os.chown(mill / name, 0, 100)
    assert book(*AMEND).status == 0
    for name, mode in (("2024.csv", 0o640), ("journal.csv", 0o600)):
        found = (mill / name).stat()
        assert found.st_mode & 0o777 == mode, name
        assert os.getuid() or found.st_gid == 100, name


@pytest.mark.skipif(os.getuid() != 0, reason="files of others are made by root alone")
def test_a_folder_of_another_user(
    book: Type, tmp_path: Path, monkeypatch: pytest.MonkeyPatch
) -> None:
    """It is read, and written to if a group shares it, or its user says that it is trusted."""
    mill = tmp_path / "mill"
    os.chown(mill, 65534, 65534)
    assert book("status").status == 0
    said = book(*AMEND)
    assert said.status == 1 and "belongs to nobody (65534)" in said.err
    assert f"set PLANTBAL_TRUST={mill} before the command" in said.err
    monkeypatch.setenv("PLANTBAL_TRUST", str(mill))
    assert book(*AMEND).status == 0
    monkeypatch.delenv("PLANTBAL_TRUST")
    os.chown(mill, 65534, 0)
    mill.chmod(0o770)
    assert book("strike", "F-1", "2024-04-02", "--why", "x").status == 0
    os.chown(mill, 0, 0)
    left(mill, {"file": "plant.csv", "from": None, "text": "unit,X\n"})
    os.chown(mill / ".pending", 65534, 65534)
    assert "it belongs to nobody (65534)" in book("status").err


@pytest.mark.skipif(os.getuid() != 0, reason="only root may be another user")
def test_an_auditor_reads_without_the_right_to_write(book: Type, tmp_path: Path) -> None:
    """The lock may be there or not; nothing is made."""
    top = Path(__file__).resolve().parents[1]
    for path in [tmp_path, *tmp_path.parents]:
        if path != Path("/tmp") and path != Path("/"):
            path.chmod(path.stat().st_mode | 0o055)
    code = "import sys; sys.path[:0] = [sys.argv.pop(1)]; from plantbal.desk import main; main()"
    for step in ("with", "without"):
        if step == "without":
            (tmp_path / "mill" / ".lock").unlink()
        words = ["/usr/bin/python3", "-B", "-c", code, str(top), "book", "show", "F-1"]
        done = subprocess.run(
            [*words, "--book", str(tmp_path / "mill")],
            user=65534,
            group=65534,
            extra_groups=[],
            capture_output=True,
            text=True,
            check=False,
        )
        assert (done.returncode, done.stderr) == (0, ""), step
        assert "F-1_2024-04-01: 1,200 t" in done.stdout, step
    assert not (tmp_path / "mill" / ".lock").exists()


def test_readers_share_the_lock(book: Type, tmp_path: Path) -> None:
    mill = tmp_path / "mill"
    with Store(mill).opened(reading=True):
        with Store(mill, seconds=0.2).opened(reading=True):
            pass
        with pytest.raises(Fault, match="another command is at work"):
            with Store(mill, seconds=0.2).opened():
                pass
    with locked(mill / ".lock", 1), pytest.raises(Fault, match="another command is at work"):
        with Store(mill, seconds=0.2).opened(reading=True):
            pass


# ---- a new book, and reports that went out


def test_new_writes_over_nothing(say: Desk, book: Type, tmp_path: Path) -> None:
    """A lost journal doesn't lead to a lost year."""
    mill = tmp_path / "mill"
    whole = {name: text.encode() for name, text in files_of(mill).items()}
    new = ("new", "2024", tmp_path / "plant")
    (mill / "journal.csv").unlink()
    before = files_of(mill)
    for words in (("status",), AMEND):
        said = book(*words)
        assert said.status == 1 and "put back journal.csv, from a backup" in said.err, words
        assert "book new" not in said.err, words
    for name in ("", ".checks", "2024.csv", "meters.csv", "plant.csv"):
        said = book(*new)
        assert said.status == 1 and "it already exists, and isn't overwritten" in said.err, name
        assert files_of(mill) == before, name
        (mill / name).unlink() if name else None
        before = files_of(mill)
        (mill / "reports").mkdir(exist_ok=True)
        (mill / "reports" / "2024-04.csv").write_text("x\n", encoding="utf-8")
        before = files_of(mill)
    (mill / "reports" / "2024-04.csv").unlink()
    (mill / "2023.csv").write_bytes(whole["2024.csv"])
    assert "2023.csv: it already exists" in book(*new).err
    (mill / "2023.csv").write_text("day,F-1\n2023-01-01,5\n", encoding="utf-8")
    assert book(*new).status == 0, "a sheet that begins with a year isn't a year of a book"


def test_reports_never_meet(tmp_path: Path, book: Type) -> None:
    """The earlier report of one period has a name that another period's can't have."""
    mill = tmp_path / "mill"
    kept = Store(mill)
    with kept.opened():
        action = Action(Act.REPORT, "2024-04")
        action.written = {
            "reports/2024-04.csv": "report,2024-04,now\n",
            "reports/2024-04.1.csv": "report,2024-04,went out\n",
        }
        kept.do(action)
    from plantbal.book.reporting import write_and_keep
    from plantbal.book.years import Years

    for period, closed, text in (
        ("2024-04", True, "report,2024-04,third\n"),
        ("2024-04.1", False, "report,2024-04.1,other\n"),
        ("2024-04", True, "report,2024-04,fourth\n"),
        ("2024-04", False, "report,2024-04,fifth\n"),
    ):
        with kept.opened():
            action = Action(Act.REPORT, period)
            assert write_and_keep(kept, action, Years(kept).last, period, text, closed)
            kept.do(action)
    reports = {
        str(path.relative_to(mill / "reports")): text_of(path).strip().split(",")[-1]
        for path in (mill / "reports").rglob("*.csv")
    }
    assert reports == {
        "2024-04.csv": "fifth",
        "2024-04.1.csv": "other",
        "earlier/2024-04.2.csv": "now",
        "earlier/2024-04.3.csv": "went out",
        "earlier/2024-04.4.csv": "third",
    }


def test_no_book(say: Desk, tmp_path: Path) -> None:
    said = say("book", "status", "--book", tmp_path / "none")
    assert said.status == 3 and "or make one: plantbal-desk book new" in said.err
    assert not (tmp_path / "none").exists()


def test_a_plant_that_is_there(say: Desk, tmp_path: Path) -> None:
    """A workbook that is called plant.csv isn't overwritten."""
    (tmp_path / "plant.csv").write_text("mine\n", encoding="utf-8")
    words = ("new", "2024", folder(tmp_path / "plant", PLANT), "--book", tmp_path)
    assert "plant.csv: it already exists" in say("book", *words).err
    assert text_of(tmp_path / "plant.csv") == "mine\n"
