"""No program is believed: what a report doesn't agree with itself in is said, and nothing is kept."""

from __future__ import annotations

import hashlib
from pathlib import Path

import pytest
from books import ANYWAY, Type, files_of, fixture_book
from conftest import Desk, example, text_of

from plantbal import run
from plantbal.audit.believed import program_digest, require_believed
from plantbal.faults import InputFault

__all__ = ["fixture_book"]

REPORT = example("refinery_day.out.csv")
SESSION = example("refinery_day.csv")


@pytest.fixture(name="forged")
def fixture_forged(tmp_path: Path, monkeypatch: pytest.MonkeyPatch) -> Path:
    """A program that writes a report with one flow of another size, whatever it is asked."""
    rows = text_of(REPORT).splitlines()
    at = next(at for at, row in enumerate(rows) if row.startswith("stream,KEROSENE,"))
    cells = rows[at].split(",")
    assert cells[7].isdigit()
    rows[at] = ",".join([*cells[:7], str(int(cells[7]) + 1_000_000), *cells[8:]])
    (tmp_path / "forged.csv").write_text("\n".join(rows) + "\n", encoding="utf-8")
    program = tmp_path / "forger"
    program.write_text(f"#!/bin/sh\ncat >/dev/null\ncat {tmp_path}/forged.csv\n", encoding="ascii")
    program.chmod(0o755)
    monkeypatch.setenv("PLANTBAL", str(program))
    return program


def test_what_is_said(forged: Path, tmp_path: Path) -> None:
    """The block, the test, the place, and both numbers; and which program it was."""
    data = (tmp_path / "forged.csv").read_bytes()
    with pytest.raises(InputFault) as found:
        require_believed(data, "the report", forged)
    said = str(found.value)
    digest = hashlib.sha256(forged.read_bytes()).hexdigest()
    assert said.startswith("the report: the block of may1, round 0, fails the test balance (3) at ")
    assert ": 0 is stated, and " in said and "1000000 is found" in said, said
    assert f"nothing of it is kept: {forged} (SHA-256 {digest}) wrote a report" in said
    assert program_digest() == digest
    require_believed(REPORT.read_bytes(), "the report")
    require_believed(b"", "no report")
    require_believed(b"refused,1,1,kind,\n", "no block")
    head, _, _ = REPORT.read_bytes().partition(b"\nnode,")
    number = head.count(b"\n") + 2
    with pytest.raises(InputFault, match=rf"its row {number} can't be read \(ended\)"):
        require_believed(head + b"\n", "a piece")


def test_nothing_is_kept(forged: Path, say: Desk, tmp_path: Path) -> None:
    """By none of the commands that keep what the program writes."""
    room = tmp_path / "room"
    room.mkdir()
    for words in (
        ("run", SESSION, "--out", room / "r.xlsx"),
        ("run", SESSION, "--out", room / "r.csv"),
        ("archive", SESSION, "--out", room / "r.zip"),
        ("page", "--run", SESSION, "--out", room / "r.html"),
    ):
        said = say(*words)
        assert said.status == 1 and "fails the test balance (3) at" in said.err, (words, said)
        assert list(room.iterdir()) == [], words
    output = run(SESSION)
    assert output.blocks_in_order, "a caller of the library looks for himself, or says judged"
    with pytest.raises(InputFault, match="fails the test balance"):
        run(SESSION, judged=True)
    assert forged.exists()


def test_nothing_is_booked(book: Type, tmp_path: Path, forged: Path) -> None:
    """Neither a report nor a close."""
    before = files_of(tmp_path / "mill")
    for words in (("report",), ("report", "2024-04"), ("close", "2024-04", *ANYWAY)):
        said = book(*words)
        assert said.status == 1 and "nothing of it is kept: " in said.err, (words, said)
        assert files_of(tmp_path / "mill") == before, words
    assert forged.exists()
