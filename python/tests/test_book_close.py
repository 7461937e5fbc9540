"""A close: what stops it, the reasons with which it is done all the same, and what is quieted."""

from __future__ import annotations

import re
from pathlib import Path

import pytest
from books import Type, fixture_book, folder, journal_of, month
from conftest import Desk, text_of

from plantbal import Book
from plantbal.book.posting import NotPosted
from plantbal.gates import Gate

__all__ = ["fixture_book"]

REASONS = ("--anyway", "missing=both meters are read from the 4th on")


def test_a_close_that_is_stopped_changes_nothing(book: Type, tmp_path: Path) -> None:
    before = text_of(tmp_path / "mill" / "journal.csv"), text_of(tmp_path / "mill" / "2024.csv")
    said = book("close", "2024-04")
    assert said.status == 1
    assert (
        "2024-04 isn't closed: no reading of FEED, PRODUCT on 2024-04-04 to 2024-04-30" in said.err
    )
    assert "--anyway 'missing=REASON'" in said.err
    after = text_of(tmp_path / "mill" / "journal.csv"), text_of(tmp_path / "mill" / "2024.csv")
    assert after == before


def test_each_gate_wants_its_own_reason(book: Type, tmp_path: Path) -> None:
    said = book("close", "2024-04", "--anyway", "estimated=none is")
    assert (said.status, "2024-04 isn't closed" in said.err) == (1, True)
    for words, why in (
        (("--anyway", "yes"), "'yes' isn't a gate: write GATE=REASON"),
        (("--anyway", "missing="), "there is no reason"),
        (("--anyway", "missing=a | b"), "'a | b' has a |"),
    ):
        said = book("close", "2024-04", *words)
        assert (said.status, why in said.err) == (1, True), said
    said = book("close", "2024-04", *REASONS, "--anyway", "estimated=none is")
    assert said.status == 0
    assert "2024-04: missing: both meters are read from the 4th on" in said.out
    assert "2024-04: the reason for estimated isn't kept" in said.out
    line = journal_of(tmp_path / "mill")[-1]
    assert line[1:5] == ["close", "2024-04", "anyway missing", REASONS[1].partition("=")[2]]


def test_the_statement_prints_the_reasons(book: Type, say: Desk, tmp_path: Path) -> None:
    assert book("close", "2024-04", *REASONS).status == 0
    session, report = tmp_path / "s.csv", tmp_path / "mill" / "reports" / "2024-04.csv"
    assert book("report", "2024-04", "--session", session).status == 0
    shown = say("page", report, "--session", session, "--book", tmp_path / "mill").out
    assert "Closed all the same" in shown and "both meters are read from the 4th on" in shown
    assert "By anna on 20" in shown
    assert "Before the close" in say("page", report, "--session", session).out


def wrong_sign(book: Type, tmp_path: Path) -> None:
    """April with a figure below 0 on one of its days."""
    sheets = month(last=30)
    for day, row in enumerate(sheets["readings"][1:]):
        row[1:] = [str(1200 + day % 7), str(1199 + day % 5)]
    sheets["readings"][5][1] = "-1200"
    assert book("add", folder(tmp_path / "more", sheets), "--why", "the whole month").status == 0


def test_what_is_quieted_stops_nothing_and_is_listed(book: Type, say: Desk, tmp_path: Path) -> None:
    wrong_sign(book, tmp_path)
    found = book("report", "2024-04")
    assert "FEED is below 0 on 2024-04-05" in found.out and "[negative]" in found.out
    for words, why in (
        (("estimated", "FEED"), "is of a single month"),
        (("refused", "FEED"), "isn't a rule that can be quieted"),
        (("negative",), "negative can be quieted only for names"),
    ):
        said = book("quiet", *words, "--why", "x")
        assert (said.status, why in said.err) == (1, True), said
    assert book("quiet", "negative", "FEED", "--why", "it is drained back").status == 0
    assert "[negative]" not in book("report", "2024-04").out
    assert book("quiet").out.startswith("negative FEED: it is drained back (anna, 20")
    session = tmp_path / "s.csv"
    assert book("report", "2024-04", "--session", session).status in (0, 1)
    said = say("lint", session, "--book", tmp_path / "mill")
    assert "[negative]" not in said.out and "1 quieted by the book" in said.err
    assert "[negative]" in say("lint", session).out
    shown = say("page", tmp_path / "mill/reports/2024-04.csv", "--session", session)
    assert "FEED is below 0 on" in shown.out
    assert book("quiet", "--off", "negative", "FEED", "--why", "no longer").status == 0
    assert "[negative]" in book("report", "2024-04").out
    assert "isn't quieted for FEED" in book("quiet", "--off", "negative", "FEED", "--why", "x").err
    assert book("verify").status == 0


def test_an_amended_level_wants_its_unit(book: Type) -> None:
    words = ("--why", "read again", "--locale", "en")
    said = book("amend", "SILO", "2024-04-30", "9.512", *words)
    assert (said.status, "9.512 m or 9.512 cm?" in said.err) == (1, True), said
    assert book("amend", "SILO", "2024-04-30", "9.512 m", *words).status == 0


def test_where_to_look_is_said_in_the_sales_unit(book: Type, say: Desk, tmp_path: Path) -> None:
    """PRODUCT brings 35,985 t, the silo gains 441.4 t, trucks take the same each day; one lacks."""
    sheets, each = month(last=30), (35_985 - 1500 * 4708 / 20_000 * 1.25) / 30
    days = [row[0] for row in sheets["readings"][1:] if not row[0].endswith("-17")]
    sheets["tickets"][1:] = [[f"truck-{day}", "TRUCKS", day, f"{each:.3f}"] for day in days]
    sheets["accounts"] = [
        ["name", "kind", "product", "unit", "density"],
        ["TRUCKS", "shipment", "dust", "bbl", "2000"],
        ["SILO", "", "dust", "", ""],
    ]
    assert book("add", folder(tmp_path / "whole", sheets), "--why", "x", "--strike").status == 0
    said = book("report", "2024-04", "--session", tmp_path / "s.csv").out
    found = re.search(r"a ticket of TRUCKS of (1,185 t, ([0-9,]+) bbl) is missing", said)
    assert found is not None, said
    assert float(found[2].replace(",", "")) == pytest.approx(each / 2 / 0.158987294928, rel=1e-3)
    hole = re.search(r"1,[0-9]{3} t, ([0-9,]+) bbl ± [0-9]", said)
    assert hole is not None, said
    assert float(hole[1].replace(",", "")) == pytest.approx(each / 2 / 0.158987294928, rel=5e-2)
    report, words = tmp_path / "mill/reports/2024-04.csv", ("--session", tmp_path / "s.csv")
    assert found[1] in say("page", report, *words, "--book", tmp_path / "mill").out
    assert " bbl" not in say("page", report, *words).out


def test_a_report_that_is_rejected_is_not_posted(book: Type, tmp_path: Path) -> None:
    whole = month(last=30)
    whole["tickets"][1][3] = "35544"  # so that the month closes
    assert book("add", folder(tmp_path / "whole", whole), "--why", "all of it").status == 0
    closed = book("close", "2024-04")
    assert closed.status == 0, closed
    assert book("posted", "2024-04").status == 0
    assert book("amend", "F-1", "2024-04-02", "9200 t", "--why", "a digit").status == 0
    assert "changed since its report" in book("posted", "2024-04").err
    assert book("report", "2024-04").status in (0, 1)
    for words in ((), ("--anyway",), ("--anyway", "missing=none is")):
        said = book("posted", "2024-04", *words)
        assert said.status == 1 and "isn't posted: 2024-04 is rejected by the" in said.err, said
        words = "plantbal-desk book posted 2024-04 --anyway 'rejected=REASON'"
        assert said.err.endswith(f"posted all the same: {words}\n"), said
    with pytest.raises(NotPosted) as fault:
        Book(tmp_path / "mill").handed("2024-04")
    assert fault.value.unanswered == (Gate.REJECTED,)
    said = book("posted", "2024-04", "--anyway", "rejected=the meter is out", "--why", "late")
    assert said.status == 0, said
    assert Book(tmp_path / "mill").handed("2024-04").posting
    line = journal_of(tmp_path / "mill")[-1]
    assert line[3].endswith(" anyway rejected") and line[4] == "late | the meter is out"


def test_what_the_close_has_a_reason_for_is_not_asked_again(book: Type) -> None:
    assert book("close", "2024-04", *REASONS).status == 0
    assert book("posted", "2024-04").status == 0
    assert book("amend", "truck-04", "801 t", "--why", "a digit").status == 0
    assert book("report", "2024-04").status in (0, 1)
    said = book("posted", "2024-04")
    assert said.status == 0, said
    assert book("strike", "F-1", "2024-04-03", "--why", "out of it").status == 0
    assert book("amend", "truck-04", "802 t", "--why", "a digit").status == 0
    assert book("report", "2024-04").status in (0, 1)
    said = book("posted", "2024-04")  # another day is missing
    assert said.status == 1 and "--anyway 'missing=REASON'" in said.err, said
