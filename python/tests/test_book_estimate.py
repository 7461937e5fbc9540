"""Proposals of estimates: against least squares done otherwise, by hand, and through the book."""

from __future__ import annotations

import random
from pathlib import Path

from books import Type, fixture_book, folder, journal_of, month, rows_of
from conftest import Desk

__all__ = ["fixture_book"]


def april(tmp_path: Path, *, without: tuple[int, ...] = (), dead: tuple[int, ...] = ()) -> Path:
    """April with readings of all days but for some of PRODUCT, and some of it zero."""
    sheets, rng = month(last=30), random.Random(4)
    for row in sheets["readings"][1:]:
        tonnes = 1150 + rng.randrange(100)
        row[1:] = [str(tonnes + rng.randrange(7)), str(tonnes)]
        day = int(row[0][-2:])
        row[2] = "" if day in without else "0" if day in dead else row[2]
    return folder(tmp_path / "whole", sheets)


def of(rows: list[str], day: int) -> list[str]:
    return next(row.split(",") for row in rows if f",PRODUCT,2024-04-{day:02}," in row)


def page_of(book: Type, say: Desk, tmp_path: Path) -> str:
    """The statement of April."""
    session, report = tmp_path / "s.csv", tmp_path / "mill" / "reports" / "2024-04.csv"
    book("report", "2024-04", "--session", session)
    return say("page", report, "--session", session).out


def test_the_table_of_streams_marks_what_is_estimated(
    book: Type, say: Desk, tmp_path: Path
) -> None:
    assert book("add", april(tmp_path, without=(17,)), "--why", "all", "--strike").status == 0
    assert 'class="estimated"' not in page_of(book, say, tmp_path)
    assert book("estimate", "2024-04", "P-1", "--take", "--why", "x").status == 0
    page = page_of(book, say, tmp_path)
    row = page[page.index('<tr data-stream="PRODUCT"') :]
    assert '<span class="estimated">est</span>' in row[: row.index("</tr>")]
    assert page.count('<span class="estimated">') == 1
    note = page[page.index("est: what was measured") :]
    assert "2024-04-17" in note[:300] and "±" in note[:300]


def test_a_missing_day_is_what_the_balance_leaves(book: Type, tmp_path: Path) -> None:
    """MILL gives on a day what FEED brings, and FEED is read with 1 %, which is more than 5 t."""
    assert book("add", april(tmp_path, without=(17,)), "--why", "all days", "--strike").status == 0
    said = book("estimate", "2024-04")
    feed = next(float(row.split(",")[4]) for row in rows_of(tmp_path) if "FEED,2024-04-17," in row)
    line = said.out.splitlines()[0]
    assert line.startswith(f"PRODUCT 2024-04-17: {feed / 1e6:,.0f} t ± 11."), said
    assert line.endswith(" t, by the balance of the day, of FEED")
    assert "nothing is booked; to book it: plantbal-desk book estimate 2024-04 --take" in said.out
    assert book("estimate", "2024-04", "--take").status == 2
    said = book("estimate", "2024-04", "--take", "--why", "the scale was out of order")
    assert "1 day is booked as an estimate" in said.out, said
    row = of(rows_of(tmp_path), 17)
    assert row[1].endswith("_2024-04-17.est") and float(row[4]) == round(feed, -3)
    assert abs(float(row[5]) ** 0.5 - feed / 100) < 2e3
    line = journal_of(tmp_path / "mill")[-1]
    assert line[1:5] == ["estimate", "2024-04", "PRODUCT", "the scale was out of order"]
    assert book("verify").status == 0
    assert "no day of a meter is without a reading" in book("estimate", "2024-04").out


def test_a_dead_meter_is_estimated_if_it_is_named(book: Type, tmp_path: Path) -> None:
    days = tuple(range(10, 16))
    assert book("add", april(tmp_path, dead=days), "--why", "all days").status == 0
    assert "no day of a meter is without a reading" in book("estimate", "2024-04").out
    said = book("estimate", "2024-04", "P-1", "--take", "--why", "the belt scale was off")
    assert "6 days are estimates now" in said.out, said
    rows = rows_of(tmp_path)
    assert sum(row.startswith("strike,") for row in rows) == len(days)
    assert all(".est," in row for row in rows if ",PRODUCT,2024-04-1" in row and row in rows[-12:])
    assert book("estimate", "2024-04", "PUMP").status == 1
    again = book("add", april(tmp_path, dead=days))  # the same workbook changes nothing
    assert again.status == 0 and "nothing new" in again.out, again
    assert "P-1_2024-04-10.est: it stays amended" in again.out + again.err


def test_what_the_report_has_anyway_is_not_booked(book: Type, tmp_path: Path) -> None:
    """Without a reading in the month the balance of the month has it, with the same ±."""
    path = april(tmp_path, without=tuple(range(1, 31)))
    assert book("add", path, "--strike", "--anyway", "--why", "none").status == 0
    said = book("estimate", "2024-04", "--take", "--why", "x")
    assert "the report has this without an estimate" in said.out, said
    assert "nothing is booked" not in said.out and "estimates now" not in said.out
