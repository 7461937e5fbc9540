"""Hourly sheets, stamps with zones, counters: the days that they give, with sums by hand."""

from __future__ import annotations

import datetime
import re
from dataclasses import replace
from pathlib import Path
from typing import Any

import openpyxl
import pytest
from conftest import Desk, text_of
from test_shapes import Book, Rows, adds_up, saved

from plantbal import convert, limits
from plantbal.audit.archive import bundle_files
from plantbal.audit.bundle import (
    MANIFEST,
    OUTPUT,
    SESSION,
    SUMMARY,
    SUMMED,
    VERSION,
    WITH_SUMMED,
    Manifest,
    packed,
    unpacked,
)
from plantbal.audit.said import SentenceKind
from plantbal.audit.sums import NotSummed, summed_held
from plantbal.model.facts import Fact
from plantbal.page.summed import summed_of_book
from plantbal.workbook.sheets import Cell, Sheet
from plantbal.workbook.summed import cells_text, read_summed

DAY, HOUR = datetime.timedelta(days=1), datetime.timedelta(hours=1)
UTC = datetime.timezone.utc
MARCH_31, OCTOBER_27 = datetime.datetime(2024, 3, 31), datetime.datetime(2024, 10, 27)
MAY_1 = datetime.datetime(2024, 5, 1)
BERLIN = ["zone", "Europe/Berlin", None]


def pipe(readings: Rows, *settings: list[Any]) -> Book:
    """A mill with a meter before it, and an unmeasured stream after it."""
    book: Book = {
        "streams": [
            ["tag", "stream", "from", "to", "error"],
            ["F-1", "FEED", "env", "MILL", "1 t"],
            [None, "OUT", "MILL", "env", None],
        ],
        "readings": readings,
    }
    if settings:
        book["settings"] = [["setting", "value", "for"], *settings]
    return book


def hours(first: datetime.datetime, count: int, form: str = "", at: int = 0) -> Rows:
    """A row an hour, with 1 t in the first, 2 t in the second and so on."""
    stamps = [first + (at + n) * HOUR for n in range(count)]
    return [[each.strftime(form) if form else each, n + 1] for n, each in enumerate(stamps)]


def sums(count: int) -> int:
    """The grams of so many hours."""
    return count * (count + 1) // 2 * 10**6


def autumn() -> Rows:
    """The hours of the day on which clocks are put back, as they show them."""
    clock = [*range(3), *range(2, 24)]
    return [[OCTOBER_27 + hour * HOUR, n + 1] for n, hour in enumerate(clock)]


HEAD: Rows = [["Pipeline, hourly"], ["time", "F-1"]]
ISO = "%Y-%m-%dT%H:%M:%SZ"
# The rows of readings, the settings, and the grams of each day.
READ: dict[str, tuple[Rows, list[list[Any]], dict[str, int]]] = {
    "begins of hours": ([*HEAD, *hours(MAY_1, 48)], [], {"2024-05-01": 300, "2024-05-02": 876}),
    "ends of hours": ([*HEAD, *hours(MAY_1, 24, at=1)], [], {"2024-05-01": 300}),
    "t/h": ([*HEAD, [None, "t/h"], *hours(MAY_1, 24)], [], {"2024-05-01": 300}),
    "kg an hour": ([*HEAD, [None, "kg/h"], *hours(MAY_1, 24)], [], {"2024-05-01": 0.3}),
    "a sum below": ([*HEAD, *hours(MAY_1, 24), ["Summe", 300]], [], {"2024-05-01": 300}),
    "clocks put forward": (
        [*HEAD, *[r for r in hours(MARCH_31, 24) if r[0].hour != 2]],
        [BERLIN],
        {"2024-03-31": 297},
    ),
    "clocks put back": ([*HEAD, *autumn()], [BERLIN], {"2024-10-27": 325}),
    "Z over clocks put back": (
        [*HEAD, *hours(OCTOBER_27 - 2 * HOUR, 25, ISO)],
        [BERLIN],
        {"2024-10-27": 325},
    ),
    "Z and a day from 06:00 to 06:00": (
        [*HEAD, *hours(MAY_1 + 4 * HOUR, 24, ISO)],
        [BERLIN, ["day begins", "06:00", None]],
        {"2024-05-01": 300},
    ),
    "a day from 06:00 over clocks put forward": (
        [*HEAD, *hours(MARCH_31 - 19 * HOUR, 23, ISO)],
        [BERLIN, ["day begins", datetime.time(6), None]],
        {"2024-03-30": 276},
    ),
    "days at six": (
        [*HEAD, [MAY_1 + 6 * HOUR, 7], [MAY_1 + 30 * HOUR, 8]],
        [["day begins", "06:00", None]],
        {"2024-05-01": 7, "2024-05-02": 8},
    ),
    "an offset": (
        [*HEAD, *hours(MAY_1, 24, "%Y-%m-%d %H:%M+02:00")],
        [BERLIN],
        {"2024-05-01": 300},
    ),
    "days with Z": (
        [*HEAD, ["2024-05-01T00:00:00Z", 7], ["2024-05-02T00:00:00Z", 8]],
        [["zone", "UTC", None]],
        {"2024-05-01": 7, "2024-05-02": 8},
    ),
    "a missing hour is 0": (
        [*HEAD, *[r for r in hours(MAY_1, 24) if r[0].hour != 4]],
        [["missing hours", 0, None]],
        {"2024-05-01": 295},
    ),
    "a day without any figure": (
        [*HEAD, *hours(MAY_1, 24), *[[r[0], "Bad"] for r in hours(MAY_1 + DAY, 24)]],
        [],
        {"2024-05-01": 300},
    ),
    "long": (
        [["time", "tag", "value", "unit"], *[[s, "F-1", v, "t/h"] for s, v in hours(MAY_1, 24)]],
        [],
        {"2024-05-01": 300},
    ),
    "a counter, daily, over its end": (
        [["day", "F-1"], [MAY_1, 999990], [MAY_1 + DAY, 40], [MAY_1 + 2 * DAY, 100.25]],
        [["counter", 1000000, "F-1"], ["stamps", "begin", None]],
        {"2024-05-01": 50, "2024-05-02": 60.25},
    ),
    "a counter read at the end of its day": (
        [["day", "F-1"], [MAY_1, 10], [MAY_1 + DAY, 40]],
        [["counter", 1000000, "FEED"], ["stamps", "end", None]],
        {"2024-05-02": 30},
    ),
    "a counter, hourly": (
        [["time", "F-1"], *[[MAY_1 + n * HOUR, 5 * n % 100] for n in range(25)]],
        [["counter", 100, "F-1"], ["stamps", "begin", None]],
        {"2024-05-01": 120},
    ),
}


@pytest.mark.parametrize("case", READ)
def test_a_day_has_the_sum_of_its_hours(case: str, tmp_path: Path) -> None:
    rows, settings, wanted = READ[case]
    found = convert(saved(tmp_path, pipe(rows, *settings)))
    assert found.said() == []
    readings = {row[3]: int(row[4]) for row in found.session if row[0] == "reading"}
    assert readings == {day: int(tonnes * 10**6) for day, tonnes in wanted.items()}
    assert any(word in note for note in found.notes for word in ("hours", "stamp", "counters"))
    adds_up(found)


FAULTS: dict[str, tuple[Rows, list[list[Any]], str]] = {
    "missing hours": (
        [*HEAD, *[r for r in hours(MAY_1, 24) if r[0].hour not in (4, 5, 9, 13)]],
        [],
        "readings!B3: F-1 has no figure for 4 of the 24 hours of 2024-05-01: "
        "those from 04:00, 05:00, 09:00 and 1 more",
    ),
    "bad in an hour": (
        [*HEAD, *[[s, "Bad" if s.hour == 7 else v] for s, v in hours(MAY_1, 24)]],
        [],
        "has no figure for 1 of the 24 hours of 2024-05-01: those from 07:00",
    ),
    "clocks put back without a zone": (
        [*HEAD, *autumn()],
        [],
        "2024-10-27 02:00:00 appears twice",
    ),
    "an hour that isn't there": (
        [*HEAD, *hours(MARCH_31, 24)],
        [BERLIN],
        "isn't there: clocks are",
    ),
    "Z without a zone": (
        [*HEAD, ["2024-05-01T00:00:00Z", 7], ["2024-05-02T00:00:00Z", 8]],
        [],
        "2024-05-01T00:00:00Z has a zone, and the plant's isn't given",
    ),
    "no whole days": (
        [*HEAD, *hours(MAY_1, 30)],
        [],
        "is a stamp the beginning or the end of its hour?",
    ),
    "quarters": (
        [*HEAD, *[[MAY_1 + n * HOUR / 4, 1] for n in range(96)]],
        [["stamps", "begin", None]],
        "this isn't a full hour of the day",
    ),
    "a counter that went back": (
        [["day", "F-1"], [MAY_1, 500], [MAY_1 + DAY, 20]],
        [["counter", 1000, "F-1"], ["stamps", "begin", None]],
        "readings!B3: the counter F-1 went back",
    ),
    "a counter above its end": (
        [["day", "F-1"], [MAY_1, 500], [MAY_1 + DAY, 1020]],
        [["counter", 1000, "F-1"], ["stamps", "begin", None]],
        "the counter F-1 begins again at 1000, and this is 1020",
    ),
    "a counter's day": (
        [["day", "F-1"], [MAY_1, 500], [MAY_1 + DAY, 520]],
        [["counter", 1000, "F-1"]],
        "was this counter read at the beginning or the end of the day?",
    ),
    "a counter without a day's end": (
        [["day", "F-1"], [MAY_1, 500], [MAY_1 + DAY, None], [MAY_1 + 2 * DAY, 560]],
        [["counter", 1000, "F-1"], ["stamps", "begin", None]],
        "so what went on 2024-05-01 isn't known",
    ),
    "a counter of no stream": (
        [["day", "F-1"], [MAY_1, 500]],
        [["counter", 1000, "F-2"]],
        "settings!C2: there is no tag or stream 'F-2'",
    ),
    "no zone": (
        [["day", "F-1"], [MAY_1, 5]],
        [["zone", "Berlin", None]],
        "there is no zone 'Berlin'",
    ),
    "no setting": (
        [["day", "F-1"], [MAY_1, 5]],
        [["zon", "UTC", None]],
        "there is no setting 'zon'",
    ),
}


@pytest.mark.parametrize("case", FAULTS)
def test_what_isnt_told_is_a_fault(case: str, tmp_path: Path) -> None:
    rows, settings, what = FAULTS[case]
    found = convert(saved(tmp_path, pipe(rows, *settings)))
    assert any(what in said for said in found.said()), found.said()
    adds_up(found)


# ---- of what a day's figure is made


def named(room: Path, book: Book, name: str) -> Path:
    """Save a workbook under a name."""
    return saved(room, book).rename(room / f"{name}.xlsx")


def test_cells_as_a_spreadsheet_writes_them() -> None:
    sheet = Sheet("a.xlsx", "readings", [])
    places = [(3, 2), (4, 2), (5, 2), (7, 2), (8, 3)]
    cells = [Cell(sheet, line, column, None) for line, column in places]
    assert cells_text(cells) == "B3:B5 B7 C8"


TRAILS: dict[str, tuple[Rows, list[list[Any]], list[tuple[Any, ...]]]] = {
    # fact, what it is of, figure, unit, cells, count, hours, missing
    "hours": (
        [*HEAD, [None, "t/h"], *hours(MAY_1, 48)],
        [],
        [
            ("F-1_2024-05-01", "hours", "300", "t", "B4:B27", 24, 24, ""),
            ("F-1_2024-05-02", "hours", "876", "t", "B28:B51", 24, 24, ""),
        ],
    ),
    "25 hours": (
        [*HEAD, *autumn()],
        [BERLIN],
        [("F-1_2024-10-27", "hours", "325", "t", "B3:B27", 25, 25, "")],
    ),
    "23 hours, two of them missing": (
        [*HEAD, *[r for r in hours(MARCH_31, 24) if r[0].hour not in (2, 4, 23)]],
        [BERLIN, ["missing hours", 0, None], ["stamps", "begin", None]],
        [("F-1_2024-03-31", "hours", "268", "t", "B3:B23", 21, 23, "04:00 23:00")],
    ),
    "long, with the hours apart": (
        [["time", "tag", "value"], *[r for s, v in hours(MAY_1, 24) for r in ([s, "F-1", v], [])]],
        [],
        [
            (
                "F-1_2024-05-01",
                *("hours", "300", "t"),
                " ".join(f"C{line}" for line in range(2, 50, 2)),
                *(24, 24, ""),
            )
        ],
    ),
    "a counter": (
        [["day", "F-1"], [MAY_1, 999990], [MAY_1 + DAY, 40], [MAY_1 + 2 * DAY, 100.25]],
        [["counter", 1000000, "F-1"], ["stamps", "begin", None]],
        [
            ("F-1_2024-05-01", "counter", "50", "t", "B2:B3", 2, 24, ""),
            ("F-1_2024-05-02", "counter", "60.25", "t", "B3:B4", 2, 24, ""),
        ],
    ),
}


@pytest.mark.parametrize("case", TRAILS)
def test_a_book_keeps_of_which_cells_a_day_is(case: str, say: Desk, tmp_path: Path) -> None:
    rows, settings, wanted = TRAILS[case]
    sheets = pipe(rows, *settings)
    book = "--book", tmp_path / "mill"
    plant = named(tmp_path, {"streams": sheets.pop("streams")}, "mill")
    assert say("book", "new", "2024", plant, *book).status == 0
    assert say("book", "add", named(tmp_path, sheets, "may"), *book).status == 0
    kept = read_summed(text_of(tmp_path / "mill" / "summed.csv"))
    booked = text_of(tmp_path / "mill" / "2024.csv").splitlines()
    for found, own in zip(kept, wanted, strict=True):
        assert tuple(found.texts()[2:10]) == tuple(map(str, own))
        assert (found.year, found.source) == ("2024", "may.xlsx!readings")
        assert booked[found.row - 1].split(",")[1] == found.fact
    said = say("book", "add", tmp_path / "may.xlsx", *book)
    assert read_summed(text_of(tmp_path / "mill" / "summed.csv")) == kept, said


def test_a_statement_shows_them(
    say: Desk, tmp_path: Path, program: Path, monkeypatch: pytest.MonkeyPatch
) -> None:
    """From a stream's measured amount to its hours; a reading that isn't their sum is said."""
    rows = [[*row, row[1]] for row in hours(MAY_1, 48) if row[0].hour != 4]
    heads = [["Pipeline, hourly"], ["time", "F-1", "F-2"]]
    sheets = pipe([*heads, *rows], ["missing hours", 0, None])
    sheets["streams"][2] = ["F-2", "OUT", "MILL", "env", "1 t"]
    sheets["periods"] = [["name", "first", "last"], ["may", MAY_1, MAY_1 + DAY]]
    book = "--book", tmp_path / "mill"
    assert say("book", "new", "2024", named(tmp_path, sheets, "may"), *book).status == 0
    assert say("book", "add", tmp_path / "may.xlsx", *book).status == 0
    session, out = tmp_path / "2024.csv", tmp_path / "page.html"
    session.write_text(text_of(tmp_path / "mill" / "2024.csv") + "report,may\n", encoding="utf-8")
    words = ("page", session, "--run", "--out", out, "--program", program, *book)
    assert say(*words, "--xlsx", tmp_path / "page.xlsx").status in (0, 1)
    shown = text_of(out).replace("\u00a0", " ")
    assert len(re.findall('<tr id="p0-h', shown)) == 4 and '<a href="#p0-h2"' in shown
    for text in ("may.xlsx!readings: B3:B25", "23 of 24 hours; taken for 0: 04:00", "295 t"):
        assert text in shown, text
    assert "✗" not in shown
    table = openpyxl.load_workbook(tmp_path / "page.xlsx")["summed"]
    assert (table.max_row, table["A1"].value) == (5, "period")
    monkeypatch.setattr(limits, "MEASURED_SHOWN", 1)
    assert say(*words).status in (0, 1) and "3 more are in summed.csv" in text_of(out)
    kept = tmp_path / "mill" / "summed.csv"
    fact = Fact("reading", "F-1_2024-05-01", "FEED", 0, 0, 295_000_000, 0, 0, 1, 6, 6, 6)
    for old, new, what in (
        (",295,", ",296,", "the session has 295,000,000 g, and this is 296,000,000 g"),
        (",23,24,", ",24,24,", "24 figures aren't those of 24 hours"),
    ):
        (tmp_path / "summed.csv").write_text(text_of(kept).replace(old, new), encoding="utf-8")
        (found,) = summed_of_book(str(tmp_path), [fact])
        assert found.wrong == what and not summed_of_book(str(tmp_path), [fact._replace(line=7)])
    for text in ("year\n", text_of(kept) + "2024,x\n", text_of(kept).replace(",23,", ",x,")):
        (tmp_path / "summed.csv").write_text(text, encoding="utf-8")
        with pytest.raises(NotSummed):
            summed_of_book(str(tmp_path), [fact])


# ---- in a bundle


def archived(say: Desk, room: Path, program: Path, sheets: Book) -> tuple[Path, Path]:
    """A book of a workbook, and the bundle of its month."""
    book, bundle, session = room / "mill", room / "may.zip", room / "2024.csv"
    plant = named(room, {"streams": sheets.pop("streams")}, "plant")
    assert say("book", "new", "2024", plant, "--book", book).status == 0
    assert say("book", "add", named(room, sheets, "may"), "--book", book).status == 0
    text = text_of(book / "2024.csv") + "report,2024-05\n"
    session.write_text(text, encoding="utf-8")
    words = ("archive", session, "--out", bundle, "--book", book, "--program", program)
    assert say(*words).status in (0, 1)
    return book, bundle


def test_a_bundle_has_of_which_hours(say: Desk, tmp_path: Path, program: Path) -> None:
    """It is audited without the book; a changed row, also one with all digests made anew, is told."""
    book, bundle = archived(say, tmp_path, program, pipe([*HEAD, *hours(MAY_1, 48)]))
    found = unpacked(bundle)
    assert found.files[SUMMED] == (book / "summed.csv").read_bytes()
    manifest = Manifest.read(found.files[MANIFEST])
    assert (manifest.archive, sorted(manifest.files)) == (
        WITH_SUMMED,
        sorted([OUTPUT, SESSION, SUMMED, SUMMARY]),
    )
    kinds = [kind for kind, _ in summed_held("a.zip", found.files)]
    assert kinds == [SentenceKind.GOOD]
    assert say("audit", bundle).status == 0
    for old, new in ((b",300,", b",301,"), (b",24,24,", b",23,24,"), (b"F-1_2024-05-02", b"F-2")):
        changed = {**found.files, SUMMED: found.files[SUMMED].replace(old, new, 1)}
        assert changed != found.files
        bundle.write_bytes(packed(changed))
        said = say("audit", bundle)
        assert said.status == 1 and f"{SUMMED}: " in said.out
        again = bundle_files(changed[SESSION], changed[OUTPUT], manifest, {SUMMED: changed[SUMMED]})
        assert [kind for kind, _ in summed_held("a.zip", again)] == [SentenceKind.WRONG]
        bundle.write_bytes(packed(again))
        assert say("audit", bundle).status == 1
    older = bundle_files(found.files[SESSION], found.files[OUTPUT], replace(manifest, archive=6))
    bundle.write_bytes(packed(older))
    assert say("audit", bundle).status == 0, "a bundle of an earlier form has none"
    carried = {SUMMED: found.files[SUMMED]}
    mixed = replace(manifest, archive=7)
    bundle.write_bytes(packed(bundle_files(older[SESSION], older[OUTPUT], mixed, carried)))
    assert say("audit", bundle).status == 1, "and one of an earlier form with it was put together"


def test_a_bundle_without_hours_is_as_it_was(say: Desk, tmp_path: Path, program: Path) -> None:
    sheets = pipe([["day", "F-1"], [MAY_1, 300], [MAY_1 + DAY, 876]])
    _, bundle = archived(say, tmp_path, program, sheets)
    found = unpacked(bundle)
    assert SUMMED not in found.files and Manifest.read(found.files[MANIFEST]).archive == VERSION


def test_a_fact_is_explained(say: Desk, tmp_path: Path, program: Path) -> None:
    rows = [r for r in hours(MAY_1, 24) if r[0].hour != 4]
    sheets = pipe([*HEAD, *rows], ["missing hours", 0, None])
    book, _ = archived(say, tmp_path, program, sheets)
    words = "explain", tmp_path / "2024.csv", "--fact", "F-1_2024-05-01"
    first = (
        f"{tmp_path / '2024.csv'}: line 6: reading F-1_2024-05-01 of FEED, 2024-05-01: 295.000 t"
    )
    alone, both = say(*words), say(*words, "--book", book)
    assert alone.status == both.status == 0 and alone.out.startswith(first)
    assert both.out.startswith(alone.out)
    made = "295 t, from may.xlsx!readings: B3:B25 (23 of 24 hours; taken for 0: 04:00)"
    assert both.out.splitlines()[1] == f"{book}: {made}"
    assert say("explain", tmp_path / "2024.csv", "--fact", "F-2").status == 1
    assert say("explain", tmp_path / "2024.csv", "--book", book).status == 2
