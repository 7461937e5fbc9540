"""Shows what is booked for a stream or tank, and the state of a book."""

from __future__ import annotations

import argparse
from decimal import Decimal
from types import SimpleNamespace

from plantbal.book.ledger import BookFact, number_with_commas
from plantbal.book.library import Book
from plantbal.book.meters import Meter
from plantbal.book.naming import day_named
from plantbal.book.results import ReportState, ShownFact, TankApart, YearStatus
from plantbal.book.said import behind_said, count_said
from plantbal.schema import schema
from plantbal.statuses import ExitStatus
from plantbal.workbook.units import GRAMS, VOLUMES, WET

_FULL = 0.8  # from this share of a limit on the next year is asked for

# ---- show


def _add_show(parser: argparse.ArgumentParser) -> None:
    parser.add_argument("name", metavar="NAME", help="a tag, stream or tank")
    parser.add_argument("first", metavar="FIRST", nargs="?", help="from this day on")
    parser.add_argument("last", metavar="LAST", nargs="?", help="up to this day")
    form = "how days are written, such as de"
    parser.add_argument("--locale", metavar="NAME", default="", help=form)


def _show(options: argparse.Namespace) -> int:
    """Show it."""
    first, last = day_named(options.first, options.locale), day_named(options.last, options.locale)
    found, meter, waiting = Book(options.book).show(options.name, first, last)
    options.found = {"waiting": waiting, "shown": found}
    for line in [*waiting, *(booked_fact_line(shown, meter) for shown in found)]:
        print(line)
    return ExitStatus.GOOD


def booked_fact_line(shown: ShownFact, meter: Meter | None = None) -> str:
    """Return what is booked of a fact, also in the unit of its meter."""
    fact = shown.fact
    line = f"{fact.id}: {fact.said()}{in_unit(fact, meter)}, error {fact.error()}"
    if fact.kind == "transfer" and fact.first != fact.last:
        line += f", from {fact.first} to {fact.last}"
    if shown.struck:
        return f"{line}; struck"
    before = [was.said() for was in shown.before]
    return f"{line}; before {', '.join(before)}" if before else line


def in_unit(fact: BookFact, meter: Meter | None) -> str:
    """Return a reading in the unit of its meter, in brackets; nothing if that is tonnes."""
    if meter is None or fact.kind != "reading" or meter.unit in ("", "t", *WET):
        return ""
    unit = GRAMS.get(meter.unit) or VOLUMES[meter.unit] * (meter.density or 0)
    if not unit:
        return ""
    number = fact.values[0] / unit
    found = round(Decimal(number.numerator) / Decimal(number.denominator), 3)
    return f" ({number_with_commas(found)} {meter.unit})"


# ---- status


def _add_status(parser: argparse.ArgumentParser) -> None:
    parser.add_argument("--all", action="store_true", help="closed periods too")


def _status(options: argparse.Namespace) -> int:
    """Say how the book stands."""
    options.found = found = Book(options.book).status()
    lines = list(found.waiting)
    for year in found.years:
        lines += year_lines(year, options.all)
    lines += [_apart(each) for each in found.apart]
    print("\n".join(lines))
    return ExitStatus.GOOD


def year_lines(year: YearStatus, every: bool) -> list[str]:
    """Return what is to be said of a year."""
    closed = sum(period.closed for period in year.periods)
    counts = f"{count_said(closed, 'period')} closed, {len(year.periods) - closed} open"
    lines = [f"{year.name}: {counts}; {fullness(year)}"]
    for period in year.periods:
        if period.closed and not every and period.report is ReportState.CURRENT:
            continue
        state = "closed" if period.closed else "open"
        report = behind_said(period.report, period.name) or "reported"
        lines += [f"{period.name}: {state}, {report}", *period.missing]
    return lines + [
        f"{first} to {last}: changed since its report: plantbal-desk book window {first} {last}"
        for first, last in year.older_windows
    ]


def fullness(year: YearStatus) -> str:
    """Return how full a year's session is, and what to do if it is nearly."""
    limits = schema().limits
    parts = [
        ("facts", year.facts, limits["most_facts"]),
        ("periods", len(year.periods), limits["most_periods"]),
    ]
    said = ", ".join(
        f"{count:,} of {most:,} {word} ({100 * count / most:.1f} %)" for word, count, most in parts
    )
    if any(count >= _FULL * most for _, count, most in parts):
        said += f"; nearly full: begin another part: plantbal-desk book next {_after(year.name)}"
    return said


def _after(name: str) -> str:
    """Return a name for another part of a year."""
    year, _, part = name.partition("-")
    return f"{year}-{int(part or 1) + 1}" if (part or "1").isdigit() else f"{name}-2"


def _apart(found: TankApart) -> str:
    return (
        f"{found.tank}: {found.old_year} ends with {found.old.said()}, and {found.new_year} begins "
        f"with {found.new.said()}: amend one of the two"
    )


SHOW = SimpleNamespace(
    __doc__="Shows what is booked for a stream or tank: each figure, its error, and what it was "
    "before.",
    add_arguments=_add_show,
    run=_show,
)
STATUS = SimpleNamespace(
    __doc__="Shows the state of a book: what is open or missing, which report is old, and how full it "
    "is.",
    add_arguments=_add_status,
    run=_status,
)
