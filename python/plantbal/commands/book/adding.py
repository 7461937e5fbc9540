"""Adds a workbook to a book: what is new, what is changed, and nothing twice."""

from __future__ import annotations

import argparse
import sys
from collections.abc import Callable

from plantbal.book.adding import Unreasoned
from plantbal.book.ledger import BookFact
from plantbal.book.library import Book
from plantbal.book.results import Added
from plantbal.book.said import FIRST, added, changes_said, reopened_said
from plantbal.commands.options import add_reading, reading_of
from plantbal.faults import WordsFault
from plantbal.statuses import ExitStatus


def add_arguments(parser: argparse.ArgumentParser) -> None:
    """Add the words of the command."""
    parser.add_argument("workbook", metavar="WORKBOOK")
    parser.add_argument("--why", metavar="TEXT", help="the reason for what is changed or struck")
    parser.add_argument(
        "--strike", action="store_true", help="strike facts that are no longer in the workbook"
    )
    parser.add_argument(
        "--anyway", action="store_true", help="strike even if that removes most booked facts"
    )
    parser.add_argument("--year", metavar="YEAR", help="the year of its plant (default: the last)")
    parser.add_argument(
        "--dry-run", action="store_true", help="show what would be booked, and book nothing"
    )
    add_reading(parser)


def run(options: argparse.Namespace) -> int:
    """Add a workbook, and say what that was."""
    asks = not options.why and not options.json and may_ask()
    try:
        found = Book(options.book, who=options.who, key=options.key).add(
            options.workbook,
            why=ReasonPrompt() if asks else options.why or "",
            strike=options.strike,
            anyway=options.anyway,
            year=options.year,
            reading=reading_of(options),
            dry_run=options.dry_run,
        )
    except Unreasoned as fault:
        print("\n".join(fault.changes[:FIRST]))
        raise
    options.found = found
    print("\n".join(added_lines(found)))
    if options.dry_run:
        print("nothing is booked, as --dry-run says")
    return ExitStatus.GOOD


def added_lines(found: Added, when: Callable[[BookFact], str] = lambda fact: "") -> list[str]:
    """Return what was added, changed and is missing, a line each; `when` the source changed it."""
    lines = [*(added(year) for year in found.years), *found.accounts, *found.causes[:FIRST]]
    lines += changes_said(found.changes, found.workbook, found.struck, when)
    lines += map(reopened_said, found.closed)
    for year in found.years:
        lines += [f"look at it: {each.text}: {each.remedy}" for each in year.doubts[:FIRST]]
        lines += year.missing
    return [*lines, *found.notes]


def may_ask() -> bool:
    """Say whether somebody sits at a terminal."""
    return sys.stdin.isatty()


class ReasonPrompt:
    """Reasons that are typed: an empty answer is the reason before."""

    def __init__(self) -> None:
        self._before = ""

    def __call__(self, said: str) -> str:
        """Return the reason of a change."""
        offer = f" [{self._before}]" if self._before else ""
        typed = ""
        while not typed:
            try:
                typed = input(f"{said}. Why?{offer} ").strip() or self._before
            except EOFError:
                raise WordsFault("no reason given", remedy="use --why TEXT") from None
        self._before = typed
        return typed
