"""Writes the reports of periods and of windows, and says what to look at."""

from __future__ import annotations

import argparse
from types import SimpleNamespace

from plantbal.book.library import Book
from plantbal.book.reporting import (
    balances_said,
    report_state_line,
    state_of_block,
    suspects_of,
    suspects_of_block,
)
from plantbal.book.results import Reported
from plantbal.book.said import count_said
from plantbal.book.window import closed_said, undipped
from plantbal.commands.options import AS_LAST_REPORT, AS_LAST_WINDOW, add_run, settings_of
from plantbal.files import write_text
from plantbal.gates import line_of_stop, unsaid
from plantbal.statuses import looks


def _add_report(parser: argparse.ArgumentParser) -> None:
    parser.add_argument(
        "periods", metavar="PERIOD", nargs="*", help="the periods (default: all open ones)"
    )
    parser.add_argument(
        "--session", metavar="FILE", help="also write the session that asks for the reports"
    )
    add_run(parser, default=AS_LAST_REPORT)


def _report(options: argparse.Namespace) -> int:
    """Write the reports."""
    book = Book(options.book, who=options.who, key=options.key)
    wants, options.found = False, []
    for found in book.reports(*options.periods, settings=settings_of(options)):
        output, name = found.output, found.period
        options.found.append(_row_of(found))
        print(report_state_line(output, name))
        said = [*suspects_of(output), *found.holes, *balances_said(output), *found.missing]
        for line in [*said, *map(line_of_stop, unsaid(found.stops))]:
            print(line)
        history = f", with {count_said(found.edits, 'edit')}" if found.edits else ""
        print(f"{name}: {found.path}{history}" + ("" if found.is_new else ", as it was"))
        wants = wants or not output.ok
    if options.session:
        write_text(options.session, book.session_asking(*options.periods))
    return looks(wants)


def _row_of(found: Reported) -> dict[str, object]:
    """Return what is said of a report as values."""
    return {
        "period": found.period,
        "ok": found.output.ok,
        "state": report_state_line(found.output, found.period),
        "why": found.output.why,
        "suspects": suspects_of(found.output),
        "balances": balances_said(found.output),
        "missing": found.missing,
        "stops": [line_of_stop(stop) for stop in unsaid(found.stops)],
        "edits": found.edits,
        "path": found.path,
        "is_new": found.is_new,
    }


def _add_window(parser: argparse.ArgumentParser) -> None:
    parser.add_argument("first", metavar="FIRST", help="the first period")
    parser.add_argument("last", metavar="LAST", help="the last period")
    parser.add_argument(
        "--session", metavar="FILE", help="also write the session that asks for the window"
    )
    add_run(parser, default=AS_LAST_WINDOW)


def _window(options: argparse.Namespace) -> int:
    """Write the report of a window."""
    book = Book(options.book, who=options.who, key=options.key)
    found = book.window(options.first, options.last, settings=settings_of(options))
    options.found = found
    for block in found.output.blocks_in_order[-1:]:
        for line in (state_of_block(block), *suspects_of_block(block), *undipped(block)):
            print(line)
    for line in closed_said(found.closed):
        print(line)
    print(f"{found.first} to {found.last}: {found.path}" + ("" if found.is_new else ", as it was"))
    if options.session:
        write_text(options.session, found.session)
    return looks(not found.output.ok)


REPORT = SimpleNamespace(
    __doc__="Writes the reports of periods, each with the history of its edits, and says what to "
    "look at.",
    add_arguments=_add_report,
    run=_report,
)
WINDOW = SimpleNamespace(
    __doc__="Reconciles several periods of a book at once, and says what tanks held at dips that "
    "nobody took.",
    add_arguments=_add_window,
    run=_window,
)
