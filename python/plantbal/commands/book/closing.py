"""Closes a period with its report, and says why not."""

from __future__ import annotations

import argparse
from types import SimpleNamespace

from plantbal.book.answers import reasons_of
from plantbal.book.closing import NotClosed, unneeded
from plantbal.book.library import Book
from plantbal.book.reporting import balances_said, report_state_line, suspects_of
from plantbal.book.results import Reported
from plantbal.commands.options import AS_LAST_REPORT, add_run, settings_of
from plantbal.gates import line_of_stop, unsaid
from plantbal.statuses import ExitStatus


def _add_close(parser: argparse.ArgumentParser) -> None:
    parser.add_argument("period", metavar="PERIOD", help="the period")
    add_anyway(parser)
    add_run(parser, default=AS_LAST_REPORT)


def add_anyway(parser: argparse.ArgumentParser) -> None:
    """Add the word that has the reasons of a close although a gate stops it."""
    parser.add_argument(
        "--anyway",
        metavar="GATE=REASON",
        action="append",
        default=[],
        help="close even if a gate stops it, with the reason; once for each such gate",
    )


def _close(options: argparse.Namespace) -> int:
    """Close a period with its report."""
    book = Book(options.book, who=options.who, key=options.key)
    try:
        given = reasons_of(options.anyway)
        found = book.close(options.period, anyway=given, settings=settings_of(options))
    except NotClosed as fault:
        options.found = fault.report
        say_report(fault.report)
        raise
    options.found = found
    if found.report is None:
        print(f"{found.period} is closed already")
        return ExitStatus.GOOD
    say_report(found.report)
    for gate, reason in found.reasons.items():
        print(f"{found.period}: {gate}: {reason}")
    for line in unneeded(given, found):
        print(line)
    print(f"{found.period} is closed, with the report {found.report.path}")
    print(f"head {found.head}")
    return ExitStatus.GOOD


def say_report(report: Reported) -> None:
    """Say what the report says as a whole, and what is missing."""
    output = report.output
    said = [report_state_line(output, report.period), *suspects_of(output), *balances_said(output)]
    for line in [*said, *report.missing, *map(line_of_stop, unsaid(report.stops))]:
        print(line)


CLOSE = SimpleNamespace(
    __doc__="Closes a period with its report: what is added to it from then on comes late, and its "
    "history says so. What has to be looked at before it is booked stops it, unless --anyway gives a "
    "reason for each such gate; the journal keeps it, and the statement prints it. The last "
    "line is the head of the chain, to be kept elsewhere: book verify --head compares it.",
    add_arguments=_add_close,
    run=_close,
)
