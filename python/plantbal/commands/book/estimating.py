"""Proposes estimates for days without a reading, and books them."""

from __future__ import annotations

import argparse
from types import SimpleNamespace

from plantbal.book.library import Book
from plantbal.book.proposed import proposal_said
from plantbal.book.said import reopened_said
from plantbal.faults import WordsFault
from plantbal.statuses import ExitStatus


def _add(parser: argparse.ArgumentParser) -> None:
    parser.add_argument("period", metavar="PERIOD", help="the period")
    about = "a tag or stream; then zero or frozen readings of a dead meter are replaced, too"
    parser.add_argument("stream", metavar="STREAM", nargs="?", default="", help=about)
    parser.add_argument("--take", action="store_true", help="book what is proposed")
    parser.add_argument("--why", metavar="TEXT", default="", help="the reason, for --take")


def _estimate(options: argparse.Namespace) -> int:
    """Propose estimates, or book them."""
    if options.take and not options.why:
        raise WordsFault("no reason given", remedy="use --why TEXT")
    book = Book(options.book, who=options.who, key=options.key)
    period, stream = options.period, options.stream
    found = book.estimate(period, stream, take=options.take, why=options.why)
    options.found = found
    for each in found.proposals:
        print(proposal_said(each))
    for name in found.missing:
        if not any(each.stream == name for each in found.proposals):
            print(
                f"{name}: neither a balance nor enough other days say what is missing: write a "
                "guess into a sheet estimates, with its error"
            )
    if found.is_booked:
        taken = sum(len(each.days) for each in found.proposals if each.is_needed)
        print(
            "1 day is booked as an estimate" if taken == 1 else f"{taken:,} days are estimates now"
        )
        for each_period in found.closed:
            print(reopened_said(each_period))
        for each_period in found.older_reports:
            if each_period not in found.closed:
                again = f"plantbal-desk book report {each_period}"
                print(f"{each_period}: its report is older: {again}")
    elif any(each.is_needed for each in found.proposals):
        words = " ".join(filter(None, (period, stream)))
        print(
            f"nothing is booked; to book it: plantbal-desk book estimate {words} --take --why TEXT"
        )
    elif not found.missing:
        print(f"{period}: no day of {stream or 'a meter'} is without a reading")
    return ExitStatus.GOOD


ESTIMATE = SimpleNamespace(
    __doc__="Proposes an estimate for each day without a reading: what the balance leaves over, or "
    "the mean of the meter's other days, whichever is surer. With --take it is booked.",
    add_arguments=_add,
    run=_estimate,
)
