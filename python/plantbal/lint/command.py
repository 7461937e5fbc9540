"""Says what in a session is accepted but looks wrong, each with a code and a severity."""

from __future__ import annotations

import argparse
import json
import signal
import sys
import threading
from collections.abc import Iterator
from contextlib import contextmanager

from plantbal.commands.options import seconds_of
from plantbal.faults import Hindered
from plantbal.limits import LINT_SECONDS
from plantbal.lint.findings import RULES
from plantbal.lint.sessions import lint_session, summary
from plantbal.statuses import looks

HELP = (
    """
SESSION is a file; without it standard input is read. Each finding is a line on standard output,

  FILE:LINE: SEVERITY: what is there: what to do [CODE]

or, with --json, an object in a list. Standard error says how many there are. The program isn't
run. The status is 1 if there is an error, and with --strict also if there is a warning; otherwise
it is 0.

"""
    + "\n".join(f"  {rule.severity:8}{rule.code:17}{rule.about}" for rule in RULES.values())
    + """

examples:
  plantbal-desk lint may.csv
  plantbal-desk lint --strict --ignore near-names may.csv && plantbal run < may.csv > may.out
"""
)


def add_arguments(parser: argparse.ArgumentParser) -> None:
    """Add the words of the command."""
    parser.add_argument("session", metavar="SESSION", nargs="?", default="-")
    parser.add_argument("--json", action="store_true", help="a list of objects in place of lines")
    book = "the accounts of a book, accounts.csv: what is in no account is a finding too"
    parser.add_argument("--accounts", metavar="FILE", help=book)
    parser.add_argument("--strict", action="store_true", help="status 1 on warnings too")
    parser.add_argument(
        "--ignore",
        metavar="CODE",
        action="append",
        default=[],
        choices=list(RULES),
        help="leave findings of this code out; may be given more than once",
    )
    timeout = f"end after that many seconds (default: {LINT_SECONDS:g})"
    parser.add_argument(
        "--timeout", metavar="SECONDS", type=seconds_of, default=LINT_SECONDS, help=timeout
    )
    book = "the book that the session is from: what it has quieted is counted, but not listed"
    parser.add_argument("--book", metavar="FOLDER", help=book)


@contextmanager
def ends_after(seconds: float) -> Iterator[None]:
    """End a block that takes longer, if this is the main thread: others can't be interrupted.

    Raises
    ------
    Hindered
        If it does.
    """
    if threading.current_thread() is not threading.main_thread():
        yield
        return

    def stop(*_: object) -> None:
        """Raise within the block."""
        remedy = "use --timeout with more of them, or lint a part of the session"
        raise Hindered(f"lint didn't finish within {seconds:g} s", remedy=remedy)

    before = signal.signal(signal.SIGALRM, stop)
    signal.setitimer(signal.ITIMER_REAL, seconds)
    try:
        yield
    finally:
        signal.setitimer(signal.ITIMER_REAL, 0)
        signal.signal(signal.SIGALRM, before)


def run(options: argparse.Namespace) -> int:
    """Write the findings, and return the status."""
    if options.session == "-" and sys.stdin.isatty():
        print("reading standard input, up to Ctrl-D", file=sys.stderr)
    with ends_after(options.timeout):
        findings = lint_session(options.session, ignore=options.ignore, accounts=options.accounts)
    quiet = 0
    if options.book is not None:
        from plantbal.book.answers import without_quiet
        from plantbal.book.library import Book

        findings, some = without_quiet(findings, Book(options.book).quieted())
        quiet = len(some)
    if options.json:
        print(json.dumps([each.as_dict() for each in findings], indent=2))
    else:
        for each in findings:
            print(each)
    print(f"{options.prog}: {summary(findings) or 'nothing looks wrong'}", file=sys.stderr)
    if quiet:
        print(f"{options.prog}: {quiet} quieted by the book, see book quiet", file=sys.stderr)
    worst = {each.severity for each in findings}
    return looks("error" in worst or (options.strict and "warning" in worst))
