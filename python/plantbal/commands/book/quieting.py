"""Quiets a rule of lint for good, and lists what is quieted."""

from __future__ import annotations

import argparse
from types import SimpleNamespace

from plantbal.book.library import Book
from plantbal.faults import WordsFault
from plantbal.statuses import ExitStatus


def _add_quiet(parser: argparse.ArgumentParser) -> None:
    parser.add_argument("rule", metavar="RULE", nargs="?", help="a rule of plantbal-desk lint")
    names = "the streams, tanks or units that it reports"
    parser.add_argument("names", metavar="NAME", nargs="*", help=names)
    parser.add_argument("--why", metavar="TEXT", default="", help="the reason")
    parser.add_argument("--off", action="store_true", help="report its findings again")


def _quiet(options: argparse.Namespace) -> int:
    """Quiet a rule, report its findings again, or list what is quieted."""
    book = Book(options.book, who=options.who, key=options.key)
    rule, names = options.rule, options.names
    if rule is None:
        options.found = book.quieted()
        for each in options.found:
            print(f"{each.code} {' '.join(each.names)}: {each.why} ({each.who}, {each.when})")
        return ExitStatus.GOOD
    if not options.why:
        raise WordsFault("no reason given", remedy="use --why TEXT")
    if options.off:
        book.heed(rule, *names, why=options.why)
    else:
        book.quiet(rule, *names, why=options.why)
    options.found = {"rule": rule, "names": names, "is_quiet": not options.off}
    print(f"{rule} {'is reported again' if options.off else 'is quieted'} for {' '.join(names)}")
    return ExitStatus.GOOD


QUIET = SimpleNamespace(
    __doc__="Quiets a rule of lint for good, for the names that it reports, with a reason that "
    "the journal keeps. Without a rule it lists what is quieted. What is quieted doesn't stop a "
    "close.",
    add_arguments=_add_quiet,
    run=_quiet,
)
