"""Words that several commands have: which program is run and how, and how a workbook is read."""

from __future__ import annotations

import argparse
from collections.abc import Callable

from plantbal.schema import schema

from plantbal.program import RunSettings
from plantbal.workbook.mapping.form import read_mapping
from plantbal.workbook.options import ReadingOptions

# How many suspects are taken out of a report of a book if nobody says it.
AS_LAST_REPORT = "as many as the last report of the period was made with, or none"
AS_REPORTED = "none; with --book as many as its reports of the session were made with"
AS_LAST_WINDOW = "as many as the last report of the window was made with, or none"


def seconds_of(text: str) -> float:
    """Return a number of seconds.

    Raises
    ------
    argparse.ArgumentTypeError
        If it is none.
    """
    try:
        if 0 < float(text) < float("inf"):
            return float(text)
    except ValueError:
        pass
    raise argparse.ArgumentTypeError(f"{text!r} isn't a number of seconds: write 600")


def whole_between(low: int, high: int) -> Callable[[str], int]:
    """Return what reads a whole number of a range from a word.

    Raises
    ------
    argparse.ArgumentTypeError
        When it reads another word.
    """

    def read(text: str) -> int:
        try:
            if low <= int(text) <= high:
                return int(text)
        except ValueError:
            pass
        said = f"{text[:40]!r} isn't a whole number from {low:,} to {high:,}"
        raise argparse.ArgumentTypeError(said)

    return read


def add_program(parser: argparse.ArgumentParser) -> None:
    """Add the word that names the program."""
    where = "the program (default: that of PLANTBAL, of the path, or of this checkout)"
    parser.add_argument("--program", metavar="PATH", help=where)


def add_timeout(parser: argparse.ArgumentParser, *, condition: str = "") -> None:
    """Add the word that says how long the program may take, perhaps only under a condition."""
    timeout = f"{condition}stop the program after that many seconds (default: it isn't stopped)"
    parser.add_argument("--timeout", metavar="SECONDS", type=seconds_of, help=timeout)


def add_sweeps(parser: argparse.ArgumentParser, *, carried: bool = False) -> None:
    """Add the words that say how far a solution goes, perhaps as far as a last report of a book."""
    most = schema().limits
    last = "that of the last report, or " if carried else ""
    gap = f"the greatest gap, in thousandths of a standard deviation (default: {last}10)"
    gaps = whole_between(1, most["most_gap"])
    parser.add_argument("--gap", metavar="N", type=gaps, default=None if carried else 10, help=gap)
    sweeps = f"at most N sweeps (default: {last.replace('that', 'those')}5,000)"
    allowed = whole_between(0, most["most_sweeps"])
    parser.add_argument(
        "--sweeps", metavar="N", type=allowed, default=None if carried else 5000, help=sweeps
    )


def add_run(parser: argparse.ArgumentParser, *, default: str = "none") -> None:
    """Add the words of a run: its program, how far it goes, and which tests it makes.

    Parameters
    ----------
    parser : ArgumentParser
        What they are added to.
    default : str
        How many suspects are taken out if nobody says it, as the help has it.
    """
    add_program(parser)
    carried = default != "none"
    add_sweeps(parser, carried=carried)
    parser.add_argument("--no-tests", action="store_true", help="make no tests")
    if carried:
        tests = "make the tests, though the last report was made without them"
        parser.add_argument("--tests", action="store_true", help=tests)
    add_rounds(parser, default=default)


def add_rounds(parser: argparse.ArgumentParser, *, default: str, condition: str = "") -> None:
    """Add the word that says how many suspects are taken out, perhaps only under a condition."""
    rounds = f"{condition}take out at most N suspects, one in each round (default: {default})"
    allowed = whole_between(0, schema().limits["most_rounds"])
    parser.add_argument("--eliminate", metavar="N", type=allowed, help=rounds)


def add_reading(parser: argparse.ArgumentParser) -> None:
    """Add the words that say how a workbook is read."""
    form = "how numbers and days are written: de, en_GB, fr"
    parser.add_argument("--locale", metavar="NAME", default="", help=form)
    parser.add_argument(
        "--missing",
        metavar="TEXT",
        action="append",
        default=[],
        help="another text that means a missing figure",
    )
    parser.add_argument(
        "--skip",
        metavar="HEAD",
        action="append",
        default=[],
        help="a column to leave out",
    )
    parser.add_argument(
        "--limits",
        action="store_true",
        help="errors are limits that hold 95 times in 100: half of each is taken",
    )
    form = "which sheet and column is what, as plantbal-desk map proposes it"
    parser.add_argument("--mapping", metavar="FILE", help=form)


def reading_of(options: argparse.Namespace) -> ReadingOptions:
    """Return how a workbook is read by the words of `add_reading`."""
    skip = tuple(options.skip)
    mapping = read_mapping(options.mapping) if options.mapping else None
    missing = tuple(options.missing)
    return ReadingOptions(options.locale, missing, skip, options.limits, mapping)


def settings_of(options: argparse.Namespace) -> RunSettings:
    """Return how a session is run by the words of `add_run`; None is what they don't say."""
    return RunSettings(
        tests=False if options.no_tests else True if options.tests else None,
        eliminate=options.eliminate,
        gap=options.gap,
        sweeps=options.sweeps,
        program=options.program,
    )
