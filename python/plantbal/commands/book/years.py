"""Makes a book of a plant, and begins its next year."""

from __future__ import annotations

import argparse
import datetime
from collections.abc import Mapping
from types import SimpleNamespace

from plantbal.amounts import tonnes_of
from plantbal.book.ledger import number_with_commas
from plantbal.book.library import Book
from plantbal.book.naming import day_named
from plantbal.book.results import Begun
from plantbal.book.said import count_said, listed
from plantbal.commands.options import add_program, add_reading, reading_of
from plantbal.statuses import ExitStatus

_DAY = datetime.timedelta(1)


def _classes(classes: Mapping[str, list[str]]) -> list[str]:
    """Return which streams have each class, a line a class."""
    return [f"{word}: {listed(names)}" for word, names in classes.items()]


def _add_new(parser: argparse.ArgumentParser) -> None:
    parser.add_argument("year", metavar="YEAR", help="the first year, such as 2024")
    parser.add_argument("workbook", metavar="WORKBOOK", help="it has the sheets of the plant")
    add_program(parser)
    add_reading(parser)


def _new(options: argparse.Namespace) -> int:
    """Make the book."""
    book = Book(options.book, who=options.who, program=options.program)
    found = book.begin(options.year, options.workbook, reading=reading_of(options))
    options.found = found
    first = f"{found.year}.csv: {count_said(found.rows, 'row')} of the plant"
    print("\n".join([first, *_classes(found.classes), *found.notes]))
    return ExitStatus.GOOD


def _add_next(parser: argparse.ArgumentParser) -> None:
    parser.add_argument("year", metavar="YEAR", help="the next year, such as 2025")
    parser.add_argument("--plant", metavar="WORKBOOK", help="another plant (default: plant.csv)")
    parser.add_argument("--first", metavar="DAY", help="its first day (default: January 1st)")
    add_program(parser)
    add_reading(parser)


def _next(options: argparse.Namespace) -> int:
    """Begin the next year."""
    found = Book(options.book, who=options.who, program=options.program).next(
        options.year,
        plant=options.plant,
        first=day_named(options.first, options.locale),
        reading=reading_of(options),
    )
    options.found = found
    return _say_begun(found)


def _add_retire(parser: argparse.ArgumentParser) -> None:
    parser.add_argument("name", metavar="NAME", help="a tank, with the streams at it, or a stream")
    parser.add_argument("day", metavar="DAY", help="its last day in service")
    parser.add_argument("--year", metavar="YEAR", default="", help="the new part: 2024b after 2024")
    form = "how days are written, such as de"
    parser.add_argument("--locale", metavar="NAME", default="", help=form)
    add_program(parser)


def _retire(options: argparse.Namespace) -> int:
    """End the service of a tank or stream."""
    day = day_named(options.day, options.locale)
    book = Book(options.book, who=options.who, program=options.program)
    options.found = book.retire(options.name, day, year=options.year)
    return _say_begun(options.found)


def _say_begun(found: Begun) -> int:
    """Say how a next year begins."""
    if not found.is_begun:
        print(f"{found.year}.csv already exists")
        return ExitStatus.GOOD
    assert found.first is not None and found.contents is not None
    rows = count_said(found.rows, "row")
    lines = [f"{found.year}.csv: from {found.first} on; {rows} of the plant"]
    lines += _classes(found.classes)
    eve = found.first - _DAY
    lines += [
        f"{name}: {number_with_commas(tonnes_of(grams))} t at the end of {eve} and as the opening"
        for name, grams in found.contents.items()
    ]
    lines += [f"{name}: no dip of {eve}, so it has no opening yet" for name in found.unopened]
    print("\n".join([*lines, *found.notes]))
    return ExitStatus.GOOD


NEW = SimpleNamespace(
    __doc__="Makes a book of the plant that a workbook has, with its first year.\n\nThe workbook's "
    "readings are added by `add`.",
    add_arguments=_add_new,
    run=_new,
)
NEXT = SimpleNamespace(
    __doc__="Begins the next year with the plant, the dips on its eve, and whatever else touches "
    "both years.\n\nIt is refused unless each tank holds the same, to the gram, at the end of one "
    "year and at the beginning of the other.",
    add_arguments=_add_next,
    run=_next,
)
RETIRE = SimpleNamespace(
    __doc__="Ends the service of a booked stream, or of a booked tank with the streams into and out "
    "of it: begins a new part of the year, after the last period, in which it has its last day. "
    "Whatever touches both parts is carried over, as with `next`.",
    add_arguments=_add_retire,
    run=_retire,
)
