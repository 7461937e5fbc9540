"""Gives a single fact other values, takes it out, or gives it back what it was."""

from __future__ import annotations

import argparse
from types import SimpleNamespace

from plantbal.book.library import Book
from plantbal.book.naming import day_named
from plantbal.book.results import Edited
from plantbal.book.said import reopened_said
from plantbal.statuses import ExitStatus


def _add_fact(parser: argparse.ArgumentParser) -> None:
    parser.add_argument("name", metavar="NAME", help="a tag, stream or tank; or the id of a fact")
    parser.add_argument("day", metavar="DAY", nargs="?", help="the day; not with an id")


def _add_amend(parser: argparse.ArgumentParser) -> None:
    _add_fact(parser)
    parser.add_argument("amount", metavar="AMOUNT", help="12188 t, 151000 bbl; of a dip 13838 mm")
    parser.add_argument("--why", metavar="TEXT", required=True, help="the reason")
    parser.add_argument("--density", metavar="TEXT", default="", help="another density: 862")
    parser.add_argument("--error", metavar="TEXT", default="", help="another error: 0.2 t")
    form = "how numbers and days are written, such as de"
    parser.add_argument("--locale", metavar="NAME", default="", help=form)


def _amend(options: argparse.Namespace) -> int:
    """Give a fact other values."""
    found = Book(options.book, who=options.who, key=options.key).amend(
        options.name,
        day_named(options.day, options.locale),
        options.amount,
        why=options.why,
        density=options.density,
        error=options.error,
        locale=options.locale,
    )
    options.found = found
    old, new = found.old, found.new
    assert new is not None
    if not found.is_booked:
        print(f"{old.id} is {old.said()} already")
    else:
        print(f"{old.id}: {old.said()} becomes {new.said()}, with an error of {new.error()}")
        _say_older(found)
    return ExitStatus.GOOD


def _say_older(found: Edited) -> None:
    """Say which periods are closed that this changes, and which reports have to be made anew."""
    for name in found.closed:
        print(reopened_said(name))
    for name in found.older_reports:
        if name not in found.closed:
            print(f"{name}: its report is older: plantbal-desk book report {name}")


def _add_strike(parser: argparse.ArgumentParser) -> None:
    _add_fact(parser)
    parser.add_argument("--why", metavar="TEXT", required=True, help="the reason")
    form = "how days are written, such as de"
    parser.add_argument("--locale", metavar="NAME", default="", help=form)


def _strike(options: argparse.Namespace) -> int:
    """Take a fact out."""
    day = day_named(options.day, options.locale)
    found = Book(options.book, who=options.who, key=options.key).strike(
        options.name, day, why=options.why
    )
    options.found = found
    if not found.is_booked:
        print(f"{found.old.id} is struck already")
    else:
        print(f"{found.old.id}: {found.old.said()} is struck")
        _say_older(found)
    return ExitStatus.GOOD


def _undo(options: argparse.Namespace) -> int:
    """Give a fact back what it was."""
    day = day_named(options.day, options.locale)
    found = Book(options.book, who=options.who, key=options.key).undo(
        options.name, day, why=options.why
    )
    options.found = found
    assert found.new is not None
    if found.new.id != found.old.id:
        print(f"{found.old.id} was struck: {found.new.said()} is booked again as {found.new.id}")
    else:
        print(f"{found.old.id}: {found.old.said()} becomes {found.new.said()}, as it was")
    _say_older(found)
    return ExitStatus.GOOD


AMEND = SimpleNamespace(
    __doc__="Gives a reading, a dip or a ticket another value, with a reason. Its variance follows "
    "from the error of its meter or gauge in meters.csv.",
    add_arguments=_add_amend,
    run=_amend,
)
STRIKE = SimpleNamespace(
    __doc__="Takes a reading, a dip or a ticket out, with a reason.",
    add_arguments=_add_strike,
    run=_strike,
)
UNDO = SimpleNamespace(
    __doc__="Restores a reading, a dip or a ticket to what it was before its last change, with a "
    "reason, while its period is open: by another amendment, or by booking again what was struck.",
    add_arguments=_add_strike,
    run=_undo,
)
