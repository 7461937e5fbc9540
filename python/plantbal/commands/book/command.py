"""Keeps a plant's book: a folder with a session for each year, its reports, and a journal."""

from __future__ import annotations

import argparse
import importlib
import os
import sys
from collections.abc import Sequence
from dataclasses import dataclass
from typing import Protocol, cast

from plantbal.book.verifying import unknown_in
from plantbal.commands.data import add_json, answer_with_json
from plantbal.faults import InputFault

HELP = """
The book is the current folder, or that of --book. It has
  plant.csv     the rows of the plant, with which the next year begins
  meters.csv    tags, units, densities and errors of meters and gauges
  accounts.csv  products, groups, owners and sales units, under which the account adds up
  2024.csv      the session of a year; rows are added to it, and never changed
  reports/      the last report of each period, with its history, and of each window; those that
                went out before are in reports/earlier/
  posted/       what was handed over for each period
  rules.toml    what needs an approval, by whom; allowed_signers and revoked_keys: who may sign
  approvals/    what was submitted and approved, with signatures
  journal.csv   a line for each action: when, who, what, why, which rows it added, and the digests
                of the line before it and of each file that it left

A command is carried out as a whole or not at all, at whatever moment it is stopped; the next one
that writes finishes what was begun. Two commands at the same time wait for each other. Each command
first tests the files against the journal, and stops if one was changed by other means. A file of
these that no command has written isn't used: commands that read say so, and those that write stop.

With --json a command writes one object, of one shape for all: `command`, `status`, `found` (what it
did or found), `said` (the lines that it writes without --json) and `fault` (what stopped it, or
null).

A command writes into a folder of its user, into one that a group shares, or into one that
PLANTBAL_TRUST names (several are separated by colons).

examples:
  plantbal-desk book new 2024 plant.xlsx
  plantbal-desk book add april.xlsx
  plantbal-desk book show FI-302 2024-04-16 2024-04-19
  plantbal-desk book amend FI-302 2024-04-18 "12188 t" --why "typed a digit short"
  plantbal-desk book report 2024-04
  plantbal-desk book window 2024-04 2024-05
  plantbal-desk book close 2024-04
  plantbal-desk book next 2025
"""

# The commands that say themselves which files no action has written.
_SAYING = ("new", "verify", "accept")

# The variable that names the key with which a user signs.
KEY = "PLANTBAL_KEY"


class BookHandler(Protocol):
    """What does the work of a command on a book."""

    def add_arguments(self, parser: argparse.ArgumentParser) -> None:
        """Add the words of the command."""

    def run(self, options: argparse.Namespace) -> int:
        """Do the work, and return the status."""


@dataclass(frozen=True)
class Inner:
    """A command on a book: its word, its module or a part of it, and one line on it."""

    word: str
    home: str
    about: str

    def handler(self) -> BookHandler:
        """Return what does its work."""
        module, _, part = self.home.partition(":")
        found = importlib.import_module(f"plantbal.commands.book.{module}")
        return cast(BookHandler, getattr(found, part) if part else found)


COMMANDS: Sequence[Inner] = (
    Inner("new", "years:NEW", "make a book of a plant's workbook"),
    Inner("add", "adding", "add a workbook: what is new, and what is changed, with its reason"),
    Inner("show", "showing:SHOW", "show what is booked for a stream or tank"),
    Inner("amend", "editing:AMEND", "give a fact another value, with a reason"),
    Inner("strike", "editing:STRIKE", "take a fact out, with a reason"),
    Inner("undo", "editing:UNDO", "undo the last change of a fact, with a reason"),
    Inner(
        "estimate",
        "estimating:ESTIMATE",
        "propose estimates for days without a reading, or book them",
    ),
    Inner("report", "reporting:REPORT", "write the reports of periods"),
    Inner(
        "window",
        "reporting:WINDOW",
        "reconcile several periods at once, over a dip that is missing",
    ),
    Inner("close", "closing:CLOSE", "close a period with its report"),
    Inner("submit", "approving:SUBMIT", "submit the close of a period, to be approved"),
    Inner("submitted", "approving:SUBMITTED", "show what waits for an approval"),
    Inner("approve", "approving:APPROVE", "approve what was submitted, by the head that was shown"),
    Inner("reject", "approving:REJECT", "reject what was submitted, or withdraw it"),
    Inner("rules", "approving:RULES", "show what needs an approval, by whom, and who may sign"),
    Inner("signed", "approving:SIGNED", "show who has signed and approved what"),
    Inner("quiet", "quieting:QUIET", "quiet a rule of lint for good, with a reason"),
    Inner("difference", "accounting:DIFFERENCE", "show how two reports differ, and why"),
    Inner("posted", "accounting:POST", "record what is handed over for a period, once"),
    Inner(
        "account",
        "accounting:ACCOUNT",
        "show a period's account: stocks, receipts, shipments, losses",
    ),
    Inner(
        "status", "showing:STATUS", "show what is open, what is missing, and how full the year is"
    ),
    Inner("next", "years:NEXT", "begin the next year"),
    Inner("retire", "years:RETIRE", "end the service of a tank or stream that is booked"),
    Inner("verify", "verifying:VERIFY", "test every file of the book against its journal"),
    Inner("head", "verifying:HEAD", "print the head of its chain, to be kept elsewhere"),
    Inner("accept", "verifying:ACCEPT", "accept a file as it is, with a reason, for good"),
)


def add_arguments(parser: argparse.ArgumentParser) -> None:
    """Add the words of the command."""
    words = parser.add_subparsers(metavar="COMMAND", required=True)
    for inner in COMMANDS:
        handler = inner.handler()
        made = words.add_parser(inner.word, help=inner.about, description=handler.__doc__)
        handler.add_arguments(made)
        made.add_argument("--book", metavar="FOLDER", default=".", help="the book's folder")
        made.add_argument(
            "--who",
            metavar="NAME",
            default="",
            help="who does it, in addition to the user's own name",
        )
        key = "the key with which submissions and approvals are signed (default: PLANTBAL_KEY)"
        made.add_argument("--key", metavar="FILE", default=os.environ.get(KEY) or None, help=key)
        add_json(made)
        made.set_defaults(inner=handler.run, word=inner.word)


def run(options: argparse.Namespace) -> int:
    """Do what the inner word says."""
    prog = options.prog
    options.prog = f"{options.prog} {options.word}" if options.json else options.prog
    named = ""
    try:
        return answer_with_json(options.inner, options)
    except InputFault as fault:
        named = fault.place.file
        raise
    finally:
        sys.stdout.flush()  # before what is said of a fault
        if options.word not in _SAYING:
            for each in unknown_in(options.book):
                if each.place.file != named:
                    print(f"{prog}: note: {each}", file=sys.stderr)
