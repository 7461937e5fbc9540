"""Tests a whole book against its journal, gives the head of its chain, takes files as they are."""

from __future__ import annotations

import argparse
from types import SimpleNamespace

from plantbal.book.library import Book
from plantbal.book.said import count_said
from plantbal.commands.data import data_of
from plantbal.faults import Fault
from plantbal.statuses import ExitStatus

# ---- verify


def _add_verify(parser: argparse.ArgumentParser) -> None:
    parser.add_argument(
        "bundles", metavar="BUNDLE", nargs="*", help="bundles that name a head of this book"
    )
    head = "a head that was kept elsewhere: this book has to have it"
    parser.add_argument("--head", metavar="DIGEST", action="append", default=[], help=head)


def _verify(options: argparse.Namespace) -> int:
    """Test every file of the book, and say all that is wrong."""
    book = Book(options.book)
    found = book.verify(options.bundles, heads=options.head)
    options.found = {"ok": found.ok, **data_of(found)}
    for line in [*found.waiting, *(f"wrong: {each}" for each in found.wrong), *found.notes]:
        print(line)
    if not found.ok:
        things = count_said(len(found.wrong), "thing")
        raise Fault(f"{things} in {book.folder} isn't as its journal says")
    files = count_said(found.files, "file")
    print(f"{files} as {count_said(found.head.number, 'action')} left them")
    print(f"head {found.head}")
    return ExitStatus.GOOD


# ---- head


def _add_head(parser: argparse.ArgumentParser) -> None:
    """Add no words but those of all commands on a book."""


def _head(options: argparse.Namespace) -> int:
    """Print the head."""
    options.found = head = Book(options.book).head
    print(head)
    return ExitStatus.GOOD


# ---- accept


def _add_accept(parser: argparse.ArgumentParser) -> None:
    parser.add_argument("file", metavar="FILE", help="the file, such as meters.csv")
    parser.add_argument("--why", metavar="TEXT", required=True, help="the reason")


def _accept(options: argparse.Namespace) -> int:
    """Take a file as it is."""
    found = Book(options.book, who=options.who, key=options.key).accept(
        options.file, why=options.why
    )
    options.found = found
    if found.said:
        print(f"{found.file} is taken as it is: {found.said}")
    else:
        print(f"{found.file} is as the journal says")
    return ExitStatus.GOOD


VERIFY = SimpleNamespace(
    __doc__="Tests every file of the book against its journal, up to each place that the journal "
    "names, and says everything that is wrong. An older copy of the whole folder is detected by a "
    "head that was kept elsewhere, or by a bundle.",
    add_arguments=_add_verify,
    run=_verify,
)
HEAD = SimpleNamespace(
    __doc__="Prints the head of the book's chain: the number of actions and the digest of the "
    "last. Whoever keeps it can tell later whether the book was changed or put back.",
    add_arguments=_add_head,
    run=_head,
)
ACCEPT = SimpleNamespace(
    __doc__="Accepts a file that was changed by other means as it is now, or that it is gone, "
    "with a reason. The journal shows that for good.",
    add_arguments=_add_accept,
    run=_accept,
)
