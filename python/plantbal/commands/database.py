"""The commands on databases: pull reads facts into a book, push writes what is booked."""

from __future__ import annotations

import argparse
import sys

from plantbal.book.library import Book
from plantbal.commands.book.adding import added_lines as added_lines
from plantbal.commands.book.adding import may_ask
from plantbal.database.queries import read_queries
from plantbal.database.pulling import Pulled, pull, pull_lines
from plantbal.database.pushing import push, tables_sql
from plantbal.faults import WordsFault
from plantbal.book.naming import day_named
from plantbal.statuses import ExitStatus


class Pull:
    """Reads the facts of some days from a database into a book, by the queries of a file."""

    HELP = """
QUERIES is a TOML file with the database and the queries, each with the sheet of a workbook that it
gives (docs/PYTHON.md, "Databases"). All figures of the days are read, and the book says what is
new, changed or late, as `book add` does; so what was pulled before isn't booked again. What is
changed is amended, with the time at which the source changed it as the reason.

At a terminal it is shown first, and you are asked: what is new, what is changed from which figure to
which and when at the source, what is gone, and the densities by which facts change; the first twelve of
each, and how many more. --yes books at once, as a nightly pull does, which has no terminal.

What was pulled and is no longer at the source is reported, and the status is 1: it is for a person
to decide. With vanished = "strike" under its query it is struck, and with "keep" it stays and isn't
reported.

A password is never an argument: it comes from the environment or a file of mode 600, as QUERIES
says, or from .pgpass. The transaction is read only.

examples:
  plantbal-desk pull historian.toml --book mill
  plantbal-desk pull historian.toml --book mill --from 2024-04-01 --to 2024-04-30 --dry-run
"""

    @staticmethod
    def add_arguments(parser: argparse.ArgumentParser) -> None:
        """Add the words of the command."""
        _add_common(parser)
        first = "the first day (default: that of the book's last year)"
        parser.add_argument("--from", metavar="DAY", dest="first", help=first)
        parser.add_argument(
            "--to", metavar="DAY", dest="last", help="the last day (default: yesterday)"
        )
        parser.add_argument(
            "--dry-run", action="store_true", help="show what would be booked, and book nothing"
        )
        parser.add_argument(
            "--yes", action="store_true", help="book it without being asked at a terminal"
        )

    @staticmethod
    def run(options: argparse.Namespace) -> int:
        """Pull, and say what that was; at a terminal, ask before it is booked."""
        asks = not options.yes and not options.dry_run and may_ask()
        days = [day_named(each, "") if each else None for each in (options.first, options.last)]
        found = pull(
            Book(options.book, who=options.who),
            read_queries(options.queries),
            first=days[0],
            last=days[1],
            dry_run=options.dry_run,
            agree=_agreed if asks else None,
        )
        if not asks:
            print("\n".join(_said(found)))
        if options.dry_run:
            print("nothing is booked, as --dry-run says")
        elif asks:
            print("it is booked" if found.added.is_booked else "nothing is booked")
        return ExitStatus.LOOK if found.added.changes.asked else ExitStatus.GOOD


def _said(found: Pulled) -> list[str]:
    """Return what a pull books, a line each."""
    return [*pull_lines(found), *added_lines(found.added, found.times.time_of)]


def _agreed(found: Pulled) -> bool:
    """Show what would be booked, and ask whether it is to be; nothing is asked if it is nothing."""
    print("\n".join(_said(found)))
    changes, edited = found.added.changes, found.added.changes.edited(found.added.struck)
    if not changes.new and not edited:
        return True
    try:
        answer = input("Is it to be booked? [y/N] ")
    except EOFError:
        return False
    return answer.strip().casefold() in ("y", "yes")


class PushCommand:
    """Writes the flows, the stock and the postings of periods to tables of a database, once."""

    HELP = """
QUERIES is a TOML file with the database and a part [push] (docs/PYTHON.md, "Databases"). What is
handed over for a period has an id. All of it is written in one transaction, or nothing; if the
database has the id, nothing is written, and the status is 0 too. A report that is made again has
another id, and its figures are added beside the earlier ones.

  --tables prints the statements that make both tables, for whoever has the right to run them. 
examples:
  plantbal-desk push erp.toml --tables
  plantbal-desk push erp.toml 2024-04 --book mill
"""

    @staticmethod
    def add_arguments(parser: argparse.ArgumentParser) -> None:
        """Add the words of the command."""
        _add_common(parser)
        parser.add_argument("period", metavar="PERIOD", nargs="*")
        tables = "print the statements that make the tables"
        parser.add_argument("--tables", action="store_true", help=tables)

    @staticmethod
    def run(options: argparse.Namespace) -> int:
        """Push each period, and say what that was."""
        queries = read_queries(options.queries)
        if options.tables:
            sys.stdout.write(tables_sql(queries))
            return ExitStatus.GOOD
        if not options.period:
            raise WordsFault("there is no period to push", remedy="name one, such as 2024-04")
        book = Book(options.book, who=options.who)
        for period in options.period:
            found = push(book, queries, period)
            count, identity = len(found.handed.figures), found.handed.id[:12]
            if found.is_new:
                print(f"{period}: {count} figures are written, as {identity}")
            else:
                print(f"{period}: {identity} already exists, so nothing is written")
        return ExitStatus.GOOD


def _add_common(parser: argparse.ArgumentParser) -> None:
    parser.add_argument("queries", metavar="QUERIES")
    parser.add_argument("--book", metavar="FOLDER", default=".", help="the book's folder")
    who = "who does it, in addition to the user's own name"
    parser.add_argument("--who", metavar="NAME", default="", help=who)


PULL, PUSH = Pull(), PushCommand()
