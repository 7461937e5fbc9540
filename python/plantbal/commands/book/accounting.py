"""The account of a period, how two reports differ, and what was handed over."""

from __future__ import annotations

import argparse
from types import SimpleNamespace

from plantbal.accounts.account import AccountTable, Level, MonthAccount
from plantbal.accounts.posting import posting_rows, postings_of
from plantbal.accounts.sheet import NOBODY
from plantbal.accounts.tables import HEADS, account_rows, account_tables_text, stock_text
from plantbal.accounts.trend import Unusual
from plantbal.amounts import tonnes_text
from plantbal.book.accounting import PeriodAccount
from plantbal.book.answers import reasons_of
from plantbal.book.causes import change_row
from plantbal.book.difference import Difference
from plantbal.book.library import Book
from plantbal.book.said import behind_said, count_said
from plantbal.faults import Fault, WordsFault
from plantbal.files import write_text
from plantbal.inert import csv_text
from plantbal.statuses import ExitStatus

CHANGE_HEADS = (
    "stream or tank",
    "account",
    "product",
    "before, t",
    "after, t",
    "difference, t",
    "cause",
)
_LEVELS = {"plant": Level.PLANT, "group": Level.GROUP, "product": Level.PRODUCT}

# ---- account


def _add_account(parser: argparse.ArgumentParser) -> None:
    parser.add_argument("period", metavar="PERIOD", help="the period")
    by = "plant, group, product or owner (default: plant and groups)"
    parser.add_argument("--by", metavar="LEVEL", choices=[*_LEVELS, "owner"], help=by)
    parser.add_argument("--owner", metavar="NAME", help="the account of one owner alone")
    parser.add_argument("--tanks", action="store_true", help="the stock of each tank too")
    parser.add_argument("--csv", action="store_true", help="as CSV, with all digits")
    parser.add_argument("--xlsx", metavar="FILE", help="a workbook with a formula for each total")
    parser.add_argument("--page", metavar="FILE", help="a page")
    parser.add_argument("--title", metavar="TEXT", default="", help="the heading of the page")


def _account(options: argparse.Namespace) -> int:
    """Show the accounts."""
    book = Book(options.book)
    found = book.account(options.period)
    options.found = found
    account = found.account
    tables = chosen_accounts(account, options.by, options.owner)
    for line in found.waiting:
        print(line)
    if options.csv:
        print(csv_text([HEADS, *(row for table in tables for row in account_rows(table))]), end="")
    elif not (options.xlsx or options.page):
        print(account_tables_text(account, tables), end="")
        if options.tanks:
            print(stock_text(account.tanks), end="")
    since = book.difference(options.period) if options.page else None
    write_accounts(options, found, tables, since)
    behind = behind_said(found.report, options.period)
    said = [*account.said, *map(unusual_said, found.unusual), *([behind] if behind else [])]
    if not options.csv:
        print("".join(f"{account.month.name}: {line}\n" for line in said), end="")
    return ExitStatus.GOOD


def unusual_said(odd: Unusual) -> str:
    """Return what is unusual, in a line."""
    usual = " to ".join(map(tonnes_text, (odd.low, odd.high)))
    ago = f"; a year ago {tonnes_text(odd.year_ago)} t" if odd.year_ago is not None else ""
    return f"unusual: {odd.account}, {odd.line}: {tonnes_text(odd.now)} t, usually {usual} t{ago}"


def write_accounts(
    options: argparse.Namespace,
    found: PeriodAccount,
    tables: list[AccountTable],
    since: Difference | None,
) -> None:
    """Write the workbook and the page, if they are wanted."""
    account = found.account
    if options.xlsx:
        from plantbal.accounts.workbook import write_accounts_workbook

        write_accounts_workbook(options.xlsx, account, tables if options.owner else account.tables)
    if options.page:
        from plantbal.page.accounts import page_of

        owner = tables[0] if options.owner else None
        changed = since if since is not None and not since.is_first else None
        write_text(options.page, page_of(account, options.title, owner, found.unusual, changed))


def chosen_accounts(account: MonthAccount, by: str | None, owner: str | None) -> list[AccountTable]:
    """Return the accounts that are asked for.

    Raises
    ------
    Fault
        If there is no such owner.
    """
    if owner is not None or by == "owner":
        names = [table.name or NOBODY for table in account.owners]
        if not names:
            remedy = "write them into the column owner of the sheet accounts"
            raise Fault("no account has an owner", remedy=remedy)
        if owner is not None and owner not in names:
            raise Fault(
                f"there is no owner {owner!r}", text=owner, remedy=f"use one of {', '.join(names)}"
            )
        return [each for each in account.owners if owner in (None, each.name or NOBODY)]
    if by is not None:
        return [table for table in account.tables if table.level is _LEVELS[by]]
    return [account.plant, *account.groups]


# ---- difference


def _add_difference(parser: argparse.ArgumentParser) -> None:
    parser.add_argument("period", metavar="PERIOD", help="the period")
    what = "two states: the number of an earlier report, posted, now"
    parser.add_argument("states", metavar="FROM TO", nargs="*", help=what)
    parser.add_argument("--csv", metavar="FILE", help="the table as CSV")
    parser.add_argument("--xlsx", metavar="FILE", help="the table and the postings as a workbook")
    parser.add_argument("--postings", metavar="FILE", help="the postings, which add up to 0")


def _difference(options: argparse.Namespace) -> int:
    """Say what is otherwise."""
    if len(options.states) > 2:
        raise WordsFault("there are more than two states", remedy="give FROM and TO")
    found = Book(options.book).difference(options.period, *options.states)
    options.found = found
    for line in difference_lines(found):
        print(line)
    behind = behind_said(found.report, options.period)
    if behind:
        print(f"{options.period}: {behind}")
    _write(options, found)
    return ExitStatus.GOOD


def difference_lines(found: Difference) -> list[str]:
    """Return a difference as lines of text: the changes, and the facts that caused them."""
    one, other = found.sides
    if not found.changes:
        return [f"{found.period}: {one} and {other} have the same figures"]
    rows = [change_row(change)[:-1] for change in found.changes]
    widths = [
        max(len(row[at]) for row in [CHANGE_HEADS, *rows]) for at in range(len(CHANGE_HEADS) - 1)
    ]
    lines = []
    for row in [CHANGE_HEADS[:-1], *rows]:
        cells = [
            text.ljust(width) if at < 3 else text.rjust(width)
            for at, (text, width) in enumerate(zip(row, widths))
        ]
        lines.append("  ".join(cells).rstrip())
    postings = postings_of(found.changes)
    lines.append(f"{count_said(len(postings), 'posting')}, which add up to 0 t")
    causes = [str(cause) for cause in found.causes]
    causes = causes or [change.cause for change in found.changes if change.cause]
    lines += [f"cause: {cause}" for cause in dict.fromkeys(causes)]
    return lines + ([f"id: {found.id}"] if found.id else [])


def _write(options: argparse.Namespace, found: Difference) -> None:
    """Write the files that are wanted."""
    rows = [CHANGE_HEADS, *(change_row(change, plain=True) for change in found.changes)]
    if options.csv:
        write_text(options.csv, csv_text(rows))
    if options.postings:
        write_text(options.postings, _postings_text(found))
    if options.xlsx:
        from plantbal.accounts.workbook import write_difference

        write_difference(options.xlsx, found.id, found.period, found.changes, rows)


def _postings_text(found: Difference) -> str:
    identity = found.id or f"{found.period} {found.sides[0]} to {found.sides[1]}"
    return csv_text(posting_rows(identity, found.period, postings_of(found.changes)))


def _add_posted(parser: argparse.ArgumentParser) -> None:
    parser.add_argument("period", metavar="PERIOD", help="the period")
    anyway = "even if the period is open; with a gate even if that stops it, with the reason"
    parser.add_argument(
        "--anyway",
        metavar="GATE=REASON",
        nargs="?",
        const="",
        action="append",
        default=[],
        help=anyway,
    )
    parser.add_argument("--why", metavar="TEXT", default="", help="a remark on it")
    parser.add_argument("--postings", metavar="FILE", help="write the postings too")


def _posted(options: argparse.Namespace) -> int:
    """Record what is handed over."""
    book, period = Book(options.book, who=options.who, key=options.key), options.period
    reasons = reasons_of(filter(None, options.anyway))
    options.found = found = book.post(
        period, anyway="" in options.anyway, reasons=reasons, why=options.why
    )
    if options.postings:
        write_text(options.postings, _postings_text(found))
    count = count_said(len(postings_of(found.changes)), "posting")
    print(f"{period}: posted as {found.id}, {count}")
    return ExitStatus.GOOD


ACCOUNT = SimpleNamespace(
    __doc__="Shows the accounts of a period: stock rolled forward, receipts, shipments, losses, "
    "shares.\n\n"
    "They are made from the reports of the book, from its first one on: each period opens with the "
    "closing stock that the one before it booked. No report is changed.",
    add_arguments=_add_account,
    run=_account,
)
DIFFERENCE = SimpleNamespace(
    __doc__="Says how two reports of a period, or a report and what was posted, differ, and "
    "why.\n\nFROM and TO are each the number of an earlier report, `posted` for what was handed "
    "over last, or `now` for the report that the book has. Without them what was posted is "
    "compared with now, or, if nothing was posted, the last earlier report is.",
    add_arguments=_add_difference,
    run=_difference,
)
POST = SimpleNamespace(
    __doc__="Records what is handed over for a closed period, with an id that is given only once: "
    "the next difference is taken from there. Nothing is posted twice. What would stop a close of "
    "its report stops it too, unless the close has a reason for it or --anyway gives one.",
    add_arguments=_add_posted,
    run=_posted,
)
