"""What a book adds to a statement: the account of each period, what is unusual, what has changed.

It is of the book's own reports. If the page is of another report of a period, such as an earlier
one, that period's account is left out, and said to be.
"""

from __future__ import annotations

from collections.abc import Sequence
from dataclasses import dataclass, field
from typing import Any

from plantbal.accounts.account import MonthAccount, Rolled
from plantbal.book.accounting import accounts_of, report_months, unusual_of, versions_of
from plantbal.book.difference import difference_of, has_before
from plantbal.book.opening import read_book
from plantbal.page.accounts import part_of
from plantbal.report.blocks import Values, blocks_of, last_blocks
from plantbal.sentence import Sentence


@dataclass
class FromBook:
    """What a book adds to the statements of a page.

    Attributes
    ----------
    accounts : dict of str to MonthAccount
        The accounts of periods.
    parts : dict of str to Markup
        What is shown of each.
    said : list of str
        What there is to say of periods that are left out.
    """

    accounts: dict[str, MonthAccount] = field(default_factory=dict)
    parts: dict[str, Any] = field(default_factory=dict)
    said: list[str] = field(default_factory=list)


def booked(folder: str | None, rows: Sequence[Values], digest: str = "") -> FromBook:
    """Return what a book adds to a page.

    Parameters
    ----------
    folder : str or None
        The book's folder; None if none is named.
    rows : sequence of dict
        The rows of the output that the page is made of.
    digest : str
        The SHA-256 of the text that they were read from, if it is known: the report of that digest
        isn't read again.
    """
    found = FromBook()
    if folder is None:
        return found
    blocks = {
        name: block for name, block in last_blocks(blocks_of(rows)).items() if block.is_report
    }
    with read_book(folder) as book:
        versions = versions_of(book)
        there = {name: block for name, block in blocks.items() if name in versions}
        if not there:
            return found
        read = {digest: blocks} if digest else {}
        rolled = Rolled(report_months(book, versions, read), accounts_of(book))
        for name, block in there.items():
            month = rolled.months[rolled.at(name)]
            if month.block is None or month.block.streams != block.streams:
                form = "{name}: the book has another report of it, so its account is left out"
                found.said.append(Sentence(form, name=name))
                continue
            account = rolled.account(name)
            since = difference_of(book, name, ()) if has_before(book, name) else None
            changed = None if since is None or since.is_first else since
            found.accounts[name] = account
            found.parts[name] = part_of(account, unusual_of(rolled, account), changed)
    return found
