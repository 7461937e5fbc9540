"""What has no account, or no owner where others have one: by the accounts' sheet, beside a session."""

from __future__ import annotations

from collections.abc import Iterator
from pathlib import Path

from plantbal.accounts.reading import parse_accounts
from plantbal.accounts.sheet import NO_ACCOUNT, Accounts, SplitRule
from plantbal.faults import read_text
from plantbal.lint.findings import Finding, place_in
from plantbal.model.ledger import Ledger
from plantbal.model.plant import ENV
from plantbal.sentence import Sentence


def lacking(ledger: Ledger, file: str | Path) -> Iterator[Finding]:
    """Give the streams and tanks that are in no account, or have no owner though others have.

    Parameters
    ----------
    ledger : Ledger
        The session.
    file : str or Path
        The accounts of a book, `accounts.csv`.

    Raises
    ------
    InputFault
        If it is no file of accounts.
    """
    name, text = read_text(file)
    accounts = parse_accounts(name, text)
    yield from without_account(ledger, accounts)
    yield from without_owner(ledger, accounts)


def without_account(ledger: Ledger, accounts: Accounts) -> Iterator[Finding]:
    """Give the streams and tanks that are in no account."""
    for name, stream in ledger.streams.items():
        row = accounts.get(name)
        if row is None or row.product == NO_ACCOUNT:
            form = "{name} is in no account" if row is None else "{name} has no product"
            what = Sentence(form, name=name)
            remedy = "write it into the sheet accounts, and add that to the book"
            yield Finding("no-account", what, remedy, place_in(ledger, stream.line), name)


def without_owner(ledger: Ledger, accounts: Accounts) -> Iterator[Finding]:
    """Give the tanks and the streams over the plant's bounds that have no owner."""
    if all(row.owner.rule is SplitRule.NONE for row in accounts.values()):
        return
    for name, stream in ledger.streams.items():
        row = accounts.get(name)
        if (
            row is not None
            and row.owner.rule is SplitRule.NONE
            and ENV in (stream.arc.from_, stream.arc.to)
        ):
            remedy = "write its owner, shares, by receipts or by stock into the column owner"
            place = place_in(ledger, stream.line)
            what = Sentence("{name} has no owner: it belongs to nobody", name=name)
            yield Finding("no-owner", what, remedy, place, name)
