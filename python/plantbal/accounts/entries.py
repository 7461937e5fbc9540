"""What each stream and tank of a month brings to each account: its entries.

A stream moves within its own product. Where it comes from a unit the product is produced, where it
goes to a unit it is processed, and where a tank at its end has another product it is regraded: the
tank's product loses what the stream's product gets. So each account closes by the balances of its
tanks, productions and processings of the whole plant cancel by the balances of the units, and
regradings cancel in each sum of accounts that has both products. A stream from one unit to another
touches no stock, and has no entry.
"""

from __future__ import annotations

from collections.abc import Iterable, Iterator
from dataclasses import dataclass
from enum import StrEnum

from plantbal.accounts.month import Basis, Month, MonthFlow
from plantbal.accounts.sheet import Account, AccountKind, Accounts
from plantbal.accounts.spread import Across, Sum
from plantbal.accounts.stock import Stock
from plantbal.model.plant import ENV


class AccountLine(StrEnum):
    """The lines of an account, in their order."""

    OPENING = "opening stock"
    ADJUSTMENT = "stock adjustment"
    RECEIPTS = "receipts"
    PRODUCTION = "production"
    REGRADED = "regraded"
    PROCESSED = "processed"
    SHIPMENTS = "shipments"
    OWN_USE = "own use"
    FLARE = "flare"
    LOSS = "loss"
    CLOSING = "closing stock"


# The lines of what leaves the plant, by the kinds of streams.
_OUT = {
    AccountKind.SHIPMENT: AccountLine.SHIPMENTS,
    AccountKind.OWN_USE: AccountLine.OWN_USE,
    AccountKind.FLARE: AccountLine.FLARE,
    AccountKind.LOSS: AccountLine.LOSS,
}


def line_of_kind(kind: AccountKind | None, comes: bool) -> AccountLine:
    """Return the line of a stream that comes from outside, or goes there."""
    if comes:
        return AccountLine.RECEIPTS
    return _OUT.get(kind, AccountLine.SHIPMENTS) if kind is not None else AccountLine.SHIPMENTS


@dataclass(frozen=True, slots=True)
class Entry:
    """What a stream or tank brings to a line of an account.

    Attributes
    ----------
    line : AccountLine
        The line.
    name : str
        The stream or tank.
    account : Account
        The account that it is in: of a stream that is regraded, the tank's on one side.
    grams : int
        How much, below 0 if it takes away.
    basis : Basis
        What it rests on.
    sums : Across
        It as a sum of what periods have.
    """

    line: AccountLine
    name: str
    account: Account
    grams: int
    basis: Basis
    sums: Across


def entries_of(at: int, month: Month, stocks: Iterable[Stock], accounts: Accounts) -> list[Entry]:
    """Return the entries of a month.

    Parameters
    ----------
    at : int
        The place of the month among those that were rolled forward.
    month : Month
        The month.
    stocks : iterable of Stock
        Its tanks.
    accounts : Accounts
        The accounts' sheet.
    """
    found = list(_stock_entries(stocks, accounts))
    tanks = set(month.gains)
    for flow in month.flows.values():
        found += _stream_entries(at, flow, tanks, accounts)
    return found


def _stock_entries(stocks: Iterable[Stock], accounts: Accounts) -> Iterator[Entry]:
    for stock in stocks:
        account = accounts.of_tank(stock.tank)
        opening, adjustment, closing = stock.sums
        basis = stock.opening_basis
        yield Entry(AccountLine.OPENING, stock.tank, account, stock.opening, basis, opening)
        if adjustment or stock.adjustment:  # one of 0 g has its ± all the same
            amount = stock.adjustment
            yield Entry(AccountLine.ADJUSTMENT, stock.tank, account, amount, basis, adjustment)
        yield Entry(AccountLine.CLOSING, stock.tank, account, stock.closing, stock.basis, closing)


def _stream_entries(
    at: int, flow: MonthFlow, tanks: set[str], accounts: Accounts
) -> Iterator[Entry]:
    own = accounts.of_stream(flow.name, flow.start, flow.end)

    def entry(line: AccountLine, sign: int, account: Account = own) -> Entry:
        sums = {at: Sum(flows={flow.name: sign})}
        return Entry(line, flow.name, account, sign * flow.grams, flow.basis, sums)

    ends = [(flow.start, 1), (flow.end, -1)]
    if not any(end == ENV or end in tanks for end, _ in ends):
        return
    for end, sign in ends:
        if end == ENV:
            yield entry(line_of_kind(own.kind, sign > 0), sign)
        elif end not in tanks:
            yield entry(AccountLine.PRODUCTION if sign > 0 else AccountLine.PROCESSED, sign)
        else:
            other = accounts.of_tank(end)
            if (other.product, other.group) != (own.product, own.group):
                yield entry(AccountLine.REGRADED, sign)
                yield entry(AccountLine.REGRADED, -sign, other)
