"""Stock that rolls forward: each month opens with what the month before it booked.

A period's report uses the dip of its eve, and the books end the month before with the
reconciled closing stock, which is another figure. What the dip says otherwise is a *stock
adjustment* of the tank, a line of its own. So opening + adjustment + gain = closing in each month,
and the closing stock of one month is the opening stock of the next, over any number of months.

The closing stock is the opening dip with what the flows to book let the tank gain: the figure that
the certified report gives. No figure of a report is changed.
"""

from __future__ import annotations

from collections.abc import Iterator, Mapping, Sequence
from dataclasses import dataclass
from enum import StrEnum

from plantbal.accounts.month import Basis, Gain, Month
from plantbal.accounts.spread import Across, Sum


class Why(StrEnum):
    """Why a tank's stock is adjusted."""

    NONE = ""
    DIP = "the dip says otherwise"
    BEGINS = "it came into service with this content"
    ENDS = "it is out of service, and the rest is written off"
    GAP = "no period has the days before this one"


class Opened(StrEnum):
    """What the opening stock of a tank rests on."""

    BOOKED = "the closing stock of the month before"
    DIP = "its dip: the book has no month before"
    CLOSING_DIP = "its closing dip less what it gained: nobody dipped it before"
    NOTHING = "nothing: no dip says what it held"
    EMPTY = "it wasn't in service"


_NO_SUMS: tuple[Across, Across, Across] = ({}, {}, {})


@dataclass(frozen=True, slots=True)
class Stock:
    """A tank over a month, in grams: opening + adjustment + gain = closing.

    Attributes
    ----------
    tank : str
        The tank.
    opening, adjustment, gain : int
        What it held by the books, what the dip says otherwise, and what it gained.
    opened : Opened
        What the opening rests on.
    why : Why
        Why it is adjusted.
    basis : Basis
        What the gain rests on, and the closing stock with it.
    opening_basis : Basis
        What the opening rests on.
    sums : tuple of Across
        Opening, adjustment and closing as sums of what periods have.
    """

    tank: str
    opening: int
    adjustment: int
    gain: int
    opened: Opened
    why: Why = Why.NONE
    basis: Basis = Basis.RECONCILED
    sums: tuple[Across, Across, Across] = _NO_SUMS
    opening_basis: Basis = Basis.MEASURED

    @property
    def closing(self) -> int:
        """What it holds in the end by the books."""
        return self.opening + self.adjustment + self.gain


@dataclass
class _Booked:
    """What the books have of a tank as a period ends, and as which sum.

    Attributes
    ----------
    grams : int
        Its closing stock.
    sums : Across
        It as a sum: a dip, and what was gained since.
    basis : Basis
        What it rests on.
    """

    grams: int
    sums: Across
    basis: Basis


def rolled(months: Sequence[Month]) -> list[list[Stock]]:
    """Return the stocks of months in the order of their days.

    Parameters
    ----------
    months : sequence of Month
        The months of a book from its first on, in the order of their days.
    """
    booked: dict[str, _Booked] = {}
    found = []
    for at, month in enumerate(months):
        gap = at > 0 and (month.first - months[at - 1].last).days != 1
        stocks = []
        for tank, gain in month.gains.items():
            stock = _stock(gain, booked.pop(tank, None), at, gap)
            stocks.append(stock)
        stocks += _left(booked)
        booked = {
            stock.tank: _Booked(stock.closing, stock.sums[2], stock.basis)
            for stock in stocks
            if stock.tank in month.gains
        }
        found.append(stocks)
    return found


def _stock(gain: Gain, before: _Booked | None, at: int, gap: bool) -> Stock:
    """Return a tank's stock in a month."""
    tank, dip = gain.tank, gain.opening
    if dip is None:
        return _undipped(gain, before, at)
    held: Across = {at: Sum(dips={tank: 1})}
    closing: Across = {at: Sum(flows={tank: 1}, dips={tank: 1})}
    none: Across = {}
    if before is not None:
        adjustment = dip - before.grams
        why = Why.NONE if not adjustment else Why.GAP if gap else Why.DIP
        sums = before.sums, _adjusted(tank, before, at), closing
        figures = before.grams, adjustment, gain.grams, Opened.BOOKED, why
        return Stock(tank, *figures, gain.basis, sums, before.basis)
    if at == 0 and not gain.begins:
        figures = dip, 0, gain.grams, Opened.DIP, Why.NONE
        return Stock(tank, *figures, gain.basis, (held, none, closing))
    figures = 0, dip, gain.grams, Opened.EMPTY, Why.BEGINS if dip else Why.NONE
    return Stock(tank, *figures, gain.basis, (none, held, closing))


def _adjusted(tank: str, before: _Booked, at: int) -> Across:
    """Return an adjustment as a sum: the dip less what was booked."""
    found = {place: Sum().plus(each, -1) for place, each in before.sums.items()}
    found[at] = found.get(at, Sum()).plus(Sum(dips={tank: 1}))
    return found


def _undipped(gain: Gain, before: _Booked | None, at: int) -> Stock:
    """Return the stock of a tank that nobody dipped before the month."""
    tank, gained = gain.tank, Sum(flows={gain.tank: 1})
    none: Across = {}
    if before is not None:
        closing: Across = {**before.sums, at: before.sums.get(at, Sum()).plus(gained)}
        sums = before.sums, none, closing
        basis = Basis.least({before.basis, gain.basis})
        figures = before.grams, 0, gain.grams, Opened.BOOKED, Why.NONE
        return Stock(tank, *figures, basis, sums, before.basis)
    if gain.closing is not None:
        end = Sum(ends={tank: 1})
        opening: Across = {at: end.plus(gained, -1)}
        closed: Across = {at: end}
        sums = opening, none, closed
        figures = gain.closing - gain.grams, 0, gain.grams, Opened.CLOSING_DIP, Why.NONE
        return Stock(tank, *figures, Basis.MEASURED, sums, gain.basis)
    unknown: Across = {at: Sum(is_unknown=True)}
    sums = unknown, none, unknown
    figures = 0, 0, gain.grams, Opened.NOTHING, Why.NONE
    return Stock(tank, *figures, Basis.UNKNOWN, sums, Basis.UNKNOWN)


def _left(booked: Mapping[str, _Booked]) -> Iterator[Stock]:
    """Give the tanks that the books still have and the plant hasn't: the rest is written off."""
    for tank, before in booked.items():
        if before.grams:
            off: Across = {at: Sum().plus(each, -1) for at, each in before.sums.items()}
            none: Across = {}
            figures = before.grams, -before.grams, 0, Opened.BOOKED, Why.ENDS
            sums = before.sums, off, none
            yield Stock(tank, *figures, Basis.RECONCILED, sums, before.basis)
