"""A month beside the months before it: which lines and adjustments are unusual.

A figure is unusual if it lies outside the interval in which one more month like the earlier ones
lies 99 times in 100: their mean, more or less Student's factor times their standard deviation times
the root of 1 + 1/n. How wide that is follows from the figures alone. The spread is at least the ±
that the figure has by its meters, so that months that happen to be alike make nothing unusual.
"""

from __future__ import annotations

from collections.abc import Iterator, Sequence
from dataclasses import dataclass
from math import sqrt
from statistics import mean, stdev

from plantbal.accounts.account import MonthAccount
from plantbal.accounts.entries import AccountLine
from plantbal.accounts.tables import title_of
from plantbal.sentence import Sentence

LEAST_MONTHS = 3  # with fewer there is no spread to speak of
_SURE = 0.99


@dataclass(frozen=True)
class Unusual:
    """A figure that lies outside its usual range.

    Attributes
    ----------
    account, line : str
        The account and its line, or the tank and its adjustment.
    now, mean, low, high : int
        The figure, the mean of the months before, and the range, in grams.
    year_ago : int or None
        The same a year ago, if the book has that month.
    """

    account: str
    line: str
    now: int
    mean: int
    low: int
    high: int
    year_ago: int | None = None


@dataclass(frozen=True)
class MonthFigure:
    """A figure of a month.

    Attributes
    ----------
    grams : int
        How much.
    deviation : float or None
        Its standard deviation in grams, if it is known.
    """

    grams: int
    deviation: float | None


def figures_of(account: MonthAccount) -> dict[tuple[str, str], MonthFigure]:
    """Return the figures of a month's accounts by account and line."""
    found: dict[tuple[str, str], MonthFigure] = {}
    groups = account.groups if len(account.groups) > 1 else []
    for table in [account.plant, *groups]:
        for line, amount in table.lines.items():
            if line not in (AccountLine.OPENING, AccountLine.CLOSING):
                found[title_of(table), line.value] = MonthFigure(amount.grams, amount.deviation)
        if table.unaccounted is not None:
            left = table.unaccounted.amount
            found[title_of(table), "unaccounted"] = MonthFigure(left.grams, left.deviation)
    for tank in account.tanks:
        figure = MonthFigure(tank.stock.adjustment, tank.adjustment)
        found[Sentence("tank {name}", name=tank.stock.tank), AccountLine.ADJUSTMENT.value] = figure
    return found


def unusual(now: MonthAccount, before: Sequence[MonthAccount]) -> Iterator[Unusual]:
    """Give what is unusual in a month beside the months before it.

    Parameters
    ----------
    now : MonthAccount
        The month.
    before : sequence of MonthAccount
        The months before it, in the order of their days.
    """
    earlier = [figures_of(each) for each in before]
    ago = [
        figures
        for each, figures in zip(before, earlier)
        if (each.month.first.year, each.month.first.month)
        == (now.month.first.year - 1, now.month.first.month)
    ]
    for key, figure in figures_of(now).items():
        some = [figures[key].grams for figures in earlier if key in figures]
        if len(some) < LEAST_MONTHS:
            continue
        middle, half = mean(some), _half(some, figure.deviation or 0.0)
        if abs(figure.grams - middle) > half:
            year_ago = ago[-1][key].grams if ago and key in ago[-1] else None
            ends = round(middle - half), round(middle + half)
            yield Unusual(*key, figure.grams, round(middle), *ends, year_ago)


def _half(some: Sequence[int], deviation: float) -> float:
    """Return half the range in which one more figure like these lies."""
    from scipy.special import stdtrit

    count = len(some)
    factor = float(stdtrit(count - 1, (1 + _SURE) / 2))
    return factor * max(stdev(some), deviation) * sqrt(1 + 1 / count)
