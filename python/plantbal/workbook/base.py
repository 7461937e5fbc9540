"""Days and periods, and systematic errors that are wider than a row bears.

A stream's base variance counts once for each period. A row bears 10^19 squared grams, an error of
3,162 t; a belt scale of 0.5 % that weighs a million tonnes a month has 5,000 t. What is above the
row's width is shared over the days of each period. A metered stream counts in a period only if each
of its days has a reading, and then its variance is the base variance plus the readings': the sum is
the same as with one wide row, to the squared gram. Since the share of a day hangs on its period
alone, it is the same whichever readings are there already.
"""

from __future__ import annotations

import datetime
import math
from collections.abc import Iterable
from dataclasses import dataclass
from decimal import Decimal

from plantbal.model.plant import Service, days_in_service
from plantbal.schema import schema

MOST_GRAMS = schema().limits["most_grams"]
MOST_VARIANCE = schema().limits["most_row_variance"]


@dataclass(frozen=True, slots=True)
class PeriodDays:
    """A period: its first and its last day, as numbers."""

    first: int
    last: int

    def days(self, service: Service) -> range:
        """Return its days on which something is in service."""
        first, last = days_in_service(service, self.first, self.last)
        return range(first, last + 1)


def share_of(excess: int, days: range, day: int) -> int:
    """Return what a day bears of a variance; the days together bear all of it, to the gram."""
    at = day - days.start
    return excess * (at + 1) // len(days) - excess * at // len(days)


def share_at(excess: int, spans: Iterable[PeriodDays], service: Service, day: int) -> int:
    """Return what a day bears by the first of some periods that it is in; 0 if it is in none."""
    for span in spans:
        if day in span.days(service):
            return share_of(excess, span.days(service), day)
    return 0


def error_said(variance: int) -> str:
    """Return a variance in squared grams as an error in tonnes, such as ``4,600 t``."""
    root = Decimal(math.isqrt(variance)) / 10**6
    places = 0 if root >= 100 else 3
    return f"{round(root, places):,f} t"


def days_between(first: datetime.date, last: datetime.date) -> list[datetime.date]:
    """Return the days from the first to the last."""
    return [first + datetime.timedelta(at) for at in range((last - first).days + 1)]
