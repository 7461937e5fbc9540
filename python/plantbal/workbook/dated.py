"""Figures that hold on some days: of a stream, a tank or a product, or of one ticket."""

from __future__ import annotations

import datetime
import math
from dataclasses import dataclass, field
from typing import Generic, TypeVar

from plantbal.workbook.base import PeriodDays
from plantbal.workbook.sheets import Cell

T = TypeVar("T")


@dataclass(frozen=True)
class Dated(Generic[T]):
    """A figure and the days on which it holds.

    Attributes
    ----------
    value : object
        The figure.
    cell : Cell
        Where it stands.
    first, last : date or None
        The days; None for all.
    """

    value: T
    cell: Cell
    first: datetime.date | None = None
    last: datetime.date | None = None

    def holds(self, day: datetime.date) -> bool:
        """Say whether it holds on a day."""
        return self.first is None or (self.last is not None and self.first <= day <= self.last)

    def days_in(self, span: PeriodDays) -> int:
        """Return on how many days of a period it holds."""
        if self.first is None or self.last is None:
            return span.last - span.first + 1
        first, last = self.first.toordinal(), self.last.toordinal()
        return max(0, min(last, span.last) - max(first, span.first) + 1)

    @property
    def length(self) -> float:
        """How many days it holds on."""
        if self.first is None or self.last is None:
            return math.inf
        return (self.last - self.first).days


@dataclass
class DatedFigures(Generic[T]):
    """Figures by the names of what they are of.

    Attributes
    ----------
    of_names : dict of str to list of Dated
        Those with days, by the names of streams, tanks and products.
    of_tickets : dict of str to Dated
        Those of tickets, by their ids.
    """

    of_names: dict[str, list[Dated[T]]] = field(default_factory=dict)
    of_tickets: dict[str, Dated[T]] = field(default_factory=dict)

    def on(self, name: str, day: datetime.date) -> Dated[T] | None:
        """Return the figure of a name on a day: the one of the fewest days that holds then."""
        own = [each for each in self.of_names.get(name, ()) if each.holds(day)]
        return min(own, key=lambda each: each.length) if own else None

    def twin(self, name: str, new: Dated[T]) -> Dated[T] | None:
        """Return a figure of a name with the same days, if there is one."""
        days = new.first, new.last
        same = (each for each in self.of_names.get(name, ()) if (each.first, each.last) == days)
        return next(same, None)

    def add(self, name: str, new: Dated[T]) -> None:
        """Take a figure of a name."""
        self.of_names.setdefault(name, []).append(new)
