"""Moistures: wet tonnes become dry ones, with the variance of both errors.

With a wet amount w of variance v, and a moisture m of variance s, the dry amount is w (1 - m), and
its variance (1 - m)^2 v + w^2 s. A moisture of several days is off by the same on all of them, so
its part counts as often as it has days: that is the variance of their sum if the days are alike,
and not less otherwise. A moisture of several tickets counts for each by the tonnes of them all,
which is the variance of their sum exactly.
"""

from __future__ import annotations

import datetime
import math
from collections.abc import Iterable, Sequence
from dataclasses import dataclass, field
from fractions import Fraction

from plantbal.sentence import Sentence
from plantbal.workbook.sheets import Cell
from plantbal.workbook.units import GRADES

WHOLE = GRADES["%"] * 100


@dataclass
class Moisture:
    """What part of a wet amount is water.

    Attributes
    ----------
    part, variance : Fraction
        The part, and the variance of its error.
    cell : Cell
        Where it stands.
    first, last : date or None
        The days that it is of; None for all.
    shifts : list of (Fraction, Fraction, Fraction)
        Of a day's shifts the wet tonnes, the part and its variance; empty if the day has one.
    """

    part: Fraction
    variance: Fraction
    cell: Cell
    first: datetime.date | None = None
    last: datetime.date | None = None
    shifts: list[tuple[Fraction, Fraction, Fraction]] = field(default_factory=list)

    def holds(self, day: datetime.date) -> bool:
        """Say whether it is of a day."""
        return self.first is None or (self.last is not None and self.first <= day <= self.last)

    def days_in(self, first: int, last: int) -> int:
        """Return how many days it is of, among those from the first to the last, as numbers."""
        if self.first is None or self.last is None:
            return last - first + 1
        return min(last, self.last.toordinal()) - max(first, self.first.toordinal()) + 1

    def dry(self, wet: int) -> Fraction:
        """Return what is dry of a wet amount, in grams."""
        return wet * (1 - self.part)

    def dry_variance(self, wet: int, variance: int, times: Fraction) -> int:
        """Return the variance of that, rounded up.

        Parameters
        ----------
        wet, variance : int
            The wet amount in grams, and its variance.
        times : Fraction
            How often the moisture's error counts.
        """
        return math.ceil((1 - self.part) ** 2 * variance + wet**2 * self.variance * times)

    def add_shift(self, tonnes: Fraction, part: Fraction, variance: Fraction) -> None:
        """Take one more shift of its day; the mean is by the wet tonnes, the errors independent."""
        self.shifts.append((tonnes, part, variance))
        whole = sum((shift[0] for shift in self.shifts), Fraction(0))
        self.part = sum((each * own for each, own, _ in self.shifts), Fraction(0)) / whole
        self.variance = sum((each**2 * s for each, _, s in self.shifts), Fraction(0)) / whole**2


@dataclass
class Moistures:
    """The moistures of a workbook.

    Attributes
    ----------
    of_tickets : dict of str to Moisture
        Those of tickets, by their ids.
    of_streams : dict of str to list of Moisture
        Those of streams, with their days.
    used : dict of str to list of Fraction
        Of each stream the moistures that dried a figure.
    """

    of_tickets: dict[str, Moisture] = field(default_factory=dict)
    of_streams: dict[str, list[Moisture]] = field(default_factory=dict)
    used: dict[str, list[Fraction]] = field(default_factory=dict)

    def on(self, stream: str, day: datetime.date) -> Moisture | None:
        """Return the moisture of a stream on a day: the one of the fewest days that is of it."""
        own = [each for each in self.of_streams.get(stream, ()) if each.holds(day)]
        return min(own, key=_days) if own else None

    def of_days(self, stream: str, days: Sequence[datetime.date]) -> Moisture | None:
        """Return the one moisture that holds on all of some days; None if there isn't one."""
        found = {id(each): each for each in (self.on(stream, day) for day in days) if each}
        missing = any(self.on(stream, day) is None for day in days)
        return next(iter(found.values())) if len(found) == 1 and not missing else None

    def use(self, stream: str, moisture: Moisture) -> None:
        """Keep that a moisture dried a figure."""
        self.used.setdefault(stream, []).append(moisture.part)

    def unused(self) -> Iterable[tuple[str, Moisture]]:
        """Give the streams with moistures of which no figure is wet, with the first of them."""
        for stream, own in self.of_streams.items():
            if own and stream not in self.used:
                yield stream, own[0]

    def notes(self) -> Iterable[str]:
        """Give what was dried, a line a stream."""
        for stream, parts in self.used.items():
            least, most = (f"{float(each * 100):.4g} %" for each in (min(parts), max(parts)))
            by = (
                Sentence("a moisture of {least}", least=least)
                if least == most
                else Sentence("moistures of {least} to {most}", least=least, most=most)
            )
            count = (
                "1 wet figure is"
                if len(parts) == 1
                else Sentence("{count:,} wet figures are", count=len(parts))
            )
            yield Sentence(
                "{stream}: {count} booked dry, by {by}", stream=stream, count=count, by=by
            )


def _days(moisture: Moisture) -> float:
    if moisture.first is None or moisture.last is None:
        return math.inf
    return (moisture.last - moisture.first).days
