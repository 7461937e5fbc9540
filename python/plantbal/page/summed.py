"""Of which hours a day's reading was made, beside the readings on a statement: cells, hours, gaps.

The book keeps it for each reading that is the sum of hours, or what a counter advanced. A reading
that was changed by hand since then has none. Its figure is compared here with what is booked.
"""

from __future__ import annotations

from collections.abc import Iterable, Iterator, Mapping, Sequence
from dataclasses import dataclass
from math import sqrt

from plantbal import limits
from plantbal.amounts import tonnes_text
from plantbal.audit.sums import sums_of_book
from plantbal.model.facts import Fact
from plantbal.sentence import Figure, Sentence
from plantbal.workbook.summed import HEADS, SummedBy, SummedFact

SHEET = ("period", *HEADS)


@dataclass(frozen=True, slots=True)
class SummedReading:
    """A reading, and of what it was made.

    Attributes
    ----------
    fact : Fact
        The reading, as it stands in the session.
    found : SummedFact
        Of what it was made.
    """

    fact: Fact
    found: SummedFact

    @property
    def what(self) -> str:
        """What it is, and of what."""
        return Sentence("reading of {name}", name=self.fact.of)

    @property
    def cells(self) -> str:
        """Where its figures stand: the workbook, the sheet and the cells."""
        return f"{self.found.source}: {self.found.cells.replace(' ', ', ')}"

    @property
    def hours(self) -> str:
        """How many figures there are for the hours of the day, and which are missing."""
        found = self.found
        if found.by == SummedBy.COUNTER.value:
            form = "a counter, {count} figures in {hours} hours"
            return Sentence(form, count=found.count, hours=found.hours)
        form = "{count} of {day} hours"
        if found.by == SummedBy.HOURS_ONE_TWICE.value:
            form = "{count} figures of {day} hours, one of them of two hours"
        said = Sentence(form, count=found.count, day=found.hours)
        missing = ", ".join(found.missing.split())
        return (
            Sentence("{said}; taken for 0: {hours}", said=said, hours=missing) if missing else said
        )

    @property
    def figure(self) -> str:
        """What they come to, in the unit of the sheet."""
        return Figure(f"{self.found.figure} {self.found.unit}")

    @property
    def wrong(self) -> str:
        """In what it contradicts itself or the session; empty if in nothing."""
        return self.found.wrong(self.fact.grams)

    @property
    def booked(self) -> str:
        """What is booked, in tonnes."""
        return Figure(tonnes_text(self.fact.grams))

    @property
    def deviation(self) -> str:
        """The standard deviation of what is booked, in tonnes."""
        return Figure(tonnes_text(round(sqrt(self.fact.variance))))


@dataclass(frozen=True)
class SummedPart:
    """What a period's statement has of it.

    Attributes
    ----------
    readings : sequence of SummedReading
        Those that are shown.
    more : int
        How many others there are.
    """

    readings: Sequence[SummedReading] = ()
    more: int = 0


def summed_of_book(book: str | None, facts: Iterable[Fact]) -> list[SummedReading]:
    """Return of what the readings of a session were made, as its book has it.

    Parameters
    ----------
    book : str or None
        The folder of the book.
    facts : iterable of Fact
        The facts of the session.

    Raises
    ------
    InputFault
        If the book's file can't be read.
    """
    kept = {(each.row, each.fact): each for each in sums_of_book(book)}
    return [
        SummedReading(fact, kept[fact.line, fact.id])
        for fact in facts
        if not fact.struck and (fact.line, fact.id) in kept
    ]


def summed_part(found: Sequence[SummedReading], first: int, last: int) -> SummedPart:
    """Return the readings of the days of a period, stream by stream; first those with a fault."""
    own = [each for each in found if first <= each.fact.first <= last]
    own.sort(key=lambda each: (not each.wrong, each.fact.of, each.fact.first))
    shown = own[: limits.MEASURED_SHOWN]
    return SummedPart(shown, len(own) - len(shown))


def summed_sheet(parts: Mapping[str, SummedPart]) -> Iterator[tuple[str | int, ...]]:
    """Give the rows of it for a workbook, with the heads of the book's file after the period."""
    for period, part in parts.items():
        for each in part.readings:
            yield period, *(getattr(each.found, head) for head in HEADS)
