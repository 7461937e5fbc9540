"""What a session knows of the measurements of a period: tickets, readings, dips, densities."""

from __future__ import annotations

from collections.abc import Iterator, Mapping
from dataclasses import dataclass
from functools import cached_property
from statistics import median

from plantbal.model.facts import Fact
from plantbal.model.ledger import View
from plantbal.model.plant import Stream
from plantbal.model.state import State
from plantbal.model.studies import share


@dataclass(frozen=True, slots=True)
class DippedLevel:
    """A dip of a tank, with what it says.

    Attributes
    ----------
    fact : Fact
        The dip.
    is_closing : bool
        Whether it closes the tank over the period, and doesn't open it.
    content : int
        What the tank holds by it, in grams.
    slope : float
        Grams that a millimetre more would be, at this level.
    lowest, highest : int
        The first and the last level of the tank's table.
    """

    fact: Fact
    is_closing: bool
    content: int
    slope: float
    lowest: int
    highest: int


class Evidence:
    """The facts of a period.

    Parameters
    ----------
    state : State
        The session.
    view : View
        The period as its report saw it.
    """

    def __init__(self, state: State, view: View) -> None:
        self.state = state
        self.view = view
        self.streams: Mapping[str, Stream] = {each.arc.name: each for each in view.streams}

    def kind(self, name: str) -> str:
        """Return the kind of a stream: ``metered``, ``batch`` or ``tank``; nothing if unknown."""
        found = self.streams.get(name)
        return found.kind if found else ""

    def facts(self, name: str) -> list[Fact]:
        """Return the readings or tickets of a stream that count in the period."""
        return self.view.facts.get(name, [])

    def amount(self, fact: Fact) -> int:
        """Return the part of a reading or ticket that falls into the period, in grams."""
        return share(fact.grams, fact, self.view.period)

    def tickets(self) -> Iterator[Fact]:
        """Give the tickets of all streams."""
        for name in self.streams:
            if self.kind(name) == "batch":
                yield from self.facts(name)

    def levels(self, tank: str) -> list[DippedLevel]:
        """Return the dips that open and close a tank over the period."""
        pair = self.view.dips.get(tank, (None, None))
        return [self._level(dip, number == 1) for number, dip in enumerate(pair) if dip]

    def _level(self, dip: Fact, is_closing: bool) -> DippedLevel:
        plant = self.state.plant
        table = plant.tables[dip.of]
        lowest, highest = table[0][0], table[-1][0]
        below, above = max(lowest, dip.mm - 1), min(highest, dip.mm + 1)
        rise = plant.volume(dip.of, above) - plant.volume(dip.of, below)
        slope = rise / max(1, above - below) * dip.density / 1e6
        return DippedLevel(dip, is_closing, self.state.content(dip), slope, lowest, highest)

    def content_at(self, dip: Fact, mm: int) -> int | None:
        """Return what a tank would hold at another level than that of a dip; None beyond its
        table."""
        table = self.state.plant.tables[dip.of]
        if not table[0][0] <= mm <= table[-1][0]:
            return None
        return self.state.plant.volume(dip.of, mm) * dip.density // 1_000_000

    def dips(self, tank: str) -> dict[int, Fact]:
        """Return the dips of a tank from the day that opens it to the one that closes it."""
        stream = self.streams[tank]
        first, last = stream.ends_of(self.view.period)
        days = ((day, self.state.facts.on(tank, day)) for day in range(first, last + 1))
        return {day: dip for day, dip in days if dip is not None}

    def repeats(self, name: str) -> list[tuple[int, int]]:
        """Return the days on which a meter repeats what it read the day before: the first and the
        last day of each such run."""
        found: list[tuple[int, int]] = []
        facts = sorted(self.facts(name), key=lambda fact: fact.first)
        for before, fact in zip(facts, facts[1:]):
            if fact.grams == before.grams and fact.first == before.first + 1:
                if found and found[-1][1] == before.first:
                    found[-1] = found[-1][0], fact.first
                else:
                    found.append((fact.first, fact.first))
        return found

    @cached_property
    def densities(self) -> dict[str, int]:
        """The density of each tank's product by the median of its dips, in g/m3."""
        found = {}
        for name, stream in self.streams.items():
            if stream.kind == "tank":
                some = [dip.density for dip in self.dips(name).values()]
                if some:
                    found[name] = int(median(some))
        return found

    def near_density(self, name: str) -> int | None:
        """Return the density of what a stream carries, by a tank at its end, in g/m3."""
        arc = self.streams[name].arc
        for end in (arc.from_, arc.to):
            if end in self.densities:
                return self.densities[end]
        return None
