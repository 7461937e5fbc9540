"""What the gates look at: a session's facts by stream and by tank, and what a report of it sees."""

from __future__ import annotations

from bisect import bisect_left
from collections import defaultdict
from collections.abc import Mapping
from dataclasses import dataclass
from functools import cached_property

from plantbal.model.facts import Fact
from plantbal.model.ledger import Seen, View
from plantbal.model.periods import Period
from plantbal.model.plant import Stream
from plantbal.model.state import State


class LookFacts:
    """The facts of a session that aren't struck, by their streams and tanks, in order of days.

    Parameters
    ----------
    state : State
        The session.
    """

    def __init__(self, state: State) -> None:
        self.state = state

    @cached_property
    def _by_place(self) -> dict[str, dict[str, list[Fact]]]:
        found: dict[str, dict[str, list[Fact]]] = {
            kind: defaultdict(list) for kind in ("reading", "transfer", "dip")
        }
        for fact in self.state.facts:
            if not fact.struck:
                found[fact.kind][fact.of].append(fact)
        for by_name in found.values():
            for facts in by_name.values():
                facts.sort(key=lambda fact: fact.first)
        return found

    @cached_property
    def beside(self) -> Mapping[str, list[Stream]]:
        """The streams at each tank, without the gains of tanks."""
        plant = self.state.plant
        found: dict[str, list[Stream]] = {tank: [] for tank in plant.tables}
        for stream in plant.streams.values():
            if stream.kind != "tank":
                for end in {stream.arc.from_, stream.arc.to} & found.keys():
                    found[end].append(stream)
        return found

    @property
    def readings(self) -> Mapping[str, list[Fact]]:
        """The readings of each stream."""
        return self._by_place["reading"]

    @property
    def transfers(self) -> Mapping[str, list[Fact]]:
        """The transfers of each stream."""
        return self._by_place["transfer"]

    @property
    def dips(self) -> Mapping[str, list[Fact]]:
        """The dips of each tank."""
        return self._by_place["dip"]


@dataclass(frozen=True)
class Look:
    """A period, as a report of it sees the plant and the facts.

    Attributes
    ----------
    facts : LookFacts
        The facts of the whole session.
    view : View
        The period's plant and facts.
    line : int
        The line of the row that asks for the report; 0 if it isn't known.
    """

    facts: LookFacts
    view: View
    line: int = 0

    @classmethod
    def of(cls, facts: LookFacts, seen: Seen) -> Look:
        """Return what a row that asks for a report sees."""
        return cls(facts, seen.view, seen.line)

    @property
    def state(self) -> State:
        """The session."""
        return self.facts.state

    @property
    def period(self) -> Period:
        """The period."""
        return self.view.period

    @cached_property
    def metered(self) -> dict[str, Stream]:
        """The metered streams in service, by name."""
        return {each.arc.name: each for each in self.view.streams if each.kind == "metered"}

    @cached_property
    def at(self) -> dict[str, list[Stream]]:
        """The streams in service at each node, without the gains of tanks."""
        found: dict[str, list[Stream]] = defaultdict(list)
        for each in self.view.streams:
            if each.kind != "tank":
                found[each.arc.from_].append(each)
                found[each.arc.to].append(each)
        return found

    def earlier(self, stream: str) -> list[Fact]:
        """Return the readings of a stream before the period."""
        facts = self.facts.readings.get(stream, [])
        return facts[: bisect_left(facts, self.period.first, key=lambda fact: fact.first)]
