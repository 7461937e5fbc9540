"""The effects of rows that ask for output: they are judged, and store nothing."""

from __future__ import annotations

from dataclasses import dataclass
from typing import TYPE_CHECKING, ClassVar, Self

from plantbal.model.booking import stream_refused
from plantbal.model.causes import Reason, Refused, Values
from plantbal.model.effects import Effect, Fields, period_refused
from plantbal.model.forms import LIMITS, day_text
from plantbal.model.periods import Period
from plantbal.model.plant import ENV

if TYPE_CHECKING:
    from plantbal.model.state import State


@dataclass(frozen=True, slots=True)
class Design(Effect):
    """The classes of the declared plant."""

    asks: ClassVar[bool] = True

    @classmethod
    def of(cls, fields: Fields) -> Self:
        return cls()


@dataclass(frozen=True, slots=True)
class Advise(Effect):
    """The cheapest metering of the declared plant, at the costs that are named."""

    costs: tuple[tuple[str, int], ...]
    asks: ClassVar[bool] = True

    @classmethod
    def of(cls, fields: Fields) -> Self:
        texts = fields.texts
        return cls(tuple(zip(texts[::2], map(int, texts[1::2]))))

    @property
    def streams(self) -> list[str]:
        """The streams whose costs are named."""
        return [name for name, _ in self.costs]

    def refused(self, state: State) -> Refused | None:
        seen: set[str] = set()
        for name in self.streams:
            unknown = stream_refused(state, name)
            if unknown is not None:
                return unknown
        for name in self.streams:
            if name in seen:
                return Refused(Reason.COST_TAKEN, "stream", name)
            seen.add(name)
        for name in self.streams:
            kind = state.plant.streams[name].kind
            if kind != "plain":
                return Refused(Reason.MEASURED_ALREADY, "stream", name, {"there": kind})
        return None


@dataclass(frozen=True, slots=True)
class Report(Effect):
    """The report of a period."""

    period: str
    asks: ClassVar[bool] = True

    @classmethod
    def of(cls, fields: Fields) -> Self:
        return cls(fields.text("period"))

    def refused(self, state: State) -> Refused | None:
        return period_refused(state, self.period)


@dataclass(frozen=True, slots=True)
class History(Effect):
    """The edits that touch a period."""

    period: str
    asks: ClassVar[bool] = True

    @classmethod
    def of(cls, fields: Fields) -> Self:
        return cls(fields.text("period"))

    def refused(self, state: State) -> Refused | None:
        return period_refused(state, self.period)


@dataclass(frozen=True, slots=True)
class Component(Effect):
    """The balance of a component over a period."""

    component: str
    period: str
    asks: ClassVar[bool] = True

    @classmethod
    def of(cls, fields: Fields) -> Self:
        return cls(fields.text("component"), fields.text("period"))

    def refused(self, state: State) -> Refused | None:
        known = state.periods.by_name
        if self.period not in known and self.component in known:
            values = {"component": self.component}
            return Refused(Reason.PERIOD_AND_COMPONENT_SWAPPED, "period", self.period, values)
        unknown = period_refused(state, self.period)
        if unknown is not None or self._has_assay(state):
            return unknown
        values = {"period": self.period}
        return Refused(Reason.ASSAY_UNKNOWN, "component", self.component, values)

    def _has_assay(self, state: State) -> bool:
        mine = self.component, self.period
        return any((component, period) == mine for component, _, period in state.assays)


@dataclass(frozen=True, slots=True)
class Window(Effect):
    """The report of consecutive periods at once."""

    first: str
    last: str
    asks: ClassVar[bool] = True

    @classmethod
    def of(cls, fields: Fields) -> Self:
        return cls(fields.text("first"), fields.text("last"))

    def refused(self, state: State) -> Refused | None:
        unknown = period_refused(state, self.first, "first")
        unknown = unknown or period_refused(state, self.last, "last")
        if unknown is not None:
            return unknown
        first, last = (state.periods.by_name[name] for name in (self.first, self.last))
        if last.first < first.first:
            return Refused(Reason.WINDOW_ORDER, "last", self.last, {"first": self.first})
        within = state.periods.between(first, last)
        return self._gap_refused(within) or self._size_refused(state, within)

    def _gap_refused(self, within: list[Period]) -> Refused | None:
        """Refuse a window with a day that is in no period."""
        for one, other in zip(within, within[1:]):
            if other.first != one.last + 1:
                day = day_text(one.last + 1)
                values = {"day": day, "before": one.name, "after": other.name}
                return Refused(Reason.DAY_IN_NO_PERIOD, "last", self.last, values)
        return None

    def _size_refused(self, state: State, within: list[Period]) -> Refused | None:
        """Refuse a window of too many periods, nodes or streams."""
        count, most = len(within), LIMITS["most_periods_of_window"]
        if count > most:
            values: Values = {"count": count, "first": self.first, "most": most}
            return Refused(Reason.WINDOW_LONG, "last", self.last, values)
        nodes, streams = _nodes_and_streams(state, within)
        sizes = (nodes, "most_nodes", "nodes"), (streams, "most_streams", "streams")
        for count, limit, things in sizes:
            if count > LIMITS[limit]:
                values = {"count": count, "most": LIMITS[limit], "things": things}
                return Refused(Reason.WINDOW_FULL, "last", self.last, values)
        return None


def _nodes_and_streams(state: State, within: list[Period]) -> tuple[int, int]:
    """Return how many nodes and streams the window of some periods has."""
    nodes, streams, plant = 1, 0, state.plant
    for period in within:
        served = plant.served(period)
        streams += sum(stream.kind != "tank" for stream in served)
        ends = {end for stream in served for end in (stream.arc.from_, stream.arc.to)} - {ENV}
        nodes += len(plant.nodes) if state.version == 1 else len(ends)
    for tank in plant.tables:
        stays = [plant.streams[tank].is_in(period) for period in within]
        streams += sum(one or other for one, other in zip([False, *stays], [*stays, False]))
    return nodes, streams
