"""What a row asks for: an effect for each kind of row, with the rules that refuse it.

An effect is read from the fields of a row of the schema. `Effect.refused` has the rules of its kind
in the order of their codes; `Effect.store` does what an accepted row does. The effects of the plant
stand here, those of facts in `plantbal.model.booking`, and those that ask for output in
`plantbal.model.asking`.
"""

from __future__ import annotations

from collections.abc import Mapping, Sequence
from dataclasses import dataclass
from typing import TYPE_CHECKING, ClassVar, Self

from plantbal.model.causes import Reason, Refused, Values
from plantbal.model.facts import At
from plantbal.model.forms import LIMITS, day_of, day_text
from plantbal.model.periods import Period
from plantbal.model.plant import ENV, Critical, Service, Stream, most_streams
from plantbal.model.topology import Arc

if TYPE_CHECKING:
    from plantbal.model.state import State


class Fields:
    """The fields of a row whose forms were judged, by the names of their columns.

    Parameters
    ----------
    names : sequence of str
        The names of the columns.
    texts : sequence of str
        The fields after the kind.
    """

    def __init__(self, names: Sequence[str], texts: Sequence[str]) -> None:
        self.texts = texts
        self._by_name: Mapping[str, str] = dict(zip(names, texts))

    def __contains__(self, name: str) -> bool:
        return name in self._by_name

    def text(self, name: str) -> str:
        """Return a field as it stands."""
        return self._by_name[name]

    def whole(self, name: str, otherwise: int = 0) -> int:
        """Return the number of a field, or another one if the row has no such field."""
        return int(self._by_name.get(name, otherwise))

    def day(self, name: str) -> int:
        """Return the number of the day of a field."""
        return day_of(self._by_name[name])

    def service(self) -> Service:
        """Return the days of service of a row."""
        return (self.day("since"), self.day("until")) if "since" in self else None


class Effect:
    """What a row asks for.

    Attributes
    ----------
    asks : bool
        Whether it asks for output, and isn't stored.
    """

    __slots__ = ()
    asks: ClassVar[bool] = False

    @classmethod
    def of(cls, fields: Fields) -> Self:
        """Return the effect of a row's fields."""
        raise NotImplementedError

    def refused(self, state: State) -> Refused | None:
        """Return why the program refuses it after the rows so far, or None."""
        return None

    def store(self, state: State, at: At) -> None:
        """Do what it does to a session, as the row of a place."""


@dataclass(frozen=True, slots=True)
class Blank(Effect):
    """Nothing: all fields of the record are empty."""

    @classmethod
    def of(cls, fields: Fields) -> Self:
        return cls()


@dataclass(frozen=True, slots=True)
class MakesVersion2(Effect):
    """The session is of version 2."""

    @classmethod
    def of(cls, fields: Fields) -> Self:
        return cls()

    def store(self, state: State, at: At) -> None:
        state.version = 2


@dataclass(frozen=True, slots=True)
class DeclaresBoundary(Effect):
    """A further name of ``env``."""

    name: str

    @classmethod
    def of(cls, fields: Fields) -> Self:
        return cls(fields.text("name"))

    def refused(self, state: State) -> Refused | None:
        return name_refused(state, self.name) or full(
            Reason.BOUNDARIES_FULL, len(state.plant.boundaries), "most_boundaries"
        )

    def store(self, state: State, at: At) -> None:
        state.plant.boundaries[self.name] = None
        state.plant.lines[self.name] = at.line


@dataclass(frozen=True, slots=True)
class DeclaresUnit(Effect):
    """A unit, or any other node without contents."""

    name: str

    @classmethod
    def of(cls, fields: Fields) -> Self:
        return cls(fields.text("name"))

    def refused(self, state: State) -> Refused | None:
        return name_refused(state, self.name) or sealed_1(state) or nodes_refused(state)

    def store(self, state: State, at: At) -> None:
        state.plant.nodes[self.name] = "unit"
        state.plant.lines[self.name] = at.line


@dataclass(frozen=True, slots=True)
class DeclaresTank(Effect):
    """A tank, and the stream of what it gains."""

    name: str
    base: int
    service: Service

    @classmethod
    def of(cls, fields: Fields) -> Self:
        return cls(fields.text("name"), fields.whole("base"), fields.service())

    def refused(self, state: State) -> Refused | None:
        return (
            name_refused(state, self.name)
            or service_refused(self.service)
            or sealed(state, self.service)
            or nodes_refused(state)
            or streams_refused(state)
        )

    def store(self, state: State, at: At) -> None:
        plant = state.plant
        plant.nodes[self.name] = "tank"
        plant.tables[self.name] = []
        plant.lines[self.name] = at.line
        arc = Arc(self.name, self.name, ENV)
        plant.streams[self.name] = Stream(arc, "tank", self.base, at.line, self.service)


@dataclass(frozen=True, slots=True)
class AddsPoint(Effect):
    """The next point of a tank's strapping table."""

    tank: str
    mm: int
    ml: int

    @classmethod
    def of(cls, fields: Fields) -> Self:
        return cls(fields.text("tank"), fields.whole("mm"), fields.whole("ml"))

    def refused(self, state: State) -> Refused | None:
        unknown = tank_refused(state, self.tank)
        if unknown is not None:
            return unknown
        table = state.plant.tables[self.tank]
        return self._order_refused(table) or sealed_1(state) or self._full(table)

    def _order_refused(self, table: list[tuple[int, int]]) -> Refused | None:
        if not table or (table[-1][0] < self.mm and table[-1][1] <= self.ml):
            return None
        column, last, mine = "ml", table[-1][1], self.ml
        if self.mm <= table[-1][0]:
            column, last, mine = "mm", table[-1][0], self.mm
        return Refused(Reason.TABLE_ORDER, column, str(mine), {"last": last})

    def _full(self, table: list[tuple[int, int]]) -> Refused | None:
        return full(Reason.POINTS_FULL, len(table), "most_points", tank=self.tank)

    def store(self, state: State, at: At) -> None:
        state.plant.tables[self.tank].append((self.mm, self.ml))


@dataclass(frozen=True, slots=True)
class DeclaresStream(Effect):
    """A stream from one node to another."""

    name: str
    from_: str
    to: str
    kind: str
    base: int
    service: Service

    @classmethod
    def of(cls, fields: Fields) -> Self:
        return cls(
            fields.text("name"),
            fields.text("from"),
            fields.text("to"),
            fields.text("word"),
            fields.whole("base"),
            fields.service(),
        )

    def refused(self, state: State) -> Refused | None:
        return (
            self._end_refused(state, "from", self.from_)
            or self._end_refused(state, "to", self.to)
            or name_refused(state, self.name)
            or service_refused(self.service)
            or self._ends_refused(state)
            or sealed(state, self.service)
            or streams_refused(state)
        )

    def _end_refused(self, state: State, column: str, end: str) -> Refused | None:
        plant = state.plant
        if end == ENV or end in plant.nodes or end in plant.boundaries:
            return None
        wanted = "unit or tank" if state.version == 1 else "unit, tank or boundary"
        return not_there(state, column, end, wanted)

    def _ends_refused(self, state: State) -> Refused | None:
        if state.plant.node_of(self.from_) != state.plant.node_of(self.to):
            return None
        same = self.from_ == self.to
        reason = Reason.SAME_END if same else Reason.BOTH_OUTSIDE
        return Refused(reason, "to", self.to, {"from": self.from_})

    def store(self, state: State, at: At) -> None:
        plant = state.plant
        ends = self.from_, self.to
        boundary = next((end for end in reversed(ends) if end in plant.boundaries), "")
        arc = Arc(self.name, *map(plant.node_of, ends))
        plant.lines[self.name] = at.line
        plant.streams[self.name] = Stream(
            arc, self.kind, self.base, at.line, self.service, boundary
        )


@dataclass(frozen=True, slots=True)
class DeclaresCritical(Effect):
    """A critical value of a test, at some degrees of freedom of the global one."""

    test: str
    dof: int
    value: int

    @classmethod
    def of(cls, fields: Fields) -> Self:
        return cls(fields.text("word"), fields.whole("dof"), fields.whole("value"))

    def refused(self, state: State) -> Refused | None:
        before = state.plant.critical.get((self.test, self.dof))
        if before is None:
            return None
        values: Values = {"test": self.test, "dof": self.dof}
        return Refused(Reason.CRITICAL_TAKEN, values=values, clash=before.line)

    def store(self, state: State, at: At) -> None:
        state.plant.critical[self.test, self.dof] = Critical(self.value, at.line)


@dataclass(frozen=True, slots=True)
class OpensPeriod(Effect):
    """A period of booking."""

    name: str
    first: int
    last: int

    @classmethod
    def of(cls, fields: Fields) -> Self:
        return cls(fields.text("name"), fields.day("first"), fields.day("last"))

    def refused(self, state: State) -> Refused | None:
        first, last, periods = day_text(self.first), day_text(self.last), state.periods
        if self.name in periods.by_name:
            line = periods.lines[self.name]
            return Refused(Reason.PERIOD_TAKEN, "name", self.name, clash=line)
        if self.last < self.first:
            return Refused(Reason.PERIOD_ORDER, "first", first)
        other = periods.sharing(self.first, self.last)
        if other is not None:
            line = periods.lines[other]
            return Refused(Reason.DAY_SHARED, "first", first, {"period": other}, line)
        days, most = self.last - self.first + 1, LIMITS["most_days_of_period"]
        if days > most:
            return Refused(Reason.PERIOD_LONG, "last", last, {"days": days, "most": most})
        return full(Reason.PERIODS_FULL, len(periods.by_name), "most_periods")

    def store(self, state: State, at: At) -> None:
        state.periods.add(Period(self.name, self.first, self.last), at.line)


# ---- rules of several kinds


def full(reason: Reason, count: int, limit: str, **values: str) -> Refused | None:
    """Refuse one more of what a limit is reached of."""
    if count < LIMITS[limit]:
        return None
    return Refused(reason, values={"count": count, **values})


def name_refused(state: State, name: str) -> Refused | None:
    """Refuse a name of the plant that is taken."""
    there = state.plant.kind_of(name)
    if not there:
        return None
    line = state.plant.lines.get(name, 0)
    return Refused(Reason.NAME_TAKEN, "name", name, {"there": there}, line)


def not_there(state: State, column: str, name: str, wanted: str) -> Refused:
    """Refuse a record that names nothing, or something else than what is wanted.

    Parameters
    ----------
    state : State
        The rows so far.
    column, name : str
        The column, and the name in it.
    wanted : str
        What is wanted there, such as ``stream or tank``.
    """
    there = state.plant.kind_of(name)
    reason = Reason.NAME_OF_OTHER if there else Reason.NAME_UNKNOWN
    return Refused(reason, column, name, {"wanted": wanted, "there": there})


def tank_refused(state: State, tank: str) -> Refused | None:
    """Refuse a row of a tank that isn't declared."""
    return None if tank in state.plant.tables else not_there(state, "tank", tank, "tank")


def period_refused(state: State, name: str, column: str = "period") -> Refused | None:
    """Refuse a row of a period that isn't declared."""
    known = name in state.periods.by_name
    return None if known else Refused(Reason.PERIOD_UNKNOWN, column, name)


def service_refused(service: Service) -> Refused | None:
    """Refuse dates of service that aren't in order."""
    if service is None or service[0] <= service[1]:
        return None
    return Refused(Reason.SERVICE_ORDER, "since", day_text(service[0]))


def sealed(state: State, service: Service = None) -> Refused | None:
    """Refuse a part of the plant that would change what a closed period was made of."""
    first = state.periods.first_closed
    if first is None:
        return None
    if state.version == 1:
        return Refused(Reason.PLANT_SEALED, values={"period": first})
    closed = first if service is None else state.periods.closed_within(*service)
    if closed is None:
        return None
    after = state.periods.last_closed_day + 1
    column, text = ("", "") if service is None else ("since", day_text(service[0]))
    return Refused(Reason.DAYS_SEALED, column, text, {"period": closed, "after": after})


def sealed_1(state: State) -> Refused | None:
    """Refuse a part of the plant after the first close, in a session of version 1."""
    return sealed(state) if state.version == 1 else None


def nodes_refused(state: State) -> Refused | None:
    """Refuse a unit or tank beyond the limits."""
    return full(Reason.NODES_FULL, len(state.plant.nodes), "most_units_and_tanks")


def streams_refused(state: State) -> Refused | None:
    """Refuse a stream or tank beyond the limits."""
    count = len(state.plant.streams)
    if count < most_streams(state.version):
        return None
    return Refused(Reason.STREAMS_FULL, values={"count": count, "version": state.version})
