"""The effects of rows that book: facts, their edits, assays, and the close of a period."""

from __future__ import annotations

from collections.abc import Callable
from dataclasses import dataclass
from enum import Enum, auto
from typing import TYPE_CHECKING, NamedTuple, Self

from plantbal.model.causes import Reason, Refused, Values
from plantbal.model.effects import Effect, Fields, full, not_there, period_refused, tank_refused
from plantbal.model.facts import At, Edit, Fact
from plantbal.model.forms import LIMITS, day_text
from plantbal.model.plant import dip_days, in_service, is_served

if TYPE_CHECKING:
    from plantbal.model.state import State

# What a stream has to be that has facts of a kind.
_KIND_OF_STREAM = {"reading": "metered", "transfer": "batch"}


class Assay(NamedTuple):
    """The grade of a component in parts per million, the variance of it, and its row's line."""

    ppm: int
    variance: int
    line: int


@dataclass(frozen=True, slots=True)
class BooksFact(Effect):
    """A reading, a transfer or a dip; a late one may touch a closed period."""

    fact: Fact
    late: bool

    @classmethod
    def reading(cls, fields: Fields) -> Self:
        """Return the effect of a reading's row."""
        day, grams = fields.day("day"), fields.whole("grams")
        return cls._of(fields, "reading", fields.text("stream"), (day, day), (grams, 0, 0))

    @classmethod
    def transfer(cls, fields: Fields) -> Self:
        """Return the effect of a transfer's row."""
        days, grams = (fields.day("first"), fields.day("last")), fields.whole("grams")
        return cls._of(fields, "transfer", fields.text("stream"), days, (grams, 0, 0))

    @classmethod
    def dip(cls, fields: Fields) -> Self:
        """Return the effect of a dip's row."""
        day, level = fields.day("day"), (0, fields.whole("mm"), fields.whole("density"))
        return cls._of(fields, "dip", fields.text("tank"), (day, day), level)

    @classmethod
    def of(cls, fields: Fields) -> Self:
        """Return the effect of a late fact's row."""
        read = {"reading": cls.reading, "transfer": cls.transfer, "dip": cls.dip}
        return read[fields.text("word")](fields)

    @classmethod
    def _of(
        cls, fields: Fields, kind: str, of: str, days: tuple[int, int], value: tuple[int, int, int]
    ) -> Self:
        fact = Fact(kind, fields.text("id"), of, *days, *value, fields.whole("variance"))
        return cls(fact, "word" in fields)

    @property
    def _column(self) -> str:
        """The column of its first day."""
        return "first" if self.fact.kind == "transfer" else "day"

    def refused(self, state: State) -> Refused | None:
        for rule in FACT_RULES:
            refused = rule.refused(self, state)
            if refused is not None:
                return refused
        return None

    def place_refused(self, state: State) -> Refused | None:
        """Refuse a fact of a stream or tank that isn't declared."""
        if self.fact.kind == "dip":
            return tank_refused(state, self.fact.of)
        return stream_refused(state, self.fact.of)

    def id_refused(self, state: State) -> Refused | None:
        """Refuse a fact whose id is taken."""
        fact = self.fact
        there = state.facts.find(fact.id) if fact.id in state.facts else None
        if there is None:
            return None
        values: Values = {"kind": there.kind, "of": there.of, "struck": there.struck}
        return Refused(Reason.ID_TAKEN, "id", fact.id, values, there.booked)

    def day_refused(self, state: State) -> Refused | None:
        """Refuse a reading or a dip whose day is taken."""
        fact = self.fact
        if fact.kind == "transfer" or not state.facts.has(fact.of, fact.first):
            return None
        same = state.facts.on(fact.of, fact.first)
        day = day_text(fact.first)
        values: Values = {"kind": fact.kind, "of": fact.of}
        return Refused(Reason.DAY_TAKEN, "day", day, values, same.booked if same else 0)

    def order_refused(self, state: State) -> Refused | None:
        """Refuse a fact whose first day is after its last."""
        if self.fact.first <= self.fact.last:
            return None
        return Refused(Reason.FACT_ORDER, "first", day_text(self.fact.first))

    def kind_refused(self, state: State) -> Refused | None:
        """Refuse a fact of a stream that has facts of another kind, or none."""
        wanted = _KIND_OF_STREAM.get(self.fact.kind)
        kind = state.plant.streams[self.fact.of].kind
        if wanted is None or kind == wanted:
            return None
        return Refused(Reason.FACT_OF_OTHER_KIND, "stream", self.fact.of, {"there": kind})

    def closed_refused(self, state: State) -> Refused | None:
        """Refuse a fact that touches a closed period, and isn't late."""
        if self.late or state.periods.first_closed is None:
            return None
        closed = closed_of(state, self.fact)
        return None if closed is None else Refused(Reason.TOUCHES_CLOSED, values={"period": closed})

    def length_refused(self, state: State) -> Refused | None:
        """Refuse a fact of too many days."""
        fact = self.fact
        days, most = fact.last - fact.first + 1, LIMITS["most_days_of_transfer"]
        if days <= most:
            return None
        values = {"days": days, "most": most}
        return Refused(Reason.TRANSFER_LONG, "last", day_text(fact.last), values)

    def level_refused(self, state: State) -> Refused | None:
        """Refuse a dip of a level outside the table of its tank."""
        return level_refused(state, self.fact.of, self.fact.mm) if self.fact.kind == "dip" else None

    def service_refused(self, state: State) -> Refused | None:
        """Refuse a fact of a day on which its stream or tank isn't in service."""
        first, last, service = self.fact.first, self.fact.last, state.plant.service(self.fact.of)
        if service is None or service[0] <= first <= last <= service[1]:
            return None
        # of a tank the eve of its first day is taken
        if self.fact.kind == "dip" and in_service(service, first + 1):
            return None
        outside = last if in_service(service, first) else first
        column = "last" if outside != first else self._column
        days = {"since": service[0], "until": service[1], "day": outside}
        values: Values = {"of": self.fact.of, **days}
        return Refused(Reason.DAY_OUT_OF_SERVICE, column, day_text(outside), values)

    def count_refused(self, state: State) -> Refused | None:
        """Refuse a fact beyond the limit."""
        return full(Reason.FACTS_FULL, len(state.facts), "most_facts")

    def store(self, state: State, at: At) -> None:
        line = at.line
        fact = Fact(*self.fact[:9], line, line, line)
        state.facts.book(fact)
        if self.late:
            state.edits.append(Edit(at, "late", None, fact))


class LooksAt(Enum):
    """What of a reading a rule looks at: columns of its row, or what the other rows have, too."""

    STREAM = auto()
    DAY = auto()
    STREAM_AND_DAY = auto()
    KEYS = auto()
    COUNT = auto()


class FactRule(NamedTuple):
    """A rule about facts.

    A run of readings is judged by the same rules (`plantbal.model.doubts`): each is asked once for
    each value of what it looks at, and not once for each row.

    Attributes
    ----------
    looks : LooksAt
        What of a reading it looks at.
    refused : callable
        Says whether it refuses a fact.
    some : callable
        Says whether it may refuse a reading of a session.
    only : callable or None
        Says of which streams it refuses some reading; None for all.
    """

    looks: LooksAt
    refused: Callable[[BooksFact, State], Refused | None]
    some: Callable[[State], bool] = lambda state: True
    only: Callable[[State, str], bool] | None = None


def _is_at_times(state: State, name: str) -> bool:
    """Say whether a stream has days of service."""
    return state.plant.service(name) is not None


def _has_closed(state: State) -> bool:
    """Say whether a period is closed."""
    return state.periods.first_closed is not None


def _of_one_day(state: State) -> bool:
    """Say that no reading is refused for how its days are: it has one."""
    return False


# The rules about facts, in the order of their codes.
FACT_RULES = (
    FactRule(LooksAt.STREAM, BooksFact.place_refused),
    FactRule(LooksAt.KEYS, BooksFact.id_refused),
    FactRule(LooksAt.KEYS, BooksFact.day_refused),
    FactRule(LooksAt.DAY, BooksFact.order_refused, some=_of_one_day),
    FactRule(LooksAt.STREAM, BooksFact.kind_refused),
    FactRule(LooksAt.DAY, BooksFact.closed_refused, some=_has_closed),
    FactRule(LooksAt.DAY, BooksFact.length_refused, some=_of_one_day),
    FactRule(LooksAt.STREAM, BooksFact.level_refused),
    FactRule(LooksAt.STREAM_AND_DAY, BooksFact.service_refused, only=_is_at_times),
    FactRule(LooksAt.COUNT, BooksFact.count_refused),
)


@dataclass(frozen=True, slots=True)
class Amends(Effect):
    """The live fact of an id gets other values.

    Attributes
    ----------
    id : str
        The fact.
    values : tuple of int
        Its grams, its level in mm and its density; 0 if it hasn't them.
    of_dip : bool
        Whether they are those of a dip.
    variance : int
        Its variance.
    reason : str
        Why.
    """

    id: str
    values: tuple[int, int, int]
    of_dip: bool
    variance: int
    reason: str

    @classmethod
    def of(cls, fields: Fields) -> Self:
        values = fields.whole("grams"), fields.whole("mm"), fields.whole("density")
        return cls(
            fields.text("id"),
            values,
            "mm" in fields,
            fields.whole("variance"),
            fields.text("reason"),
        )

    def refused(self, state: State) -> Refused | None:
        fact = state.facts.find(self.id)
        if fact is None or fact.struck:
            return not_live(fact, self.id)
        if (fact.kind == "dip") != self.of_dip:
            return Refused(Reason.VALUES_OF_OTHER_KIND, "id", self.id, {"there": fact.kind})
        return level_refused(state, fact.of, self.values[1]) if self.of_dip else None

    def store(self, state: State, at: At) -> None:
        before = state.facts.find(self.id)
        assert before is not None
        line = at.line
        after = Fact(*before[:5], *self.values, self.variance, before.booked, line, line)
        state.facts.change(after)
        state.edits.append(Edit(at, "amend", before, after, self.reason))


@dataclass(frozen=True, slots=True)
class Strikes(Effect):
    """The live fact of an id doesn't count any more."""

    id: str
    reason: str

    @classmethod
    def of(cls, fields: Fields) -> Self:
        return cls(fields.text("id"), fields.text("reason"))

    def refused(self, state: State) -> Refused | None:
        fact = state.facts.find(self.id)
        return not_live(fact, self.id) if fact is None or fact.struck else None

    def store(self, state: State, at: At) -> None:
        before = state.facts.find(self.id)
        assert before is not None
        state.facts.change(before._replace(struck=True, changed=at.line))
        state.edits.append(Edit(at, "strike", before, None, self.reason))


@dataclass(frozen=True, slots=True)
class Closes(Effect):
    """A period is closed."""

    period: str

    @classmethod
    def of(cls, fields: Fields) -> Self:
        return cls(fields.text("period"))

    def refused(self, state: State) -> Refused | None:
        unknown = period_refused(state, self.period)
        if unknown is not None or self.period not in state.periods.closed:
            return unknown
        line = state.periods.closed[self.period]
        return Refused(Reason.CLOSED_ALREADY, "period", self.period, clash=line)

    def store(self, state: State, at: At) -> None:
        state.periods.close(self.period, at.line)
        state.edits.append(Edit(at, "close", period=self.period))


@dataclass(frozen=True, slots=True)
class BooksAssay(Effect):
    """The grade of a component in a stream, or in a tank's gain, over a period."""

    component: str
    stream: str
    period: str
    ppm: int
    variance: int

    @classmethod
    def of(cls, fields: Fields) -> Self:
        return cls(
            fields.text("component"),
            fields.text("stream"),
            fields.text("period"),
            fields.whole("ppm"),
            fields.whole("variance"),
        )

    def refused(self, state: State) -> Refused | None:
        return (
            self._stream_refused(state)
            or period_refused(state, self.period)
            or self._taken(state)
            or self._closed_refused(state)
            or self._service_refused(state)
            or full(Reason.ASSAYS_FULL, len(state.assays), "most_assays")
        )

    def _stream_refused(self, state: State) -> Refused | None:
        streams = state.plant.streams
        if self.stream in streams:
            return None
        if self.component in streams:
            values = {"component": self.component}
            return Refused(Reason.STREAM_AND_COMPONENT_SWAPPED, "stream", self.stream, values)
        return not_there(state, "stream", self.stream, "stream or tank")

    def _taken(self, state: State) -> Refused | None:
        there = state.assays.get((self.component, self.stream, self.period))
        if there is None:
            return None
        values = {"component": self.component, "period": self.period}
        return Refused(Reason.ASSAY_TAKEN, "stream", self.stream, values, there.line)

    def _closed_refused(self, state: State) -> Refused | None:
        if self.period not in state.periods.closed:
            return None
        line = state.periods.closed[self.period]
        return Refused(Reason.ASSAY_OF_CLOSED, "period", self.period, clash=line)

    def _service_refused(self, state: State) -> Refused | None:
        period, service = state.periods.by_name[self.period], state.plant.service(self.stream)
        if service is None or is_served(service, period.first, period.last):
            return None
        days = {"since": service[0], "until": service[1]}
        values: Values = {"period": self.period, **days}
        return Refused(Reason.PERIOD_OUT_OF_SERVICE, "stream", self.stream, values)

    def store(self, state: State, at: At) -> None:
        key = self.component, self.stream, self.period
        assay = state.assays[key] = Assay(self.ppm, self.variance, at.line)
        state.grades.setdefault((self.component, self.period), {})[self.stream] = assay


# ---- rules of several kinds


def stream_refused(state: State, name: str) -> Refused | None:
    """Refuse a row of a stream that isn't declared."""
    known = state.plant.stream(name) is not None
    return None if known else not_there(state, "stream", name, "stream")


def closed_of(state: State, fact: Fact) -> str | None:
    """Return the name of a closed period that a fact touches, or None."""
    if fact.kind != "dip":
        return state.periods.closed_within(fact.first, fact.last)
    # Of the periods, which share no day, only those of this day and of the next can be meant.
    service = state.plant.service(fact.of)
    for near in (fact.first + 1, fact.first):
        period = state.periods.closed_by(near)
        if period is not None and is_served(service, period.first, period.last):
            if fact.first in dip_days(service, period.first, period.last):
                return period.name
    return None


def level_refused(state: State, tank: str, mm: int) -> Refused | None:
    """Refuse a level outside the table of its tank."""
    table = state.plant.tables[tank]
    if not table:
        return Refused(Reason.TABLE_EMPTY, "mm", str(mm), {"tank": tank})
    if table[0][0] <= mm <= table[-1][0]:
        return None
    values: Values = {"tank": tank, "low": table[0][0], "high": table[-1][0]}
    return Refused(Reason.LEVEL_OUTSIDE, "mm", str(mm), values)


def not_live(fact: Fact | None, identity: str) -> Refused:
    """Refuse an edit of a fact that isn't there, or was struck."""
    if fact is None:
        return Refused(Reason.FACT_UNKNOWN, "id", identity)
    return Refused(Reason.FACT_STRUCK, "id", identity, clash=fact.changed)
