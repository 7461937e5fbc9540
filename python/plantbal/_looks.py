"""What the book of a session in process says: its plant, its periods, its facts and their edits.

Each answer is the library's, by a place or by a name, so that no rule of a session is written a
second time. A name is looked up as it is declared; days are dates, amounts whole numbers.
"""

from __future__ import annotations

import datetime
from collections.abc import Callable
from dataclasses import dataclass
from enum import IntEnum
from typing import Any, TypeVar

from plantbal._native import NativeSession
from plantbal._studies import FlowClass, MeasuredStream, whole

FIRST_DAY = datetime.date(1970, 1, 1)
Item = TypeVar("Item")


class StreamKind(IntEnum):
    """How a stream is measured, or that it is a tank as what it holds."""

    METERED = 0
    BATCH = 1
    PLAIN = 2
    TANK = 3


class FactKind(IntEnum):
    """What a fact is."""

    READING = 0
    TRANSFER = 1
    DIP = 2


class EditKind(IntEnum):
    """What an edit does: closes a period, books a fact late, changes or strikes one."""

    CLOSE = 0
    LATE = 1
    AMEND = 2
    STRIKE = 3


@dataclass(frozen=True)
class Node:
    """The environment, a unit or a tank."""

    name: str
    tank: bool


@dataclass(frozen=True)
class StreamLook:
    """A stream with the places of its nodes, its base variance and its days of service."""

    name: str
    kind: StreamKind
    origin: int
    target: int
    base: int
    service: tuple[datetime.date, datetime.date] | None


@dataclass(frozen=True)
class PeriodLook:
    """A period, with its first and its last day."""

    name: str
    first: datetime.date
    last: datetime.date
    closed: bool


@dataclass(frozen=True)
class FactLook:
    """A fact with its last values: grams or a level, a dip's density, the variance."""

    id: str
    stream: str
    kind: FactKind
    struck: bool
    first: datetime.date
    last: datetime.date
    amount: int
    density: int
    variance: int


@dataclass(frozen=True)
class EditLook:
    """An edit: the number of its row, the period or the fact, and the values it has from then on."""

    record: int
    kind: EditKind
    id: str
    reason: str
    amount: int
    density: int
    variance: int


@dataclass(frozen=True)
class Counts:
    """How much there is of everything; the version is 0 while no row is stored."""

    version: int
    nodes: int
    streams: int
    periods: int
    facts: int
    assays: int
    edits: int


@dataclass(frozen=True)
class Graph:
    """The process graph of a period: the names of its nodes and streams, and the streams."""

    nodes: list[str]
    names: list[str]
    streams: list[MeasuredStream]


class Looks:
    """Look-ups in the book of a session.

    Parameters
    ----------
    session : NativeSession
        An open session. What it takes later is seen by the look-ups that follow.
    """

    def __init__(self, session: NativeSession) -> None:
        self._session = session

    def counts(self) -> Counts:
        """Return how much there is of everything."""
        told = self._session.look("counts", "plantbal_counts")
        return Counts(**{name: int(getattr(told, name)) for name in Counts.__annotations__})

    def nodes(self) -> list[Node]:
        """Return the nodes of the plant by their places, the environment first."""
        return self._each("node", lambda told: Node(_text(told.name), bool(told.tank)))

    def streams(self) -> list[StreamLook]:
        """Return the streams and the tanks by their places."""
        return self._each("stream", _stream)

    def periods(self) -> list[PeriodLook]:
        """Return the periods in the order of their rows."""
        return self._each(
            "period",
            lambda told: PeriodLook(
                _text(told.name), _day(told.first), _day(told.last), bool(told.closed)
            ),
        )

    def facts(self) -> list[FactLook]:
        """Return the facts in the order of their rows, struck ones too."""
        return self._each("fact", _fact)

    def edits(self) -> list[EditLook]:
        """Return the edits in the order of their rows."""
        return self._each("edit", _edit)

    def node(self, name: str) -> int | None:
        """Return the place of the node of a name, 0 for a boundary, or None if there is none."""
        return self._named("node", name)

    def stream(self, name: str) -> int | None:
        """Return the place of the stream or the tank of a name, or None if there is none."""
        return self._named("stream", name)

    def period(self, name: str) -> int | None:
        """Return the place of the period of a name, or None if there is none."""
        return self._named("period", name)

    def fact(self, name: str) -> int | None:
        """Return the place of the live fact of an id, or None if there is none."""
        return self._named("fact", name)

    def fact_touches(self, fact: int, period: int) -> bool:
        """Return whether the fact at one place counts in the period at another.

        Raises
        ------
        IndexError
            If one of them isn't there.
        """
        return self._touches("fact_touches", fact, period)

    def edit_touches(self, edit: int, period: int) -> bool:
        """Return whether the edit at one place touches the period at another.

        Raises
        ------
        IndexError
            If one of them isn't there.
        """
        return self._touches("edit_touches", edit, period)

    def graph(self, period: int) -> Graph:
        """Return the graph of the period at a place with what was measured, as a report has it.

        A study of it, `ArrayStudy(len(graph.nodes), graph.streams)`, is that of the report.

        Raises
        ------
        IndexError
            If there is no such period.
        ProgramFault
            If what is measured of a stream is above the limits of a graph.
        """
        ffi = self._session.ffi
        size = ffi.new("plantbal_graph_size *")
        room = ffi.new("plantbal_measured_stream[]", 1)
        if not self._session.read("period_graph", period, room, 0, size):
            room = ffi.new("plantbal_measured_stream[]", int(size.streams))
            self._session.read("period_graph", period, room, len(room), size)
        nodes = ffi.new("plantbal_name[]", int(size.nodes))
        names = ffi.new("plantbal_name[]", max(int(size.streams), 1))
        counts = ffi.new("size_t[2]")
        self._session.read(
            "period_names", period, nodes, len(nodes), names, len(names), counts, counts + 1
        )
        return Graph(
            [_text(one.name) for one in nodes[0 : counts[0]]],
            [_text(one.name) for one in names[0 : counts[1]]],
            [_measured(one) for one in room[0 : size.streams]],
        )

    def classes(self) -> list[FlowClass]:
        """Return the class of each stream of the plant before any reading, as a design has it."""
        ffi = self._session.ffi
        count = ffi.new("size_t *")
        self._session.read("classes", count, 0, count)
        codes = bytearray(int(count[0]))
        self._session.read("classes", ffi.from_buffer(codes), len(codes), count)
        return [FlowClass(code) for code in codes]

    def _each(self, what: str, made: Callable[[Any], Item]) -> list[Item]:
        """Return what is at each place, until there is no more."""
        found: list[Item] = []
        while (told := self._session.look(what, f"plantbal_{what}", len(found))) is not None:
            found.append(made(told))
        return found

    def _named(self, what: str, name: str) -> int | None:
        """Return the place of what a name names."""
        text = name.encode("utf-8")
        told = self._session.look(f"{what}_named", "uint32_t", text, len(text))
        return None if told is None else int(told)

    def _touches(self, what: str, place: int, period: int) -> bool:
        """Return whether something touches a period."""
        told = self._session.look(what, "bool", place, period)
        if told is None:
            raise IndexError(f"nothing at {place}, or no period at {period}")
        return bool(told)


def _text(field: Any) -> str:
    """Return a text that zeros follow."""
    return b"".join(field).split(b"\0", 1)[0].decode("ascii")


def _day(number: int) -> datetime.date:
    """Return a day that is counted from 1970-01-01."""
    return FIRST_DAY + datetime.timedelta(days=int(number))


def _measured(told: Any) -> MeasuredStream:
    """Return a stream of a graph."""
    ends = int(getattr(told, "from")), int(told.to)
    if not told.measured:
        return MeasuredStream(*ends)
    return MeasuredStream(*ends, int(told.value), whole(told.variance))


def _stream(told: Any) -> StreamLook:
    """Return a stream."""
    service = (_day(told.since), _day(told.until)) if told.served else None
    ends = int(getattr(told, "from")), int(told.to)
    return StreamLook(_text(told.name), StreamKind(told.kind), *ends, whole(told.base), service)


def _fact(told: Any) -> FactLook:
    """Return a fact."""
    return FactLook(
        id=_text(told.id),
        stream=_text(told.stream),
        kind=FactKind(told.kind),
        struck=bool(told.struck),
        first=_day(told.first),
        last=_day(told.last),
        amount=int(told.amount),
        density=int(told.density),
        variance=whole(told.variance),
    )


def _edit(told: Any) -> EditLook:
    """Return an edit."""
    return EditLook(
        record=int(told.record),
        kind=EditKind(told.kind),
        id=_text(told.id),
        reason=_text(told.reason),
        amount=int(told.amount),
        density=int(told.density),
        variance=whole(told.variance),
    )
