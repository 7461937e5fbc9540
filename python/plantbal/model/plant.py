"""The plant of a session: units, tanks with their tables, streams, boundaries, critical values."""

from __future__ import annotations

from bisect import bisect_right
from collections.abc import Sequence
from dataclasses import dataclass
from typing import NamedTuple

from plantbal.model.forms import LIMITS, day_of
from plantbal.model.periods import Period
from plantbal.model.topology import Arc

ENV = "env"
# A volume above each that a table has.
_ABOVE = LIMITS["most_volume"] + 1
# From the first to the last day on which a stream or tank is in service, both counted; None is
# every day.
Service = tuple[int, int] | None


def in_service(service: Service, day: int) -> bool:
    """Say whether something is in service on a day."""
    return service is None or service[0] <= day <= service[1]


def days_in_service(service: Service, first: int, last: int) -> tuple[int, int]:
    """Return the first and the last of some days on which something is in service.

    The first comes after the last if it is in service on none of them.
    """
    return (first, last) if service is None else (max(first, service[0]), min(last, service[1]))


def is_served(service: Service, first: int, last: int) -> bool:
    """Say whether something is in service on some day from the first to the last."""
    begin, end = days_in_service(service, first, last)
    return begin <= end


def dip_days(service: Service, first: int, last: int) -> tuple[int, int]:
    """Return the days whose dips open and close a tank over a period.

    These are the day before the first on which it is in service, and the last one.
    """
    begin, end = days_in_service(service, first, last)
    return begin - 1, end


def service_of(fields: Sequence[str]) -> Service:
    """Return the days of service of a row of a tank or a stream that was accepted."""
    count = {"tank": 5, "stream": 8}.get(fields[0], 0)
    return (day_of(fields[-2]), day_of(fields[-1])) if len(fields) == count else None


def most_streams(version: int) -> int:
    """Return how many streams and tanks a session of a version may have."""
    return LIMITS["most_streams" if version == 2 else "most_streams_of_version_1"]


@dataclass(frozen=True, slots=True)
class Stream:
    """A declared stream, or a tank's gain (`kind` is ``tank``).

    A boundary at one of its ends stands in `arc` as ``env``, and in `boundary` by its name.
    """

    arc: Arc
    kind: str
    base: int
    line: int
    service: Service = None
    boundary: str = ""

    def is_in(self, period: Period) -> bool:
        """Say whether it is in service on some day of a period."""
        return is_served(self.service, period.first, period.last)

    def days_in(self, period: Period) -> range:
        """Return the days of a period on which it is in service."""
        first, last = days_in_service(self.service, period.first, period.last)
        return range(first, last + 1)

    def ends_of(self, period: Period) -> tuple[int, int]:
        """Return the days whose dips open and close a tank over a period."""
        return dip_days(self.service, period.first, period.last)


class Critical(NamedTuple):
    """A critical value in thousandths, and the line of its row."""

    value: int
    line: int


class DeclaredPlant:
    """What a session's rows declare.

    Attributes
    ----------
    nodes : dict of str to str
        The units and tanks, and which of the two each is.
    boundaries : dict of str to None
        The further names of ``env``.
    streams : dict of str to Stream
        The streams and the tanks' gains, in the order of their rows.
    tables : dict of str to list of (int, int)
        The tanks' strapping tables: levels in millimetres, and millilitres.
    critical : dict of (str, int) to Critical
        The critical values by their test and its degrees of freedom; 0 if these aren't asked.
    lines : dict of str to int
        The line in which each name is declared.
    """

    def __init__(self) -> None:
        self.nodes: dict[str, str] = {}
        self.boundaries: dict[str, None] = {}
        self.streams: dict[str, Stream] = {}
        self.tables: dict[str, list[tuple[int, int]]] = {}
        self.critical: dict[tuple[str, int], Critical] = {}
        self.lines: dict[str, int] = {}

    def node_of(self, name: str) -> str:
        """Return the node that a name stands for: ``env`` for a boundary, else the name itself."""
        return ENV if name in self.boundaries else name

    def kind_of(self, name: str) -> str:
        """Return what a name stands for, as the word of its row; nothing if for none.

        It is ``env``, ``unit``, ``tank``, ``metered``, ``batch``, ``plain`` or ``boundary``.
        """
        if name == ENV:
            return ENV
        if name in self.nodes:
            return self.nodes[name]
        if name in self.streams:
            return self.streams[name].kind
        return "boundary" if name in self.boundaries else ""

    def stream(self, name: str) -> Stream | None:
        """Return a stream that is no tank's gain, or None."""
        found = self.streams.get(name)
        return None if found is None or found.kind == "tank" else found

    def stream_names(self) -> list[str]:
        """Return the names of the streams that are no tanks' gains, in order."""
        return [name for name, each in self.streams.items() if each.kind != "tank"]

    def service(self, name: str) -> Service:
        """Return the days on which a stream or tank is in service."""
        found = self.streams.get(name)
        return None if found is None else found.service

    def served(self, period: Period) -> list[Stream]:
        """Return the streams and the tanks' gains that are in service on a day of a period."""
        return [stream for stream in self.streams.values() if stream.is_in(period)]

    def nodes_in(self, period: Period, version: int) -> list[str]:
        """Return the nodes of a period's report: in version 2 the ends of its streams alone."""
        if version == 1:
            return [ENV, *self.nodes]
        ends = {end for each in self.served(period) for end in (each.arc.from_, each.arc.to)}
        return [ENV, *(node for node in self.nodes if node in ends)]

    def crossings(self) -> dict[str, str]:
        """Return the boundary of each stream that has one, where it comes in or goes out."""
        return {name: each.boundary for name, each in self.streams.items() if each.boundary}

    def volume(self, tank: str, mm: int) -> int:
        """Return what a tank holds at a level of its table, in millilitres."""
        table = self.tables[tank]
        place = bisect_right(table, (mm, _ABOVE))
        if place == len(table):
            return table[-1][1]
        (low, below), (high, above) = table[place - 1], table[place]
        return below + (mm - low) * (above - below) // (high - low)
