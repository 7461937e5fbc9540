"""A study of a process graph that is handed over in arrays, in process: no rows, no report to read.

Nodes and streams go by their places; node 0 is the environment. Amounts are whole grams, variances
squared grams, statistics and critical values thousandths, as in a report.
"""

from __future__ import annotations

from collections.abc import Iterable, Mapping
from dataclasses import dataclass
from enum import IntEnum
from struct import Struct
from typing import Any, cast

from plantbal._declarations import Status
from plantbal._native import Buffer, fault, library
from plantbal.faults import InputFault


# A stream in an array: the places of its nodes, whether it is measured (a byte, 0 or 1), its grams, and
# the low and the high word of the variance.
LAYOUT = Struct("=II?7xqQq")


class FlowClass(IntEnum):
    """What the measurements say of a stream."""

    OBSERVABLE = 0
    UNOBSERVABLE = 1
    REDUNDANT = 2
    NONREDUNDANT = 3


class StudyVerdict(IntEnum):
    """What a test says."""

    REJECT = 0
    ACCEPT = 1
    UNDECIDED = 2
    NO_CRITICAL = 3
    NO_TEST = 4


class Ending(IntEnum):
    """Why the elimination of suspects stopped."""

    NOT_ASKED = 0
    ACCEPTED = 1
    UNDECIDED = 2
    NO_CRITICAL = 3
    NO_TEST = 4
    NO_SUSPECT = 5
    SPENT = 6


@dataclass(frozen=True)
class MeasuredStream:
    """A stream from one node to another, with its measured grams and their variance, if it has."""

    origin: int
    target: int
    grams: int | None = None
    variance: int = 0


@dataclass(frozen=True)
class StudyStage:
    """The numbers of a stage: whether its gap was met, and the statistic with its test."""

    converged: bool
    sweeps: int
    gap: tuple[int, int]
    freedom: int
    low: int
    high: int | None
    critical: int | None
    verdict: StudyVerdict | None


@dataclass(frozen=True)
class Result:
    """A stream of a stage: its class, flow, bounds, least bounds, and certificate.

    Attributes
    ----------
    cut : bool
        Whether the certificate is a cut; if not, it is a cycle.
    members : list of (int, int)
        The streams of the certificate with their signs.
    """

    stream_class: FlowClass
    flow: int
    bounds: tuple[int, int] | None
    least: tuple[int, int] | None
    cut: bool
    members: list[tuple[int, int]]


@dataclass(frozen=True)
class StageTest:
    """The test of a group of nodes (``low`` is the net flow, ``high`` its variance) or of a meter."""

    place: int
    low: int
    high: int | None
    critical: int | None
    verdict: StudyVerdict


class ArrayStudy:
    """A study of a process graph.

    Parameters
    ----------
    nodes : int
        How many nodes there are, with the environment.
    streams : iterable of MeasuredStream, or anything with a buffer
        The streams in order; or an array of them in memory, such as numpy's, whose items are laid
        out as `LAYOUT` says.
    gap, sweeps, eliminate, tests : optional
        As in `plantbal.run`.
    limits : mapping of int to int, optional
        The critical values of the global test by their degrees of freedom.
    nodal, measure : int, optional
        Those of the tests of nodes and of measurements.

    Raises
    ------
    InputFault
        If a stream isn't one of a process graph; its text is the stream's place.
    ProgramFault
        If a number is outside its limits, or memory ran out.
    """

    def __init__(
        self,
        nodes: int,
        streams: Iterable[MeasuredStream] | Buffer,
        *,
        gap: int = 10,
        sweeps: int = 5000,
        eliminate: int = 0,
        tests: bool = False,
        limits: Mapping[int, int] | None = None,
        nodal: int | None = None,
        measure: int | None = None,
    ) -> None:
        self._native = library()
        ffi, functions = self._native.ffi, self._native.functions
        handle = ffi.new("plantbal_study")
        self._handle = ffi.gc(handle, functions.plantbal_study_free)
        has = (nodal is not None, measure is not None)
        asked = (gap, sweeps, eliminate, tests, *has, nodal or 0, measure or 0)
        wrong = ffi.new("size_t *")
        try:
            options = ffi.new("plantbal_study_options *", asked)
            rows = ffi.new("plantbal_critical_row[]", [*(limits or {}).items()] or 1)
            given, count = _given(ffi, streams)
        except OverflowError as error:
            raise fault(Status.USAGE) from error
        status = functions.plantbal_study_new(
            options, rows, len(limits or {}), nodes, given, count, self._handle, wrong
        )
        if status == Status.BAD_STREAM:
            raise InputFault(
                "a stream leads to no node or to where it begins, or its measurement isn't within"
                " the limits",
                text=str(int(wrong[0])),
                remedy="look at the stream at this place, counted from 0",
            )
        if status != Status.DONE:
            raise fault(Status(status))
        counts: Any = self._read("counts", "plantbal_studied")
        self.stages = int(counts.stages)
        self.stop = Ending(counts.stop)

    def _read(self, what: str, kind: str, *places: int) -> Any | None:
        """Return what a call of the library finds, or None if there is nothing there."""
        found = self._native.ffi.new(f"{kind} *")
        function = getattr(self._native.functions, f"plantbal_study_{what}")
        status = function(self._handle, *places, found)
        if status == Status.NOT_THERE:
            return None
        if status != Status.DONE:
            raise fault(Status(status))
        return found[0]

    def _all(self, what: str, kind: str, *places: int) -> list[Any]:
        """Return what a call of the library finds at the places from 0 on."""
        found: list[Any] = []
        while (one := self._read(what, kind, *places, len(found))) is not None:
            found.append(one)
        return found

    def stage(self, place: int = 0) -> StudyStage:
        """Return the numbers of a stage."""
        one: Any = self._read("stage", "plantbal_stage", place)
        return StudyStage(
            bool(one.converged),
            one.sweeps,
            (one.g, one.h),
            one.dof,
            whole(one.low),
            whole(one.high) if one.has_high else None,
            one.critical if one.has_critical else None,
            StudyVerdict(one.verdict) if one.tested else None,
        )

    def results(self, stage: int = 0) -> list[Result]:
        """Return what a stage says of each stream."""
        return [
            _result(one, self._all("member", "plantbal_member", stage, place))
            for place, one in enumerate(self._all("stream", "plantbal_result", stage))
        ]

    def prices(self, stage: int = 0) -> list[int]:
        """Return the price of each node, in units of 2^-56."""
        return [whole(one) for one in self._all("price", "plantbal_wide", stage)]

    def side(self, stream: int, stage: int = 0) -> list[int]:
        """Return the nodes inside the cut of a stream, or none if its certificate is a cycle."""
        inside = self._all("inside", "bool", stage, stream)
        return [node for node, within in enumerate(inside) if within]

    def nodal(self, stage: int = 0) -> list[StageTest]:
        """Return the tests of groups of nodes."""
        tests = self._all("nodal", "plantbal_nodal_test", stage)
        return [_test(one, one.node, whole(one.net), whole(one.variance)) for one in tests]

    def measure(self, stage: int = 0) -> list[StageTest]:
        """Return the tests of measurements."""
        tests = self._all("measure", "plantbal_measure_test", stage)
        high = [whole(one.high) if one.has_high else None for one in tests]
        return [_test(one, one.stream, whole(one.low), top) for one, top in zip(tests, high)]

    def taken(self) -> list[tuple[int, int]]:
        """Return the streams that were taken out, each with how far the statistic fell at least."""
        return [(one.stream, whole(one.low)) for one in self._all("taken", "plantbal_taken")]


def whole(wide: Any) -> int:
    """Return a number of two words."""
    return int(wide.high) * 2**64 + int(wide.low)


def _given(ffi: Any, streams: Iterable[MeasuredStream] | Buffer) -> tuple[Any, int]:
    """Return streams as the library takes them, and how many there are."""
    if isinstance(streams, Iterable) and not isinstance(streams, bytes | bytearray | memoryview):
        try:
            streams = memoryview(streams)  # type: ignore[arg-type]
        except TypeError:
            listed = [_words(stream) for stream in cast("Iterable[MeasuredStream]", streams)]
            return ffi.new("plantbal_measured_stream[]", listed or 1), len(listed)
    view = memoryview(streams).cast("B")
    if len(view) % LAYOUT.size or set(view[8 :: LAYOUT.size]) - {0, 1}:
        raise fault(Status.USAGE)
    if not len(view):
        return ffi.new("plantbal_measured_stream[]", 1), 0
    return ffi.from_buffer("plantbal_measured_stream[]", view), len(view) // LAYOUT.size


def _words(stream: MeasuredStream) -> tuple[Any, ...]:
    """Return a stream as the library takes it."""
    variance = divmod(stream.variance, 2**64)
    measured = stream.grams is not None
    return stream.origin, stream.target, measured, stream.grams or 0, variance[::-1]


def _result(one: Any, members: list[Any]) -> Result:
    """Return what a stage says of a stream."""
    return Result(
        FlowClass(one.stream_class),
        whole(one.flow),
        (whole(one.lo), whole(one.hi)) if one.bounded else None,
        (whole(one.least_lo), whole(one.least_hi)) if one.least_bounded else None,
        not one.cycle,
        [(member.stream, member.sign) for member in members],
    )


def _test(one: Any, place: int, low: int, high: int | None) -> StageTest:
    """Return a test."""
    return StageTest(
        place, low, high, one.critical if one.has_critical else None, StudyVerdict(one.verdict)
    )
