"""What a row of a session that asks for flows gives a study: nodes, and streams with their values.

A meter has the sum of its readings if each day has one, a batch stream the sum of the parts of its
transfers that fall into the period, a tank the change of its contents between two dips. A window
has each period's flows, and what the tanks hold between the periods.
"""

from __future__ import annotations

from collections.abc import Callable, Iterator
from dataclasses import dataclass, field, replace
from operator import attrgetter

from plantbal.model.booking import Assay
from plantbal.model.facts import Fact
from plantbal.model.ledger import Ledger, Seen, View
from plantbal.model.periods import Period
from plantbal.model.plant import ENV, Stream
from plantbal.model.state import State
from plantbal.model.topology import Arc

MOST_VALUE, MOST_VARIANCE = 10**15, 10**22
_GRAMS: Callable[[Fact], int] = attrgetter("grams")
_VARIANCE: Callable[[Fact], int] = attrgetter("variance")
_LINE: Callable[[Fact], int] = attrgetter("line")


@dataclass(frozen=True, slots=True)
class StreamMeasurement:
    """What the facts of a period give a stream.

    Attributes
    ----------
    arc : Arc
        The stream.
    value, variance : int or None
        Its value in grams and the variance, if it has them.
    lines : tuple of int
        The lines of the facts.
    """

    arc: Arc
    value: int | None
    variance: int | None
    lines: tuple[int, ...] = ()

    @property
    def over(self) -> bool:
        """Whether a report can't be made with it."""
        return abs(self.value or 0) > MOST_VALUE or (self.variance or 0) > MOST_VARIANCE

    def facts(self) -> str:
        """Return in words where its facts stand."""
        if not self.lines:
            return "no fact of the session"
        first, last = min(self.lines), max(self.lines)
        where = (
            f"line {first}"
            if first == last
            else f"{len(self.lines)} facts, lines {first} to {last}"
        )
        return f"the session ({where})"


@dataclass(frozen=True, slots=True)
class Study:
    """The study of an accepted `report`, `window` or `component` row.

    Attributes
    ----------
    seen : Seen
        The row, and what it saw.
    nodes : list of str
        The nodes in their order; of a window by their codes.
    streams : dict of str to MeasuredStream
        The streams in their order; of a component those of mass, of a window by their codes.
    places : list of tuple of str
        The code, the period and the name of each node and stream of a window, in their order.
    """

    seen: Seen
    nodes: list[str]
    streams: dict[str, StreamMeasurement]
    places: list[tuple[str, str, str]] = field(default_factory=list)

    @property
    def period(self) -> Period:
        """The period; of a window the first one."""
        return self.seen.period

    @property
    def line(self) -> int:
        """The line of the row."""
        return self.seen.line

    @property
    def critical(self) -> dict[tuple[str, int], int]:
        """The critical values by their test and its degrees of freedom; 0 if these aren't asked."""
        return self.seen.critical

    @property
    def component(self) -> str:
        """The component whose balance is asked for, if one is."""
        return self.seen.component

    @property
    def grades(self) -> dict[str, Assay]:
        """The grades of the component by the streams that have one."""
        return self.seen.grades

    @property
    def last(self) -> str:
        """The last period of a window, if one is asked for."""
        return self.seen.last

    @property
    def subject(self) -> str:
        """What is asked for, as `plantbal.report.blocks.Block.subject` says it."""
        return self.seen.subject

    @property
    def over(self) -> str:
        """The first stream whose total is beyond the limits, or nothing."""
        return next((name for name, each in self.streams.items() if each.over), "")


def studies_of(ledger: Ledger) -> list[Study]:
    """Return the studies of the rows of a session that ask for flows, in order."""
    return [study_of(ledger.state, seen) for seen in ledger.seen]


def study_of(state: State, seen: Seen) -> Study:
    """Return the study of a row that asks for flows.

    Parameters
    ----------
    state : State
        The session.
    seen : Seen
        What the row saw.
    """
    if not seen.last:
        return Study(seen, seen.view.nodes, measured_in(state, seen.view))
    nodes = [
        (f"n{turn}.{place}", view.period.name, name)
        for turn, view in enumerate(seen.views, 1)
        for place, name in enumerate(view.nodes)
        if place
    ]
    code = {(when, name): each for each, when, name in nodes}
    flows, places = _flows(state, seen.views, code)
    for name, when, content in _contents(state, seen.views, code):
        flows[content.arc.name] = content
        places.append((content.arc.name, when, name))
    return Study(seen, [ENV, *(each for each, _, _ in nodes)], flows, nodes + places)


def share(total: int, fact: Fact, period: Period) -> int:
    """Return a period's part of a fact's total, which is spread evenly over the fact's days."""
    if period.first <= fact.first and fact.last <= period.last:
        return total
    days = fact.last - fact.first + 1
    before = max(0, period.first - fact.first)
    upto = min(days, period.last - fact.first + 1)
    return total * upto // days - total * before // days


def measured_in(state: State, view: View) -> dict[str, StreamMeasurement]:
    """Return what the facts of a period give its streams."""
    return {
        each.arc.name: _tank(state, each, view) if each.kind == "tank" else _stream(each, view)
        for each in view.streams
    }


def _stream(stream: Stream, view: View) -> StreamMeasurement:
    """Return what its readings or transfers give a stream in a period."""
    period, facts = view.period, view.facts[stream.arc.name]
    lines = tuple(map(_LINE, facts))
    is_metered = stream.kind == "metered"
    if stream.kind == "plain" or (is_metered and len(facts) < len(stream.days_in(period))):
        return StreamMeasurement(stream.arc, None, None, lines)
    if is_metered:  # a reading is of one day
        grams, variance = sum(map(_GRAMS, facts)), sum(map(_VARIANCE, facts))
    else:
        grams = sum(share(fact.grams, fact, period) for fact in facts)
        variance = sum(share(fact.variance, fact, period) for fact in facts)
    return StreamMeasurement(stream.arc, grams, stream.base + variance, lines)


def _tank(state: State, stream: Stream, view: View) -> StreamMeasurement:
    """Return what its dips say that a tank gains in a period."""
    opening, closing = view.dips[stream.arc.name]
    lines = tuple(dip.line for dip in (opening, closing) if dip)
    if opening is None or closing is None:
        return StreamMeasurement(stream.arc, None, None, lines)
    grams = state.content(closing) - state.content(opening)
    variance = stream.base + opening.variance + closing.variance
    return StreamMeasurement(stream.arc, grams, variance, lines)


# ---- windows

Codes = dict[tuple[str, str], str]


def _flows(
    state: State, views: tuple[View, ...], code: Codes
) -> tuple[dict[str, StreamMeasurement], list[tuple[str, str, str]]]:
    """Return the flows of a window by their codes, and what each code stands for."""
    flows: dict[str, StreamMeasurement] = {}
    places = []
    for turn, view in enumerate(views, 1):
        when, tanks = view.period.name, state.plant.tables
        for place, (name, found) in enumerate(measured_in(state, view).items()):
            if name not in tanks:
                ends = [code.get((when, end), ENV) for end in (found.arc.from_, found.arc.to)]
                arc = Arc(f"s{turn}.{place}", *ends)
                flows[arc.name] = replace(found, arc=arc)
                places.append((arc.name, when, name))
    return flows, places


def _contents(
    state: State, views: tuple[View, ...], code: Codes
) -> Iterator[tuple[str, str, StreamMeasurement]]:
    """Give what tanks hold before, between and after the periods: tank, period, content."""
    pairs = list(zip((None, *views), (*views, None)))
    for number, (tank, stream) in enumerate(state.plant.streams.items()):
        for turn, pair in enumerate(pairs) if stream.kind == "tank" else ():
            before, after = (view if view and tank in view.dips else None for view in pair)
            found = after or before
            if found is None:
                continue
            opening, closing = (before or found).dips[tank]
            dip = closing if before else opening
            ends = [code[each.period.name, tank] if each else ENV for each in (before, after)]
            arc = Arc(f"c{turn}.{number}", *ends)
            content = StreamMeasurement(arc, None, None)
            if dip is not None:
                variance = stream.base + dip.variance
                content = StreamMeasurement(arc, state.content(dip), variance, (dip.line,))
            yield tank, views[max(turn - 1, 0)].period.name, content
