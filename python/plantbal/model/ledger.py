"""A whole session: its rows folded from first to last, and what each row saw that asks for flows.

What asks for flows is a `report`, a `window` or a `component` row. What it saw are the plant and
the facts by then, which rows after it may change. So it is kept when the row comes: for each period
a `View`, which rows share as long as nothing is stored between them.
"""

from __future__ import annotations

import hashlib
from collections import Counter, defaultdict
from collections.abc import Callable, Collection
from dataclasses import dataclass, field, replace
from functools import cached_property, lru_cache
from itertools import chain
from operator import itemgetter

from plantbal.faults import Place
from plantbal.memory import uncollected
from plantbal.model.asking import Advise, Component, Design, Report, Window
from plantbal.model.booking import Assay
from plantbal.model.causes import Refused
from plantbal.model.core import installed_core
from plantbal.model.effects import Effect
from plantbal.model.facts import At, Edit, Fact
from plantbal.model.file import Rows, Step, steps
from plantbal.model.periods import Period, Span
from plantbal.model.plant import ENV, Stream
from plantbal.model.refusals import Coded, Refusals
from plantbal.model.sizes import AmountSizes
from plantbal.model.state import State
from plantbal.model.topology import Arc
from plantbal.model.words import refusal_of
from plantbal.records import without_empty_end
from plantbal.sentence import Sentence

_SPAN: Callable[[Fact], Span] = itemgetter(3, 4)
# What a row that asks for output costs, in streams that are looked at.
_ROW_COSTS = 100
# The dips that open and close a tank over a period, if they are there.
Dips = tuple[Fact | None, Fact | None]


@dataclass(frozen=True)
class View:
    """A period's plant and facts, as a row saw them.

    Attributes
    ----------
    period : Period
        The period.
    nodes : list of str
        The nodes of its report, in their order.
    streams : list of Stream
        The streams and tanks' gains in service on a day of it.
    facts : dict of str to list of Fact
        The readings and transfers that count in it, by their streams.
    dips : dict of str to Dips
        The dips at its ends, by their tanks.
    """

    period: Period
    nodes: list[str]
    streams: list[Stream]
    facts: dict[str, list[Fact]]
    dips: dict[str, Dips]

    @cached_property
    def missing(self) -> dict[str, list[int]]:
        """The days without a reading, of each meter that has such days."""
        found = {}
        for stream in self.streams:
            days = stream.days_in(self.period)
            facts = self.facts[stream.arc.name]
            if stream.kind == "metered" and len(facts) < len(days):
                there = {fact.first for fact in facts}
                found[stream.arc.name] = [day for day in days if day not in there]
        return found

    @cached_property
    def undipped(self) -> dict[str, list[int]]:
        """The days without a dip, of each tank that has such days."""
        found = {}
        for stream in self.streams:
            if stream.kind == "tank":
                pairs = zip(stream.ends_of(self.period), self.dips[stream.arc.name])
                days = [day for day, dip in pairs if dip is None]
                found.update({stream.arc.name: days} if days else {})
        return found

    @property
    def lacking(self) -> set[str]:
        """The meters and tanks without a value."""
        return self.missing.keys() | self.undipped.keys()


@dataclass(frozen=True, slots=True)
class Declared:
    """The plant as a `design` row saw it.

    Attributes
    ----------
    line : int
        The line of the row.
    nodes : list of str
        The nodes, in their order.
    streams : list of Stream
        The streams and tanks' gains, in their order.
    """

    line: int
    nodes: list[str]
    streams: list[Stream]


@dataclass(frozen=True, slots=True)
class Seen:
    """An accepted row that asks for flows, and what it saw.

    Attributes
    ----------
    at : At
        Where the row stands.
    views : tuple of View
        The view of its period; of a window those of all its periods, in order of days.
    critical : dict of (str, int) to int
        The critical values by their test and its degrees of freedom; 0 if these aren't asked.
    refused : int
        How many rows were refused before it.
    last : str
        The last period of a window, if one is asked for.
    component : str
        The component whose balance is asked for, if one is.
    grades : dict of str to Assay
        The grades of the component by the streams that have one.
    """

    at: At
    views: tuple[View, ...]
    critical: dict[tuple[str, int], int]
    refused: int
    last: str = ""
    component: str = ""
    grades: dict[str, Assay] = field(default_factory=dict)

    @property
    def view(self) -> View:
        """The view of its period; of a window that of the first one."""
        return self.views[0]

    @property
    def period(self) -> Period:
        """Its period; of a window the first one."""
        return self.view.period

    @property
    def line(self) -> int:
        """The line of the row."""
        return self.at.line

    @property
    def is_report(self) -> bool:
        """Whether a period's report is asked for."""
        return not (self.component or self.last)

    @property
    def subject(self) -> str:
        """What is asked for, as `plantbal.report.blocks.Block.subject` says it."""
        if self.component:
            form = "{component} in {period}"
            return Sentence(form, component=self.component, period=self.period.name)
        if self.last:
            return Sentence("{first} to {last}", first=self.period.name, last=self.last)
        return self.period.name


def view_of(state: State, period: Period) -> View:
    """Return what a session by now has of a period, or of any other days.

    Parameters
    ----------
    state : State
        The session.
    period : Period
        The days. They needn't be those of a declared period.
    """
    facts = state.facts
    streams = state.plant.served(period)
    tanks = [stream for stream in streams if stream.kind == "tank"]
    ends = {each.arc.name: each.ends_of(period) for each in tanks}
    return View(
        period,
        state.plant.nodes_in(period, state.version),
        streams,
        {each.arc.name: _facts(state, each, period) for each in streams},
        {tank: (facts.on(tank, a), facts.on(tank, b)) for tank, (a, b) in ends.items()},
    )


def _facts(state: State, stream: Stream, period: Period) -> list[Fact]:
    """Return the readings or the transfers of a stream that count in a period."""
    facts, name = state.facts, stream.arc.name
    if stream.kind == "metered":
        return facts.on_days(name, stream.days_in(period))
    if stream.kind != "batch":
        return []
    first, last = period.first, period.last
    return [each for each in facts.transfers(name) if each.first <= last and first <= each.last]


class Ledger:
    """A whole session.

    Parameters
    ----------
    source : str
        What the session is called.
    data : bytes
        Its bytes.
    kept : int or None
        How many refused rows are kept with what is said of them; None for all.
    most : int or None
        How much work the rows may cost that ask for output: a hundred each, and one for each stream of
        a period that they have to look at. Then only the last row of each subject is kept, and rows
        beyond it aren't looked at. None for all.

    Attributes
    ----------
    state : State
        What the session is in the end.
    rows : int
        How many records it has.
    refused : Refusals
        The refused rows: a list, and how many in all.
    seen : list of Seen
        The rows that ask for flows, in order.
    designs : list of Declared
        What each `design` row saw, in order.
    asked : set of str
        The kinds of rows that ask for output.
    uncosted : dict of int to list of str
        The plain streams that an `advise` row with costs leaves out, by its line.
    unlooked : int
        How many rows that ask for output weren't looked at.
    unlooked_from : int
        The line of the first of them.
    """

    def __init__(
        self, source: str, data: bytes, *, kept: int | None = None, most: int | None = None
    ) -> None:
        self.source = source
        self.data = data
        self.state = State(installed_core())
        self.rows = 0
        self.refused = Refusals(kept)
        self.seen: list[Seen] = []
        self.designs: list[Declared] = []
        self.asked: set[str] = set()
        self.uncosted: dict[int, list[str]] = {}
        self.unlooked = self.unlooked_from = 0
        self._places: Collection[str] | None = None
        self._left = most
        self._last: dict[tuple[str, str, str], Seen] = {}
        self._views: dict[str, View] = {}
        self._declared: tuple[list[str], list[Stream]] | None = None
        self._critical: dict[tuple[str, int], int] | None = None
        with uncollected():
            for step in steps(self.state, data, lambda: not self.refused.is_full, together=True):
                self._take(step)
        if most is not None:
            self.seen = list(self._last.values())

    @classmethod
    def of_state(cls, source: str, state: State, places: Collection[str] | None = None) -> Ledger:
        """Return a session that was judged already; what its rows saw isn't known.

        Parameters
        ----------
        source : str
            What the session is called.
        state : State
            What it is.
        places : collection of str or None
            The streams and tanks whose facts it is to have; None for all.
        """
        made = cls(source, b"")
        made.state = state
        made._places = places
        return made

    # ---- rows

    def _take(self, step: Step | Rows | Coded) -> None:
        if isinstance(step, Rows):
            self.rows += len(step.rows)
            self._changed()
            return
        if isinstance(step, Coded):
            self.rows += len(step.records)
            self.refused.note_all(step)
            return
        self.rows += 1
        if isinstance(step.answer, Refused):
            self._refuse(step, step.answer)
        elif step.answer.effect.asks:
            self.asked.add(step.fields[0])
            if self._left is None or self._left > 0:
                self._pay(_ROW_COSTS)
                self._ask(step.answer.effect, step.at)
            else:
                self.unlooked += 1
                self.unlooked_from = self.unlooked_from or step.at.line
        else:
            self._changed()

    def _changed(self) -> None:
        """Forget what rows see by now: something is stored."""
        self._views.clear()
        self._critical = self._declared = None

    def _pay(self, cost: int) -> None:
        """Count the work of a row that asks for output, if it may cost only so much."""
        if self._left is not None:
            self._left -= cost

    def _keep(self, seen: Seen) -> None:
        """Keep what a row saw; if the work is counted, only the last of each subject."""
        if self._left is None:
            self.seen.append(seen)
        else:
            self._last[seen.component, seen.period.name, seen.last] = seen

    def _refuse(self, step: Step, answer: Refused) -> None:
        """Keep a refused row."""
        if self.refused.is_full:
            self.refused.note(step.at.record, answer.cause)
            return
        refusal = refusal_of(self.state, without_empty_end(step.fields), answer)
        refusal.place = Place(file=self.source, line=step.at.line, record=step.at.record)
        self.refused.take(refusal)

    def _ask(self, effect: Effect, at: At) -> None:
        """Keep what a row sees that asks for output."""
        if isinstance(effect, Report):
            self._keep(self._seen(at, self._view(self.periods[effect.period])))
        elif isinstance(effect, Window):
            views = map(self._view, self.window_of(effect.first, effect.last))
            self._keep(self._seen(at, *views, last=effect.last))
        elif isinstance(effect, Component):
            seen = self._seen(at, self._view(self.periods[effect.period]))
            grades = self._grades(effect.component, effect.period)
            self._keep(replace(seen, component=effect.component, grades=grades))
        elif isinstance(effect, Design):
            if self._declared is None:
                plant = self.state.plant
                self._declared = [ENV, *plant.nodes], list(plant.streams.values())
                self._pay(len(plant.nodes) + len(plant.streams))
            self.designs.append(Declared(at.line, *self._declared))
        elif isinstance(effect, Advise) and effect.costs:
            self._pay(len(self.streams))
            plain = [name for name, each in self.streams.items() if each.kind == "plain"]
            named = set(effect.streams)
            self.uncosted[at.line] = [name for name in plain if name not in named]

    def _seen(self, at: At, *views: View, last: str = "") -> Seen:
        if self._critical is None:
            critical = self.state.plant.critical.items()
            self._critical = {key: each.value for key, each in critical}
        return Seen(at, views, self._critical, self.refused.total, last)

    def _grades(self, component: str, period: str) -> dict[str, Assay]:
        return dict(self.state.grades.get((component, period), {}))

    def _view(self, period: Period) -> View:
        """Return what a row sees of a period."""
        view = self._views.get(period.name)
        if view is None:
            view = self._views[period.name] = view_of(self.state, period)
            self._pay(len(view.streams))
        return view

    # ---- what is there in the end

    @property
    def digest(self) -> str:
        """The SHA-256 of the session's bytes."""
        return hashlib.sha256(self.data).hexdigest()

    @property
    def periods(self) -> dict[str, Period]:
        """The periods by their names, in the order of their rows."""
        return self.state.periods.by_name

    @property
    def closed(self) -> dict[str, int]:
        """The closed periods, and the lines of their `close` rows."""
        return self.state.periods.closed

    @property
    def streams(self) -> dict[str, Stream]:
        """The streams and the tanks' gains by their names, in the order of their rows."""
        return self.state.plant.streams

    @property
    def nodes(self) -> dict[str, str]:
        """The units and tanks, and ``env``."""
        return {ENV: ENV, **self.state.plant.nodes}

    @property
    def arcs(self) -> list[Arc]:
        """The streams, and the gains of the tanks."""
        return [stream.arc for stream in self.streams.values()]

    @cached_property
    def reported(self) -> dict[str, Seen]:
        """The last `report` row of each period."""
        return {seen.period.name: seen for seen in self.seen if seen.is_report}

    @cached_property
    def balanced(self) -> dict[tuple[str, str], Seen]:
        """The last `component` row of each component and period."""
        return {(seen.component, seen.period.name): seen for seen in self.seen if seen.component}

    @cached_property
    def windows(self) -> set[tuple[str, str]]:
        """The first and the last period of each window."""
        return {(seen.period.name, seen.last) for seen in self.seen if seen.last}

    @cached_property
    def live(self) -> list[Fact]:
        """The facts that aren't struck."""
        facts = self.state.facts
        return facts.live() if self._places is None else facts.live_of(self._places)

    @cached_property
    def amounts(self) -> dict[str, list[Fact]]:
        """The readings and transfers of each stream that aren't struck."""
        found: dict[str, list[Fact]] = defaultdict(list)
        for fact in self.live:
            if fact.kind != "dip":
                found[fact.of].append(fact)
        return found

    @cached_property
    def sizes(self) -> dict[str, AmountSizes]:
        """How large the same are, without their signs."""
        return {stream: AmountSizes.of(facts) for stream, facts in self.amounts.items()}

    @cached_property
    def dips(self) -> list[Fact]:
        """The dips that aren't struck."""
        return [fact for fact in self.live if fact.kind == "dip"] if self.state.plant.tables else []

    @cached_property
    def spans(self) -> Counter[Span]:
        """The first and last days of what isn't struck and isn't a dip, and how often each is."""
        kept = chain.from_iterable(self.amounts.values()) if self.dips else self.live
        return Counter(map(_SPAN, kept))

    @cached_property
    def reported_on(self) -> Callable[[Span], list[Seen]]:
        """What gives the last `report` rows of the periods that share a day with a span."""

        @lru_cache(maxsize=None)
        def found(span: Span) -> list[Seen]:
            """Give those of a span."""
            near = (self.reported.get(period.name) for period in self.state.periods.within(*span))
            return [seen for seen in near if seen is not None]

        return found

    def window_of(self, first: str, last: str) -> list[Period]:
        """Return the periods of a window in order of days."""
        return self.state.periods.between(self.periods[first], self.periods[last])

    def arcs_in(self, period: Period) -> list[Arc]:
        """Return the arcs of a period's report."""
        return [stream.arc for stream in self.state.plant.served(period)]

    def nodes_in(self, period: Period) -> list[str]:
        """Return the nodes of a period's report: in version 2 the ends of its streams alone."""
        return self.state.plant.nodes_in(period, self.state.version)

    def measured(self, seen: Seen | None = None) -> set[str]:
        """Return what is measured by design, or in a period as its report saw it."""
        found = {name for name, stream in self.streams.items() if stream.kind != "plain"}
        return found - seen.view.lacking if seen else found

    def edits_of(self, period: str) -> list[Edit]:
        """Return the edits that touch a period, and its close, in order."""
        return self._edits.get(period, [])

    @cached_property
    def _edits(self) -> dict[str, list[Edit]]:
        # the periods are known in the end: one may be declared after a fact of its days
        found: dict[str, list[Edit]] = {}
        for edit in self.state.edits:
            for name in self.state.touched(edit):
                found.setdefault(name, []).append(edit)
        return found
