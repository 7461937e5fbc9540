"""A session with a period for each day of another one's period, so that the program reports them."""

from __future__ import annotations

from collections.abc import Iterator

from plantbal.diagnosis.days import Span
from plantbal.model.facts import Fact
from plantbal.model.forms import day_text
from plantbal.model.ledger import Ledger, Seen
from plantbal.model.plant import Stream


def session_of_days(ledger: Ledger, seen: Seen, spans: list[Span]) -> str:
    """Return a session that asks for the reports of spans of days of a period, all in one run.

    It has the plant of the session, the facts of these days as they are in the end, and for each
    span a period of its first day's name. What a stream or a tank has as the error of each period
    is spread over the days.

    Parameters
    ----------
    ledger : Ledger
        The session.
    seen : Seen
        The row that asks for the report of the whole period.
    spans : list of Span
        The spans of days, as `Days.spans` gives them.
    """
    return "".join(f"{','.join(row)}\n" for row in _rows(ledger, seen, spans))


def _rows(ledger: Ledger, seen: Seen, spans: list[Span]) -> Iterator[tuple[str, ...]]:
    state, plant = ledger.state, ledger.state.plant
    if state.version == 2:
        yield "version", "2"
    for name in plant.boundaries:
        yield "boundary", name
    days = seen.period.last - seen.period.first + 1
    part = min((span.last - span.first + 1) / days for span in spans)
    for name, kind in plant.nodes.items():
        if kind == "tank":
            yield "tank", name, _base(plant.streams[name], part), *_service(plant.streams[name])
            for mm, ml in plant.tables[name]:
                yield "strap", name, str(mm), str(ml)
        else:
            yield "unit", name
    for name, stream in plant.streams.items():
        if stream.kind != "tank":
            ends = _ends(stream)
            yield "stream", name, *ends, stream.kind, _base(stream, part), *_service(stream)
    for (test, freedom), critical in plant.critical.items():
        yield "critical", test, *((str(freedom),) if freedom else ()), str(critical.value)
    for span in spans:
        yield "period", day_text(span.first), day_text(span.first), day_text(span.last)
    for fact in ledger.live:
        if fact.first <= seen.period.last and seen.period.first - 1 <= fact.last:
            yield _fact(fact)
    for span in spans:
        yield "report", day_text(span.first)


def _base(stream: Stream, part: float) -> str:
    return str(round(stream.base * part))


def _service(stream: Stream) -> tuple[str, ...]:
    return () if stream.service is None else tuple(map(day_text, stream.service))


def _ends(stream: Stream) -> tuple[str, str]:
    """Return the ends of a stream as they are declared."""
    ends = stream.arc.from_, stream.arc.to
    if not stream.boundary:
        return ends
    return (stream.boundary, ends[1]) if ends[0] == "env" else (ends[0], stream.boundary)


def _fact(fact: Fact) -> tuple[str, ...]:
    first, last, variance = day_text(fact.first), day_text(fact.last), str(fact.variance)
    if fact.kind == "dip":
        return "dip", fact.id, fact.of, first, str(fact.mm), str(fact.density), variance
    if fact.kind == "transfer":
        return "transfer", fact.id, fact.of, first, last, str(fact.grams), variance
    return "reading", fact.id, fact.of, first, str(fact.grams), variance
