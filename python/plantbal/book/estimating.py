"""Estimates for days without a reading: what is proposed, and how it is booked."""

from __future__ import annotations

import datetime
from collections import defaultdict
from collections.abc import Iterator

from plantbal.book.answers import checked_reason
from plantbal.book.editing import born
from plantbal.book.forms import report_file
from plantbal.book.ledger import BookFact, YearLedger
from plantbal.book.meters import Meter, read_meters
from plantbal.book.naming import cell_of
from plantbal.book.results import Estimated
from plantbal.book.said import closed_in, touched_by
from plantbal.book.store import Act, Action, Store
from plantbal.book.years import Years
from plantbal.diagnosis.proposal import Proposal, Proposals
from plantbal.estimates import estimate_id
from plantbal.faults import Fault, Refusal
from plantbal.gates import Gate
from plantbal.gates.look import Look, LookFacts
from plantbal.gates.readings import odd_readings
from plantbal.model.ledger import View, view_of
from plantbal.model.state import State
from plantbal.sentence import Sentence

# Gates whose readings may be those of a dead meter.
_DEAD = (Gate.ZERO, Gate.FROZEN)


def estimate(
    book: Store, period: str, name: str = "", *, take: bool = False, why: str = "", who: str = ""
) -> Estimated:
    """Propose estimates, or book them; the parameters are those of `plantbal.Book.estimate`."""
    reason = checked_reason(why) if take else ""
    with book.opened(reading=not take):
        ledger = Years(book).of_period(period)
        meters = read_meters(book)
        state = ledger.session.state
        view = view_of(state, state.periods.by_name[period])
        names = [_stream_of(view, meters, name)] if name else list(view.missing)
        proposals = Proposals(state, view, _dead_days(state, view, names) if name else {})
        some = [each for stream in names for each in proposals.of(stream)]
        missing = tuple(each for each in names if proposals.wanted(each))
        found = Estimated(period, tuple(some), missing)
        taken = [each for each in some if each.is_needed]
        if not take or not taken:
            return found
        facts = [fact for each in taken for fact in _put(ledger, each, meters, reason)]
        said = " ".join(dict.fromkeys(each.stream for each in taken))
        action = Action(Act.ESTIMATE, period, said, reason, who)
        action.add(ledger)
        book.do(action)
        touched = dict.fromkeys(n for fact in facts for n in touched_by(ledger, fact))
        older = tuple(each for each in touched if book.has(report_file(each)))
        closed = tuple(closed_in((ledger, fact) for fact in facts))
        return Estimated(period, tuple(some), missing, True, older, closed)


def _stream_of(view: View, meters: dict[str, Meter], name: str) -> str:
    """Return the metered stream of a tag or a name.

    Raises
    ------
    Fault
        If there is none in service.
    """
    tagged = {meter.tag: meter.name for meter in meters.values() if meter.tag}
    found = tagged.get(name, name)
    known = {each.arc.name for each in view.streams if each.kind == "metered"}
    if found not in known:
        remedy = Sentence(
            "the metered streams are {names}", names=", ".join(sorted(known)) or "none"
        )
        raise Fault(
            Sentence(
                "{name} isn't a metered stream in service in {period}",
                name=name,
                period=view.period.name,
            ),
            remedy=remedy,
        )
    return found


def _dead_days(state: State, view: View, names: list[str]) -> dict[str, set[int]]:
    """Return the days of some streams whose readings look like those of a dead meter."""
    found: dict[str, set[int]] = defaultdict(set)
    for stop in odd_readings(Look(LookFacts(state), view)):
        if stop.gate in _DEAD and len(stop.names) == 1 and stop.names[0] in names:
            found[stop.names[0]].update(stop.days)
    return found


def _put(
    ledger: YearLedger, proposal: Proposal, meters: dict[str, Meter], why: str
) -> Iterator[BookFact]:
    """Put the days of a proposal to a year, and give their facts; readings there are struck."""
    meter = meters.get(proposal.stream, Meter(proposal.stream))
    label = meter.stream("metered", cell_of("")).label
    for number in proposal.days:
        day = datetime.date.fromordinal(number)
        there = ledger.on(proposal.stream, day)
        try:
            if there is not None:
                ledger.put("strike", there.id, why)
            identity = ledger.free(estimate_id(label, str(day)))
            values = (proposal.grams,)
            fact = BookFact(
                "reading", identity, proposal.stream, day, day, values, proposal.variance
            )
            variance = proposal.variance + born(ledger, fact, meter)
            fact = BookFact("reading", identity, proposal.stream, day, day, values, variance)
            ledger.put_fact(fact)
        except Refusal as refusal:
            raise Fault(refusal.said, text=refusal.text, remedy=refusal.remedy) from refusal
        yield fact
