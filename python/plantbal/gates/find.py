"""The one place in which the gates of a period are found: from its session, and from its report."""

from __future__ import annotations

from collections import defaultdict
from collections.abc import Iterable, Iterator, Sequence
from math import isqrt

from plantbal.estimates import MARK, is_estimate
from plantbal.gates.flows import negative_by_facts, negative_flows
from plantbal.gates.gate import Gate, Stop
from plantbal.gates.look import Look, LookFacts
from plantbal.gates.readings import odd_readings
from plantbal.gates.tanks import odd_dips
from plantbal.model.ledger import Ledger
from plantbal.report.blocks import Block, last_blocks
from plantbal.model.studies import share


def by_session(ledger: Ledger, *, flows: bool = True) -> Iterator[Stop]:
    """Give what stops the close of each period that a session asks a report of.

    Parameters
    ----------
    ledger : Ledger
        The session.
    flows : bool
        Whether flows are looked at too; not if there is a report, which has them to the gram.
    """
    facts = LookFacts(ledger.state)
    for seen in ledger.reported.values():
        look = Look.of(facts, seen)
        yield from missing(look)
        yield from odd_readings(look)
        yield from odd_dips(look)
        yield from estimated(look)
        if flows:
            yield from negative_by_facts(ledger.state, seen)


def stops_of(ledger: Ledger, blocks: Sequence[Block], period: str) -> list[Stop]:
    """Return what stops the close of a period, by its session and its report, gate by gate."""
    found = [*by_session(ledger, flows=False), *by_report(blocks)]
    if not any(block.is_report and block.period == period for block in blocks):
        found.append(Stop(Gate.NO_REPORT, period))
    order = list(Gate)
    mine = [stop for stop in found if stop.period == period]
    return sorted(mine, key=lambda stop: order.index(stop.gate))


def by_report(blocks: Sequence[Block]) -> Iterator[Stop]:
    """Give what stops the close of the periods of an output, by its reports and balances."""
    last = last_blocks(blocks)
    for block in last.values():
        if block.window is None:
            yield from _of_block(block)
    yield from negative_flows(blocks)
    yield from _impossible(blocks)


def _of_block(block: Block) -> Iterator[Stop]:
    """Give what a report, or a balance of a component, says of itself."""
    period, subject = block.period, block.subject
    if block.solved is None or not block.ended:
        yield Stop(Gate.NO_REPORT, period, subject=subject)
        return
    if block.solved["state"] != "converged":
        yield Stop(Gate.UNCONVERGED, period, subject=subject)
    verdict = block.whole["verdict"] if block.whole else ""
    if verdict == "reject":
        yield Stop(Gate.REJECTED, period, subject=subject)
    elif verdict == "undecided":
        yield Stop(Gate.UNDECIDED, period, subject=subject)
    elif not block.component and verdict in ("", "nocritical"):
        values = {"dof": int(block.solved["dof"])} if verdict else {}
        if verdict or int(block.solved["dof"]):
            yield Stop(Gate.UNTESTED, period, values=values, subject=subject)


def _impossible(blocks: Iterable[Block]) -> Iterator[Stop]:
    from plantbal.report.carried import impossible

    for each in impossible(blocks):
        period = each.subject.rpartition(" in ")[2]
        yield Stop(Gate.IMPOSSIBLE, period, (each.stream,), subject=str(each))


def missing(look: Look) -> Iterator[Stop]:
    """Give the meters and tanks without a value, those of the same days together."""
    for is_tank, lacking in ((False, look.view.missing), (True, look.view.undipped)):
        groups: dict[tuple[int, ...], list[str]] = defaultdict(list)
        for name, some in lacking.items():
            groups[tuple(some)].append(name)
        for days, names in groups.items():
            values = {"is_tank": int(is_tank)}
            yield Stop(Gate.MISSING, look.period.name, tuple(names), days, values, line=look.line)


def estimated(look: Look) -> Iterator[Stop]:
    """Give the days of each meter for which an estimate is booked."""
    for name in look.metered:
        facts = [fact for fact in look.view.facts[name] if MARK in fact.id and is_estimate(fact)]
        if facts:
            grams = sum(share(fact.grams, fact, look.period) for fact in facts)
            error = isqrt(sum(fact.variance for fact in facts))
            days = tuple(fact.first for fact in facts)
            values = {"grams": grams, "error": error}
            yield Stop(Gate.ESTIMATED, look.period.name, (name,), days, values, line=facts[0].line)
