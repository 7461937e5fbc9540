"""Flows that can't be: booked below zero by more than the readings explain.

A report of the program has the flows to the gram. A session without one has them by least squares
in floats, by the answers of `plantbal.study.uncertainty`: enough to say that a stream runs backward.
"""

from __future__ import annotations

from collections import defaultdict
from collections.abc import Iterable, Iterator, Mapping

from plantbal.faults import Fault
from plantbal.gates.gate import Gate, Stop
from plantbal.model.ledger import Seen
from plantbal.model.state import State
from plantbal.report.blocks import Block, last_blocks
from plantbal.report.rows import Values
from plantbal.model.studies import StreamMeasurement, study_of
from plantbal.model.topology import classes_of

# A flow below zero by more standard deviations than this can't be.
DEVIATIONS = 2
# A session's own solution is one of floats: grams below this aren't looked at.
LEAST = 1_000_000


def negative_flows(blocks: Iterable[Block]) -> Iterator[Stop]:
    """Give the streams of the last report of each period that are booked below zero.

    Parameters
    ----------
    blocks : iterable of Block
        The blocks of an output.
    """
    from plantbal.study.uncertainty import flows_known

    for block in last_blocks(blocks).values():
        if not (block.is_report and block.ended and block.solved):
            continue
        below = [row for row in block.streams if _is_below(row)]
        if not below:
            continue
        deviation = {each.name: each.sd for each in flows_known([block])}
        for row in below:
            error = round(deviation[row["name"]])
            if int(row["hi"]) < -DEVIATIONS * error:
                yield _stop(block.period, row["name"], row, int(row["flow"]), error)


def _is_below(row: Values) -> bool:
    """Say whether a stream that isn't a tank has a flow to book, below zero for certain."""
    return row["class"] != "unobservable" and row["name"] != row["from"] and int(row["hi"]) < 0


def _stop(period: str, name: str, row: Values, grams: int, error: int) -> Stop:
    measured = int(bool(row["value"]))
    values = {"grams": grams, "error": error, "measured": measured}
    names = name, row["from"], row["to"]
    return Stop(Gate.NEGATIVE_FLOW, period, names, values=values)


# ---- without a report


def negative_by_facts(state: State, seen: Seen) -> Iterator[Stop]:
    """Give the same of a session that wasn't run.

    Parameters
    ----------
    state : State
        The session.
    seen : Seen
        A row that asks for a report, and what it saw.
    """
    import numpy

    from plantbal.study.uncertainty import answers_of

    study = study_of(state, seen)
    if study.over:
        return
    block, raw = _block_of(study.nodes, study.streams)
    if not any(grams < 0 for grams in raw.values()):
        return
    try:
        columns, answers, variance = answers_of(block)
    except (Fault, RuntimeError, ValueError, FloatingPointError):  # too odd for floats
        return
    values = numpy.array([float(row["value"]) for row in block.streams if row["value"]])
    flows, errors = answers.T @ values, numpy.sqrt((answers**2).T @ variance)
    rows = {row["name"]: row for row in block.streams}
    for name, column in columns.items():
        flow, error = float(flows[column]), float(errors[column])
        if flow != flow or name == rows[name]["from"]:
            continue
        if flow < -DEVIATIONS * error and flow < -LEAST:
            yield _stop(seen.period.name, name, rows[name], round(flow), round(error))


def _block_of(
    nodes: list[str], streams: Mapping[str, StreamMeasurement]
) -> tuple[Block, dict[str, int]]:
    """Return a study as a block without flows, and what the readings alone make of its flows.

    The block has the streams with their values, classes and cuts. A tank's gain has no flow here.
    """
    arcs = [each.arc for each in streams.values()]
    measured = {name for name, each in streams.items() if each.value is not None}
    classes = classes_of(nodes, arcs, measured)
    free: dict[str, list[tuple[str, str]]] = defaultdict(list)
    for arc in arcs:
        if arc.name not in measured:
            free[arc.from_].append((arc.name, arc.to))
            free[arc.to].append((arc.name, arc.from_))
    rows: list[Values] = []
    raw = {name: each.value for name, each in streams.items() if each.value is not None}
    tanks = {arc.name for arc in arcs if arc.name == arc.from_}
    flows = {name: value for name, value in raw.items() if name not in tanks}
    for name, each in streams.items():
        row = {"name": name, "from": each.arc.from_, "to": each.arc.to, "class": classes[name]}
        row["value"] = "" if each.value is None else str(each.value)
        row["variance"] = "" if each.value is None else str(max(1, each.variance or 0))
        row["parts"] = ""
        if classes[name] == "observable":
            side = _side(free, name, each.arc.from_)
            cut = [arc for arc in arcs if (arc.from_ in side) != (arc.to in side)]
            signs = {arc.name: 1 if arc.from_ in side else -1 for arc in cut}
            row["parts"] = " ".join("-+"[sign > 0] + other for other, sign in signs.items())
            flows[name] = -sum(sign * raw[other] for other, sign in signs.items() if other != name)
        rows.append(row)
    head = {"period": "", "round": "0"}
    names: list[Values] = [{"name": name} for name in nodes]
    return Block(0, head, nodes=names, streams=rows, ended=True), flows


def _side(free: Mapping[str, list[tuple[str, str]]], stream: str, node: str) -> set[str]:
    """Return the nodes that other streams without a value join to an end of such a stream."""
    found, new = {node}, [node]
    while new:
        for name, other in free.get(new.pop(), ()):
            if name != stream and other not in found:
                found.add(other)
                new.append(other)
    return found
