"""The ± of flows in plain Python: the same digits on every machine, also where there is no scipy.

Variances are conductances: streams side by side between two merged nodes add up theirs, and so do
those that leave a node. What all other meters say of a stream has the variance that the network of
these has between the stream's ends, and its own meter is another answer to the same question. Nodes
between are eliminated from the network one by one (the transform from star to mesh), which only adds,
multiplies and divides: so no digit is lost by a difference, however far apart the variances are.
"""

from __future__ import annotations

import heapq
from collections.abc import Collection, Sequence
from dataclasses import dataclass

from plantbal.model.studies import MOST_VARIANCE
from plantbal.report.blocks import Block
from plantbal.study.plant import plant_of

# The most steps for one block. Plants of 2,000 streams take some 300,000; a network in which each
# node is beside each other takes more, and its flows have no ± here.
_MOST_STEPS = 20_000_000
_Network = dict[int, dict[int, float]]


@dataclass(frozen=True, slots=True)
class _Wanted:
    """A stream whose variance is wanted: its place, its ends, and its own variance, if measured."""

    place: int
    one: int
    other: int
    variance: float | None


class _Entangled(Exception):
    """A network takes more steps than are made here."""


class _Steps:
    """Counts the steps that are left."""

    def __init__(self) -> None:
        self._left = _MOST_STEPS

    def take(self, count: int) -> None:
        """Take some.

        Raises
        ------
        _Entangled
            If there are no more.
        """
        self._left -= count
        if self._left < 0:
            raise _Entangled


def deviations_of(block: Block) -> dict[str, float] | None:
    """Return the standard deviation of each flow of a block, in grams, by the stream's name.

    Parameters
    ----------
    block : Block
        A report. A stream that nothing determines has none.

    Returns
    -------
    dict of str to float, or None
        None if the report isn't one of a plant, or its plant is too entangled.
    """
    try:
        plant = plant_of(block)
    except KeyError:
        return None  # an end is no node: a check says so
    if any(not 1 <= plant.variance[place] <= MOST_VARIANCE for place in plant.measured):
        return None  # nothing is measured so: a check says so
    net: _Network = {node: {} for node in range(len(plant.names))}
    wanted = []
    for place, (ends, row) in enumerate(zip(plant.ends, plant.streams)):
        variance = float(plant.variance[place]) if plant.value[place] is not None else None
        if row["class"] == "unobservable":
            wanted += [] if variance is None else [_Wanted(place, *ends, variance)]
        else:
            wanted.append(_Wanted(place, *ends, variance))
    free = [
        _Wanted(place, *plant.ends[place], None)
        for place, row in enumerate(plant.streams)
        if row["class"] == "unobservable" and plant.value[place] is None
    ]
    found: dict[int, float] = {}
    try:
        _resolve(*_folded(net, wanted, free), found, _Steps())
    except _Entangled:
        return None
    return {plant.streams[place]["name"]: found[place] ** 0.5 for place in sorted(found)}


def _folded(
    net: _Network, wanted: Sequence[_Wanted], streams: Sequence[_Wanted]
) -> tuple[_Network, list[_Wanted]]:
    """Return a network with more streams in it, and those that are wanted with their ends there.

    A measured stream is a conductance. The ends of an unmeasured one are merged.
    """
    made = {node: dict(beside) for node, beside in net.items()}
    into: dict[int, int] = {}

    def node_of(node: int) -> int:
        while node in into:
            node = into[node]
        return node

    for stream in streams:
        one, other = node_of(stream.one), node_of(stream.other)
        if one == other:
            continue
        if stream.variance is not None:
            _join(made, one, other, stream.variance)
            continue
        into[other] = one
        for node, conductance in made.pop(other).items():
            del made[node][other]
            if node != one:
                _join(made, one, node, conductance)
    return made, [
        _Wanted(each.place, node_of(each.one), node_of(each.other), each.variance)
        for each in wanted
    ]


def _join(net: _Network, one: int, other: int, conductance: float) -> None:
    """Put a conductance between two nodes, beside what is there."""
    net[one][other] = net[other][one] = net[one].get(other, 0.0) + conductance


def _resolve(
    net: _Network, wanted: Sequence[_Wanted], found: dict[int, float], steps: _Steps
) -> None:
    """Find the variances of streams that aren't in the network: one half of them after the other."""
    _eliminate(net, {node for each in wanted for node in (each.one, each.other)}, steps)
    if len(wanted) > 1:
        middle = len(wanted) // 2
        for half, rest in ((wanted[:middle], wanted[middle:]), (wanted[middle:], wanted[:middle])):
            steps.take(sum(map(len, net.values())) + len(wanted))
            _resolve(*_folded(net, half, rest), found, steps)
        return
    for each in wanted:
        if each.one == each.other:
            if each.variance is not None:  # nothing checks it
                found[each.place] = each.variance
            continue
        others = net[each.one].get(each.other, 0.0)
        if each.variance is None:
            found[each.place] = others
        else:
            found[each.place] = each.variance / (each.variance + others) * others


def _eliminate(net: _Network, stay: Collection[int], steps: _Steps) -> None:
    """Take all other nodes out of a network, that with the fewest beside it first."""
    waiting = [(len(beside), node) for node, beside in net.items() if node not in stay]
    heapq.heapify(waiting)
    while waiting:
        count, node = heapq.heappop(waiting)
        if count != len(net[node]):  # it has other nodes beside it by now
            heapq.heappush(waiting, (len(net[node]), node))
            continue
        steps.take(count * count)
        beside = list(net.pop(node).items())
        total = sum(conductance for _, conductance in beside)
        for other, _ in beside:
            del net[other][node]
        for number, (one, conductance) in enumerate(beside):
            for other, more in beside[number + 1 :]:
                _join(net, one, other, conductance / total * more)
