"""The plant of a block by numbers: groups of nodes, a spanning forest, and which prices are free.

Nodes that unmeasured streams join are one group, since a price of theirs would be the same. The
forest takes unmeasured streams first, then measured ones with the greatest variance first, so that
what the rounding of the others leaves over falls on streams that can bear it.
"""

from __future__ import annotations

from dataclasses import dataclass, field

from plantbal.report.blocks import Block, Values


class Labels:
    """Sets of nodes that are joined.

    Parameters
    ----------
    count : int
        How many nodes there are.
    """

    def __init__(self, count: int) -> None:
        self._label = list(range(count))

    def of(self, node: int) -> int:
        """Return the least node of a node's set."""
        label = self._label
        while label[node] != node:
            label[node] = label[label[node]]
            node = label[node]
        return node

    def join(self, one: int, other: int) -> bool:
        """Join the sets of two nodes, and say whether they were apart."""
        one, other = self.of(one), self.of(other)
        self._label[max(one, other)] = min(one, other)
        return one != other


@dataclass
class NumberedPlant:
    """Nodes and streams of a block, by numbers.

    Attributes
    ----------
    names : list of str
        The nodes; the first one is ``env``.
    streams : list of dict
        The rows of the streams.
    ends : list of tuple of int
        The nodes that each leads from and to.
    value, variance : list of int or None
        What was measured.
    group : list of int
        The least node of each node's group: nodes that unmeasured streams join are one.
    forest : list of int
        A spanning forest: unmeasured streams first, then measured ones, the greatest variance
        first, so that what the others' rounding leaves over falls on streams that can bear it.
    """

    names: list[str]
    streams: list[Values]
    ends: list[tuple[int, int]] = field(init=False)
    value: list[int | None] = field(init=False)
    variance: list[int] = field(init=False)
    measured: list[int] = field(init=False)
    place: dict[str, int] = field(init=False)
    group: list[int] = field(init=False)
    forest: list[int] = field(init=False)

    def __post_init__(self) -> None:
        number = {name: place for place, name in enumerate(self.names)}
        self.ends = [(number[stream["from"]], number[stream["to"]]) for stream in self.streams]
        self.value = [int(s["value"]) if s["value"] else None for s in self.streams]
        self.variance = [int(s["variance"]) if s["value"] else 0 for s in self.streams]
        self.measured = [j for j, value in enumerate(self.value) if value is not None]
        self.place = {stream["name"]: j for j, stream in enumerate(self.streams)}
        groups = Labels(len(self.names))
        for j, ends in enumerate(self.ends):
            if self.value[j] is None:
                groups.join(*ends)
        self.group = [groups.of(node) for node in range(len(self.names))]
        forest = Labels(len(self.names))
        order = sorted(
            range(len(self.ends)), key=lambda j: (self.value[j] is not None, -self.variance[j])
        )
        self.forest = [j for j in order if forest.join(*self.ends[j])]

    def measure(self, j: int) -> int:
        """Return the value of a measured stream."""
        value = self.value[j]
        assert value is not None
        return value


def plant_of(block: Block) -> NumberedPlant:
    """Return the plant of a block."""
    return NumberedPlant([node["name"] for node in block.nodes], block.streams)


def grounds_of(plant: NumberedPlant) -> dict[int, int]:
    """Return, for each group that measured streams touch, the group of its part with the price 0.

    It is that of ``env``, or one group of a part of the plant that they don't join to ``env``.
    """
    parts = Labels(len(plant.names))
    touched: set[int] = set()
    for j in plant.measured:
        one, other = (plant.group[node] for node in plant.ends[j])
        if one != other:
            parts.join(one, other)
            touched |= {one, other}
    return {group: parts.of(group) for group in sorted(touched)}


def free_groups(plant: NumberedPlant) -> dict[int, int]:
    """Return a number for each group whose price is free."""
    free = [group for group, ground in grounds_of(plant).items() if group != ground]
    return {group: place for place, group in enumerate(free)}
