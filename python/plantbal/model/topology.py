"""Classes of streams and degrees of freedom, by what is measured: without a run of the program."""

from __future__ import annotations

from collections.abc import Collection, Iterable
from dataclasses import dataclass
from typing import TYPE_CHECKING

from plantbal.faults import ToolMissing
from plantbal.kinds import StreamClass

if TYPE_CHECKING:
    import networkx


@dataclass(frozen=True, slots=True)
class Arc:
    """A stream of a plant, or the gain of a tank.

    Attributes
    ----------
    name : str
        Its name.
    from_, to : str
        Its ends; a tank's gain goes from the tank to ``env``.
    """

    name: str
    from_: str
    to: str


def _graph(nodes: Iterable[str], arcs: Iterable[Arc]) -> networkx.MultiGraph:
    """Return arcs as a graph without directions."""
    try:
        import networkx
    except ImportError as error:
        raise ToolMissing("networkx", "python3-networkx") from error
    graph = networkx.MultiGraph()
    graph.add_nodes_from(nodes)
    graph.add_edges_from((arc.from_, arc.to) for arc in arcs)
    return graph


def _parts(graph: networkx.MultiGraph) -> dict[str, int]:
    """Return the number of the connected part that each node is in."""
    import networkx

    parts = enumerate(networkx.connected_components(graph))
    return {node: number for number, part in parts for node in part}


def degrees_of_freedom(
    nodes: Collection[str], arcs: Collection[Arc], measured: Collection[str]
) -> int:
    """Return how many independent balances test the measurements.

    Nodes that unmeasured streams join have one balance together, and of the balances of a connected
    plant one follows from the others.

    Parameters
    ----------
    nodes : collection of str
        The nodes, ``env`` among them.
    arcs : collection of Arc
        The streams, and the gains of the tanks.
    measured : collection of str
        The names of those that are measured.
    """
    joined = _parts(_graph(nodes, (arc for arc in arcs if arc.name not in measured)))
    whole = _parts(_graph(nodes, arcs))
    return len(set(joined.values())) - len(set(whole.values()))


def classes_of(
    nodes: Collection[str], arcs: Collection[Arc], measured: Collection[str]
) -> dict[str, StreamClass]:
    """Return the class of each stream.

    A measured stream is redundant unless unmeasured streams join its ends. One that isn't measured
    is observable exactly when it is a bridge among the unmeasured ones.

    Parameters
    ----------
    nodes, arcs, measured
        As in `degrees_of_freedom`.
    """
    import networkx

    free = _graph(nodes, (arc for arc in arcs if arc.name not in measured))
    parts = _parts(free)
    simple = networkx.Graph(free)
    bridges = {
        frozenset(pair) for pair in networkx.bridges(simple) if free.number_of_edges(*pair) == 1
    }
    found: dict[str, StreamClass] = {}
    for arc in arcs:
        if arc.name in measured:
            alone = parts[arc.from_] == parts[arc.to]
            found[arc.name] = "nonredundant" if alone else "redundant"
        else:
            bridge = frozenset((arc.from_, arc.to)) in bridges
            found[arc.name] = "observable" if bridge else "unobservable"
    return found
