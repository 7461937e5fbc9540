"""A block's certificate from prices and whole flows: gap, bounds, statistic, tests, and its rows.

Whole flows that balance and prices that fit show by themselves how far the flows can be from the
least squares solution, wherever both come from: that is the gap, and the bounds follow from it.
"""

from __future__ import annotations

from dataclasses import dataclass, field
from math import isqrt

from plantbal.amounts import root_up
from plantbal.records import read_records, without_empty_end
from plantbal.report.blocks import Block, Values
from plantbal.study.plant import NumberedPlant, plant_of
from plantbal.study.prices import UNIT, dual_flow, prices_of


def rounded_up(number: int, by: int) -> int:
    """Return a quotient, rounded up."""
    return -(-number // by)


def scaled_root(variance: int) -> int:
    """Return the standard deviation in units of 2^-20 grams, rounded down."""
    return isqrt(variance << 40)


def whole_flows(plant: NumberedPlant, prices: list[int]) -> list[int]:
    """Return whole flows that balance: rounded outside the forest, and by balance within it."""
    flows = [0] * len(plant.ends)
    for j in plant.measured:
        flows[j] = (2 * dual_flow(plant, prices, j) + UNIT) // (2 * UNIT)
    return balanced(plant, flows)


def balanced(plant: NumberedPlant, whole: list[int]) -> list[int]:
    """Return the whole flows that balance, and are as given outside the forest."""
    inside = set(plant.forest)
    flows = [0 if j in inside else flow for j, flow in enumerate(whole)]
    net = [0] * len(plant.names)
    branches: list[set[int]] = [set() for _ in plant.names]
    for j, (one, other) in enumerate(plant.ends):
        net[one] -= flows[j]
        net[other] += flows[j]
    for j in plant.forest:
        for node in plant.ends[j]:
            branches[node].add(j)
    leaves = [node for node, some in enumerate(branches) if len(some) == 1]
    while leaves:
        leaf = leaves.pop()
        if len(branches[leaf]) != 1:
            continue
        j = branches[leaf].pop()
        one, other = plant.ends[j]
        flows[j] = net[leaf] if leaf == one else -net[leaf]
        rest = other if leaf == one else one
        net[rest] += flows[j] if rest == other else -flows[j]
        net[leaf] = 0
        branches[rest].discard(j)
        if len(branches[rest]) == 1:
            leaves.append(rest)
    return flows


def gap_of(plant: NumberedPlant, prices: list[int], flows: list[int]) -> tuple[int, int]:
    """Return g and h: the flows are at most g * 2^h / 2^20 standard deviations from the exact
    ones."""
    parts = [
        rounded_up(
            abs(flows[j] * UNIT - dual_flow(plant, prices, j)),
            scaled_root(plant.variance[j]) << 16,
        )
        for j in plant.measured
    ]
    h = 0
    while any(part > 2 ** (57 + h) for part in parts):
        h += 1
    return root_up(sum(rounded_up(part, 2**h) ** 2 for part in parts)), h


def signed_members(plant: NumberedPlant, stream: Values) -> list[tuple[int, int]] | None:
    """Return the measured streams of which a flow is the sum, each with its sign, or None.

    A measured stream is its own, an observable one the sum of the other members of its cut; nothing
    determines an unobservable one.
    """
    j = plant.place[stream["name"]]
    if stream["class"] == "unobservable":
        return None
    if plant.value[j] is not None:
        return [(1, j)]
    parts = [
        (1 if part[0] == "+" else -1, plant.place[part[1:]]) for part in stream["parts"].split(" ")
    ]
    own = next(sign for sign, place in parts if place == j)
    return [(-own * sign, place) for sign, place in parts if place != j]


def stream_bounds(
    plant: NumberedPlant, prices: list[int], flows: list[int], stream: Values, g: int, h: int
) -> tuple[int, int, int, int] | None:
    """Return the bounds and the least bounds of a stream, or None if nothing determines it."""
    members = signed_members(plant, stream)
    if members is None:
        return None
    total = sum(sign * dual_flow(plant, prices, place) for sign, place in members)
    flow = sum(sign * flows[place] for sign, place in members)
    root = scaled_root(sum(plant.variance[place] for _, place in members)) + 1
    half = rounded_up(root * g << h, 2**40) if members else 0
    below, above = total // UNIT, rounded_up(total, UNIT)
    least = (flow + below) // 2 - rounded_up(half, 2), rounded_up(flow + above, 2) + rounded_up(
        half, 2
    )
    return below - half, above + half, *least


def statistic_of(plant: NumberedPlant, flows: list[int], g: int, h: int) -> tuple[int, int | None]:
    """Return the least and the greatest value of the weighted squares, in thousandths."""
    away = [
        (abs(flows[j] - plant.measure(j)) << 40, scaled_root(plant.variance[j]))
        for j in plant.measured
    ]
    least = sum(min(number // (root + 1), 2**52) ** 2 for number, root in away)
    low = 0 if g << h > 2**57 else max(0, 1000 * (least - (g << h) ** 2) >> 40)
    most = [rounded_up(number, root) for number, root in away]
    if any(part > 2**52 for part in most):
        return low, None
    return low, rounded_up(1000 * sum(part**2 for part in most), 2**40)


def global_verdict(low: int, high: int | None, dof: int, critical: str) -> str:
    """Return the verdict of the global test."""
    if dof == 0:
        return "notest"
    if not critical:
        return "nocritical"
    if low > int(critical):
        return "reject"
    return "accept" if high is not None and high <= int(critical) else "undecided"


@dataclass
class SeenCritical:
    """The critical values that a report sees, as the digits of thousandths; empty if there is none.

    Attributes
    ----------
    whole : dict
        Of the global test, by the degrees of freedom.
    nodal : str
        Of the nodal tests.
    """

    whole: dict[int, str] = field(default_factory=dict)
    nodal: str = ""


def seen_critical(data: bytes, refused: set[int]) -> list[SeenCritical]:
    """Return the critical values that stand before each row of a session that asks for flows.

    Parameters
    ----------
    data : bytes
        The session.
    refused : set of int
        The numbers of its refused records.
    """
    found: list[SeenCritical] = []
    seen = SeenCritical()
    for record in read_records(data):
        fields = without_empty_end(record.fields)
        if not fields or record.number in refused:
            continue
        if fields[:2] == ("critical", "global"):
            seen = SeenCritical({**seen.whole, int(fields[2]): fields[3]}, seen.nodal)
        elif fields[:2] == ("critical", "nodal"):
            seen = SeenCritical(seen.whole, fields[2])
        elif fields[0] in ("report", "window", "component"):
            found.append(seen)
    return found


def test_rows(
    plant: NumberedPlant, low: int, high: int | None, dof: int, critical: SeenCritical
) -> list[Values]:
    """Return the rows of the global test and of the nodal tests."""
    limit = critical.whole.get(dof, "")
    verdict = global_verdict(low, high, dof, limit)
    rows: list[Values] = [{"row": "global", "critical": limit, "verdict": verdict}]
    net: dict[int, int] = {}
    variance: dict[int, int] = {}
    for j in plant.measured:
        one, other = (plant.group[node] for node in plant.ends[j])
        if one != other:
            for group, sign in ((one, -1), (other, 1)):
                net[group] = net.get(group, 0) + sign * plant.measure(j)
                variance[group] = variance.get(group, 0) + plant.variance[j]
    for group in sorted(set(net) - {plant.group[0]}):
        verdict = "nocritical"
        if critical.nodal:
            # the statistic in thousandths is 1000 net^2 / variance
            above = 1000 * net[group] ** 2 > int(critical.nodal) * variance[group]
            verdict = "reject" if above else "accept"
        rows.append(
            {
                "row": "nodal",
                "node": plant.names[group],
                "net": str(net[group]),
                "variance": str(variance[group]),
                "critical": critical.nodal,
                "verdict": verdict,
            }
        )
    return rows


@dataclass(frozen=True)
class BlockSolution:
    """Prices and whole flows of a block, wherever they come from.

    Attributes
    ----------
    prices : list of int
        The price of each node, in units of 2^-56 per gram.
    flows : list of int
        The flow of each stream in grams; they balance.
    """

    prices: list[int]
    flows: list[int]

    @classmethod
    def by_scipy(cls, plant: NumberedPlant) -> BlockSolution:
        """Return the solution of a plant by scipy."""
        prices = prices_of(plant)
        return cls(prices, whole_flows(plant, prices))


def is_met(block: Block, g: int, h: int) -> bool:
    """Return whether a gap is one with which a block has converged."""
    return bool(g * 2**h * 1000 <= int(block.head["gap"]) * 2**20)


def solved_rows(
    block: Block,
    solution: BlockSolution | None = None,
    *,
    least: bool = True,
    change: tuple[str, int] | None = None,
    sweeps: str = "",
    critical: SeenCritical | None = None,
) -> list[Values]:
    """Return the rows of a block with another solution.

    Parameters
    ----------
    block : Block
        A round of a report: its plant, measurements, classes and certificates are taken. Nothing of
        its solution is used.
    solution : BlockSolution, optional
        The prices and flows; without them scipy solves for them.
    least : bool
        Whether streams have least bounds.
    change : tuple of str and int, optional
        A stream, and how much its flow is said to be higher than it is: such a report is wrong.
    sweeps : str
        The sweeps that are allowed; without them those of the block.
    critical : SeenCritical, optional
        The critical values of its tests; without them there are no tests.
    """
    plant = plant_of(block)
    solution = solution or BlockSolution.by_scipy(plant)
    prices, flows = solution.prices, solution.flows
    g, h = gap_of(plant, prices, flows)
    met = is_met(block, g, h)
    head = dict(block.head, sweeps=sweeps or block.head["sweeps"])
    rows: list[Values] = [head]
    rows += [
        {"row": "node", "name": name, "price": str(price)}
        for name, price in zip(plant.names, prices)
    ]
    for j, stream in enumerate(plant.streams):
        bounds = stream_bounds(plant, prices, flows, stream, g, h)
        texts = [""] * 4 if bounds is None else [str(bound) for bound in bounds]
        said = flows[j] + (change[1] if change and change[0] == stream["name"] else 0)
        row = dict(stream, flow=str(said), **dict(zip(("lo", "hi", "least_lo", "least_hi"), texts)))
        if not least:
            del row["least_lo"], row["least_hi"]
        rows.append(row)
    low, high = statistic_of(plant, flows, g, h)
    dof = sum(plant.value[j] is not None for j in plant.forest)
    rows.append(
        {
            "row": "solved",
            "k": "0" if met else head["sweeps"],
            "state": "converged" if met else "unconverged",
            "g": str(g),
            "h": str(h),
            "dof": str(dof),
            "low": str(low),
            "high": "" if high is None else str(high),
        }
    )
    if critical is not None:
        rows += test_rows(plant, low, high, dof, critical)
    rows.append({"row": "end", "period": head["period"], "round": head["round"]})
    return rows
