"""Prices of nodes: the multipliers of the balances, in units of 2^-56 per gram.

A price is solved for from the normal equations of weighted least squares, in floats, and refined in
whole numbers until it is exact to its unit.
"""

from __future__ import annotations

from plantbal.faults import Fault, ToolMissing
from plantbal.study.plant import NumberedPlant, free_groups

# Prices are in units of 2^-56 per gram.
UNIT = 2**56
# Variance times the rise of the price along a stream is at most this, either way.
MOST_DUAL = 2**112
# Refinements of the prices: each makes some ten digits more right.
MOST_REFINEMENTS = 40


def prices_of(plant: NumberedPlant) -> list[int]:
    """Return the multipliers of the balances as prices, exact to their unit if floats allow it.

    Raises
    ------
    Fault
        If the multipliers at the ends of a stream are too far apart for prices.
    """
    try:
        import numpy
        from scipy import sparse
        from scipy.sparse import linalg
    except ImportError as error:
        raise ToolMissing("scipy", "python3-scipy") from error
    at = free_groups(plant)
    between = [
        (j, plant.group[plant.ends[j][0]], plant.group[plant.ends[j][1]]) for j in plant.measured
    ]
    between = [(j, one, other) for j, one, other in between if one != other]
    prices = [0] * len(at)
    if at:
        rows: list[int] = []
        columns: list[int] = []
        weights: list[float] = []
        for j, one, other in between:
            weight = float(plant.variance[j])
            for row, column, sign in (
                (one, one, 1),
                (other, other, 1),
                (one, other, -1),
                (other, one, -1),
            ):
                if row in at and column in at:
                    rows.append(at[row])
                    columns.append(at[column])
                    weights.append(sign * weight)
        matrix = sparse.csc_matrix((weights, (rows, columns)), shape=(len(at), len(at)))
        # The scale of each unknown is that of its own weights, which may differ by many powers of
        # ten.
        scale = 1 / numpy.sqrt(matrix.diagonal())
        solver = linalg.splu((sparse.diags(scale) @ matrix @ sparse.diags(scale)).tocsc())
        for _ in range(MOST_REFINEMENTS):
            left = group_imbalances(plant, between, at, prices)
            size = max(abs(number) for number in left)
            shift = max(0, size.bit_length() - 900)
            right = numpy.array([float(number >> shift) for number in left])
            step = scale * solver.solve(scale * right)
            change = [int(round(float(part))) << shift for part in step]
            if not any(change):
                break
            prices = [price + part for price, part in zip(prices, change)]
    found = [prices[at[group]] if group in at else 0 for group in plant.group]
    require_fit(plant, found)
    return found


def require_fit(plant: NumberedPlant, prices: list[int]) -> None:
    """Return if the prices fit.

    Raises
    ------
    Fault
        If those at the ends of a stream are too far apart.
    """
    for j in plant.measured:
        one, other = plant.ends[j]
        if abs(prices[other] - prices[one]) > MOST_DUAL // plant.variance[j]:
            name = plant.streams[j]["name"]
            raise Fault(f"the multipliers at the ends of {name} are too far apart for prices")


def group_imbalances(
    plant: NumberedPlant, between: list[tuple[int, int, int]], at: dict[int, int], prices: list[int]
) -> list[int]:
    """Return what the flows of the prices leave over in each free group, in units of 2^-56
    grams."""
    left = [0] * len(at)
    for j, one, other in between:
        low = prices[at[one]] if one in at else 0
        high = prices[at[other]] if other in at else 0
        flow = UNIT * plant.measure(j) + plant.variance[j] * (high - low)
        if one in at:
            left[at[one]] += flow
        if other in at:
            left[at[other]] -= flow
    # A price that rises by one lets its group's flows in rise, and its flows out fall.
    return left


def dual_flow(plant: NumberedPlant, prices: list[int], j: int) -> int:
    """Return the flow that the prices give a measured stream, in units of 2^-56 grams."""
    one, other = plant.ends[j]
    return UNIT * plant.measure(j) + plant.variance[j] * (prices[other] - prices[one])
