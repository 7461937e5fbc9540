"""Finds the flows and grades that balance and fit the measurements best.

The problem is to minimise the weighted squares of the adjustments of flows and grades under
equations that are linear or bilinear. It is solved as Newton's method solves the conditions of a
constrained minimum: at each step the equations are made linear, and the matrix

    [ H  J' ] [ step        ]   [ -weights * adjustment ]
    [ J  0  ] [ multipliers ] = [ -residual             ]

is factorised. H has the weights and the second derivatives of the equations; while the step doesn't
lower the merit function (squares plus a penalty for each residual), the weights alone. Numbers that
nothing determines are held where they are by a weight that counts nothing for the others.

A flow below nothing and a grade below 0 or above 100 % can't be. Such a bound that the minimum
passes becomes an equation, and is dropped again if its multiplier says that it pulls the wrong way.
"""

from __future__ import annotations

from collections.abc import Callable
from dataclasses import dataclass, replace
from typing import Any

from plantbal.balance.problem import Problem
from plantbal.balance.system import System
from plantbal.faults import Fault
from plantbal.sentence import Sentence, phrase

# The most steps, and the most changes of the bounds that hold.
MOST_STEPS = 500
MOST_BOUNDS = 60
# A residual below this part of the scale is none, and neither is a pull below this part of what it is
# the sum of.
_LEAST_RESIDUAL = 1e-10
_LEAST_PULL = 1e-9
# A bound that is passed by less than this isn't, and one that pulls the wrong way by less than this
# part of the firmest measurement holds.
_LEAST_EXCESS = 1e-10
_LEAST_LOOSE = 1e-8
# After so many steps without a better place, one that is nearly a minimum is what rounding allows:
# its residuals and pulls are at most this many times what is asked. Then so many last steps.
_STUCK, _NEARLY, _POLISH = 8, 30.0, 6
# What holds a number that nothing determines, as a part of the weight of a measured one.
_HOLD = 1e-9
# What lets an equation that follows from others be factorised.
_SLACK = 1e-13
_REFINED = 3
_SHORTEST = 2.0**-30
# By what part of the scale a bound is moved first, and how often it is moved twice as far.
_WALK, _MOST_WALK = 0.01, 15
# How near the place where the search begins is sought, and in how many steps at most.
_BEGIN, _MOST_BEGIN = 1e-6, 1000


class NotFound(Fault):
    """The search ended without a minimum.

    Parameters
    ----------
    worst : str
        The equation that holds least.
    excess : float
        By how much it doesn't hold, in parts of the scale.
    """

    def __init__(self, worst: str, excess: float) -> None:
        super().__init__(
            Sentence(
                "no flows and grades were found that balance: after {steps} steps {worst} is off by "
                "{excess:.2g} of the greatest flow",
                steps=MOST_STEPS,
                worst=worst,
                excess=excess,
            ),
            remedy="look at the assays and meters around it, or leave one out",
        )
        self.worst = worst
        self.excess = excess


@dataclass(frozen=True)
class Bound:
    """A bound that may hold: a sum of numbers that must not be below a limit.

    Attributes
    ----------
    terms : tuple of (int, float)
        The columns with their factors.
    limit : float
        What the sum may not be below.
    said : str
        The bound in words.
    """

    terms: tuple[tuple[int, float], ...]
    limit: float
    said: str

    def excess(self, vector: Any) -> float:
        """Return by how much a vector is below it."""
        return self.limit - float(sum(factor * vector[column] for column, factor in self.terms))


class NoMinimum(Fault):
    """The measurements fit the better the greater a flow or a grade is, without an end.

    Parameters
    ----------
    bound : Bound
        Its bound on the other side.
    """

    def __init__(self, bound: Bound) -> None:
        super().__init__(
            Sentence(
                "no flows and grades fit the measurements best: {bound}, and the greater it is, the "
                "better they fit, without limit",
                bound=phrase(bound.said),
            ),
            remedy="add a meter or an assay there, or look at the assays around it",
        )
        self.bound = bound


@dataclass(frozen=True)
class Solution:
    """A minimum.

    Attributes
    ----------
    system : System
        The equations.
    vector, multipliers : array
        The numbers, and the multipliers of the equations.
    active : tuple of Bound
        The bounds that hold with equality.
    pulls : array
        The multipliers of these.
    squares : float
        The weighted squares of the adjustments.
    steps : int
        How many steps it took.
    """

    system: System
    vector: Any
    multipliers: Any
    active: tuple[Bound, ...]
    pulls: Any
    squares: float
    steps: int

    def flow(self, stream: str) -> float:
        """Return a flow in tonnes."""
        return float(self.vector[self.system.columns[stream, ""]] * self.system.scale)

    def carried(self, stream: str, component: str) -> float:
        """Return what a stream carries of a component, in tonnes."""
        number = float(self.vector[self.system.columns[stream, component]])
        if (stream, component) in self.system.problem.grades:
            return number * self.flow(stream)
        return number * self.system.scale

    def grade(self, stream: str, component: str) -> float:
        """Return a grade as a fraction; NaN of a stream without a flow."""
        if (stream, component) in self.system.problem.grades:
            return float(self.vector[self.system.columns[stream, component]])
        if self.is_empty(stream):
            return float("nan")
        return self.carried(stream, component) / self.flow(stream)

    def is_empty(self, stream: str) -> bool:
        """Whether nothing flows in a stream: its flow is less than rounding leaves of it."""
        return abs(float(self.vector[self.system.columns[stream, ""]])) < _LEAST_EXCESS


def solve(problem: Problem) -> Solution:
    """Return the flows and grades that balance and fit the measurements best.

    Parameters
    ----------
    problem : Problem
        The plant and its measurements.

    Raises
    ------
    NotFound
        If the search doesn't end.
    NoMinimum
        If nothing fits best.
    Fault
        If no flow was measured.
    """
    system = System(problem)
    _ = system.scale  # refuses a problem without a measured flow
    bounds = bounds_of(system)
    below = _excesses(system, bounds)
    vector = _begin(system)
    active: list[Bound] = []
    seen: set[frozenset[Bound]] = set()
    steps = 0
    firm = float(_weights(system).max()) ** 0.5  # what a pull is compared with
    for _ in range(MOST_BOUNDS):
        vector, multipliers, pulls, taken = _minimum(system, vector, active)
        steps += taken
        loose = {one: pull for one, pull in zip(active, pulls) if pull < -_LEAST_LOOSE * firm}
        passed = [bounds[at] for at in below(vector) if bounds[at] not in active]
        if not loose and not passed:
            squares = float(_squares(system, vector))
            return Solution(system, vector, multipliers, tuple(active), pulls, squares, steps)
        is_round = frozenset(active) in seen
        seen.add(frozenset(active))
        if is_round:  # the first one in order: no round is taken twice (Bland's rule)
            first = min([*passed, *loose], key=bounds.index)
            if first in loose:
                vector = _beyond(system, vector, active, first)
            active = [one for one in active if one is not first] + [first] * (first in passed)
        elif passed:
            active.append(max(passed, key=lambda one: one.excess(vector)))
        else:
            active.remove(min(loose.items(), key=lambda pair: float(pair[1]))[0])
    raise NotFound("a flow or a grade that can't be below 0", max(b.excess(vector) for b in bounds))


def _beyond(system: System, vector: Any, active: list[Bound], bound: Bound) -> Any:
    """Return a place on the allowed side of a bound that was dropped and passed again.

    From the bound the squares fall to the allowed side, and yet without it the search goes over a
    ridge to the other. So the bound is moved, twice as far each time, until it pulls back: the
    minimum on its side is near.

    Raises
    ------
    NoMinimum
        If it doesn't pull back however far it is moved.
    """
    others = [one for one in active if one is not bound]
    step = _WALK
    for _ in range(_MOST_WALK):
        moved = replace(bound, limit=bound.limit + step)
        vector, _, pulls, _ = _minimum(system, vector, [*others, moved])
        if pulls[-1] > 0:
            return vector
        step *= 2
    raise NoMinimum(bound)


def bounds_of(system: System) -> list[Bound]:
    """Return the bounds of flows and grades."""
    found = []
    problem = system.problem
    for flow in problem.flows:
        if flow.either_way:
            continue
        column = system.columns[flow.name, flow.only]
        backwards = Sentence("{name} can't flow backwards", name=flow.name)
        found.append(Bound(((column, 1.0),), 0.0, backwards))
        for component in () if flow.only else problem.components:
            own = system.columns[flow.name, component]
            assayed = (flow.name, component) in problem.grades
            rest = ((own, -1.0),) if assayed else ((own, -1.0), (column, 1.0))
            of = {"component": component, "stream": flow.name}
            below = Sentence("{component} in {stream} can't be below 0 %", **of)
            found.append(Bound(((own, 1.0),), 0.0, below))
            if component not in problem.ratios:
                above = Sentence("{component} in {stream} can't be above 100 %", **of)
                found.append(Bound(rest, -1.0 if assayed else 0.0, above))
    return found


def _excesses(system: System, bounds: list[Bound]) -> Callable[[Any], list[int]]:
    """Return what finds the places of the bounds that a vector passes."""
    import numpy
    from scipy.sparse import csr_array

    entries = [(f, row, c) for row, one in enumerate(bounds) for c, f in one.terms]
    values, rows, columns = zip(*entries) if entries else ((), (), ())
    factors = csr_array((values, (rows, columns)), shape=(len(bounds), system.size), dtype=float)
    limits = numpy.array([one.limit for one in bounds])
    return lambda vector: list(numpy.flatnonzero(limits - factors @ vector > _LEAST_EXCESS))


def _squares(system: System, vector: Any) -> Any:
    """Return the weighted squares of the adjustments."""
    known = system.is_measured
    return (((vector - system.measured)[known]) ** 2 / system.variance[known]).sum()


def _weights(system: System) -> Any:
    """Return the weight of each number; 0 if it wasn't measured."""
    import numpy

    return numpy.where(system.is_measured, 1 / system.variance, 0.0)


def _begin(system: System) -> Any:
    """Return where the search begins: flows that nearly balance with the grades as they were assayed.

    With the grades held, the balances are linear in the flows and in what is carried. They are
    solved by least squares, in which each equation counts as if it were measured.
    """
    import numpy
    from scipy.sparse import csr_array, diags, vstack
    from scipy.sparse.linalg import lsqr

    flows = len(system.problem.flows)
    known = system.is_measured
    vector = numpy.where(known, system.measured, 0.0)
    held = numpy.arange(system.size) >= flows
    held &= known
    free = numpy.flatnonzero(~held)
    # with flows of 1 the derivatives by grades aren't asked: only those by free numbers are taken
    jacobian = csr_array(system.jacobian(vector))[:, free]
    weights = numpy.where(known[free], 1 / numpy.sqrt(system.variance[free]), 1e-3)
    typical = numpy.where(known[free], system.measured[free], 0.0)
    unmeasured = (free < flows) & ~known[free]
    typical[unmeasured] = float(numpy.median(numpy.abs(system.measured[:flows][known[:flows]])))
    firm = float(numpy.median(weights[known[free]])) * 3
    matrix = vstack([diags(weights), jacobian * firm])
    wanted = numpy.concatenate([weights * typical, numpy.zeros(jacobian.shape[0])])
    vector[free] = lsqr(matrix, wanted, atol=_BEGIN, btol=_BEGIN, iter_lim=_MOST_BEGIN)[0]
    return vector


def _minimum(system: System, vector: Any, active: list[Bound]) -> tuple[Any, Any, Any, int]:
    """Return the minimum with these bounds held, the multipliers, those of the bounds, and the steps."""
    import numpy

    weights = _weights(system)
    multipliers = numpy.zeros(len(system.names) + len(active))
    penalty = 1.0
    error = float("inf")
    best, since = (error, vector, multipliers), 0
    for steps in range(1, MOST_STEPS + 1):
        step, wanted, newton = _step(system, vector, multipliers, active, weights)
        nearer = _error(system, vector + step, wanted, active, weights)
        length = 1.0
        if not newton or nearer > error / 2:
            if newton:
                step, wanted, _ = _step(system, vector, None, active, weights)
            penalty = max(penalty, 2 * float(numpy.abs(wanted).max(initial=0.0)))
            length = _length(system, vector, step, active, penalty)
        vector = vector + length * step
        multipliers = multipliers + length * (wanted - multipliers)
        error = _error(system, vector, multipliers, active, weights)
        if error < best[0]:
            best = error, vector, multipliers
        since = 0 if error < best[0] * (1 + 1e-12) else since + 1
        if error <= 1 or (since > _STUCK and best[0] <= _NEARLY):
            error, vector, multipliers = best
            count = len(system.names)
            for _ in range(_POLISH):
                last, wanted, _ = _step(system, vector, multipliers, active, weights)
                nearer = _error(system, vector + last, wanted, active, weights)
                if not nearer < error / 2:
                    break
                vector, multipliers, error = vector + last, wanted, nearer
            return vector, multipliers[:count], -multipliers[count:], steps
    final = numpy.abs(_residual(system, vector, active))
    worst = int(final.argmax())
    raise NotFound(_said(system, worst), float(final.max()))


def _error(
    system: System, vector: Any, multipliers: Any, active: list[Bound], weights: Any
) -> float:
    """Return how far a place is from a minimum: at most 1 if the equations hold there, and no allowed
    change lowers the squares. A number that nothing determines has no part in either."""
    import numpy

    off = float(numpy.abs(_residual(system, vector, active)).max(initial=0.0))
    own = weights * numpy.where(weights > 0, vector - system.measured, 0.0)
    jacobian = _matrix(system, vector, active)
    sizes = numpy.abs(own) + abs(jacobian).T @ numpy.abs(multipliers)
    firm = float(numpy.sqrt(weights.max()))
    pulls = numpy.abs(own + jacobian.T @ multipliers) / (sizes + firm)
    return max(off / _LEAST_RESIDUAL, float(pulls.max()) / _LEAST_PULL)


def _said(system: System, row: int) -> str:
    """Return an equation in words."""
    if row >= len(system.names):
        return "a bound"
    component, place = system.names[row]
    if component == "closure":
        return f"the sum of the grades of {place}"
    return f"the balance of {component or 'mass'} at {place}"


def _residual(system: System, vector: Any, active: list[Bound]) -> Any:
    """Return by how much the equations and the bounds that hold don't hold."""
    import numpy

    return numpy.concatenate([system.residual(vector), [-one.excess(vector) for one in active]])


def _matrix(system: System, vector: Any, active: list[Bound]) -> Any:
    """Return the derivatives of the equations and of the bounds that hold."""
    from scipy.sparse import csr_array, vstack

    jacobian = system.jacobian(vector)
    if not active:
        return jacobian
    entries = [(f, row, c) for row, one in enumerate(active) for c, f in one.terms]
    values, rows, columns = zip(*entries)
    held = csr_array((values, (rows, columns)), shape=(len(active), system.size))
    return csr_array(vstack([jacobian, held]))


def _step(
    system: System, vector: Any, multipliers: Any, active: list[Bound], weights: Any
) -> tuple[Any, Any, bool]:
    """Return a step, the multipliers that it wants, and whether it knows the second derivatives."""
    import numpy
    from scipy.sparse import bmat, csc_matrix, diags, identity
    from scipy.sparse.linalg import splu

    known = weights > 0
    # each number in its own error, and each equation in what its numbers make of it
    unit = numpy.where(known, 1 / numpy.sqrt(numpy.where(known, weights, 1.0)), 0.0)
    unit[~known] = float(
        numpy.median(unit[: len(system.problem.flows)][known[: len(system.problem.flows)]])
    )
    newton = multipliers is not None and bool(numpy.any(multipliers))
    second = diags(numpy.where(known, 1.0, _HOLD))
    if newton:
        curved = system.curvature(multipliers[: len(system.names)])
        second = second + diags(unit) @ curved @ diags(unit)
    jacobian = _matrix(system, vector, active) @ diags(unit)
    rows = 1 / numpy.maximum(abs(jacobian).max(axis=1).toarray().ravel(), 1e-300)
    jacobian = diags(rows) @ jacobian
    slack = identity(jacobian.shape[0]) * -_SLACK
    matrix = csc_matrix(bmat([[second, jacobian.T], [jacobian, slack]]))
    plain = csc_matrix(bmat([[second, jacobian.T], [jacobian, None]]))
    gradient = unit * weights * numpy.where(known, vector - system.measured, 0.0)
    right = numpy.concatenate([-gradient, -rows * _residual(system, vector, active)])
    try:
        factors = splu(matrix, permc_spec="MMD_AT_PLUS_A")
        found = factors.solve(right)
        for _ in range(_REFINED):  # towards the solution without slack
            found = found + factors.solve(right - plain @ found)
    except RuntimeError:
        found = numpy.zeros(len(right))
    if not numpy.all(numpy.isfinite(found)):
        found = numpy.zeros(len(right))
    return unit * found[: system.size], rows * found[system.size :], newton


def _length(system: System, vector: Any, step: Any, active: list[Bound], penalty: float) -> float:
    """Return how much of a step lowers the merit function enough; the shortest part if none does."""
    import numpy

    def merit(at: Any) -> float:
        off = float(numpy.abs(_residual(system, at, active)).sum())
        return float(_squares(system, at)) / 2 + penalty * off

    begin = merit(vector)
    length = 1.0
    while length > _SHORTEST:
        if merit(vector + length * step) <= begin * (1 + 1e-14) + 1e-300:
            return length
        length /= 2
    return length
