"""Says which flows and grades the measurements determine, how well, and by which balances.

At the solution the equations are made linear: small changes of all numbers satisfy J d = 0. Split
into columns of measured and of unmeasured numbers this is M m + U u = 0.

- An unmeasured number is determined if every u with U u = 0 leaves it alone.
- A measured number is checked (redundant) if some combination of equations in which U drops out
  contains it: with the rows of L spanning all l with l U = 0, if its column of L M isn't 0.
- The checked combinations B = L M are what least squares satisfies. The covariance of the
  reconciled measurements is S - S B' (B S B')^-1 B S, with S the variances; that of determined
  numbers follows through U u = -M m.

These are the rules of linear reconciliation applied at the solution, so they hold there and, for
rank, almost everywhere near it.
"""

from __future__ import annotations

import math
from collections.abc import Mapping, Sequence
from dataclasses import dataclass, replace
from enum import Enum
from functools import cached_property
from typing import Any

from plantbal.balance.solve import Bound, Solution, _matrix
from plantbal.balance.system import System

# A pivot below this part of the greatest is 0, and so is what a number owes to loose ones below this.
_NOTHING = 1e-9
_LOOSE = 1e-7
# Squares of which the checks leave less than this part are subtracted one by one.
_NEARLY_ALL = 1e-3
# A pull below this part of the firmest measurement's is none.
_LEAST_PULL = 1e-7


def _rank(triangle: Any) -> int:
    """Return the rank of a matrix by its triangle with falling pivots."""
    import numpy

    sizes = numpy.abs(numpy.diag(triangle))
    return int((sizes > _NOTHING * max(float(sizes.max(initial=0.0)), 1e-300)).sum())


class Class(Enum):
    """What a figure rests on."""

    REDUNDANT = "redundant"
    NONREDUNDANT = "nonredundant"
    OBSERVABLE = "observable"
    UNOBSERVABLE = "unobservable"


@dataclass(frozen=True)
class Known:
    """What is known of each number of a solution.

    Attributes
    ----------
    solution : Solution
        The solution.
    all_count : bool
        Whether each bound that holds counts as an equation.
    """

    solution: Solution
    all_count: bool = False

    @property
    def system(self) -> System:
        """The equations."""
        return self.solution.system

    @cached_property
    def held(self) -> tuple[Bound, ...]:
        """The bounds to which measurements pull: those that count as equations.

        A number that nothing determines may lie at a bound too, since it may lie anywhere. Nothing
        pulls it there, and nothing is known of it by that. So a bound counts if something pulls, or
        if its numbers are determined by the others.
        """
        active = self.solution.active
        if not active or self.all_count:
            return active
        known = self._by_pulls.is_determined
        return tuple(
            bound
            for bound in active
            if bound in self._by_pulls.held or all(known[column] for column, _ in bound.terms)
        )

    @cached_property
    def _by_pulls(self) -> Known:
        """What is known if only the bounds to which something pulls count."""
        solution = self.solution
        least = _LEAST_PULL / math.sqrt(float(self.system.variance.min()))
        pulled = [bound for bound, pull in zip(solution.active, solution.pulls) if pull > least]
        return Known(replace(solution, active=tuple(pulled)), all_count=True)

    @cached_property
    def _parts(self) -> tuple[Any, Any, Any, Any]:
        """The columns measured and not, and the matrices of both, of which the first is sparse."""
        import numpy
        from scipy.sparse import csc_array

        solution = self.solution
        jacobian = csc_array(_matrix(self.system, solution.vector, list(self.held)))
        known = self.system.is_measured
        measured, free = numpy.flatnonzero(known), numpy.flatnonzero(~known)
        return measured, free, jacobian[:, measured], jacobian[:, free].toarray()

    @cached_property
    def _split(self) -> tuple[Any, Any, Any]:
        """How unmeasured numbers follow from measured ones, the combinations of equations in which
        only measured numbers are left, and which unmeasured numbers are determined.

        U P = Q R with the rows of R by falling size: the first ``rank`` columns are those that the
        equations give, and what they owe to the others is R11^-1 R12.
        """
        import numpy
        from scipy.linalg import qr, solve_triangular

        if not self.all_count and self.solution.active and self.held == self._by_pulls.held:
            return self._by_pulls._split
        _, _, measured, unmeasured = self._parts
        rows, columns = unmeasured.shape
        if not columns:
            none = numpy.zeros((0, measured.shape[1]))
            return none, measured.toarray(), numpy.zeros(0, bool)
        basis, triangle, order = qr(unmeasured, pivoting=True)
        rank = _rank(triangle)
        first = triangle[:rank, :rank]
        owed = solve_triangular(first, triangle[:rank, rank:])
        sure = numpy.zeros(columns, bool)
        sure[order[:rank]] = numpy.abs(owed).max(axis=1, initial=0.0) < _LOOSE
        turned = (measured.T @ basis).T  # basis' M, with M sparse
        follows = numpy.zeros((columns, measured.shape[1]))
        follows[order[:rank]] = -solve_triangular(first, turned[:rank])
        return follows, turned[rank:], sure

    @cached_property
    def is_determined(self) -> Any:
        """Whether each number is measured or determined."""
        found = self.system.is_measured.copy()
        found[self._parts[1]] = self._split[2]
        return found

    @property
    def _checks(self) -> Any:
        """The combinations of equations in which only measured numbers are left."""
        return self._split[1]

    @cached_property
    def _sizes(self) -> tuple[Any, Any]:
        """Of each measured number its greatest part in a check, and in an equation."""
        import numpy

        count = len(self._parts[0])
        checks = numpy.abs(self._checks).max(axis=0, initial=0.0)
        equations = abs(self._parts[2]).max(axis=0).toarray().ravel() if count else numpy.zeros(0)
        return checks, equations

    @cached_property
    def _roots(self) -> Any:
        """The standard deviations of the measured numbers."""
        import numpy

        return numpy.sqrt(self.system.variance[self._parts[0]])

    @cached_property
    def _satisfied(self) -> Any:
        """An orthonormal basis of the checks, in units of standard deviations."""
        import numpy
        from scipy.linalg import qr

        if not len(self._checks):
            return numpy.zeros((len(self._roots), 0))
        weighted = (self._checks * self._roots).T
        basis, triangle, _ = qr(weighted, mode="economic", pivoting=True)
        return basis[:, : _rank(triangle)]

    def class_of(self, stream: str, component: str = "") -> Class:
        """Return what a flow, or a grade, rests on."""
        import numpy

        column = self.system.columns[stream, component]
        if not self.system.is_measured[column]:
            flow = self.system.columns[stream, ""]
            if component and stream not in self.system.problem.alone:
                if self.solution.is_empty(stream) or not self.is_determined[flow]:
                    return Class.UNOBSERVABLE  # a stream without a flow has no grade
            carried = self.is_determined[column]
            return Class.OBSERVABLE if carried else Class.UNOBSERVABLE
        place = int(numpy.searchsorted(self._parts[0], column))
        size, scale = (float(sizes[place]) for sizes in self._sizes)
        scale = max(1e-12, scale)
        return Class.REDUNDANT if size > 1e-8 * scale else Class.NONREDUNDANT

    @property
    def degrees_of_freedom(self) -> int:
        """How many independent checks there are."""
        return int(self._satisfied.shape[1])

    def deviation(self, gradient: Mapping[int, float]) -> float:
        """Return the standard deviation of a figure that depends on numbers by these derivatives."""
        return self.deviations([gradient])[0]

    def deviations(self, gradients: Sequence[Mapping[int, float]]) -> list[float]:
        """Return the standard deviations of figures, each by its derivatives: faster than one by one.

        What the checks take away is subtracted from the squares; if nearly nothing is left, from
        the errors themselves, since a small difference of great squares would be rounding.
        """
        import numpy
        from scipy.sparse import csr_array, diags

        entries = [(row, *each) for row, some in enumerate(gradients) for each in some.items()]
        rows, columns, slopes = zip(*entries) if entries else ((), (), ())
        shape = (len(gradients), self.system.size)
        whole = csr_array((numpy.array(slopes, float), (rows, columns)), shape=shape).tocsc()
        measured, free, _, _ = self._parts
        # in standard deviations
        own = csr_array(whole[:, measured] @ diags(self._roots))
        loose = csr_array(whole[:, free])
        error, inside = own.toarray(), own @ self._satisfied
        some = numpy.flatnonzero(numpy.diff(loose.indptr))
        error[some] += (loose[some] @ self._split[0]) * self._roots
        inside[some] = error[some] @ self._satisfied
        squares = (error * error).sum(axis=1)
        left = squares - (inside * inside).sum(axis=1)
        near = numpy.flatnonzero(left < _NEARLY_ALL * squares)
        if len(near):
            rest = error[near] - inside[near] @ self._satisfied.T
            left[near] = (rest * rest).sum(axis=1)
        return [float(value) for value in numpy.sqrt(left)]

    def flow_deviation(self, stream: str) -> float:
        """Return the standard deviation of a flow, in tonnes."""
        return self.deviation(self.gradient(stream))

    def grade_deviation(self, stream: str, component: str) -> float:
        """Return the standard deviation of a grade, as a fraction."""
        return self.deviation(self.gradient(stream, component))

    def gradient(self, stream: str, component: str = "") -> dict[int, float]:
        """Return the derivatives of a flow in tonnes, or of a grade as a fraction."""
        if component:
            return self.grade_gradient(stream, component)
        return {self.system.columns[stream, ""]: self.system.scale}

    def carried_gradient(self, stream: str, component: str) -> dict[int, float]:
        """Return the derivatives of what a stream carries of a component, in tonnes."""
        columns, scale = self.system.columns, self.system.scale
        own, flow = columns[stream, component], columns[stream, ""]
        if (stream, component) not in self.system.problem.grades:
            return {own: scale}
        vector = self.solution.vector
        return {flow: scale * float(vector[own]), own: scale * float(vector[flow])}

    def grade_gradient(self, stream: str, component: str) -> dict[int, float]:
        """Return the derivatives of a grade."""
        columns = self.system.columns
        own, flow = columns[stream, component], columns[stream, ""]
        if (stream, component) in self.system.problem.grades:
            return {own: 1.0}
        vector = self.solution.vector
        size = float(vector[flow])
        if not size:
            return {}
        return {own: 1 / size, flow: -float(vector[own]) / size**2}

    @cached_property
    def _ways(self) -> list[tuple[int, Any]]:
        """The unmeasured numbers' parts in the balances of mass, and in all equations.

        Each is how many equations they are, and the parts with both signs.
        """
        from scipy.sparse import csc_array, hstack

        turned = csc_array(self._parts[3].T)
        nodes = len(self.system.problem.balanced_nodes)
        some = [turned[:, :nodes], turned] if self.system.problem.components else [turned]
        return [(each.shape[1], hstack([each, -each], format="csc")) for each in some]

    def evidence(self, stream: str, component: str = "") -> list[tuple[str, str]]:
        """Return the balances that determine an unmeasured number: few of them, if that can be.

        Each is a component, or nothing for mass, and a node. They are found as the combination of
        equations with the least sum of absolute factors in which no other unmeasured number stays:
        of the balances of mass alone, if these suffice.
        """
        import numpy
        from scipy.optimize import linprog

        column = self.system.columns[stream, component]
        _, free, _, unmeasured = self._parts
        place = int(numpy.searchsorted(free, column))
        if place >= len(free) or free[place] != column or not self.is_determined[column]:
            return []
        wanted = numpy.zeros(unmeasured.shape[1])
        wanted[place] = 1.0
        for rows, both in self._ways:
            found = linprog(numpy.ones(2 * rows), A_eq=both, b_eq=wanted, method="highs")
            if found.x is not None:
                factors = found.x[:rows] - found.x[rows:]
                used = numpy.flatnonzero(numpy.abs(factors) > 1e-7)
                return [self.system.names[at] for at in used if at < len(self.system.names)]
        return []
