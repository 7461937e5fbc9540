"""The balances as equations of one vector, with their first and second derivatives.

The vector has the flows first, in parts of the scale, and after them one number for each stream and
component: the grade if it was assayed, and else what the stream carries of the component, in parts
of the scale. The equations are the balances of mass at each node, then those of each component,
then the closures. Each is linear or a product of two numbers, so the second derivatives are known
from the multipliers alone.
"""

from __future__ import annotations

from dataclasses import dataclass
from functools import cached_property
from typing import Any

from plantbal.balance.problem import Problem, scale_of


@dataclass(frozen=True)
class System:
    """The equations of a problem.

    Attributes
    ----------
    problem : Problem
        The problem.
    """

    problem: Problem

    @cached_property
    def scale(self) -> float:
        """The greatest measured flow."""
        return scale_of(self.problem)

    @cached_property
    def columns(self) -> dict[tuple[str, str], int]:
        """The column of each stream and component; the flow's column has an empty component."""
        problem = self.problem
        found = {(flow.name, ""): column for column, flow in enumerate(problem.flows)}
        for component in problem.components:
            for flow in problem.flows:
                found[flow.name, component] = len(found)
        return found

    @cached_property
    def size(self) -> int:
        """How many numbers the vector has."""
        return len(self.columns)

    @cached_property
    def measured(self) -> Any:
        """The measured values in the order of the vector; NaN if a number wasn't measured."""
        import numpy

        found = numpy.full(self.size, numpy.nan)
        for flow in self.problem.flows:
            if flow.measured:
                found[self.columns[flow.name, flow.only]] = flow.measured.value / self.scale
        for key, grade in self.problem.grades.items():
            found[self.columns[key]] = grade.value
        return found

    @cached_property
    def variance(self) -> Any:
        """The variances of the measured values; infinite if a number wasn't measured."""
        import numpy

        found = numpy.full(self.size, numpy.inf)
        for flow in self.problem.flows:
            if flow.measured:
                found[self.columns[flow.name, flow.only]] = flow.measured.variance / self.scale**2
        for key, grade in self.problem.grades.items():
            found[self.columns[key]] = grade.variance
        return found

    @cached_property
    def is_measured(self) -> Any:
        """Which numbers were measured."""
        import numpy

        return numpy.isfinite(self.measured)

    @cached_property
    def names(self) -> list[tuple[str, str]]:
        """What each equation balances: a component, or nothing for mass, and a node or a stream."""
        nodes = self.problem.balanced_nodes
        balances = [
            (component, node) for component in ("", *self.problem.components) for node in nodes
        ]
        return balances + [("closure", stream) for stream in sorted(self.problem.closed)]

    @cached_property
    def _parts(self) -> tuple[list[tuple[int, int, float]], list[tuple[int, int, int, float]]]:
        """The terms: equation, column, factor; and equation, column, column, factor."""
        problem, grades = self.problem, self.problem.grades
        linear = [(row, column, sign) for row, column, sign in problem.incidence()]
        products: list[tuple[int, int, int, float]] = []
        nodes = len(problem.balanced_nodes)

        def carries(row: int, stream: str, component: str, sign: float) -> None:
            column = self.columns[stream, component]
            if (stream, component) in grades:
                products.append((row, self.columns[stream, ""], column, sign))
            else:
                linear.append((row, column, sign))

        for number, component in enumerate(problem.components, 1):
            for row, column, sign in problem.incidence(component):
                carries(number * nodes + row, problem.flows[column].name, component, sign)
        first = (1 + len(problem.components)) * nodes
        for row, stream in enumerate(sorted(problem.closed), first):
            linear.append((row, self.columns[stream, ""], -1.0))
            for component in problem.components:
                carries(row, stream, component, 1.0)
        return linear, products

    @cached_property
    def _linear(self) -> Any:
        import numpy
        from scipy.sparse import csr_array

        linear = self._parts[0]
        rows, columns, factors = zip(*linear) if linear else ((), (), ())
        shape = (len(self.names), self.size)
        return csr_array((numpy.array(factors, float), (rows, columns)), shape=shape)

    @cached_property
    def _products(self) -> tuple[Any, Any, Any, Any]:
        import numpy

        products = numpy.array(self._parts[1], float).reshape(-1, 4)
        rows, first, second = (products[:, at].astype(int) for at in range(3))
        return rows, first, second, products[:, 3]

    def residual(self, vector: Any) -> Any:
        """Return by how much each equation doesn't hold."""
        import numpy

        rows, first, second, factors = self._products
        found = self._linear @ vector
        numpy.add.at(found, rows, factors * vector[first] * vector[second])
        return found

    def jacobian(self, vector: Any) -> Any:
        """Return the derivatives of the equations, as a sparse matrix."""
        import numpy
        from scipy.sparse import csr_array

        rows, first, second, factors = self._products
        values = numpy.concatenate([factors * vector[second], factors * vector[first]])
        places = (numpy.concatenate([rows, rows]), numpy.concatenate([first, second]))
        return csr_array(self._linear + csr_array((values, places), shape=self._linear.shape))

    def curvature(self, multipliers: Any) -> Any:
        """Return the second derivatives of the equations, weighted by their multipliers."""
        import numpy
        from scipy.sparse import csr_array

        rows, first, second, factors = self._products
        values = factors * multipliers[rows]
        places = (numpy.concatenate([first, second]), numpy.concatenate([second, first]))
        return csr_array(
            (numpy.concatenate([values, values]), places), shape=(self.size, self.size)
        )
