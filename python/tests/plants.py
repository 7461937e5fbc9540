"""Random plants with true flows and grades, and a second solver for them at 50 digits.

    python3 python/tests/plants.py COUNT [SEED]      compares the package with the second solver
    python3 python/tests/plants.py coverage COUNT    how often the truth lies within 1 and 2 deviations
    python3 python/tests/plants.py speed             processor seconds of 300 streams and 5 components

The second solver is Newton's method on all conditions of the minimum, dense, in mpmath; the
standard deviations are those of the inverse of its matrix without second derivatives.
"""

from __future__ import annotations

import math
import random
import sys
import time
import warnings
from collections.abc import Iterator
from dataclasses import dataclass
from pathlib import Path
from typing import Any

import numpy

sys.path.insert(0, str(Path(__file__).resolve().parents[1]))
from plantbal.balance import Flow, Known, Measured, Problem, Solution, solve  # noqa: E402
from plantbal.balance.solve import NoMinimum  # noqa: E402
from plantbal.balance.table import recoveries_of, table_lines  # noqa: E402
from plantbal.faults import Fault  # noqa: E402

ERROR = 0.02


@dataclass(frozen=True)
class Plant:
    """A plant as it is: streams with their ends, flows, and grades."""

    ends: list[tuple[str, str, str]]
    flows: dict[str, float]
    grades: dict[tuple[str, str], float]

    def problem(self, rng: random.Random, metered: float, assayed: float) -> Problem:
        """Return what is measured of it, with errors."""
        flows, grades = [], {}
        for name, start, end in self.ends:
            true, measured = self.flows[name], None
            if rng.random() < metered or name == "S0":
                measured = Measured(rng.gauss(true, ERROR * true), (ERROR * true) ** 2)
            flows.append(Flow(name, start, end, measured))
        for key, true in self.grades.items():
            if rng.random() < assayed:
                found = max(1e-9, rng.gauss(true, ERROR * true))
                grades[key] = Measured(found, (ERROR * true) ** 2)
        components = list(dict.fromkeys(component for _, component in self.grades))
        return Problem(flows, components, grades)


def ends_of(rng: random.Random, nodes: list[str]) -> list[tuple[str, str, str]]:
    """Return the ends of streams: each node is fed, and leads on or out; some lead back."""
    pairs = []
    for at, node in enumerate(nodes):
        pairs.append((nodes[rng.randrange(at)] if at and rng.random() < 0.8 else "env", node))
    for at, node in enumerate(nodes):
        if rng.random() < 0.3 or all(start != node for start, _ in pairs):
            later = nodes[at + 1 :]
            pairs.append((node, rng.choice(later) if later and rng.random() < 0.3 else "env"))
    for _ in range(len(nodes) // 4):
        pairs.append(tuple(rng.sample(nodes, 2)))  # type: ignore[arg-type]
    return [(f"S{at}", start, end) for at, (start, end) in enumerate(pairs)]


def through(
    nodes: list[str],
    ends: list[tuple[str, str, str]],
    part: dict[str, float],
    fed: dict[str, float],
) -> dict[str, float]:
    """Return what each stream carries if each node sends the parts of what it gets on."""
    place = {node: at for at, node in enumerate(nodes)}
    matrix, right = numpy.eye(len(nodes)), numpy.zeros(len(nodes))
    for name, start, end in ends:
        if start == "env":
            right[place[end]] += fed[name]
        elif end != "env":
            matrix[place[end], place[start]] -= part[name]
    got = numpy.linalg.solve(matrix, right)
    return {
        name: fed[name] if start == "env" else float(got[place[start]]) * part[name]
        for name, start, _ in ends
    }


def parts_of(
    rng: random.Random, ends: list[tuple[str, str, str]], low: float, high: float
) -> dict[str, float]:
    """Return which part of what a node gets each stream carries on."""
    sizes = {name: rng.uniform(low, high) for name, _, _ in ends}
    total: dict[str, float] = {}
    for name, start, _ in ends:
        total[start] = total.get(start, 0.0) + sizes[name]
    return {name: sizes[name] / total[start] for name, start, _ in ends}


def plants(rng: random.Random, most: int, components: int) -> Iterator[Plant]:
    """Yield random plants of at most that many nodes."""
    while True:
        nodes = [f"N{at}" for at in range(rng.randint(1, most))]
        ends = ends_of(rng, nodes)
        fed = {name: rng.uniform(200, 1000) for name, start, _ in ends if start == "env"}
        flows = through(nodes, ends, parts_of(rng, ends, 0.2, 1), fed)
        grades = {}
        for number in range(rng.randint(1, components)):
            inside = {name: fed[name] * rng.uniform(0.01, 0.1) for name in fed}
            carried = through(nodes, ends, parts_of(rng, ends, 0.2, 2), inside)
            grades |= {(name, f"c{number}"): carried[name] / flows[name] for name in flows}
        if min(flows.values()) > 1 and max(flows.values()) < 1e5 and max(grades.values()) < 0.2:
            yield Plant(ends, flows, grades)


def joined(rng: random.Random, streams: int, components: int) -> Plant:
    """Return a plant of at least that many streams: lines that one feed splits to, and one tailing."""
    ends, flows, grades = [], {}, {}
    total, inside = 0.0, [0.0] * components
    for number, line in enumerate(plants(rng, 12, components)):
        if len(line.grades) != components * len(line.flows):
            continue
        for name, start, end in line.ends:
            own = f"L{number}{name}"
            first = "SPLIT" if start == "env" else f"L{number}{start}"
            last = "TAILS" if end == "env" else f"L{number}{end}"
            ends.append((own, first, last))
            flows[own] = line.flows[name]
            for at in range(components):
                grades[own, f"c{at}"] = line.grades[name, f"c{at}"]
            if start == "env":
                total += line.flows[name]
                inside = [
                    sum_ + line.flows[name] * line.grades[name, f"c{at}"]
                    for at, sum_ in enumerate(inside)
                ]
        if len(ends) >= streams - 2:
            break
    ends += [("S0", "env", "SPLIT"), ("OUT", "TAILS", "env")]
    for name in ("S0", "OUT"):
        flows[name] = total
        grades |= {(name, f"c{at}"): part / total for at, part in enumerate(inside)}
    return Plant(ends, flows, grades)


class Conditions:
    """All conditions of the minimum, at 50 digits: at a place, with the multipliers there.

    Parameters
    ----------
    found : Solution
        The minimum that the package found: its equations are taken, and the bounds that hold.
    """

    def __init__(self, found: Solution) -> None:
        from mpmath import mp, mpf

        mp.dps = 50
        system, self.active = found.system, list(found.active)
        self.linear, self.products = system._parts
        self.count = system.size
        self.rows = len(system.names) + len(self.active)
        self.first_bound = len(system.names)
        loose = [not known for known in Known(found).is_determined]
        # what nothing determines is held by so little that it counts for nothing else
        self.hold = [mpf(10) ** -9 if each else mpf(0) for each in loose]
        self.weight = [mpf(0) if math.isinf(v) else 1 / mpf(float(v)) for v in system.variance]
        self.wanted = [mpf(0) if math.isnan(v) else mpf(float(v)) for v in system.measured]

    def at(self, place: list[Any], begin: list[Any], second: bool) -> tuple[Any, list[Any]]:
        """Return the matrix of the conditions, by its entries, and by how much they don't hold."""
        from mpmath import mpf

        entries: dict[tuple[int, int], Any] = {}
        count, off = self.count, [mpf(0)] * (self.count + self.rows)
        for j in range(count):
            entries[j, j] = self.weight[j] + self.hold[j]
            off[j] = self.weight[j] * (place[j] - self.wanted[j])
            off[j] += self.hold[j] * (place[j] - begin[j])

        def put(row: int, column: int, factor: Any) -> None:
            for key in ((count + row, column), (column, count + row)):
                entries[key] = entries.get(key, 0) + factor
            off[column] += factor * place[count + row]

        for row, j, factor in self.linear:
            put(row, j, mpf(factor))
            off[count + row] += factor * place[j]
        for row, j, k, factor in self.products:
            put(row, j, factor * place[k])
            put(row, k, factor * place[j])
            off[count + row] += factor * place[j] * place[k]
            for key in ((j, k), (k, j)) if second else ():
                entries[key] = entries.get(key, 0) + factor * place[count + row]
        for row, bound in enumerate(self.active, self.first_bound):
            off[count + row] -= mpf(bound.limit)
            for j, factor in bound.terms:
                put(row, j, mpf(factor))
                off[count + row] += factor * place[j]
        return entries, off

    def factored(self, entries: Any) -> tuple[Any, Any, Any]:
        """Return a matrix with rows and columns of about 1, their scales, and its factors."""
        from scipy.linalg import lu_factor

        size = self.count + self.rows
        dense, scale = numpy.zeros((size, size), numpy.longdouble), numpy.ones(size)
        for (row, column), value in entries.items():
            dense[row, column] = float(value)
        if not numpy.isfinite(dense.astype(float)).all():
            raise ArithmeticError("the second solver goes to infinity")
        for _ in range(4):
            step = 1 / numpy.sqrt(numpy.maximum(abs(dense).max(axis=1).astype(float), 1e-300))
            dense, scale = dense * step[:, None] * step, scale * step
        return dense, scale, lu_factor(dense.astype(float))

    def solved(self, entries: Any, right: list[Any]) -> list[Any]:
        """Solve linear equations to 30 digits: by factors in floats, refined at 50 digits."""
        from mpmath import mpf
        from scipy.linalg import lu_solve

        _, scale, factors = self.factored(entries)
        by_row: list[list[tuple[int, Any]]] = [[] for _ in right]
        for (row, column), value in entries.items():
            by_row[row].append((column, value))

        def size_of(values: list[Any]) -> float:
            return max(abs(float(value)) * factor for value, factor in zip(values, scale))

        answer, left, begun = [mpf(0)] * len(right), right, size_of(right)
        now = begun
        while now > begun * 1e-30:
            guess = lu_solve(factors, [float(v / mpf(now)) * f for v, f in zip(left, scale)])
            step = [mpf(float(g * f)) * mpf(now) for g, f in zip(guess, scale)]
            answer = [one + other for one, other in zip(answer, step)]
            left = [
                value - sum((factor * answer[column] for column, factor in parts), mpf(0))
                for value, parts in zip(right, by_row)
            ]
            before, now = now, size_of(left)
            if not now < before / 2:
                raise ZeroDivisionError("an equation follows from others")
        return answer

    def deviations(self, entries: Any) -> list[float]:
        """Return the roots of the inverse's diagonal: in floats, refined with more digits."""
        from scipy.linalg import lu_solve

        dense, scale, factors = self.factored(entries)
        units = numpy.eye(len(scale))[:, : self.count]
        inverse = lu_solve(factors, units).astype(numpy.longdouble)
        for _ in range(4):
            left = units - dense @ inverse
            if not abs(left).max() < 1e6:
                raise ZeroDivisionError("an equation follows from others")
            inverse = inverse + lu_solve(factors, left.astype(float))
        if not abs(units - dense @ inverse).max() < 1e-9:
            raise ZeroDivisionError("an equation follows from others")
        own = numpy.diag(inverse).astype(float) * scale[: self.count] ** 2
        return [float(value) for value in numpy.sqrt(numpy.abs(own))]


def reference(found: Solution, begin: list[float]) -> tuple[Any, Any]:
    """Return the numbers of the minimum and their deviations, by the second solver.

    Parameters
    ----------
    found : Solution
        What the package found.
    begin : list of float
        Where the search begins: not where the package ended.
    """
    from mpmath import mpf

    conditions = Conditions(found)
    count = conditions.count
    start = [mpf(float(v)) for v in begin]
    place = [*start, *[mpf(0)] * conditions.rows]
    for _ in range(60):
        entries, off = conditions.at(place, start, True)
        step = conditions.solved(entries, [-value for value in off])
        place = [one + other for one, other in zip(place, step)]
        if max(abs(value) for value in step[:count]) < mpf(10) ** -40:
            break
    else:
        raise ArithmeticError("the second solver ends nowhere")
    for row, bound in enumerate(conditions.active, conditions.first_bound):
        assert place[count + row] <= mpf(10) ** -9, bound.said  # it pulls the right way
    conditions.hold = [mpf(10) ** -8 if each else each for each in conditions.hold]
    entries, _ = conditions.at(place, start, False)
    return place[:count], conditions.deviations(entries)


@dataclass
class Compared:
    """What came of random plants.

    Attributes
    ----------
    number, deviation : float
        The greatest difference of numbers, in parts of the scale, and of deviations, as a part.
    same, near, other, left : int
        How many plants have the same minimum from the truth; from near it, since Newton's method
        alone goes elsewhere from the truth; not at all; and equations that follow from others.
    streams : int
        The most streams of a plant.
    endless : int
        How many plants have no minimum, since their squares fall without an end.
    """

    number: float = 0.0
    deviation: float = 0.0
    same: int = 0
    near: int = 0
    other: int = 0
    left: int = 0
    streams: int = 0
    endless: int = 0

    def take(self, found: Solution, begin: list[float]) -> None:
        """Compare a plant."""
        known = Known(found)
        sure = [int(j) for j in numpy.flatnonzero(known.is_determined)]
        nudged = [float(value) * (1 + 1e-3 * (-1) ** at) for at, value in enumerate(found.vector)]
        for is_near, start in enumerate((begin, nudged)):
            try:
                numbers, deviations = reference(found, start)
            except ZeroDivisionError:
                self.left += 1
                return
            except (ArithmeticError, AssertionError):
                continue
            off = max(abs(float(numbers[j]) - float(found.vector[j])) for j in sure)
            if off <= 1e-4:
                break
        else:
            self.other += 1
            return
        self.near += is_near
        self.same += 1 - is_near
        self.number = max(self.number, off)
        self.streams = max(self.streams, len(found.system.problem.flows))
        for j in sure:
            true = float(deviations[j])
            # a figure that a bound holds has no error but rounding
            off = abs(known.deviation({j: 1.0}) - true)
            self.deviation = max(self.deviation, off / true if true > 1e-9 else off)


def begin_of(plant: Plant, found: Solution) -> list[float]:
    """Return the true numbers of a plant: where the second solver begins."""
    system = found.system
    truth = numpy.zeros(system.size)
    for (name, component), column in system.columns.items():
        flow = plant.flows[name]
        grade = plant.grades.get((name, component), 0.0)
        if not component:
            truth[column] = flow / system.scale
        elif (name, component) in system.problem.grades:
            truth[column] = grade
        else:
            truth[column] = flow * grade / system.scale
    return [float(value) for value in truth]


def compared(
    count: int, seed: int, most: int = 5, components: int = 3, streams: int = 40
) -> Compared:
    """Compare random plants of at most that many nodes, components and streams."""
    rng = random.Random(seed)
    result = Compared()
    for plant in plants(rng, most, components):
        if result.same + result.near + result.other >= count:
            break
        if len(plant.flows) > streams:
            continue
        try:
            problem = plant.problem(rng, rng.uniform(0.4, 0.9), rng.uniform(0.5, 0.95))
        except Fault:
            continue  # too few assays of a component
        try:
            found = solve(problem)
        except NoMinimum:
            result.endless += 1
            continue
        result.take(found, begin_of(plant, found))
    return result


# A concentrator as it is: tonnes and copper of a day, by hand, so that all balances hold. Copper in
# tonnes: 216 in the feed, 25.2 in the tailings, 190.8 in the concentrate.
CONCENTRATOR = [
    # stream, from, to, tonnes, copper in tonnes, error of its meter, error of its assay
    ("ORE", "env", "CRUSHER", 24600, 221.4, 0.005, 0.03),
    ("CRUSHED", "CRUSHER", "HEAP", 24600, 221.4, 0, 0),
    ("FEED", "HEAP", "MILL", 24000, 216.0, 0.005, 0),
    ("PULP", "MILL", "ROUGHER", 24000, 216.0, 0.015, 0.02),
    ("RGH_CONC", "ROUGHER", "CLEANER", 1900, 182.4, 0, 0.02),
    ("RGH_TAIL", "ROUGHER", "SCAVENGER", 23600, 51.6, 0, 0.02),
    ("SCAV_CONC", "SCAVENGER", "CLEANER", 320, 26.4, 0, 0.02),
    ("SCAV_TAIL", "SCAVENGER", "TAILS", 23280, 25.2, 0, 0.02),
    ("CLN_CONC", "CLEANER", "THICKENER", 720, 190.8, 0.02, 0.01),
    ("CLN_TAIL", "CLEANER", "ROUGHER", 1500, 18.0, 0, 0.02),
    ("UNDERFLOW", "THICKENER", "FILTER", 720, 190.8, 0, 0),
    ("CAKE", "FILTER", "STOCK", 720, 190.8, 0.01, 0.01),
    ("TAILINGS", "TAILS", "env", 23280, 25.2, 0.02, 0.03),
    ("SHIPPED", "STOCK", "env", 640, 169.6, 0.002, 0.01),
]


def concentrator(rng: random.Random | None) -> Problem:
    """Return a month of the concentrator with errors; without a source of them as it is."""

    def read(true: float, part: float) -> Measured:
        sd = part * true
        return Measured(rng.gauss(true, sd) if rng else true, sd**2)

    flows, grades = [], {}
    for name, start, end, tonnes, copper, meter, assay in CONCENTRATOR:
        flows.append(Flow(name, start, end, read(tonnes, meter) if meter else None))
        if assay:
            grades[name, "cu"] = read(copper / tonnes, assay)
    flows += [Flow(name, name, "env", either_way=True) for name in ("HEAP", "STOCK")]
    return Problem(flows, ["cu"], grades)


def coverage(count: int, seed: int) -> dict[str, tuple[float, float, int]]:
    """Return how often flows, grades and recoveries lie within 1 and 2 deviations of the truth.

    Each kind comes with the parts, and with how many figures a month has of it.
    """
    rng = random.Random(seed)
    true = {name: (tonnes, copper) for name, _, _, tonnes, copper, _, _ in CONCENTRATOR}
    off: dict[str, list[float]] = {"flows": [], "grades": [], "recoveries": []}
    for _ in range(count):
        known = Known(solve(concentrator(rng)))
        found = known.solution
        for name, (tonnes, copper) in true.items():
            off["flows"].append((found.flow(name) - tonnes) / known.flow_deviation(name))
            sd = known.grade_deviation(name, "cu")
            off["grades"].append((found.grade(name, "cu") - copper / tonnes) / sd)
        for part in recoveries_of(known, ["FEED"]):
            wanted = true[part.stream][1] / true["FEED"][1]
            off["recoveries"].append((part.part - wanted) / part.sd)
    return {
        kind: (
            sum(abs(one) <= 1 for one in some) / len(some),
            sum(abs(one) <= 2 for one in some) / len(some),
            len(some) // count,
        )
        for kind, some in off.items()
    }


def speed(seed: int = 1) -> tuple[int, float]:
    """Return how many streams a plant of 5 components has, and its processor seconds."""
    rng = random.Random(seed)
    problem = joined(rng, 300, 5).problem(rng, 0.6, 0.6)
    begin = time.process_time()
    list(table_lines(Known(solve(problem))))
    return len(problem.flows), time.process_time() - begin


if __name__ == "__main__":
    if sys.argv[1:2] == ["speed"]:
        print("streams, processor seconds:", speed())
    elif sys.argv[1:2] == ["coverage"]:
        print("within 1 and 2 deviations, figures a month:", coverage(int(sys.argv[2]), 1))
    else:
        warnings.simplefilter("ignore")  # a matrix without an inverse is told apart
        count, seed = int(sys.argv[1]), int((sys.argv + ["1"])[2])
        print(compared(count, seed, most=22, components=4))
