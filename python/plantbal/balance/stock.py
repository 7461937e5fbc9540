"""The grade of what a tank or a heap holds: what it held before, and what it gained.

With M tonnes of the grade c before, a gain of g tonnes that carries G of the component makes
M + g tonnes of the grade (M c + G) / (M + g). The errors of what it held are taken as independent
of those of the period. Nothing in a period says what was there before: that has to be said.
"""

from __future__ import annotations

import math
from collections.abc import Iterable, Iterator, Sequence
from dataclasses import dataclass

from plantbal.balance.known import Class, Known
from plantbal.balance.problem import Measured
from plantbal.balance.reading import GRAMS, MILLION
from plantbal.balance.table import BalanceLine, FigureUnit
from plantbal.faults import Fault
from plantbal.workbook.cells import Reader
from plantbal.workbook.sheets import Cell, Sheet

_SUCH = "use --held STOCK=12000t,1% for tonnes, and --held STOCK:cu=26.2%,1% for a grade"
Held = dict[tuple[str, str], Measured]


@dataclass(frozen=True)
class HeldStock:
    """What a tank holds after a period.

    Attributes
    ----------
    tank, component : str
        The tank, and a component of it.
    tonnes, tonnes_sd : float
        What it holds.
    grade, grade_sd : float
        Its grade, as a fraction.
    """

    tank: str
    component: str
    tonnes: float
    tonnes_sd: float
    grade: float
    grade_sd: float


def held_of(texts: Sequence[str], known: Known) -> Held:
    """Return what tanks held before, by texts such as ``STOCK=12000t,1%`` and ``STOCK:cu=26%,1%``.

    Raises
    ------
    Fault
        If a text can't be read, or names no tank or component of the period.
    """
    problem, reader = known.system.problem, Reader("en")
    tanks = [flow.name for flow in problem.flows if flow.either_way]
    found: Held = {}
    for text in texts:
        name, _, figure = text.partition("=")
        tank, _, component = name.partition(":")
        value, _, error = figure.partition(",")
        if tank not in tanks:
            there = ", ".join(tanks) or "none"
            raise Fault(f"there is no tank {tank}", text=text, remedy=f"there are {there}")
        if component and component not in problem.components:
            there = ", ".join(problem.components)
            raise Fault(f"no grade of {component} is known", text=text, remedy=f"there are {there}")
        cells = [
            Cell(Sheet("", "", [], is_csv=True), 0, 0, each.strip()) for each in (value, error)
        ]
        try:
            if component:
                grade = reader.grade(cells[0])
                amount, sd = float(grade), float(reader.grade_error(cells[1], grade))
                scale = MILLION
            else:
                grams, own = reader.grams(cells[0], "t", None), reader.error(cells[1])
                amount, sd, scale = grams, max(float(own.share) * grams, float(own.grams)), GRAMS
        except Fault as fault:
            raise Fault(fault.what, text=text, remedy=_SUCH) from fault
        if not (amount >= 0 and sd > 0) or (component and amount > MILLION):
            raise Fault(f"{figure} can't be what {tank} held", text=text, remedy=_SUCH)
        found[tank, component] = Measured(amount / scale, (sd / scale) ** 2)
    return found


def stocks_of(known: Known, held: Held) -> Iterator[HeldStock]:
    """Yield what is known of the tanks' grades after the period.

    Raises
    ------
    Fault
        If a tank would hold less than nothing.
    """
    problem, found = known.system.problem, known.solution
    for (tank, component), before in sorted(held.items()):
        mass = held.get((tank, ""))
        kinds = (known.class_of(tank), known.class_of(tank, component))
        if not component or mass is None or Class.UNOBSERVABLE in kinds:
            continue
        sign = 1.0 if problem.flows[problem.place[tank]].start == tank else -1.0
        tonnes = mass.value + sign * found.flow(tank)
        if not tonnes > 0:
            what = f"{tank} held {mass.value:,.3f} t and lost {-sign * found.flow(tank):,.3f} t"
            raise Fault(what, remedy="look at what it is said to have held, and at what it gave")
        inside = mass.value * before.value + sign * found.carried(tank, component)
        grade = inside / tonnes
        flow = known.gradient(tank)
        slopes = {column: -sign * grade * each / tonnes for column, each in flow.items()}
        for column, each in known.carried_gradient(tank, component).items():
            slopes[column] = slopes.get(column, 0.0) + sign * each / tonnes
        parts = (
            known.deviation(slopes),
            (before.value - grade) / tonnes * math.sqrt(mass.variance),
            mass.value / tonnes * math.sqrt(before.variance),
        )
        tonnes_sd = math.hypot(math.sqrt(mass.variance), known.deviation(flow))
        yield HeldStock(tank, component, tonnes, tonnes_sd, grade, math.hypot(*parts))


def lines_of_stocks(stocks: Iterable[HeldStock]) -> Iterator[BalanceLine]:
    """Yield stocks as lines of a table: their tonnes, and below them the grades."""
    last, none = "", float("nan")
    for stock in stocks:
        name = f"stock of {stock.tank}"
        figures = [(stock.component, FigureUnit.PART, stock.grade, stock.grade_sd)]
        if name != last:
            figures.insert(0, ("", FigureUnit.TONNES, stock.tonnes, stock.tonnes_sd))
        for component, unit, value, sd in figures:
            yield BalanceLine(name, component, unit, Class.OBSERVABLE, none, none, value, sd, none)
        last = name


def unknown_stocks(known: Known, held: Held) -> list[str]:
    """Return the tanks and components whose stock's grade isn't known, since what was there isn't."""
    problem = known.system.problem
    return [
        f"{component} in {flow.name}"
        for flow in problem.flows
        if flow.either_way
        for component in problem.components
        if component not in problem.ratios
        and not {(flow.name, ""), (flow.name, component)} <= held.keys()
    ]
