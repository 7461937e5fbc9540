"""Where a component goes: what each stream carries of it in each period, and its recovery.

A balance gives what each stream carries; the share of what came in is the recovery of a product.
What is known answers to each assay by the balance, and to each meter by the report whose flows the
balance takes; with both, each figure has its standard deviation.
"""

from __future__ import annotations

from collections.abc import Iterator, Sequence
from dataclasses import dataclass

from plantbal.faults import Fault
from plantbal.report.blocks import Block, last_blocks
from plantbal.report.output import Output
from plantbal.study.uncertainty import answers_of

ENV = "env"
_NAN = float("nan")


@dataclass(frozen=True, slots=True)
class Share:
    """What a stream carries of a component in a period.

    Attributes
    ----------
    component, period, stream : str
        Of what, when and where. The period is empty if it is of all periods together.
    way : str
        ``in``, ``out``, ``gain`` of a tank, or ``within`` of a product that stays in the plant.
    grams : int or None
        How much, in grams; None if nothing determines it.
    sd : float
        The standard deviation of that, in grams; NaN without it.
    share, share_sd : float
        Which part that is of what came in, and the standard deviation of it; NaN if it isn't known.
    raw : float
        The same part by the assays as they are, before they are reconciled; NaN without them.
    grade, grade_sd : float
        What it carries as a part of its flow, and the standard deviation of that; NaN if one of
        both isn't known.
    assay, assay_sd : float
        The grade as it was assayed, and its standard deviation; NaN without an assay.
    """

    component: str
    period: str
    stream: str
    way: str
    grams: int | None
    sd: float
    share: float
    share_sd: float
    raw: float = _NAN
    grade: float = _NAN
    grade_sd: float = _NAN
    assay: float = _NAN
    assay_sd: float = _NAN

    @property
    def adjustment(self) -> float:
        """By how much the assay was adjusted, in its standard deviations; NaN without one."""
        return (self.grade - self.assay) / self.assay_sd if self.assay_sd else _NAN


class ComponentBalance:
    """A balance of a component, and how what is known of it answers to each assay and meter.

    What a stream carries is its grade times its flow as it is reported, so it answers to assays as
    the balance says, and to meters as the report's flows do, times the grades. The second holds to
    first order: weights that change with the flows count for nothing beside it.

    Parameters
    ----------
    block : Block
        A round of it.
    mass : Block, optional
        The round of the report whose flows it takes; without it these count as exact.
    feeds : sequence of str
        The streams that count as what came in; without one, those that enter the plant.
    products : sequence of str
        Streams that are wanted too, wherever they flow.

    Attributes
    ----------
    ways : dict of str to str
        How each stream crosses the plant's border: ``in``, ``out``, or ``gain`` of a tank; and of
        products ``within``.
    fed, fed_raw : float
        What came in, in grams, reconciled and by the assays alone; NaN if it isn't known.
    """

    def __init__(
        self,
        block: Block,
        feeds: Sequence[str] = (),
        products: Sequence[str] = (),
        *,
        mass: Block | None = None,
    ) -> None:
        self.block, self.mass = block, mass
        self.rows = {row["name"]: row for row in block.streams}
        ways = {name: _way(row["from"], row["to"], name) for name, row in self.rows.items()}
        ways = {name: "" if feeds and way == "in" else way for name, way in ways.items()}
        ways |= {name: ways[name] or "within" for name in products if name in ways}
        ways |= {name: "in" for name in feeds if name in ways}
        self.ways = {name: way for name, way in ways.items() if way}
        self._columns, self._answers, self._variance = answers_of(block)
        self._flows: dict[str, int] = {}
        if mass is not None:
            self._take(mass)
        self._feeds = [name for name, way in self.ways.items() if way == "in"]
        self.fed = self._sum("flow", all(name in self._columns for name in self._feeds))
        self.fed_raw = self._sum("value", all(self.rows[name]["value"] for name in self._feeds))

    def _take(self, mass: Block) -> None:
        """Take the flows and their errors: each meter is one more measurement."""
        import numpy

        columns, answers, variance = answers_of(mass)
        self._flows = {row["name"]: int(row["flow"]) for row in mass.streams}
        self._flows = {name: flow for name, flow in self._flows.items() if name in columns}
        assayed = [row for row in self.block.streams if row["value"]]
        slopes = numpy.zeros((len(variance), len(assayed)))
        for column, row in enumerate(assayed):
            flow = self._flows.get(row["name"])
            if flow:
                slopes[:, column] = answers[:, columns[row["name"]]] * (int(row["value"]) / flow)
        own = numpy.zeros((len(self._variance), answers.shape[1]))
        self._flow_answers = numpy.vstack([own, answers])
        self._flow_columns = columns
        self._answers = numpy.vstack([self._answers, slopes @ self._answers])
        self._variance = numpy.concatenate([self._variance, variance])

    def grade(self, name: str) -> tuple[float, float]:
        """Return the grade of a stream and its standard deviation; NaN if one isn't known."""
        flow = self._flows.get(name)
        if not flow or name not in self._columns:
            return _NAN, _NAN
        grade = int(self.rows[name]["flow"]) / flow
        error = self._answers[:, self._columns[name]]
        error = (error - grade * self._flow_answers[:, self._flow_columns[name]]) / flow
        return grade, float((error**2 @ self._variance) ** 0.5)

    def assay(self, name: str) -> tuple[float, float]:
        """Return the grade of a stream as it was assayed, and its standard deviation."""
        row, flow = self.rows[name], self._flows.get(name)
        if not row["value"] or not flow:
            return _NAN, _NAN
        return int(row["value"]) / flow, abs(int(row["variance"]) ** 0.5 / flow)

    @property
    def unknown(self) -> list[str]:
        """The streams that came in and that nothing determines."""
        return [name for name in self._feeds if name not in self._columns]

    def _sum(self, column: str, is_known: bool) -> float:
        """Return a column of the feeds together; NaN if it isn't known, or is 0."""
        if not is_known:
            return _NAN
        return float(sum(int(self.rows[name][column]) for name in self._feeds)) or _NAN

    def grams(self, name: str) -> int | None:
        """Return what a stream carries; None if nothing determines it."""
        return int(self.rows[name]["flow"]) if name in self._columns else None

    def deviation(self, name: str, share: float = 0.0) -> float:
        """Return the standard deviation of what a known stream carries, less a part of the feeds.

        With its share as the part it is that of the share, times what came in. A stream that isn't
        in the balance carries nothing.
        """
        known = name in self._columns
        error = self._answers[:, self._columns[name]] if known else 0.0 * self._variance
        for feed in self._feeds if share else ():
            error = error - share * self._answers[:, self._columns[feed]]
        return float((error**2 @ self._variance) ** 0.5)

    def shares(self) -> list[Share]:
        """Return what enters and what leaves, the feeds first."""
        found = []
        for name, way in self.ways.items():
            head = self.block.component, self.block.period, name, way
            grams, value = self.grams(name), self.rows[name]["value"]
            grades = *self.grade(name), *self.assay(name)
            raw = int(value) / self.fed_raw if value else _NAN
            if grams is None:
                found.append(Share(*head, None, _NAN, _NAN, _NAN, raw, *grades))
                continue
            share = grams / self.fed
            share_sd = self.deviation(name, share) / abs(self.fed) if share == share else _NAN
            sd = self.deviation(name)
            found.append(Share(*head, grams, sd, share, share_sd, raw, *grades))
        return sorted(found, key=lambda each: each.way != "in")


def _way(from_: str, to: str, name: str) -> str:
    """Return how a stream crosses the plant's border, or nothing if it doesn't."""
    if name == from_:
        return "gain"
    return "in" if from_ == ENV else "out" if to == ENV else ""


def together(balances: Sequence[ComponentBalance]) -> list[Share]:
    """Return the same of all periods of a component together; errors of periods are independent.

    A stream that isn't known in some period has no figure; one that isn't in service in a period
    carries nothing there.
    """
    ways = {name: way for balance in balances for name, way in balance.ways.items()}
    fed = sum(balance.fed for balance in balances)
    found = []
    for name, way in sorted(ways.items(), key=lambda pair: pair[1] != "in"):
        head = balances[0].block.component, "", name, way
        own = [each for each in balances if name in each.ways]
        carried = [each.grams(name) for each in own]
        if None in carried:
            found.append(Share(*head, None, _NAN, _NAN, _NAN))
            continue
        grams = sum(each or 0 for each in carried)
        sd = sum(each.deviation(name) ** 2 for each in own) ** 0.5
        share = grams / fed
        errors = [each.deviation(name, share) for each in balances if share == share]
        share_sd = sum(error**2 for error in errors) ** 0.5 / abs(fed) if errors else _NAN
        found.append(Share(*head, grams, sd, share, share_sd))
    return found


def mass_of(output: Output, balance: Block) -> Block | None:
    """Return the round of the report whose flows a balance takes; None if it isn't there.

    It is the last one of the period before the balance.
    """
    found = None
    for block in output.blocks_in_order:
        if block.number >= balance.number:
            break
        if block.is_report and block.period == balance.period and block.ended:
            found = block
    return found


def strange_gains(balance: ComponentBalance) -> Iterator[str]:
    """Give the tanks whose gain has another grade than what flows to and from them.

    The difference of what a tank holds at the ends is small beside what it holds, and so its grade
    has a wide error; only what is off by more than twice that is said.
    """
    for name, way in balance.ways.items():
        grade, sd = balance.grade(name)
        if way != "gain" or grade != grade:
            continue
        around = [
            balance.grade(row["name"])
            for row in balance.rows.values()
            if name in (row["from"], row["to"]) and row["name"] != name
        ]
        known = [each for each in around if each[0] == each[0]]
        if not known:
            continue
        low = min(value - 2 * own for value, own in known) - 2 * sd
        high = max(value + 2 * own for value, own in known) + 2 * sd
        if not low <= grade <= high:
            there = " and ".join(f"{value:.2%}" for value, _ in known)
            what = f"{balance.block.subject}: what {name} gained has {grade:.2%} ±{sd:.2%} of "
            what += f"{balance.block.component}, and what flows there has {there}"
            yield f"{what}: look at its dips, and at the assays around it"


def balances_of(output: Output, component: str = "") -> list[Block]:
    """Return the last round of the last balance of each component in each period.

    Parameters
    ----------
    output : Output
        The output.
    component : str
        The component; without it, all.

    Raises
    ------
    Fault
        If there is none.
    """
    blocks = [block for block in last_blocks(output.blocks_in_order).values() if block.component]
    there = list(dict.fromkeys(block.component for block in blocks))
    found = [block for block in blocks if component in ("", block.component)]
    if not found:
        what = f"balance of {component}" if component else "balance of a component"
        remedy = "the row component,COMPONENT,PERIOD of the session asks for one"
        remedy = f"there are balances of {', '.join(there)}" if there else remedy
        raise Fault(f"there is no {what} in what was read", text=component, remedy=remedy)
    return found


def products_of(shares: Sequence[Share], named: Sequence[str]) -> list[str]:
    """Return the products: those that are named, or the leaving stream that carries most.

    Raises
    ------
    Fault
        If a stream doesn't leave the plant.
    """
    leaving = [each for each in shares if each.way != "in"]
    for name in named:
        if name not in {each.stream for each in leaving}:
            there = ", ".join(dict.fromkeys(each.stream for each in leaving))
            what = f"{name} doesn't leave the plant"
            raise Fault(what, text=name, remedy=f"what leaves is {there or 'nothing'}")
    if named or not leaving:
        return list(dict.fromkeys(named))
    return [max(leaving, key=lambda each: each.grams or 0).stream]
