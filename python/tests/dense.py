"""The ± of an account's totals by dense algebra, from workbooks and reports alone.

All months are one linear model. Its sources are the dips, each of which closes one month and opens
the next, and the tickets. Each month's reconciliation is a dense matrix, by a pseudo-inverse, from
what was measured to the flows. So each total is a row of numbers, one for each source, and its
variance is the sum of their squares times the sources' variances. Nothing of the package computes
here: accounts, errors and dips are those that the workbooks of `months` have.
"""

from __future__ import annotations

import csv
from collections import defaultdict
from collections.abc import Iterable
from dataclasses import dataclass, field
from pathlib import Path

import numpy
from books import Sheets
from months import month_days

Row = dict[str, str]
Rows = dict[str, numpy.ndarray]
# By the level of an account, its name, and a line.
Lines = dict[tuple[str, str, str], numpy.ndarray]


def records(rows: list[list[str]]) -> list[Row]:
    return [dict(zip(rows[0], map(str, row))) for row in rows[1:]]


@dataclass
class Dense:
    """The totals of months as rows of numbers.

    Parameters
    ----------
    plant : dict of str to rows
        The workbook of the plant.
    dip_error : dict of str to float
        The error of a dip of each tank, in tonnes.
    months : list of dict of str to rows
        The workbooks of the months.
    reports : Path
        The folder of their reports.
    """

    plant: Sheets
    dip_error: dict[str, float]
    months: list[Sheets]
    reports: Path
    sources: dict[object, int] = field(default_factory=dict)
    errors: list[float] = field(default_factory=list)

    def __post_init__(self) -> None:
        self.accounts = {row["name"]: row for row in records(self.plant["accounts"])}
        self.dips: dict[str, list[str]] = defaultdict(list)
        for month in self.months:
            for row in records(month["dips"]):
                self.dips[row["tank"]].append(row["day"])
                self._source(("dip", row["tank"], row["day"]), self.dip_error[row["tank"]])
            for row in records(month["tickets"]):
                source = month["periods"][1][0], row["stream"]
                self._source(source, float(row["error"].removesuffix(" t")))

    def _source(self, source: object, error: float) -> None:
        self.sources[source] = len(self.errors)
        self.errors.append(error)

    def of(self, source: object) -> numpy.ndarray:
        """A source as a row."""
        found = self._nothing()
        found[self.sources[source]] = 1
        return found

    def deviation(self, row: numpy.ndarray) -> float:
        """The standard deviation of a row, in grams."""
        return float(((row * self.errors) ** 2).sum() ** 0.5) * 1e6

    def _dips_of(self, tank: str, name: str) -> tuple[numpy.ndarray, numpy.ndarray]:
        """The dips that open and close a month."""
        last = max(day for day in self.dips[tank] if day <= str(month_days(name)[1]))
        before = max(day for day in self.dips[tank] if day < last)
        return self.of(("dip", tank, before)), self.of(("dip", tank, last))

    def reconciled(self, name: str) -> tuple[list[Row], dict[str, numpy.ndarray], Rows]:
        """A report's streams, and their measured values and flows as rows."""
        lines = (self.reports / f"{name}.csv").read_text().splitlines()
        heads = ("what", "name", "from", "to", "value", "variance")
        streams = [dict(zip(heads, row)) for row in csv.reader(lines) if row[0] == "stream"]
        values: dict[str, numpy.ndarray] = {}
        for row in streams:
            if row["name"] == row["from"]:
                opens, closes = self._dips_of(row["name"], name)
                values[row["name"]] = closes - opens
            elif row["value"]:
                values[row["name"]] = self.of((name, row["name"]))
        nodes = sorted({row[end] for row in streams for end in ("from", "to")} - {"env"})
        n, m = len(streams), len(nodes)
        balance, weight = numpy.zeros((m, n)), numpy.zeros((n, n))
        measured = numpy.zeros((n, len(self.errors)))
        for at, row in enumerate(streams):
            for end, sign in (("from", -1), ("to", 1)):
                if row[end] != "env":
                    balance[nodes.index(row[end]), at] += sign
            if row["name"] in values:
                measured[at] = values[row["name"]]
                weight[at, at] = 1 / self.deviation(measured[at]) ** 2 * 1e12
        system = numpy.block([[weight, balance.T], [balance, numpy.zeros((m, m))]])
        slopes = numpy.linalg.pinv(system, rcond=1e-13)[:n, :n] @ weight @ measured
        return streams, values, {row["name"]: slopes[at] for at, row in enumerate(streams)}

    def totals(self) -> list[tuple[Lines, Rows]]:
        """For each month the lines of all accounts, and the closing stocks of its tanks."""
        found: list[tuple[Lines, Rows]] = []
        closing: Rows = {}
        for at, month in enumerate(self.months):
            name = month["periods"][1][0]
            lines: Lines = defaultdict(self._nothing)
            streams, values, flows = self.reconciled(name)
            there = {row["name"] for row in streams if row["name"] == row["from"]}
            booked, closing = closing, {}
            for tank in sorted(there | set(booked)):
                dip = self._dips_of(tank, name)[0] if tank in there else self._nothing()
                before = booked.get(tank, dip if not at else 0 * dip)
                self._put(lines, tank, "opening stock", before)
                self._put(lines, tank, "stock adjustment", dip - before)
                if tank in there:
                    closing[tank] = dip + flows[tank]
                    self._put(lines, tank, "closing stock", closing[tank])
                    self._put(lines, tank, "unaccounted", -values[tank])
            for row in streams:
                if row["name"] not in there:
                    self._flow(lines, row, there, flows[row["name"]], values.get(row["name"]))
            found.append((lines, closing))
        return found

    def _nothing(self) -> numpy.ndarray:
        return numpy.zeros(len(self.errors))

    def _put(self, lines: Lines, name: str, line: str, row: numpy.ndarray) -> None:
        """Add a row to a line of the accounts that a stream or tank is in."""
        account = self.accounts[name]
        for level, title in self._levels(account):
            lines[level, title, line] = lines[level, title, line] + row

    def _levels(self, account: Row) -> Iterable[tuple[str, str]]:
        group = account["group"] or account["product"]
        return ("plant", ""), ("product group", group), ("product", account["product"])

    def _flow(
        self,
        lines: Lines,
        row: Row,
        tanks: set[str],
        flow: numpy.ndarray,
        value: numpy.ndarray | None,
    ) -> None:
        """Add a stream to the lines of the accounts that it is in."""
        kind, name = self.accounts[row["name"]]["kind"], row["name"]
        words = {"receipt": "receipts", "shipment": "shipments"}
        left = 0 * flow if kind == "loss" and value is None else flow if value is None else value
        for end, sign in (("from", 1), ("to", -1)):
            if row[end] == "env":
                self._put(lines, name, words.get(kind, kind), sign * flow)
                self._put(lines, name, "unaccounted", sign * left)
            elif row[end] not in tanks:
                self._put(lines, name, "production" if sign > 0 else "processed", sign * flow)
                for level, title in list(self._levels(self.accounts[name]))[1:]:
                    key = level, title, "unaccounted"
                    lines[key] = lines[key] + sign * left
