"""Months of made plants as workbooks: a refinery of 25 tanks, and a copper concentrator.

True flows are drawn by lot and balance; what is read of them has errors of the size that is said.
A tank of the refinery is emptied and leaves service in February, another comes into service.
"""

from __future__ import annotations

import calendar
import datetime
import random
from dataclasses import dataclass, field
from pathlib import Path

from books import Rows, Sheets, folder

DAY = datetime.timedelta(1)
# Products of the refinery: their groups, densities in kg/m3, numbers of tanks, and units of sale.
PRODUCTS = {
    "crude": ("crude", 860, 6, "bbl"),
    "naphtha": ("light", 720, 4, "m3"),
    "kerosene": ("middle", 800, 4, "m3"),
    "diesel": ("middle", 840, 6, "m3"),
    "fuel_oil": ("heavy", 950, 5, "t"),
}
OUT_OF_SERVICE, INTO_SERVICE = "crude6", "diesel6"
LEAVES, COMES = datetime.date(2024, 2, 20), datetime.date(2024, 2, 10)
MM = 20_000  # a tank's height; a mm holds 2 m3


def month_days(month: str) -> tuple[datetime.date, datetime.date]:
    """The first and the last day of a month."""
    first = datetime.date.fromisoformat(f"{month}-01")
    return first, first.replace(day=calendar.monthrange(first.year, first.month)[1])


def tanks_of(product: str) -> list[str]:
    return [f"{product}{at + 1}" for at in range(PRODUCTS[product][2])]


def critical(most: int) -> Rows:
    """Critical values at 0.05 for any number of degrees of freedom."""
    from scipy.stats import chi2

    values = [["global", str(dof), f"{chi2.ppf(0.95, dof):.3f}"] for dof in range(1, most + 1)]
    return [["test", "dof", "value"], *values, ["measure", "", "12.0"]]


@dataclass
class Refinery:
    """A refinery that goes from month to month.

    Attributes
    ----------
    rng : Random
        Draws its flows and errors.
    held : dict of str to float
        What its tanks hold in truth, in tonnes.
    """

    rng: random.Random = field(default_factory=lambda: random.Random(59))
    held: dict[str, float] = field(default_factory=dict)

    def plant(self) -> Sheets:
        """The sheets of the plant, with the accounts."""
        streams: Rows = [["stream", "from", "to", "kind", "error", "since", "until"]]
        tanks: Rows = [["tank", "error", "density", "since", "until"]]
        straps: Rows = [["tank", "level", "volume"]]
        accounts: Rows = [["name", "kind", "product", "group", "owner", "unit", "density"]]
        for product, (group, density, _, unit) in PRODUCTS.items():
            sold = [unit, str(density) if unit != "t" else ""]
            for tank in tanks_of(product):
                since = str(COMES) if tank == INTO_SERVICE else ""
                until = str(LEAVES) if tank == OUT_OF_SERVICE else ""
                tanks.append([tank, "3 mm", str(density), since, until])
                straps += [[tank, "0", "0"], [tank, str(MM), str(2 * MM)]]
                accounts.append([tank, "", product, group, self._owner(product, "stock"), *sold])
                for name, ends, kind, what in self._streams_of(product, tank):
                    streams.append([name, *ends, "batch", "0.3 %", since, until])
                    owner = self._owner(product, what)
                    accounts.append([name, what, product, group, owner, *sold])
        for name, what, kind, error in (
            ("FUEL_GAS", "own use", "batch", "2 %"),
            ("FLARE", "flare", "batch", "30 t"),
            ("SLOPS_LOST", "loss", "plain", ""),
        ):
            streams.append([name, "UNITS", "env", kind, error, "", ""])
            accounts.append(
                [
                    name,
                    what,
                    "gas" if name != "SLOPS_LOST" else "lost",
                    "gas and loss",
                    "by receipts",
                    "",
                    "",
                ]
            )
        return {
            "streams": streams,
            "tanks": tanks,
            "straps": straps,
            "accounts": accounts,
            "critical": critical(60),
        }

    def _owner(self, product: str, what: str) -> str:
        if what == "receipt":
            return "Alpha 60 %; Beta 40 %"
        if what == "stock":
            return "Alpha 1/3; Beta 2/3"
        return "by stock" if product == "crude" else "by receipts"

    def _streams_of(self, product: str, tank: str) -> list[tuple[str, list[str], str, str]]:
        if product == "crude":
            return [
                (f"SHIP_{tank}", ["env", tank], "batch", "receipt"),
                (f"FEED_{tank}", [tank, "UNITS"], "batch", "internal"),
            ]
        return [
            (f"RUN_{tank}", ["UNITS", tank], "batch", "production"),
            (f"LIFT_{tank}", [tank, "env"], "batch", "shipment"),
        ]

    def month(self, month: str) -> Sheets:
        """The tickets and dips of a month."""
        first, last = month_days(month)
        dips: Rows = []
        tickets: Rows = [["id", "stream", "first", "last", "amount", "error"]]

        def book(
            name: str, true: float, error: float, begin: datetime.date, end: datetime.date
        ) -> None:
            seen = max(0.0, self.rng.gauss(true, error))
            tickets.append(
                [f"{month}-{name}", name, str(begin), str(end), f"{seen:.3f}", f"{error:.3f} t"]
            )

        fed = 0.0
        there = {}
        for product, tanks in ((product, tanks_of(product)) for product in PRODUCTS):
            for tank in tanks:
                begin = max(first, COMES) if tank == INTO_SERVICE else first
                end = min(last, LEAVES) if tank == OUT_OF_SERVICE else last
                if begin <= end:
                    there[tank] = (product, begin, end)
                    if tank not in self.held:
                        self.held[tank] = (
                            0.0 if tank == INTO_SERVICE else self.rng.uniform(8000, 20000)
                        )
                        dips.append(self._dip(tank, product, begin - DAY, self.held[tank]))
        for tank, (product, begin, end) in there.items():
            if product == "crude":
                came = self.rng.uniform(10_000, 15_000)
                feed = self.held[tank] + came if end == LEAVES else self.rng.uniform(9_000, 14_000)
                fed += feed
                self.held[tank] += came - feed
                book(f"SHIP_{tank}", came, 0.003 * came, begin, end)
                book(f"FEED_{tank}", feed, 0.003 * feed, begin, end)
        others = [tank for tank, (product, _, _) in there.items() if product != "crude"]
        gas, flare, lost = 0.04 * fed, 0.002 * fed, 0.003 * fed
        part = (fed - gas - flare - lost) / len(others)
        for tank in others:
            product, begin, end = there[tank]
            lift = min(self.held[tank] + part - 500, part * self.rng.uniform(0.6, 1.3))
            self.held[tank] += part - lift
            book(f"RUN_{tank}", part, 0.003 * part, begin, end)
            book(f"LIFT_{tank}", lift, 0.003 * lift, begin, end)
        book("FUEL_GAS", gas, 0.02 * gas, first, last)
        book("FLARE", flare, 30, first, last)
        for tank, (product, _, end) in there.items():
            dips.append(self._dip(tank, product, end, self.held[tank]))
        return {
            "periods": [["name", "first", "last"], [month, str(first), str(last)]],
            "tickets": tickets,
            "dips": [["tank", "day", "level"], *dips],
        }

    def _dip(self, tank: str, product: str, day: datetime.date, held: float) -> list[str]:
        density = PRODUCTS[product][1] / 1000
        mm = held / density / 2 + (self.rng.gauss(0, 3) if held else 0)
        return [tank, str(day), str(max(0, round(mm)))]


def concentrator(month: str, rng: random.Random) -> Sheets:
    """A copper concentrator's month: ore from a heap, concentrate to a store, tailings."""
    first, last = month_days(month)
    ore, grade = rng.uniform(190_000, 210_000), rng.uniform(0.026, 0.03)
    amounts = {
        "MINED": ore * rng.uniform(0.95, 1.05),
        "FEED": ore,
        "CONC": ore * grade,
        "TAILS": ore * (1 - grade),
        "TRUCKS": ore * grade * rng.uniform(0.9, 1.0),
    }
    errors = {"MINED": 0.01, "FEED": 0.005, "CONC": 0.005, "TAILS": 0.012, "TRUCKS": 0.001}
    tickets: Rows = [["id", "stream", "first", "last", "amount", "error"]]
    for name, true in amounts.items():
        error = errors[name] * true
        seen = rng.gauss(true, error)
        tickets.append(
            [f"{month}-{name}", name, str(first), str(last), f"{seen:.3f}", f"{error:.3f} t"]
        )
    return {
        "periods": [["name", "first", "last"], [month, str(first), str(last)]],
        "tickets": tickets,
        "_": [[amounts["MINED"] - ore, amounts["CONC"] - amounts["TRUCKS"]]],
    }


def concentrator_plant() -> Sheets:
    """Its plant, with the accounts."""
    return {
        "streams": [
            ["stream", "from", "to", "kind", "error"],
            ["MINED", "env", "HEAP", "batch", "1 %"],
            ["FEED", "HEAP", "MILL", "batch", "0.5 %"],
            ["CONC", "MILL", "STORE", "batch", "0.5 %"],
            ["TAILS", "MILL", "env", "batch", "2 %"],
            ["TRUCKS", "STORE", "env", "batch", "0.1 %"],
        ],
        "tanks": [
            ["tank", "error", "density"],
            ["HEAP", "2600 t", "1600"],
            ["STORE", "40 t", "2000"],
        ],
        "straps": [
            ["tank", "level", "volume"],
            ["HEAP", "0", "0"],
            ["HEAP", "100000", "1000000"],
            ["STORE", "0", "0"],
            ["STORE", "100000", "100000"],
        ],
        "critical": critical(6),
        "accounts": [
            ["name", "kind", "product", "group", "owner", "unit", "density"],
            ["HEAP", "", "ore", "ore", "", "dmt", ""],
            ["STORE", "", "concentrate", "", "", "dmt", ""],
            ["MINED", "receipt", "ore", "ore", "", "dmt", ""],
            ["FEED", "internal", "ore", "ore", "", "dmt", ""],
            ["CONC", "production", "concentrate", "", "", "dmt", ""],
            ["TAILS", "shipment", "tailings", "", "", "dmt", ""],
            ["TRUCKS", "shipment", "concentrate", "", "", "dmt", ""],
        ],
    }


def concentrator_months(months: list[str], seed: int = 3) -> list[Sheets]:
    """Months of the concentrator, with surveys of its stocks."""
    rng, held = random.Random(seed), {"HEAP": 140_000.0, "STORE": 4_000.0}
    grams_a_mm = {"HEAP": 16.0, "STORE": 2.0}  # tonnes a mm
    error, found = {"HEAP": 2600, "STORE": 40}, []
    for at, month in enumerate(months):
        first, last = month_days(month)
        sheets = concentrator(month, rng)
        gains = dict(zip(held, sheets.pop("_")[0]))
        dips = [["tank", "day", "level"]]
        for tank in held:
            for day in ([first - DAY] if not at else []) + [last]:
                held[tank] += gains[tank] if day == last else 0
                seen = rng.gauss(held[tank], error[tank])
                dips.append([tank, str(day), str(round(seen / grams_a_mm[tank]))])
        found.append(sheets | {"dips": dips})
    return found


def write(room: Path, name: str, sheets: Sheets) -> Path:
    """Write a workbook as a folder of CSV files."""
    return folder(room / name, sheets)
