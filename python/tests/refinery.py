"""A refinery's months, made up day by day: 14 units, 25 tanks, 82 streams, tickets and daily dips.

Flows are drawn first, so that all balances hold; then meters, tickets and dips get their errors. A
mistake is put into the month before its session is written.
"""

from __future__ import annotations

import datetime
import random
from bisect import bisect_right
from collections.abc import Callable
from dataclasses import dataclass, field, replace
from functools import cache

from plantbal.study.critical import chi_squared_thousandths, of_each

FIRST = datetime.date(2024, 3, 1)
DAYS = 31
# name, from, to, kind; of a unit's product the part of its feed, else t a day (a ticket's stream:
# the days between tickets too)
STREAMS = """
CRUDE_1 env T101 batch 60000 20
CRUDE_2 env T102 batch 60000 20
CRUDE_3 env T103 batch 60000 20
CRUDE_4 env T104 batch 60000 20
CHG_1 T101 CDU metered 3000
CHG_2 T102 CDU metered 3000
CHG_3 T103 CDU metered 3000
CHG_4 T104 CDU metered 3000
LPG_CDU CDU T501 metered .02
SRN CDU T201 metered .16
KERO CDU T301 metered .12
LGO CDU T303 metered .14
HGO CDU DHT plain .09
RES CDU VDU metered .455
CDU_GAS CDU FGAS plain .015
VGO VDU T401 metered .55
VRES VDU T404 metered .43
VSLOP VDU T307 metered .02
FCC_F T401 FCC metered 1800
HCK_F T401 HCK metered 1200
VB_F T404 VBK metered 2340
NAP T201 NHT metered 2000
NAP_X T201 T202 metered 310
HN NHT REF metered .6
LN NHT ISOM metered .39
NHT_GAS NHT FGAS plain .01
REFORMATE REF T203 metered .82
LPG_REF REF T501 metered .08
H2 REF H2N metered .05
REF_GAS REF FGAS plain .05
H2_D H2N DHT metered .34
H2_H H2N HCK metered .6
H2_X H2N FGAS plain .06
ISOMERATE ISOM T204 metered .97
ISOM_GAS ISOM FGAS plain .03
KFEED T301 KHT metered 1440
JET_R KHT T302 metered .99
KHT_GAS KHT FGAS plain .01
LGO_F T303 DHT metered 1670
DIES_A DHT T306 metered .97
DHT_GAS DHT FGAS plain .02
DHT_S DHT SRU plain .01
SULPHUR SRU T503 metered .9
TAILGAS SRU env metered .1
HCK_D HCK T306 metered .6
HCK_N HCK T201 metered .25
UCO HCK T307 metered .13
HCK_GAS HCK FGAS plain .02
FCC_G FCC T205 metered .48
PROP FCC T502 metered .06
LCO_R FCC T305 metered .18
SLURRY FCC T403 metered .08
LPG_FCC FCC T501 metered .12
FCC_GAS FCC FGAS metered .02
COKE FCC env plain .06
VISRES VBK T405 metered .85
VB_GO VBK T307 metered .09
VB_N VBK T201 metered .04
VBK_GAS VBK FGAS plain .02
ALK_F T501 ALK metered 300
ALKYLATE ALK T206 metered .95
ALK_GAS ALK FGAS plain .05
FUEL FGAS env metered 1
R7 T203 T207 metered 500
R8 T203 T208 metered 480
I7 T204 T207 metered 755
G7 T205 T207 metered 430
G8 T205 T208 metered 434
A7 T206 T207 metered 285
LCO T305 T306 metered 324
MOG1_S T207 env batch 19700 10
MOG2_S T208 env batch 914 1
JET_S T302 env batch 1425 1
DIES_SHIP T306 env batch 27200 9
DIES_TRUCK T306 env batch 710 1
HEAT_S T307 env batch 476 1
FO_S T403 env batch 1010 7
BITUMEN T405 env batch 13900 7
SULPH_S T503 env batch 175 7
PROP_S T502 env batch 325 3
LPG_S T501 env batch 252 1
NAP_S T202 env batch 4650 15
"""
# g/m3 of what a tank holds
DENSITIES = {
    "T101": 862_000, "T102": 862_000, "T103": 871_000, "T104": 871_000, "T201": 712_000,
    "T202": 705_000, "T203": 798_000, "T204": 650_000, "T205": 741_000, "T206": 697_000,
    "T207": 746_000, "T208": 752_000, "T301": 795_000, "T302": 801_000, "T303": 846_000,
    "T305": 934_000, "T306": 838_000, "T307": 859_000, "T401": 915_000, "T403": 1_012_000,
    "T404": 985_000, "T405": 1_021_000, "T501": 552_000, "T502": 514_000, "T503": 1_800_000,
}  # fmt: skip
TANKS = list(DENSITIES)
TOP = 16_000  # mm of a tank that is full
# Standard deviations: of a day's reading, of a ticket, and of a dip in millimetres.
METER, TICKET, DIP = 0.007, 0.001, 2.0


@dataclass(frozen=True)
class Stream:
    """A stream of the refinery."""

    name: str
    start: str
    end: str
    kind: str
    size: float
    every: int = 1


@cache
def streams() -> dict[str, Stream]:
    """The streams by their names."""
    rows = (line.split() for line in STREAMS.split("\n") if line)
    found = (Stream(*row[:4], float(row[4]), *map(int, row[5:])) for row in rows)
    return {each.name: each for each in found}


@cache
def _order() -> list[str]:
    """The units, each after those that feed it."""
    units = {each.start for each in streams().values()} - {"env", *TANKS}
    done: list[str] = []
    while len(done) < len(units):
        for unit in sorted(units - set(done)):
            feeds = {each.start for each in streams().values() if each.end == unit}
            if feeds & units <= set(done):
                done.append(unit)
    return done


@dataclass(frozen=True)
class Ticket:
    """A ticket: its stream, its day from 0 on, and tonnes."""

    stream: str
    day: int
    tonnes: float


@dataclass
class Month:
    """What is written down of a month.

    `readings` are tonnes by stream and day (0 is the first), `dips` levels in mm and densities by
    tank and day (-1 is the day before the first), `tables` the tanks' points.
    """

    readings: dict[tuple[str, int], float]
    tickets: list[Ticket]
    dips: dict[tuple[str, int], tuple[int, int]]
    tables: dict[str, list[tuple[int, int]]]
    ends: dict[str, tuple[str, str]] = field(default_factory=dict)

    def content(self, tank: str, mm: int, density: int) -> float:
        """What a tank holds at a level, in tonnes."""
        table = self.tables[tank]
        place = min(len(table) - 1, bisect_right(table, mm, key=lambda point: point[0]))
        (low, below), (high, above) = table[place - 1], table[place]
        ml = below + (mm - low) * (above - below) / (high - low)
        return ml * density / 1e12

    def _rows_of_plant(self) -> list[str]:
        rows = [f"unit,{unit}" for unit in _order()]
        for tank in TANKS:
            rows.append(f"tank,{tank},1000000")
            rows += [f"strap,{tank},{mm},{ml}" for mm, ml in self.tables[tank]]
        for each in streams().values():
            start, end = self.ends.get(each.name, (each.start, each.end))
            base = 0 if each.kind == "plain" else 1_000_000
            rows.append(f"stream,{each.name},{start},{end},{each.kind},{base}")
        last = FIRST + datetime.timedelta(DAYS - 1)
        rows += [
            f"critical,global,{dof},{chi_squared_thousandths(0.05, dof)}" for dof in range(1, 40)
        ]
        rows += [
            f"critical,{kind},{chi_squared_thousandths(of_each(0.05, count), 1)}"
            for kind, count in (("nodal", 27), ("measure", 50))
        ]
        return [*rows, f"period,2024-03,{FIRST},{last}"]

    def session(self, dips: bool = True) -> bytes:
        """The session; without daily dips those at the ends of the month alone."""
        rows = self._rows_of_plant()
        for (name, day), tonnes in self.readings.items():
            rows.append(f"reading,{name}_{day},{name},{_date(day)},{_grams(tonnes, METER)}")
        for number, each in enumerate(self.tickets):
            day = _date(each.day)
            values = _grams(each.tonnes, TICKET)
            rows.append(f"transfer,{each.stream}-{number},{each.stream},{day},{day},{values}")
        for (tank, day), (mm, density) in self.dips.items():
            if dips or day in (-1, DAYS - 1):
                slope = self.content(tank, mm + 1, density) - self.content(tank, mm, density)
                variance = round((DIP * slope * 1e6) ** 2) + 1
                rows.append(f"dip,{tank}_{day}d,{tank},{_date(day)},{mm},{density},{variance}")
        return "".join(f"{row}\n" for row in [*rows, "report,2024-03"]).encode()


def _date(day: int) -> str:
    return (FIRST + datetime.timedelta(day)).isoformat()


def _grams(tonnes: float, part: float) -> str:
    """An amount in grams, with its variance."""
    return f"{round(tonnes * 1e6)},{round((part * tonnes * 1e6) ** 2) + 10_000}"


def _flows(rng: random.Random) -> list[dict[str, float]]:
    """The true flows of each day, in tonnes; of tickets' streams what is shipped then."""
    found = []
    offset = {name: rng.randrange(each.every) for name, each in streams().items()}
    for day in range(DAYS):
        level = rng.uniform(0.93, 1.05)
        flow: dict[str, float] = {}
        for name, each in streams().items():
            if each.kind == "batch":
                ships = (day + offset[name]) % each.every == 0
                flow[name] = each.size * rng.uniform(0.93, 1.04) if ships else 0.0
            elif each.start in TANKS:
                flow[name] = each.size * level * rng.uniform(0.95, 1.05)
        for unit in _order():
            feed = sum(flow[name] for name, each in streams().items() if each.end == unit)
            some = [each for each in streams().values() if each.start == unit]
            parts = [each.size * rng.uniform(0.97, 1.03) for each in some]
            for each, part in zip(some, parts):
                flow[each.name] = feed * part / sum(parts)
        found.append(flow)
    return found


def _contents(rng: random.Random, flows: list[dict[str, float]], tank: str) -> list[float]:
    """What a tank holds at the end of each day, the day before the first one among them; and in
    the end what it holds if it is full."""
    total = [0.0]
    for flow in flows:
        gain = sum(
            (each.end == tank) * flow[name] - (each.start == tank) * flow[name]
            for name, each in streams().items()
        )
        total.append(total[-1] + gain)
    rise = max(total) - min(total)
    least = rise * rng.uniform(0.15, 0.3) + 50
    return [part - min(total) + least for part in total] + [rise * 1.25 + least + 50]


def month_of(number: int, meter: float = METER) -> Month:
    """Return the month of a number, without a mistake.

    Parameters
    ----------
    number : int
        The number: the same one gives the same month.
    meter : float
        The standard deviation of the readings, as a part of them.
    """
    rng = random.Random(number)
    flows = _flows(rng)
    month = Month({}, [], {}, {})
    for tank, density in DENSITIES.items():
        *contents, full = _contents(rng, flows, tank)
        cubic = full * 1e6 / density  # of a full tank; a table of five points that bends a little
        points = [(part, part + 0.04 * part * (1 - part)) for part in (0, 0.1, 0.3, 0.6, 1)]
        table = [(round(TOP * part), round(cubic * 1e6 * bent)) for part, bent in points]
        month.tables[tank] = table
        own = round(density * rng.uniform(0.998, 1.002))
        for day, tonnes in enumerate(contents, -1):
            level = _level(table, tonnes * 1e12 / own) + rng.gauss(0, DIP)
            month.dips[tank, day] = min(TOP, max(0, round(level))), own
    for name, each in streams().items():
        for day, flow in enumerate(flows):
            if each.kind == "metered":
                month.readings[name, day] = flow[name] * (1 + rng.gauss(0, meter))
            elif each.kind == "batch" and flow[name]:
                tonnes = flow[name] * (1 + rng.gauss(0, TICKET))
                month.tickets.append(Ticket(name, day, tonnes))
    return month


def _level(table: list[tuple[int, int]], ml: float) -> float:
    """The level at which a table has that much."""
    place = min(len(table) - 1, max(1, bisect_right(table, ml, key=lambda point: point[1])))
    (low, below), (high, above) = table[place - 1], table[place]
    return low + (ml - below) * (high - low) / (above - below)


def copy_of(month: Month) -> Month:
    """A copy, to put a mistake into."""
    tickets, tables = list(month.tickets), {key: list(some) for key, some in month.tables.items()}
    return Month(dict(month.readings), tickets, dict(month.dips), tables, dict(month.ends))


# What puts a mistake into a month.
Change = Callable[[Month], None]


def scaled(month: Month, name: str, factor: float, since: int = 0, until: int = DAYS) -> None:
    """Take the readings of a stream from one day on, and before another, by a factor."""
    for day in range(since, until):
        month.readings[name, day] *= factor


def retyped(month: Month, stream: str, number: int, factor: float) -> Ticket:
    """Take a ticket of a stream by a factor, and return it as it was."""
    places = [at for at, each in enumerate(month.tickets) if each.stream == stream]
    ticket = month.tickets[places[number]]
    month.tickets[places[number]] = replace(ticket, tonnes=ticket.tonnes * factor)
    return ticket
