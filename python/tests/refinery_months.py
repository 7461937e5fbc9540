"""Months of a refinery as it is: true flows, and what its meters, tickets and dips say of them.

    python3 python/tests/refinery_months.py COUNT [SEED]     says what stops each of so many plausible months
    python3 python/tests/refinery_months.py mistakes COUNT   says how many of each mistake are stopped

Units stand still for days, modes change, ships come when a tank is full, a line is used now and
then, a tank is emptied for inspection, amounts are in whole or in tenths of tonnes, and one meter's
figure is a contract's. Nothing of it is a mistake, so nothing of it may stop a close but what the
month itself says: days missing, estimates, a test that rejects.
"""

from __future__ import annotations

import datetime
import random
import sys
from collections import Counter, defaultdict
from collections.abc import Callable
from dataclasses import dataclass, field
from pathlib import Path

sys.path.insert(0, str(Path(__file__).resolve().parents[1]))
from plantbal.gates import Gate, Stop, by_session, said_of_stop  # noqa: E402
from plantbal.model.ledger import Ledger  # noqa: E402

UNITS = "CDU VDU FCC HDS REF GAS FUEL".split()
# Each tank with its full content in tonnes; a table has 10 t to the millimetre of a full 20,000.
TANKS = {
    "T_CRUDE": 200_000,
    "T_NAPH": 60_000,
    "T_KERO": 40_000,
    "T_LGO": 70_000,
    "T_VGO": 80_000,
    "T_VRES": 60_000,
    "T_GASO": 80_000,
    "T_LCO": 20_000,
    "T_DIES": 80_000,
    "T_LPG": 4_000,
}
TOP = 20_000
# name, from, to, kind, share of what leaves its unit or comes from its tank
STREAMS = """\
CRUDE_IN env T_CRUDE batch
CRUDE T_CRUDE CDU metered
STEAM env CDU metered
SOUR CDU env metered .012
LPG_C CDU GAS metered .03
NAPHTHA CDU T_NAPH metered .18
KERO CDU T_KERO metered .10
LGO CDU T_LGO metered .228
RESID CDU VDU plain .45
VGO VDU T_VGO metered .6
VRES VDU T_VRES plain .4
VGO_F T_VGO FCC metered
FCC_G FCC T_GASO metered .55
LCO FCC T_LCO metered .22
COKE FCC env metered .05
FCC_OFF FCC GAS plain .18
NAPH_F T_NAPH REF metered
REFORMATE REF T_GASO metered .85
H2 REF HDS metered .03
REF_OFF REF FUEL plain .12
LGO_F T_LGO HDS metered
DIESEL HDS T_DIES metered .95
H2S HDS env metered .02
HDS_OFF HDS FUEL metered .03
LPG GAS T_LPG metered .4
TAILGAS GAS FUEL plain .6
IMPORT env FUEL metered
FUEL_USED FUEL env metered 1
KERO_SHIP T_KERO env batch
GASO_SHIP T_GASO env batch
DIES_SHIP T_DIES env batch
LCO_SHIP T_LCO env batch
FUEL_OIL T_VRES env batch
LPG_TRUCK T_LPG env batch
"""
FEEDS = {"VGO_F": 5_400.0, "NAPH_F": 3_700.0, "LGO_F": 4_700.0}
ORDER = ("CDU", "VDU", "FCC", "REF", "HDS", "GAS", "FUEL")


@dataclass
class Stream:
    """A stream as it is declared, and the part of its unit's outflow that it carries."""

    name: str
    start: str
    end: str
    kind: str
    part: float = 0.0


def streams() -> dict[str, Stream]:
    """The streams of the refinery."""
    found = {}
    for line in STREAMS.splitlines():
        name, start, end, kind, *part = line.split()
        found[name] = Stream(name, start, end, kind, float(part[0]) if part else 0.0)
    return found


@dataclass
class Month:
    """What is booked of a month, in grams and millimetres; a mistake changes it.

    Attributes
    ----------
    first : date
        Its first day.
    days : int
        How many days it has.
    streams : dict of str to Stream
        The plant.
    readings : dict of str to list of int
        The readings of each meter, a day each.
    tickets : list of (str, int, int)
        The stream, the number of the day and the amount of each ticket.
    dips : dict of str to list of int
        The levels of each tank, from the evening before the first day on.
    """

    first: datetime.date
    days: int
    streams: dict[str, Stream]
    readings: dict[str, list[int]] = field(default_factory=lambda: defaultdict(list))
    tickets: list[tuple[str, int, int]] = field(default_factory=list)
    dips: dict[str, list[int]] = field(default_factory=lambda: defaultdict(list))

    def day(self, at: int) -> str:
        """A day of it; -1 is the evening before."""
        return str(self.first + datetime.timedelta(at))


class Refinery:
    """The refinery from day to day.

    Parameters
    ----------
    seed : int
        From which all is drawn.
    """

    def __init__(self, seed: int) -> None:
        self.rng = random.Random(seed)
        self.streams = streams()
        self.content = {tank: full * self.rng.uniform(0.3, 0.7) for tank, full in TANKS.items()}
        self.is_whole = {name: self.rng.random() < 0.3 for name in self.streams}
        self.is_contract = self.rng.random() < 0.2
        self.bias = {name: self.rng.gauss(0, 0.004) for name in self.streams}
        self.crude = 19_000.0
        self.still: dict[str, int] = {}

    def month(self, first: datetime.date, days: int = 30) -> Month:
        """Run it for a month."""
        made = Month(first, days, {name: each for name, each in self.streams.items()})
        self._plan(days)
        self._dip(made)
        for at in range(days):
            self._run(made, at)
            self._dip(made)
        return made

    def _plan(self, days: int) -> None:
        """Draw which unit stands still, which product isn't made, which tank is emptied."""
        rng = self.rng
        self.off = rng.choice(["FCC", "REF", "HDS", "", "", ""])
        begin = rng.randrange(days)
        self.off_days = range(begin, begin + rng.randint(2, 8))
        self.mode = rng.choice(["KERO", "LCO", "", "", ""])
        begin = rng.randrange(days)
        self.mode_days = range(begin, begin + rng.randint(2, 6))
        self.emptied = rng.choice(["T_LCO", "T_KERO", "", "", "", "", "", ""])
        self.empty_from = rng.randrange(3, days)

    def _run(self, made: Month, at: int) -> None:
        """Run a day, and read its meters."""
        rng, flow = self.rng, dict.fromkeys(self.streams, 0.0)
        self.crude += 0.2 * (19_000 - self.crude) + rng.gauss(0, 400)
        flow["CRUDE"], flow["STEAM"] = self.crude, 240.0 if self.is_contract else 240 + rng.gauss(
            0, 6
        )
        flow["IMPORT"] = rng.uniform(50, 120) if rng.random() < 0.3 else 0.0
        for name, usual in FEEDS.items():
            tank, unit = self.streams[name].start, self.streams[name].end
            fill = self.content[tank] / TANKS[tank]
            idle = unit == self.off and at in self.off_days
            flow[name] = (
                0.0 if idle else usual * min(1.3, max(0.5, 0.5 + fill)) * rng.gauss(1, 0.02)
            )
        for unit in ORDER:
            self._unit(unit, flow, at)
        self._trade(made, flow, at)
        for name, each in self.streams.items():
            for tank, sign in ((each.end, 1), (each.start, -1)):
                if tank in TANKS:
                    self.content[tank] += sign * flow[name]
            if each.kind == "metered":
                made.readings[name].append(self._read(name, flow[name]))

    def _unit(self, unit: str, flow: dict[str, float], at: int) -> None:
        """Split what comes into a unit on what leaves it."""
        total = sum(flow[name] for name, each in self.streams.items() if each.end == unit)
        parts = {
            name: each.part * self.rng.gauss(1, 0.02)
            for name, each in self.streams.items()
            if each.start == unit
        }
        if self.mode in parts and at in self.mode_days:
            parts[self.mode] = 0.0
        for name, part in parts.items():
            flow[name] = total * part / sum(parts.values())

    def _trade(self, made: Month, flow: dict[str, float], at: int) -> None:
        """Load and unload ships and trucks by how full the tanks are."""
        for name, each in self.streams.items():
            if each.kind != "batch":
                continue
            tank = each.end if each.start == "env" else each.start
            full, content = TANKS[tank], self.content[tank]
            amount = 0.0
            if each.start == "env":
                amount = 0.4 * full if content < 0.35 * full else 0.0
            elif content > 0.65 * full or (name == "LPG_TRUCK" and content > 0.3 * full):
                amount = content * (0.2 if name == "LPG_TRUCK" else 0.6)
            if tank == self.emptied and at >= self.empty_from:
                amount = content * 0.97
            if amount:
                flow[name] = amount
                made.tickets.append((name, at, round(amount * self.rng.gauss(1, 0.001) * 1e6)))

    def _read(self, name: str, flow: float) -> int:
        """Read a meter."""
        if name == "STEAM" and self.is_contract:
            return 240_000_000
        seen = flow * (1 + self.bias[name]) * self.rng.gauss(1, 0.006)
        return (
            round(seen) * 10**6
            if self.is_whole[name]
            else round(seen, 1).__trunc__() * 10**6 + (round(seen * 10) % 10) * 10**5
        )

    def _dip(self, made: Month) -> None:
        """Dip all tanks."""
        for tank, full in TANKS.items():
            mm = self.content[tank] * TOP / full + self.rng.gauss(0, 1.5)
            made.dips[tank].append(min(TOP, max(0, round(mm))))


def session_of(months: list[Month], asked: int = -1) -> bytes:
    """The session of months that follow each other, with the report of one."""
    last = months[asked]
    rows = [f"unit,{unit}" for unit in UNITS] + [f"tank,{tank},1" for tank in TANKS]
    for tank, full in TANKS.items():
        rows += [f"strap,{tank},0,0", f"strap,{tank},{TOP},{full * 10**6}"]
    for name, each in last.streams.items():
        base = "" if each.kind == "plain" else "1"
        rows.append(f"stream,{name},{each.start},{each.end},{each.kind},{base or 0}")
    rows += [
        f"critical,global,{dof},{round(1000 * (dof + 3 * dof**0.5 + 3))}" for dof in range(1, 25)
    ]
    names = [f"m{at}" for at in range(len(months))]
    for name, month in zip(names, months):
        rows.append(f"period,{name},{month.day(0)},{month.day(month.days - 1)}")
    for at, month in enumerate(months):
        for name, amounts in month.readings.items():
            for day, grams in enumerate(amounts):
                variance = max(int((abs(grams) * 0.015) ** 2), 10**11)
                rows.append(
                    f"reading,{name}_{month.day(day)},{name},{month.day(day)},{grams},{variance}"
                )
        for number, (name, day, grams) in enumerate(month.tickets):
            variance = max(int((abs(grams) * 0.002) ** 2), 10**11)
            on = month.day(day)
            rows.append(f"transfer,k{at}_{number},{name},{on},{on},{grams},{variance}")
        for tank, levels in month.dips.items():
            variance = int((3 * TANKS[tank] / TOP * 1e6) ** 2)
            for day, mm in enumerate(levels):
                if at == 0 or day:
                    on = month.day(day - 1)
                    rows.append(f"dip,{tank}_{on},{tank},{on},{mm},1000000,{variance}")
    return ("\n".join([*rows, f"report,{names[asked]}", ""])).encode()


def months_of(seed: int, count: int = 1) -> list[Month]:
    """Some months of a refinery that follow each other."""
    refinery = Refinery(seed)
    first = datetime.date(2025, 1, 1)
    found = []
    for _ in range(count):
        days = 31 if first.month in (1, 3, 5, 7, 8, 10, 12) else 28 if first.month == 2 else 30
        found.append(refinery.month(first, days))
        first += datetime.timedelta(days)
    return found


def stops_of(months: list[Month]) -> list[Stop]:
    """What stops the close of the last of some months."""
    return list(by_session(Ledger("session", session_of(months))))


# ---- mistakes

Mistake = Callable[[Month, random.Random], None]


def level_in_metres(month: Month, rng: random.Random) -> None:
    """The closing level of a tank that nothing checks, as if metres were millimetres."""
    month.dips["T_VRES"][-1] //= 1000


def levels_in_metres(month: Month, rng: random.Random) -> None:
    """All levels but the first of that tank, in metres."""
    month.dips["T_VRES"][1:] = [mm // 1000 for mm in month.dips["T_VRES"][1:]]


def digit_of_dip(month: Month, rng: random.Random) -> None:
    """A digit of that tank's closing level is lost."""
    month.dips["T_VRES"][-1] //= 10


def reversed_stream(month: Month, rng: random.Random) -> None:
    """A stream without a meter leads the other way."""
    name = rng.choice(["RESID", "VRES", "FCC_OFF", "TAILGAS", "REF_OFF"])
    each = month.streams[name]
    month.streams[name] = Stream(name, each.end, each.start, "plain")


def forgotten_stream(month: Month, rng: random.Random) -> None:
    """The stream without a meter that feeds a unit is left out."""
    del month.streams["RESID"]


def frozen_meter(month: Month, rng: random.Random) -> None:
    """A meter stuck for six days."""
    name = rng.choice(["CRUDE", "NAPHTHA", "LGO", "VGO"])
    begin = rng.randrange(1, month.days - 6)
    month.readings[name][begin : begin + 6] = [month.readings[name][begin - 1]] * 6


def dead_meter(month: Month, rng: random.Random) -> None:
    """The crude's meter says 0 for four days."""
    begin = rng.randrange(month.days - 4)
    month.readings["CRUDE"][begin : begin + 4] = [0] * 4


def negative_day(month: Month, rng: random.Random) -> None:
    """A day's reading has the wrong sign."""
    name, day = rng.choice(["CRUDE", "NAPHTHA", "LGO", "VGO"]), rng.randrange(month.days)
    month.readings[name][day] *= -1


def row_copied(month: Month, rng: random.Random) -> None:
    """The row of a day is copied down."""
    day = rng.randrange(1, month.days)
    for amounts in month.readings.values():
        amounts[day] = amounts[day - 1]


def copied_meter(month: Month, rng: random.Random) -> None:
    """A column is copied over another."""
    month.readings["SOUR"] = list(month.readings["LPG_C"])


MISTAKES: dict[Mistake, set[Gate]] = {
    level_in_metres: {Gate.TANK_RANGE},
    levels_in_metres: {Gate.TANK_RANGE, Gate.TANK_JUMP},
    digit_of_dip: {Gate.TANK_JUMP, Gate.TANK_RANGE},
    reversed_stream: {Gate.NEGATIVE_FLOW},
    forgotten_stream: {Gate.NEGATIVE_FLOW},
    frozen_meter: {Gate.FROZEN},
    dead_meter: {Gate.ZERO},
    negative_day: {Gate.NEGATIVE},
    row_copied: {Gate.FROZEN},
    copied_meter: {Gate.COPY},
}


def main(words: list[str]) -> None:
    """Try many months."""
    if words[:1] == ["mistakes"]:
        for mistake, gates in MISTAKES.items():
            told = 0
            for seed in range(int(words[1])):
                months = months_of(seed, 1 + seed % 3)
                mistake(months[-1], random.Random(seed))
                told += bool(gates & {stop.gate for stop in stops_of(months)})
            print(f"{mistake.__name__}: {told} of {words[1]}")
        return
    count, seed = int(words[0]), int((words[1:] or ["0"])[0])
    found: Counter[Gate] = Counter()
    for each in range(seed, seed + count):
        for stop in stops_of(months_of(each, 1 + each % 3)):
            found[stop.gate] += 1
            print(f"{each}: {stop.gate}: {said_of_stop(stop)}")
    print(f"{count} months: {dict(found) or 'nothing'}")


if __name__ == "__main__":
    main(sys.argv[1:])
