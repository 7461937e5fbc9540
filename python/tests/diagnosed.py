"""How often the right measurement is named: simulated months, beside what the textbook says.

    python3 python/tests/diagnosed.py months COUNT [SEED]    months with one error of three sizes
    python3 python/tests/diagnosed.py mistakes [SEED]        fifty mistakes in a month

A month has a biased meter, a ticket that is missing or there twice, or a wrong dip. Beside the
shares of the program stand those of theory: the power of the global test by the noncentral
chi-squared distribution, that of the test of the wrong measurement by the normal distribution, and
by draws from the distribution of what doesn't close how often the right set has the greatest test.
"""

from __future__ import annotations

import random
import sys
from collections.abc import Callable, Sequence
from dataclasses import dataclass, replace
from math import sqrt
from pathlib import Path
from typing import Any

sys.path.insert(0, str(Path(__file__).resolve().parents[1]))
sys.path.insert(0, str(Path(__file__).resolve().parent))

import numpy  # noqa: E402
from refinery import DAYS, TANKS, TOP, Month, copy_of, month_of, scaled  # noqa: E402
from scipy.stats import chi2, ncx2, norm  # noqa: E402

from plantbal.study.critical import of_each  # noqa: E402
from plantbal.diagnosis.balances import Balances  # noqa: E402
from plantbal.diagnosis.days import Days  # noqa: E402
from plantbal.diagnosis.diagnose import DiagnosedHole, told_holes  # noqa: E402
from plantbal.diagnosis.evidence import Evidence  # noqa: E402
from plantbal.diagnosis.gross import Limits, holes_of, sets_of_equals  # noqa: E402
from plantbal.diagnosis.words import told_said  # noqa: E402
from plantbal.model.ledger import Ledger  # noqa: E402
from plantbal.model.studies import Study, studies_of  # noqa: E402

KINDS = ("meter", "missing", "twice", "dip")
SIZES = ("small", "middle", "great")
LIMITS = Limits(0.05)
DRAWS = 100
# Of how many months one is looked at day by day.
DAILY = 4


@dataclass(frozen=True)
class Guilty:
    """What is wrong with a month: the measurement, by how many tonnes it is too high, and the day."""

    name: str
    tonnes: float
    day: int


def wrong(month: Month, kind: str, size: int, rng: random.Random) -> Guilty:
    """Put an error of a kind into a month."""
    if kind == "meter":
        name = rng.choice(sorted({name for name, _ in month.readings}))
        percent = (0.3, 0.6, 2.0)[size] * rng.choice((-1, 1))
        before = sum(month.readings[name, day] for day in range(DAYS))
        scaled(month, name, 1 + percent / 100)
        return Guilty(name, before * percent / 100, 0)
    if kind == "dip":
        tank = rng.choice(TANKS)
        mm, density = month.dips[tank, DAYS - 1]
        away = (60, 200, 600)[size] * (1 if mm < 8000 else -1)
        month.dips[tank, DAYS - 1] = mm + away, density
        more = month.content(tank, mm + away, density) - month.content(tank, mm, density)
        return Guilty(tank, more, DAYS - 1)
    low, high = ((0, 800), (800, 10_000), (10_000, 10**6))[size]
    at = rng.choice([at for at, each in enumerate(month.tickets) if low <= each.tonnes < high])
    ticket = month.tickets[at]
    if kind == "twice":
        month.tickets.append(ticket)
        return Guilty(ticket.stream, ticket.tonnes, ticket.day)
    del month.tickets[at]
    return Guilty(ticket.stream, -ticket.tonnes, ticket.day)


def told(data: bytes, daily: bool = True) -> tuple[Study, Balances, list[DiagnosedHole]]:
    """Return the study of a month, its balances, and what is told of its holes, with their days."""
    ledger = Ledger("a month", data)
    assert not ledger.refused, list(ledger.refused)[:1]
    study = studies_of(ledger)[0]
    balances = Balances.of_measured(study.nodes, study.streams.values())
    holes = holes_of(balances, LIMITS)
    view = study.seen.view
    evidence, days = Evidence(ledger.state, view), Days(ledger.state, view) if daily else None
    return study, balances, list(told_holes(holes, LIMITS, evidence, days))


# ---- theory, by dense matrices of its own


@dataclass
class Theory:
    """The distribution of what doesn't close, and what follows from it."""

    rows: dict[str, Any]
    covariance: Any

    @classmethod
    def of(cls, study: Study) -> Theory:
        """Eliminate the unmeasured streams from the balances of all nodes."""
        nodes = [node for node in study.nodes if node != "env"]
        place = {node: number for number, node in enumerate(nodes)}
        known = [each for each in study.streams.values() if each.value is not None]
        free = [each for each in study.streams.values() if each.value is None]

        def matrix(some: Sequence[Any]) -> Any:
            found = numpy.zeros((len(nodes), len(some)))
            for column, each in enumerate(some):
                for end, sign in ((each.arc.from_, -1), (each.arc.to, 1)):
                    if end in place:
                        found[place[end], column] += sign
            return found

        # the projection of Crowe: a basis of what the unmeasured streams can't reach
        left, sizes, _ = numpy.linalg.svd(matrix(free))
        basis = left[:, int((sizes > 1e-9).sum()) :].T
        projected = basis @ matrix(known)
        variance = numpy.array([float(each.variance) for each in known]) / 1e12
        rows = {each.arc.name: projected[:, at] for at, each in enumerate(known)}
        return cls(rows, projected @ numpy.diag(variance) @ projected.T)

    def size(self, guilty: Guilty) -> float:
        """The noncentrality of an error: by which the statistic is greater on average."""
        row = guilty.tonnes * self.rows[guilty.name]
        return float(row @ numpy.linalg.solve(self.covariance, row))

    def first(self, guilty: Guilty, rng: Any) -> float:
        """How often the global test rejects, and the guilty one's row has the greatest test."""
        factor = numpy.linalg.cholesky(self.covariance)
        names = [name for name, row in self.rows.items() if abs(row).max() > 1e-9]
        rows = numpy.linalg.solve(factor, numpy.array([self.rows[name] for name in names]).T)
        rows /= numpy.sqrt((rows**2).sum(axis=0))
        mean = numpy.linalg.solve(factor, guilty.tonnes * self.rows[guilty.name])
        drawn = rng.standard_normal((DRAWS, len(mean))) + mean
        tests = (drawn @ rows) ** 2
        own = tests[:, names.index(guilty.name)]
        apart = len(numpy.unique(numpy.round(abs(rows.T), 6), axis=0))
        one = chi2.isf(of_each(LIMITS.level, apart), 1)
        rejects = (drawn**2).sum(axis=1) > chi2.isf(LIMITS.level, len(mean))
        rejects &= tests.max(axis=1) > one
        return float((rejects & (own >= tests.max(axis=1) * (1 - 1e-9))).mean())


@dataclass
class Count:
    """Sums over months: how many, and the shares of what was told and of theory."""

    months: int = 0
    rejected: int = 0
    power: float = 0.0
    own: int = 0
    own_power: float = 0.0
    first: int = 0
    first_theory: float = 0.0
    month_first: int = 0
    month_named: int = 0
    daily: int = 0
    named: int = 0
    dated: int = 0
    tank_first: int = 0
    tank_guilty: int = 0

    def line(self) -> str:
        """The shares in percent."""
        n, told = max(1, self.months), max(1, self.daily)
        shares = (
            self.rejected / n,
            self.power / n,
            self.own / n,
            self.own_power / n,
            self.first / n,
            self.first_theory / n,
            self.month_named / max(1, self.month_first),
            self.named / told,
            self.dated / told,
        )
        return f"{self.months:6}" + "".join(f"{100 * each:8.1f}" for each in shares)


HEAD = """
                    rejected        own test      in first set    then named first   dated
               months    told  theory    told  theory    told  theory  by month by days by days"""


def months(count: int, seed: int = 0, every: int = 1) -> dict[tuple[str, str], Count]:
    """Return what is told of simulated months, by the kind and the size of their errors.

    One in `every` is looked at day by day, the others by the month alone.
    """
    found = {(kind, size): Count() for kind in KINDS for size in SIZES}
    draws = numpy.random.default_rng(seed)
    for number in range(count):
        rng = random.Random(1000 * seed + number)
        kind, size = KINDS[number % 4], number // 4 % 3
        month = month_of(seed * 1_000_000 + number)
        guilty = wrong(month, kind, size, rng)
        is_daily = number // 12 % every == 0
        _month(found[kind, SIZES[size]], month, guilty, draws, is_daily)
    return found


def _month(into: Count, month: Month, guilty: Guilty, draws: Any, daily: bool) -> None:
    """Count a month."""
    study, balances, holes = told(month.session(), daily)
    theory = Theory.of(study)
    if abs(theory.rows[guilty.name]).max() < 1e-9:
        return  # nothing checks it, and nothing can
    size, freedom = theory.size(guilty), balances.freedom
    critical = chi2.isf(LIMITS.level, freedom)
    own = norm.isf(of_each(LIMITS.level, len(sets_of_equals(balances))) / 2)
    into.months += 1
    into.rejected += balances.statistic > critical
    into.power += float(ncx2.sf(critical, freedom, size))
    into.own += _test_of(balances, guilty.name) > own**2
    into.own_power += float(norm.sf(own - sqrt(size)) + norm.cdf(-own - sqrt(size)))
    into.first_theory += theory.first(guilty, draws)
    into.tank_guilty += guilty.name in TANKS
    if holes:
        first = holes[0]
        into.tank_first += first.names[0] in TANKS
        if guilty.name in first.names:
            into.first += 1
            is_named = first.names[0] == guilty.name
            best = first.best
            if best is None:
                into.month_first += 1
                into.month_named += is_named
            else:
                into.daily += 1
                into.named += is_named
                day = best.first - study.period.first
                into.dated += abs(day - guilty.day) <= 1


def _test_of(balances: Balances, name: str) -> float:
    some = (each.statistic for each in sets_of_equals(balances) if name in each.names)
    return next(some, 0.0)


# ---- mistakes


@dataclass(frozen=True)
class Mistake:
    """A mistake of a month: how it is made, which gives who is guilty of it."""

    name: str
    make: Callable[[Month], list[Guilty]]


def reading(stream: str, day: int, value: Callable[[Month, float], float]) -> Mistake:
    """Another reading of a day."""

    def make(month: Month) -> list[Guilty]:
        before = month.readings[stream, day]
        month.readings[stream, day] = value(month, before)
        return [Guilty(stream, month.readings[stream, day] - before, day)]

    return Mistake(f"reading of {stream} on day {day}", make)


def readings(stream: str, first: int, last: int, factor: float) -> Mistake:
    """All readings of some days, to the last one, by a factor."""

    def make(month: Month) -> list[Guilty]:
        before = sum(month.readings[stream, day] for day in range(first, last))
        scaled(month, stream, factor, first, last)
        return [Guilty(stream, before * (factor - 1), first)]

    return Mistake(f"{stream} from day {first} by {factor:g}", make)


def repeated(stream: str, first: int, count: int) -> Mistake:
    """A meter that repeats a reading of a day with less flow for some days."""

    def make(month: Month) -> list[Guilty]:
        dull = 0.9 * month.readings[stream, first]
        before = sum(month.readings[stream, day] for day in range(first, first + count))
        month.readings.update({(stream, day): dull for day in range(first, first + count)})
        return [Guilty(stream, count * dull - before, first)]

    return Mistake(f"{stream} frozen for {count} days", make)


def exchanged(one: str, other: str) -> Mistake:
    """Two columns under each other's heads."""

    def make(month: Month) -> list[Guilty]:
        sums = {name: _sum(month, name) for name in (one, other)}
        for day in range(DAYS):
            first, second = month.readings[one, day], month.readings[other, day]
            month.readings[one, day], month.readings[other, day] = second, first
        away = sums[other] - sums[one]
        return [Guilty(one, away, 0), Guilty(other, -away, 0)]

    return Mistake(f"{one} and {other} exchanged", make)


def _sum(month: Month, name: str) -> float:
    return sum(month.readings[name, day] for day in range(DAYS))


def changed(stream: str, number: int, factor: float, other: str = "") -> Mistake:
    """A ticket by a factor: 0 is missing, 2 appears twice; or on another stream."""

    def make(month: Month) -> list[Guilty]:
        places = [at for at, each in enumerate(month.tickets) if each.stream == stream]
        ticket = month.tickets[places[number]]
        found = [Guilty(stream, ticket.tonnes * (factor - 1), ticket.day)]
        if factor == 2:
            month.tickets.append(ticket)
        elif factor == 0:
            del month.tickets[places[number]]
        else:
            month.tickets[places[number]] = replace(ticket, tonnes=ticket.tonnes * factor)
        if other:
            month.tickets.append(replace(ticket, stream=other))
            found.append(Guilty(other, ticket.tonnes, ticket.day))
        return found

    what = f", booked on {other}" if other else ""
    return Mistake(f"ticket {number} of {stream} by {factor:g}{what}", make)


def all_tickets(stream: str, factor: float) -> Mistake:
    """All tickets of a stream in another unit."""

    def make(month: Month) -> list[Guilty]:
        total = 0.0
        for at, each in enumerate(month.tickets):
            if each.stream == stream:
                total += each.tonnes * (factor - 1)
                month.tickets[at] = replace(each, tonnes=each.tonnes * factor)
        return [Guilty(stream, total, 0)]

    return Mistake(f"all tickets of {stream} by {factor:g}", make)


def dip(tank: str, level: Callable[[int], int], density: int = 0, opening: bool = False) -> Mistake:
    """Another level, or another density, of the dip that closes a month or opens it."""

    def make(month: Month) -> list[Guilty]:
        day = -1 if opening else DAYS - 1
        mm, own = month.dips[tank, day]
        month.dips[tank, day] = level(mm), density or own
        more = month.content(tank, *month.dips[tank, day]) - month.content(tank, mm, own)
        return [Guilty(tank, -more if opening else more, day)]

    return Mistake(f"dip of {tank}", make)


def dips_exchanged(one: str, other: str) -> Mistake:
    """Two tanks' closing dips under each other's heads."""

    def make(month: Month) -> list[Guilty]:
        keys = [(tank, DAYS - 1) for tank in (one, other)]
        before = [month.dips[key] for key in keys]
        found = []
        for key, now, then in zip(keys, before[::-1], before):
            month.dips[key] = now[0], then[1]
            more = month.content(key[0], now[0], then[1]) - month.content(key[0], *then)
            found.append(Guilty(key[0], more, DAYS - 1))
        return found

    return Mistake(f"dips of {one} and {other} exchanged", make)


def swapped(mm: int) -> int:
    """A level with two digits exchanged, within the table."""
    text = f"{mm:05d}"
    some = [int(text[:at] + text[at + 1] + text[at] + text[at + 2 :]) for at in range(1, 4)]
    return next(other for other in some if other != mm and other <= TOP)


BARREL = 0.158987
MISTAKES = (
    repeated("KFEED", 5, 6), repeated("REFORMATE", 10, 5), repeated("HCK_D", 3, 4),
    reading("DIES_A", 8, lambda _, was: 0.0), reading("VGO", 20, lambda _, was: 0.0),
    reading("LCO", 14, lambda _, was: -was), reading("FCC_G", 2, lambda _, was: -was),
    reading("RES", 11, lambda month, was: 0.5 * was), reading("NAP", 27, lambda _, was: 10 * was),
    reading("VISRES", 16, lambda _, was: 0.1 * was), reading("SRN", 6, lambda _, was: was / 24),
    reading("JET_R", 19, lambda _, was: 1.3 * was), reading("CHG_2", 25, lambda _, was: was + 900),
    readings("LGO", 0, DAYS, 1 / 24), readings("G7", 0, DAYS, 1 / 24),
    readings("REFORMATE", 11, DAYS, 1.03), readings("HCK_F", 4, DAYS, 0.96),
    readings("KERO", 0, DAYS, 1.02), readings("VRES", 20, DAYS, 1.06),
    readings("ISOMERATE", 0, DAYS, 0.65), readings("FCC_F", 9, 15, 0.8),
    exchanged("VISRES", "VB_GO"), exchanged("FCC_G", "LCO_R"), exchanged("R7", "G8"),
    changed("DIES_SHIP", 1, 0), changed("MOG1_S", 0, 0), changed("BITUMEN", 2, 0),
    changed("FO_S", 1, 0), changed("JET_S", 12, 0), changed("NAP_S", 0, 0),
    changed("DIES_SHIP", 0, 2), changed("CRUDE_2", 0, 2), changed("HEAT_S", 7, 2),
    changed("PROP_S", 4, 2), changed("MOG1_S", 1, -1), changed("CRUDE_3", 0, 1 / BARREL),
    changed("BITUMEN", 1, 6.28981), changed("LPG_S", 20, 10), changed("MOG1_S", 1, 0.907185),
    changed("JET_S", 3, 0, "HEAT_S"), changed("DIES_SHIP", 1, 0, "MOG1_S"),
    all_tickets("MOG2_S", 1 / 0.752), all_tickets("PROP_S", 1 / BARREL / 0.514),
    all_tickets("JET_S", 0.879 / 0.798),
    dip("T306", swapped), dip("T405", lambda mm: mm + 1000), dip("T102", lambda mm: mm // 10),
    dip("T302", lambda mm: mm - 700, opening=True), dip("T101", lambda mm: mm, 705_000),
    dips_exchanged("T306", "T405"),
)  # fmt: skip


@dataclass(frozen=True)
class Outcome:
    """What is told of a mistake: of each guilty one whether set, size and day are right."""

    mistake: Mistake
    rejected: bool
    sets: bool
    first: bool
    sizes: bool
    days: bool
    said: list[str]

    @property
    def is_told(self) -> bool:
        """Whether set, size and day are right."""
        return self.sets and self.sizes and self.days


def outcome(mistake: Mistake, seed: int) -> Outcome:
    """Return what is told of a month with a mistake."""
    month = copy_of(month_of(seed))
    guilty = mistake.make(month)
    study, balances, holes = told(month.session())
    sets = first = sizes = days = bool(holes)
    for each in guilty:
        some = [hole for hole in holes if each.name in hole.names]
        sets &= bool(some)
        for hole in some[:1]:
            first &= hole.names[0] == each.name
            best = next((found for found in hole.findings if found.name == each.name), None)
            sizes &= best is not None and _is_size(best.error, best.deviation, each.tonnes)
            days &= best is not None and abs(best.first - study.period.first - each.day) <= 1
    said = [line for hole in holes for line in told_said(hole)]
    rejected = balances.statistic > LIMITS.of_period(balances.freedom)
    return Outcome(mistake, rejected, sets, first, sizes, days, said)


def _is_size(error: float, deviation: float, tonnes: float) -> bool:
    off = abs(error / 1e6 - tonnes)
    return off <= max(3 * deviation / 1e6, 0.03 * abs(tonnes))


def mistakes(seed: int, count: int = len(MISTAKES)) -> list[Outcome]:
    """Return what is told of the first mistakes."""
    return [outcome(mistake, seed) for mistake in MISTAKES[:count]]


def print_mistakes(seed: int) -> None:
    """Print what is told of each mistake, and how many are told."""
    found = mistakes(seed)
    for each in found:
        marks = "".join(
            letter if is_so else "-"
            for letter, is_so in zip(
                "RSFTD", (each.rejected, each.sets, each.first, each.sizes, each.days)
            )
        )
        print(marks, each.mistake.name, "|", each.said[0] if each.said else "")
        if not each.is_told:
            print(*(f"        {line}" for line in each.said), sep="\n")
    rejected = [each for each in found if each.rejected]
    told_ = sum(each.is_told for each in rejected)
    first = sum(each.first for each in rejected)
    print(f"{len(found)} mistakes, {len(rejected)} rejected, {told_} told, {first} named first")


def main(words: list[str]) -> None:
    """Print the shares, or what is told of the mistakes."""
    if words[0] == "mistakes":
        print_mistakes(int((words + ["1"])[1]))
        return
    found = months(int(words[1]), int((words + ["0"])[2]), DAILY)
    print(HEAD)
    for (kind, size), count in found.items():
        print(f"{kind:8}{size:7}{count.line()}")
    total = Count(
        **{name: sum(getattr(each, name) for each in found.values()) for name in vars(Count())}
    )
    print(f"{'all':15}{total.line()}")
    n = max(1, total.months)
    print(f"a tank is guilty in {total.tank_guilty} and named first in {total.tank_first} of {n}")


if __name__ == "__main__":
    main(sys.argv[1:])
