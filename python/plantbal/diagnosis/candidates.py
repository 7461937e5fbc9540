"""What an error of a known size may be, for each kind of measurement: with the size it would have.

Each candidate has a cost, half a logarithm of how unlikely it is as mistakes go: none for a ticket
of a usual amount, some for a meter off by a few percent, much for a level off by metres. It orders
candidates, and members of a set of equals, and decides nothing else.
"""

from __future__ import annotations

from collections.abc import Iterator
from dataclasses import dataclass
from enum import Enum
from statistics import fmean, pstdev

from plantbal.diagnosis.balances import Measurement
from plantbal.diagnosis.evidence import DippedLevel, Evidence
from plantbal.model.facts import Fact
from plantbal.sentence import Sentence


class ErrorKind(Enum):
    """What may have gone wrong."""

    METER = "meter"
    READING = "reading"
    FROZEN = "frozen"
    REVERSED = "reversed"
    UNIT = "unit"
    MISSING = "missing"
    TWICE = "twice"
    TICKET = "ticket"
    LEVEL = "level"
    DIGITS = "digits"
    DENSITY = "density"
    FORGOTTEN = "forgotten"


@dataclass(frozen=True, slots=True)
class UnitMistake:
    """A unit that was taken for another: by how much what is written has to be multiplied."""

    words: str
    factor: float


@dataclass(frozen=True, slots=True)
class Candidate:
    """What an error may be.

    Attributes
    ----------
    kind : ErrorKind
        What went wrong.
    name : str
        The stream or tank; of a forgotten stream nothing.
    error : float
        By how many grams the value would be too high.
    cost : float
        How unlikely it is: 0 is nothing out of the usual.
    percent : float or None
        By how much a meter would be too high, in percent of what is true.
    mm : int or None
        By how much a level would be too high; of exchanged digits or another unit the right level.
    fact : Fact or None
        The reading, ticket or dip that would be wrong.
    alike : tuple of Fact
        The booked tickets of nearly this amount.
    unit : UnitMistake or None
        The unit that was taken for another.
    product : str
        The tank whose product has the density that would fit.
    density : int or None
        The density that would fit, in g/m3.
    """

    kind: ErrorKind
    name: str
    error: float
    cost: float
    percent: float | None = None
    mm: int | None = None
    fact: Fact | None = None
    alike: tuple[Fact, ...] = ()
    unit: UnitMistake | None = None
    product: str = ""
    density: int | None = None


# Within this many standard deviations an amount is nearly another.
NEAR = 3.0
# What a ticket, a reading or a month's sum may have to be multiplied by.
UNITS = (
    UnitMistake(Sentence("t/h for t/d"), 24.0),
    UnitMistake(Sentence("t/d for t/h"), 1 / 24),
    UnitMistake(Sentence("kg for t"), 0.001),
    UnitMistake(Sentence("t for kg"), 1000.0),
    UnitMistake(Sentence("a digit too few"), 10.0),
    UnitMistake(Sentence("a digit too many"), 0.1),
    UnitMistake(Sentence("m³ for bbl"), 6.28981),
    UnitMistake(Sentence("bbl for m³"), 0.1589873),
    UnitMistake(Sentence("short tons for t"), 0.90718474),
    UnitMistake(Sentence("the sign"), -1.0),
)
BARREL = 0.158987294928  # m3
# What an unlikely mistake costs at most, a usual one, and one that is always possible.
_MOST, _USUAL, _FORGOTTEN = 40.0, 2.0, 20.0
# How many tickets or facts are named.
_FEW = 3
# Standard deviations of meters in percent, and of levels in millimetres, as mistakes go.
_PERCENT, _MM = 3.0, 40.0
# A density that fits another product's within this part of it.
_SAME_DENSITY = 0.004


def units_of(name: str, evidence: Evidence) -> Iterator[UnitMistake]:
    """Give the units that may have been taken for another."""
    yield from UNITS
    density = evidence.near_density(name)
    if density is not None:
        own = density / 1e6
        yield UnitMistake(Sentence("m³ for t"), own)
        yield UnitMistake(Sentence("t for m³"), 1 / own)
        yield UnitMistake(Sentence("bbl for t"), BARREL * own)


def densities_of(name: str, evidence: Evidence) -> Iterator[UnitMistake]:
    """Give the densities of other products that may have been taken for a stream's own."""
    density = evidence.near_density(name)
    if density is None:
        return
    for tank, other in evidence.densities.items():
        if abs(other / density - 1) > _SAME_DENSITY:
            words = Sentence(
                "the density of {tank}'s product, {other:.0f} kg/m³, for {own:.0f}",
                tank=tank,
                other=other / 1000,
                own=density / 1000,
            )
            yield UnitMistake(words, density / other)


def candidates_of(
    member: Measurement, error: float, deviation: float, evidence: Evidence
) -> list[Candidate]:
    """Return what an error of a measurement may be, the least unlikely first.

    Parameters
    ----------
    member : Measurement
        The measurement.
    error, deviation : float
        By how many grams its value is too high, and the standard deviation of that.
    evidence : Evidence
        The facts of the period.
    """
    kind = evidence.kind(member.name)
    if kind == "tank":
        found = _of_tank(member.name, error, deviation, evidence)
    elif kind == "batch":
        found = _of_tickets(member, error, deviation, evidence)
    else:
        found = _of_meter(member, error, deviation, evidence)
    return sorted(found, key=lambda each: each.cost)


def percent_of(member: Measurement, error: float) -> float | None:
    """Return by how many percent of what is true a value is too high; None if nothing is true."""
    true = member.grams - error
    return 100 * error / true if true else None


def _of_meter(
    member: Measurement, error: float, deviation: float, evidence: Evidence
) -> Iterator[Candidate]:
    percent = percent_of(member, error)
    if percent is not None and member.grams - error > 0:
        cost = min(_MOST, (percent / _PERCENT) ** 2 / 2)
        yield Candidate(ErrorKind.METER, member.name, error, cost, percent=percent)
    if abs(2 * member.grams - error) <= NEAR * deviation:
        yield Candidate(ErrorKind.REVERSED, member.name, error, _USUAL)
    yield from _whole(member, error, deviation, evidence)
    yield from _single(member.name, error, deviation, evidence, ErrorKind.READING)


def _of_tickets(
    member: Measurement, error: float, deviation: float, evidence: Evidence
) -> Iterator[Candidate]:
    name, facts = member.name, evidence.facts(member.name)
    amounts = [evidence.amount(fact) for fact in facts]
    if error < 0:
        cost = amount_cost(-error, deviation, amounts)
        nearly = [
            fact
            for fact in evidence.tickets()
            if abs(evidence.amount(fact) + error) <= NEAR * deviation
        ]
        some = tuple(sorted(nearly, key=lambda fact: abs(fact.grams + error))[:_FEW])
        yield Candidate(ErrorKind.MISSING, name, error, cost, alike=some)
    else:
        same = [
            fact
            for fact, grams in zip(facts, amounts)
            if abs(grams - error) <= NEAR * deviation + 0.001 * grams
        ]
        if same:
            same.sort(key=lambda fact: abs(evidence.amount(fact) - error))
            yield Candidate(ErrorKind.TWICE, name, error, _USUAL, alike=tuple(same[:_FEW]))
    if member.grams and abs(2 * member.grams - error) <= NEAR * deviation:
        yield Candidate(ErrorKind.REVERSED, name, error, _USUAL)
    yield from _whole(member, error, deviation, evidence)
    yield from _single(name, error, deviation, evidence, ErrorKind.TICKET)


def amount_cost(grams: float, deviation: float, amounts: list[int]) -> float:
    """Return how unlikely a ticket or reading of an amount is beside others of its stream."""
    if not amounts:
        return _MOST / 2
    middle = fmean(amounts)
    spread = max(pstdev(amounts), 0.1 * abs(middle), deviation)
    return min(_MOST, ((grams - middle) / spread) ** 2 / 2)


def _whole(
    member: Measurement, error: float, deviation: float, evidence: Evidence
) -> Iterator[Candidate]:
    """Give the units in which the whole period may have been written."""
    name = member.name
    for unit in (*units_of(name, evidence), *densities_of(name, evidence)):
        if _fits(member.grams, unit, error, deviation):
            yield Candidate(ErrorKind.UNIT, member.name, error, 2 * _USUAL, unit=unit)


def _single(
    name: str, error: float, deviation: float, evidence: Evidence, kind: ErrorKind
) -> Iterator[Candidate]:
    """Give the readings or tickets that may be in another unit."""
    found = []
    for fact in evidence.facts(name):
        for unit in units_of(name, evidence):
            grams = evidence.amount(fact)
            if _fits(grams, unit, error, deviation):
                found.append((abs(grams * (1 - unit.factor) - error), fact, unit))
    for _, fact, unit in sorted(found, key=lambda each: each[0])[:_FEW]:
        yield Candidate(kind, name, error, 3 * _USUAL, fact=fact, unit=unit)


def _fits(grams: float, unit: UnitMistake, error: float, deviation: float) -> bool:
    """Say whether an amount in another unit would be off by an error, and by no other one."""
    off = grams * (1 - unit.factor)
    return abs(off) > 2 * NEAR * deviation and abs(off - error) <= NEAR * deviation


# ---- tanks


def _of_tank(tank: str, error: float, deviation: float, evidence: Evidence) -> Iterator[Candidate]:
    for level in evidence.levels(tank):
        yield from level_candidates(
            level, error if level.is_closing else -error, deviation, evidence
        )


def level_candidates(
    level: DippedLevel, error: float, deviation: float, evidence: Evidence
) -> Iterator[Candidate]:
    """Give what may be wrong with a dip by which a tank holds too much by an error."""
    dip = level.fact
    gain = error if level.is_closing else -error
    if level.slope:
        mm = round(error / level.slope)
        right = dip.mm - mm
        if level.lowest <= right <= level.highest:
            cost = min(2 * _USUAL, (mm / _MM) ** 2 / 2)
            yield Candidate(ErrorKind.LEVEL, dip.of, gain, cost, mm=mm, fact=dip)
    for mm in sorted(_misread(dip.mm)):
        content = evidence.content_at(dip, mm)
        if content is not None and abs(level.content - content - error) <= NEAR * deviation:
            yield Candidate(ErrorKind.DIGITS, dip.of, gain, _USUAL, mm=mm, fact=dip)
    if level.content - error > 0:
        density = round(dip.density * (level.content - error) / level.content)
        near = NEAR * deviation / level.content
        for tank, other in evidence.densities.items():
            if abs(other / dip.density - 1) > max(near, _SAME_DENSITY):
                if abs(density / other - 1) <= near:
                    yield Candidate(
                        ErrorKind.DENSITY,
                        dip.of,
                        gain,
                        _USUAL,
                        fact=dip,
                        product=tank,
                        density=other,
                    )


def _misread(mm: int) -> set[int]:
    """Return the levels that may have been meant: other units, or two digits exchanged."""
    text = str(mm)
    swapped = {
        int(text[:at] + text[at + 1] + text[at] + text[at + 2 :]) for at in range(len(text) - 1)
    }
    return (swapped | {mm * 10, mm * 1000, mm // 10, mm // 1000}) - {mm, 0}
