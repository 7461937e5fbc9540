"""Values of facts that look wrong: amounts in another unit, errors of another size, densities."""

from __future__ import annotations

from collections.abc import Callable, Iterator
from math import isqrt
from operator import attrgetter

from plantbal.lint.findings import Finding, called, of_facts, tonnes_said
from plantbal.model.facts import Fact
from plantbal.model.forms import LIMITS
from plantbal.model.ledger import Ledger
from plantbal.sentence import Sentence

# A standard deviation below this part of a value is one that was taken for a variance.
SMALL = 100_000
# Values this many times their median are in another unit, and so are those below this part of it.
GREAT_TIMES, SMALL_PART = 50, 500
_VARIANCE: Callable[[Fact], int] = attrgetter("variance")
# Grams per cubic metre: liquid gas has some 500,000, a bed of iron ore some 2,500,000.
DENSITIES = range(400_000, 3_000_001)


def magnitudes(ledger: Ledger) -> Iterator[Finding]:
    """Yield the facts that are far from the others of their stream."""
    found: list[tuple[Fact, int]] = []
    for stream, facts in ledger.amounts.items():
        sizes = ledger.sizes[stream]
        if sizes.middle:
            great, small = GREAT_TIMES * sizes.middle, sizes.middle // SMALL_PART
            if sizes.most >= great or sizes.least <= small:
                found += [
                    (fact, sizes.middle)
                    for fact in facts
                    if abs(fact.grams) >= great or 0 < abs(fact.grams) <= small
                ]
    yield from of_facts(ledger, "magnitude", found, _far)


def _far(fact: Fact, middle: int) -> tuple[str, str]:
    """Return what is said of a fact that is far from the median of its stream."""
    size = abs(fact.grams)
    times = (
        Sentence("{size:,} times", size=size // middle)
        if size > middle
        else Sentence("1/{part:,} of", part=middle // size)
    )
    text = Sentence(
        "{fact} is {grams}, {times} the median, {middle}",
        fact=called(fact),
        grams=tonnes_said(fact.grams),
        times=times,
        middle=tonnes_said(middle),
    )
    return text, "look for another unit of measure, or a decimal point at another place"


def odd_deviations(ledger: Ledger) -> Iterator[Finding]:
    """Yield the facts whose standard deviation is very small or very large beside their value."""
    small: list[tuple[Fact, int]] = []
    large: list[tuple[Fact, int]] = []
    for stream, facts in ledger.amounts.items():
        base, sizes = ledger.streams[stream].base, ledger.sizes[stream]
        variances = list(map(_VARIANCE, facts))
        lowest = min(variances) or min(base, min(filter(None, variances), default=base))
        usual = max(sizes.least, sizes.middle)
        if not _is_below(lowest, sizes.most) and max(variances) <= usual**2:
            continue  # none of them is
        for fact in facts:
            size = abs(fact.grams)
            if _is_small(fact.variance or base, size):
                small.append((fact, size))
            elif size and fact.variance > max(size, sizes.middle) ** 2:
                large.append((fact, size))
    for fact in ledger.dips:
        content = ledger.state.content(fact)
        top = ledger.state.plant.tables[fact.of][-1][1] * fact.density // 1_000_000
        if _is_small(fact.variance or ledger.streams[fact.of].base, content):
            small.append((fact, content))
        elif fact.density in DENSITIES and fact.variance > top * top > 0:
            large.append((fact, top))
    yield from of_facts(ledger, "small-deviation", small, _small)
    yield from of_facts(ledger, "large-deviation", large, _large)


def _is_small(variance: int, value: int) -> bool:
    """Say whether a standard deviation is too small for its value to be one."""
    return variance > 1 and _is_below(variance, value)


def _is_below(variance: int, value: int) -> bool:
    """Say whether a standard deviation is below the smallest part of a value."""
    return variance * SMALL * SMALL < value * value


def _small(fact: Fact, value: int) -> tuple[str, str]:
    """Return what is said of a standard deviation that is too small for a value."""
    text = Sentence(
        "{fact} has VARIANCE {variance}, a standard deviation of {deviation} at {value}",
        fact=called(fact),
        variance=fact.variance,
        deviation=tonnes_said(isqrt(fact.variance)),
        value=tonnes_said(value),
    )
    return text, _squared(fact.variance, value)


def _squared(variance: int, value: int) -> str:
    """Return what to write for a variance that may be a standard deviation, in grams or in
    tonnes."""
    for unit, scale in (("g", 1), ("t", 1_000_000)):
        square = (variance * scale) ** 2
        if not _is_small(square, value) and 0 < square <= min(
            value**2, LIMITS["most_row_variance"]
        ):
            return Sentence(
                "if {variance:,} {unit} is the standard deviation, write its square, {square}",
                variance=variance,
                unit=unit,
                square=square,
            )
    return "write the square of its standard deviation in grams"


def _large(fact: Fact, value: int) -> tuple[str, str]:
    """Return what is said of a standard deviation that is too large for a value, or a full tank."""
    what = Sentence("the full tank" if fact.kind == "dip" else "its value")
    text = Sentence(
        "{fact} has a standard deviation of {deviation}, more than {what}, {value}",
        fact=called(fact),
        deviation=tonnes_said(isqrt(fact.variance)),
        what=what,
        value=tonnes_said(value),
    )
    return text, _wide(fact, value)


def _wide(fact: Fact, size: int) -> str:
    """Return what to write for a value that is smaller than its standard deviation."""
    grams = fact.grams * 1000
    less = fact.kind != "dip" and fact.variance < (size * 1000) ** 2
    if less and abs(grams) <= LIMITS["most_grams"]:
        return Sentence(
            "if the amount is in kilograms, write {grams}; else look at the variance", grams=grams
        )
    return "look for a digit too many in its variance, in squared grams"


def densities(ledger: Ledger) -> Iterator[Finding]:
    """Yield the densities that are far from the others of their tank."""
    found = [(fact, fact.density) for fact in ledger.dips if fact.density not in DENSITIES]
    yield from of_facts(ledger, "density", found, _odd_density)


def _odd_density(fact: Fact, density: int) -> tuple[str, str]:
    """Return what is said of a density that nothing in a tank has."""
    text = Sentence(
        "{fact} has a density of {density:,} g per cubic metre", fact=called(fact), density=density
    )
    times = next((s for s in (1000, 10, 100) if density * s in DENSITIES), 0)
    if times:
        return text, Sentence("did you mean {density}?", density=density * times)
    return text, "water has 1000000: look for a digit too many or too few"
