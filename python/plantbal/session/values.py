"""Values that a session's rows are given, as the texts of its fields."""

from __future__ import annotations

import math

from plantbal.amounts import Day, Tonnes, day_as_given, decimal_of, grams_of, variance_of, whole_of
from plantbal.faults import Fault
from plantbal.model.forms import FIRST_DAY, LAST_DAY

PPM_OF_PERCENT = 10_000


def dates_of_service(since: Day | None, until: Day | None) -> tuple[str, ...]:
    """Return the fields of dates of service: none without a date, else both."""
    if since is until is None:
        return ()
    return (
        day_as_given(FIRST_DAY if since is None else since, "SINCE"),
        day_as_given(LAST_DAY if until is None else until, "UNTIL"),
    )


def variance_text(
    variance: int | None, deviation_grams: Tonnes | None, deviation_tonnes: Tonnes | None
) -> str:
    """Return a variance in squared grams, given as itself or as a standard deviation."""
    return variance_of(
        variance=variance, deviation_grams=deviation_grams, deviation_tonnes=deviation_tonnes
    )


def amount_of(grams: int | None, tonnes: Tonnes | None) -> str:
    """Return an amount in grams, of which exactly one is given."""
    if (grams is None) == (tonnes is None):
        raise Fault("an amount needs grams, or tonnes, and not both")
    if grams is not None:
        return whole_of(grams, "GRAMS")
    assert tonnes is not None
    return str(grams_of(tonnes))


def grade_text(ppm: int | None = None, percent: Tonnes | None = None) -> str:
    """Return a grade in parts per million, of which exactly one is given."""
    if (ppm is None) == (percent is None):
        raise Fault("an assay needs ppm, or percent, and not both")
    if percent is None:
        assert ppm is not None
        return whole_of(ppm, "PPM")
    exact = decimal_of(percent, "GRADE") * PPM_OF_PERCENT
    if exact != int(exact):
        raise Fault(f"GRADE is {percent} %", text=str(percent), remedy="at most four decimals")
    return str(int(exact))


def grade_variance(
    variance: int | None = None,
    deviation_ppm: Tonnes | None = None,
    deviation_percent: Tonnes | None = None,
) -> str:
    """Return the variance of a grade in squares of parts per million, of which one is given."""
    given = [each for each in (variance, deviation_ppm, deviation_percent) if each is not None]
    if len(given) != 1:
        raise Fault(
            "an assay needs variance, deviation_ppm or deviation_percent, and one of them alone"
        )
    if variance is not None:
        return whole_of(variance, "GRADEVAR")
    scale = 1 if deviation_percent is None else PPM_OF_PERCENT
    deviation = decimal_of(given[0], "the standard deviation") * scale
    if deviation < 0:
        raise Fault("a standard deviation is below 0", text=str(given[0]))
    return str(math.ceil(deviation * deviation))
