"""What can be wrong in the tables of a balance: offers of instruments, and figures of pulps."""

from __future__ import annotations

from enum import unique

from plantbal.causes import Causes


@unique
class BalanceCause(Causes):
    """Why a row can't be used."""

    NO_STREAM = "there is no stream {name}"
    NO_GRADE = "no grade of {component} is known in the period"
    NOT_A_COST = "{text} isn't a cost"
    OFFER_TWICE = "{offer} is already given above"
    NOT_AN_ERROR_OF = "{text} isn't an error of {what} in {stream}"
    WATER_TWICE = "the water of {name} is already given above"
    HAS_SOLIDS = "{name} has solids"
    NO_MEASURE = "{text!r} isn't a measure"
    NO_DENSITY = "there is no density"
    NO_ERROR_OF_MEASURE = "{text!r} isn't an error of what was measured"
    NO_UNIT = "there is no unit {name}"
    SAME_ENDS = "{name} begins and ends at {node}"
    WATER_BELOW_0 = "{text} of water is below 0"
