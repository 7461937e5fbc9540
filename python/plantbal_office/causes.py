"""What the desk itself says of what was typed into a grid: each cause and each remedy with its sentence."""

from __future__ import annotations

from enum import unique

from plantbal.causes import Causes


@unique
class GridCause(Causes):
    """What is wrong with a cell or a row of a grid, or looks odd, beside what its reader says."""

    NO_PLACE = "there is no stream or tank {name} in {month}"
    NO_TICKETS = "{name} has no tickets"
    RUNS_BACK = "below 0: does the stream run the other way?"
    FAR = "{percent:,} % of the median of its other days"


@unique
class GridRemedy(Causes):
    """What to do about it."""

    NAME_SOLD = "name a stream that is sold or bought"
    ERROR_IN_TONNES = "give its meter one in tonnes as well, such as `1.5 % or 0.2 t`"
    DENSITY_BESIDE = "write it beside the level, such as 862"
