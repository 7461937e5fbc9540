"""What to do about a cell that can't be read: each remedy with its sentence.

Those of the cells that somebody may type into a grid; a page that reads them by itself says the same.
"""

from __future__ import annotations

from enum import unique

from plantbal.causes import Causes


@unique
class CellRemedy(Causes):
    """What to do about a cell of a figure, a unit, a density, a level or a day."""

    WRITE_FIGURE = "write a figure, or leave the cell empty"
    USE_LOCALE = "use --locale {locale}, or write it in another way"
    CLEAR_CELL = "correct it, or clear the cell"
    USE_MISSING = "correct it, or use --missing {text!r} if it means that there is none"
    NOT_A_RATE = "a figure is what flowed in all of its day, not a rate: write it in {unit}"
    ONE_OF = "write one of {units}"
    NOT_TONS = "write t for 1,000 kg; 2,000 lb are 2 klb"
    DRY_TONNES = "wet tonnes have water in them: write the dry ones, in t or dmt"
    WRITE_DENSITY = "write a density, such as 862 (kg/m3), in the row or in that of its stream"
    DENSITY_WITH_UNIT = "write kg/m3 without its unit, others with it: 862, 0.862 t/m3, 862000 g/m3"
    LEVEL_IN = "write {mm} mm if it is in {unit}, or {whole} mm if it isn't"
    WRITE_DAY = "write it as 2024-06-30"
    DAY_ALONE = "a figure is a day's: add the hours of a day up, and write the day alone"
    MONTH_FIRST = "--locale {locale} has the month first: use --locale en_GB"
    DAY_FIRST = "--locale {locale} has the day first: write it as 2024-06-30"


@unique
class OptionRemedy(Causes):
    """What names an option of a command, beside the remedies of cells; who has no commands says it otherwise."""

    OWN_LOCALE = ", and --locale is {locale}"
    NAME_LOCALE = "use --locale en, --locale de or another"
    FOUR_DIGITS = "write the year with four digits, or use --locale"
    DAY_OR_MONTH = "use --locale en_GB if the day comes first, --locale en_US if the month does"
    READ_AS = "read as {other} they do: use --locale {other}"
    LEAVE_OUT = "use --skip {text!r} to leave the column out"
    OR_LEAVE_OUT = "{remedy}, or use --skip {text!r} to leave the column out"
