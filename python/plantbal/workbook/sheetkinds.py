"""The sheets of a plant's workbook, each once: its word, its columns, what it is for, what reads it.

From this list follow the sheets that are found, the heads that are read, the template with its notes
and lists to choose from, the help of `convert` and the table in the documents. The sheets of facts
are read in the order in which they stand here.
"""

from __future__ import annotations

from dataclasses import replace
from typing import TYPE_CHECKING

from plantbal.accounts.sheet import AccountKind
from plantbal.workbook.measurekinds import KEPT, OF_DAYS, TEMPERATURE, TEMPERATURE_SD
from plantbal.workbook.sheetforms import (
    DAY,
    DENSITY,
    FIRST,
    LAST,
    TANK,
    SheetColumn,
    SheetKind,
    Stage,
)
from plantbal.workbook.units import GRADES, GRAMS, VOLUMES, WET

if TYPE_CHECKING:
    from plantbal.workbook.converter import Converter

REFINERY, CONCENTRATOR, UTILITY = "refinery", "concentrator", "utility"
ALL = (REFINERY, CONCENTRATOR, UTILITY)
_TANKS = (REFINERY, CONCENTRATOR)
_MASSES = (*GRAMS, *WET)
_AMOUNTS = (*_MASSES, *VOLUMES)
_UNIT = SheetColumn("unit", "of the figures: t without it; volumes need a density", words=_AMOUNTS)
_ERROR = SheetColumn(
    "error", "the standard deviation: 1.5 %, 0.2 t, or 1.5 % or 0.2 t; of a gauge 3 mm"
)
_BASE = SheetColumn("base", "its standard deviation in every period, in addition: 0.5 t")
_NAME = SheetColumn("name", "1 to 32 letters, digits, _, - or .", needed=True)
_SERVICE = (
    SheetColumn("since", "the first day on which it is in service; empty for always", is_day=True),
    SheetColumn(
        "until",
        "the last day on which it is in service, counted too; empty for no end",
        is_day=True,
    ),
)
_TAG = "the meter's tag, which is over its column of readings; empty for none"
_STREAM = "the stream's name: 1 to 32 letters, digits, _, - or ."
_END = "a unit, a tank, env, or a boundary"
_OF_STREAM = SheetColumn("stream", _STREAM, of=("streams", "stream"))
_OF_TAG = SheetColumn("tag", _TAG, of=("streams", "tag"))
_AMOUNT = SheetColumn("amount", "in the unit beside it")


def _plant(work: Converter) -> None:
    work.plant.read()


SHEETS: dict[str, SheetKind] = {
    kind.word: kind
    for kind in (
        SheetKind(
            "boundaries",
            "further names of env, such as a jetty, a rail head and a pipeline",
            (_NAME,),
            _plant,
            Stage.PLANT,
            (REFINERY,),
            said="name: other names for env, such as a jetty, a rail head, a pipeline",
        ),
        SheetKind(
            "units",
            "the units of the plant; without a row they are the ends of the streams",
            (_NAME,),
            _plant,
            Stage.PLANT,
            ALL,
            said="name (without it, units are the ends of streams that aren't tanks)",
            without="the ends of the streams that are neither tanks nor boundaries, in their order",
        ),
        SheetKind(
            "tanks",
            "the tanks and stockpiles, with the error of their gauges or surveys",
            (
                replace(TANK, of=None),
                SheetColumn(
                    "error", "the standard deviation of the gauge: 3 mm, or 8 t; not in percent"
                ),
                _BASE,
                DENSITY,
                *_SERVICE,
            ),
            _plant,
            Stage.PLANT,
            _TANKS,
            is_shaped=True,
            without="since, until: each day",
        ),
        SheetKind(
            "straps",
            "the strapping tables, from the bottom of each tank to its top; a stockpile's has two "
            "points, such as level 0 and volume 0, level 100000 and volume 1000000: 1 is 10 m3 then",
            (
                TANK,
                SheetColumn("level", "in mm, or with its unit: 14.62 m", needed=True),
                SheetColumn("volume", "what the tank holds at this level", needed=True),
                SheetColumn("unit", "of the volumes: m3 without it", words=tuple(VOLUMES)),
            ),
            _plant,
            Stage.PLANT,
            _TANKS,
            said="tank, level, volume, unit (m3 without it)",
            is_shaped=True,
            is_across=True,
            without="unit: m3",
        ),
        SheetKind(
            "streams",
            "the streams, from one unit or tank to another; env is the world outside",
            (
                SheetColumn("tag", _TAG),
                SheetColumn("stream", _STREAM, needed=True),
                SheetColumn("from", _END, needed=True),
                SheetColumn("to", _END, needed=True),
                SheetColumn(
                    "kind",
                    "metered: read daily; batch: booked by tickets; plain: not measured",
                    words=("metered", "batch", "plain"),
                ),
                _UNIT,
                DENSITY,
                _ERROR,
                _BASE,
                *_SERVICE,
            ),
            _plant,
            Stage.PLANT,
            ALL,
            is_shaped=True,
            without="kind: batch with tickets, metered with readings or a tag, plain "
            "otherwise; unit: t; since, until: each day",
        ),
        SheetKind(
            "settings",
            "what holds for all figures: the level of the tests, the zone, hours, counters",
            (
                SheetColumn(
                    "setting", "tests, zone, day begins, stamps, missing hours, or counter", True
                ),
                SheetColumn("value", "its value", True),
                SheetColumn("for", "the tag of a counter"),
            ),
            _plant,
            Stage.PLANT,
            said="setting, value, for: tests (5 %: the critical values that reports may need), zone\n"
            "(Europe/Berlin), day begins (06:00), stamps (begin or end), missing hours (0), counter\n"
            "(the figure at which it begins again at 0; its tag in the column for)",
        ),
        SheetKind(
            "critical",
            "critical values of the tests, such as 3.841, which rows of a session have as 3841",
            (
                SheetColumn(
                    "test", "global, nodal or measure", True, words=("global", "nodal", "measure")
                ),
                SheetColumn("dof", "the degrees of freedom, of the global test"),
                SheetColumn(
                    "value",
                    "the critical value, such as 3.841; plantbal-desk critical gives thousandths",
                    True,
                ),
            ),
            _plant,
            Stage.PLANT,
            ALL,
        ),
        SheetKind(
            "accounts",
            "what each stream and tank is to the month's account: product, group, owner, unit",
            (
                SheetColumn("name", "a stream or a tank", True),
                SheetColumn(
                    "kind",
                    "of a stream: receipt, shipment, production, own use, flare, loss, or "
                    "internal; empty for what its ends say; empty of a tank",
                    words=tuple(kind.value for kind in AccountKind),
                ),
                SheetColumn("product", "what it is called in the account, such as diesel"),
                SheetColumn(
                    "group",
                    "the product's group, such as middle distillates; without it the " "product",
                ),
                SheetColumn(
                    "owner",
                    "whose it is: Alpha, or Alpha 60 %; Beta 40 %, or by receipts, or by " "stock",
                ),
                SheetColumn(
                    "unit",
                    "the sales unit: t without it, dmt, or a volume with its density beside",
                    words=("dmt", *_AMOUNTS),
                ),
                DENSITY,
            ),
            lambda work: work.read_accounts(),
            Stage.PLANT,
            ALL,
            said="name, kind, product, group, owner, unit, density: where a book adds each stream up",
            without="kind: what the ends say; group: the product; unit: t",
        ),
        *KEPT,
        SheetKind(
            "periods",
            "the periods; without a row each calendar month with a reading is one",
            (_NAME, replace(FIRST, needed=True), replace(LAST, needed=True)),
            lambda work: work.periods.read(),
            plants=ALL,
            said="name, first, last (without it, each calendar month with a reading is a period)",
            without="each calendar month with a reading is a period, from its first to "
            "its last day",
        ),
        SheetKind(
            "moistures",
            "what part of wet tonnes is water: of a ticket by its id, of a day, of a day's shifts "
            "with their wet tonnes, or of several days",
            (
                _OF_TAG,
                _OF_STREAM,
                SheetColumn("id", "the ticket's number, each once"),
                DAY,
                FIRST,
                LAST,
                SheetColumn(
                    "moisture", "with its unit: 8.2 %; or alone, with the unit beside it", True
                ),
                SheetColumn(
                    "error", "the standard deviation: 3 % of the moisture, or 2500 ppm", True
                ),
                SheetColumn("amount", "the wet tonnes of a shift, if a day has several"),
                SheetColumn("unit", "of the moistures: %; empty if each figure has it"),
            ),
            lambda work: work.moistures.read(),
            plants=(CONCENTRATOR,),
            said="stream, day, moisture, error: what part of wet tonnes (wmt) is water; or with a\n"
            "ticket's id; or first and last; of a shift with its wet tonnes in amount",
            is_shaped=True,
            without="day: every day; amount: the wet tonnes of a shift; unit: the one "
            "after the moisture",
        ),
        *OF_DAYS,
        SheetKind(
            "readings",
            "the days down, and a column for each tag of the sheet streams, the tag over it",
            (),
            lambda work: work.readings.read(),
            plants=ALL,
            said="the days down and a column for each tag; or days across; or long: day, tag, value, "
            "unit",
            first="day",
        ),
        SheetKind(
            "estimates",
            "a figure with a wide error for a day without a reading",
            (
                _OF_TAG,
                _OF_STREAM,
                replace(DAY, needed=True),
                LAST,
                replace(_AMOUNT, needed=True),
                _UNIT,
                DENSITY,
                replace(_ERROR, needed=True),
            ),
            lambda work: work.estimates.read(),
            plants=ALL,
            said="tag, day, last, amount, unit, density, error: a guess for missing days",
            is_shaped=True,
            without="unit and density: the stream's",
        ),
        SheetKind(
            "tickets",
            "the batches of ships, trains and trucks",
            (
                SheetColumn("id", "the ticket's number, each once", True),
                replace(_OF_STREAM, needed=True),
                replace(FIRST, needed=True),
                LAST,
                replace(_AMOUNT, needed=True),
                _UNIT,
                DENSITY,
                _ERROR,
                TEMPERATURE,
                TEMPERATURE_SD,
            ),
            lambda work: work.tickets.read(),
            plants=_TANKS,
            is_shaped=True,
            without="last: first; the others: the stream's",
        ),
        SheetKind(
            "dips",
            "the levels of the tanks at the end of a day, that of the day before a period too",
            (
                TANK,
                replace(DAY, needed=True),
                SheetColumn("level", "in mm, or with its unit: 14.62 m", True),
                SheetColumn("unit", "of the levels: mm without it", words=("mm", "cm", "m")),
                DENSITY,
                SheetColumn("error", "the standard deviation: 3 mm, or 8 t; the tank's without it"),
                TEMPERATURE,
                TEMPERATURE_SD,
                SheetColumn("water", "the level of the free water, in mm or with its unit"),
                SheetColumn(
                    "water error", "the standard deviation of it: 2 mm; gauges has it without it"
                ),
            ),
            lambda work: work.dips.read(),
            plants=_TANKS,
            is_shaped=True,
            is_across=True,
            without="unit: mm; density and error: the tank's",
        ),
        SheetKind(
            "assays",
            "the grades of components, each of a period, entered before it is closed",
            (
                SheetColumn("component", "such as cu", True),
                replace(_OF_STREAM, needed=True),
                SheetColumn(
                    "period", "the name of a period: of a calendar month such as 2024-04", True
                ),
                SheetColumn(
                    "grade",
                    "with its unit: 0.9 %, 120 g/t, 9000 ppm; or alone, with the unit beside " "it",
                    True,
                ),
                SheetColumn(
                    "error",
                    "the standard deviation: 2 % of the grade, 180 ppm, or 2 % or 20 ppm",
                    True,
                ),
                SheetColumn(
                    "unit",
                    "of the grades: %, ppm or g/t; empty if each figure has it",
                    words=tuple(GRADES),
                ),
            ),
            lambda work: work.assays.read(),
            plants=_TANKS,
            is_shaped=True,
            without="unit: the one after the grade",
        ),
        SheetKind(
            "windows",
            "periods to reconcile at once too, if a dip between them is missing",
            (
                SheetColumn(
                    "first",
                    "the name of the first period: of a calendar month such as 2024-04",
                    True,
                ),
                SheetColumn(
                    "last",
                    "the name of the last period, counted too: of a calendar month such as 2024-04",
                    True,
                ),
            ),
            lambda work: work.rows.ask(),
            Stage.END,
            _TANKS,
            said="first, last: periods to reconcile together as well, from the first to the last",
        ),
        SheetKind(
            "rows",
            "rows of a session, unchanged, such as amend, strike and close",
            (),
            lambda work: work.rows.read(),
            Stage.END,
            said="rows of a session, unchanged, such as amend, strike and close",
        ),
    )
}
# The sheets that have the plant itself.
PLANT_SHEETS = tuple(word for word, kind in SHEETS.items() if kind.stage is Stage.PLANT)
# Sheets that are skipped without a word; pulps are read by `balance --pulps`.
PASSED = ("about", "lists", "pulps")


def help_lines() -> str:
    """Return a line for each kind of sheet, as the help of `convert` has them."""
    lines = []
    for word, kind in SHEETS.items():
        first, *more = (kind.said or ", ".join(kind.heads)).split("\n")
        lines += [f"  {word:<10} {first}", *(f"  {'':<10} {each}" for each in more)]
    return "\n".join(lines)
