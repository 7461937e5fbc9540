"""The sheet settings of a workbook: what holds for all of its figures, and isn't to be guessed."""

from __future__ import annotations

import datetime
import re
from collections.abc import Iterable
from dataclasses import dataclass, field
from decimal import Decimal
from zoneinfo import ZoneInfo, ZoneInfoNotFoundError

from plantbal.faults import InputFault
from plantbal.sentence import Sentence
from plantbal.workbook.causes import SheetCause
from plantbal.workbook.cells import Reader
from plantbal.workbook.sheets import Cell, Percent

TESTS, ZONE, BEGINS, STAMPS, MISSING_HOURS, COUNTER = (
    "tests",
    "zone",
    "day begins",
    "stamps",
    "missing hours",
    "counter",
)
_CLOCK = re.compile(r"([01]?[0-9]|2[0-3])(?::([0-5][0-9]))?(?::00)?")


@dataclass
class Settings:
    """What the sheet settings says.

    Attributes
    ----------
    level : float or None
        The chance that a plant without a fault is rejected by the tests of one kind.
    level_at : Cell or None
        Where it is told.
    zone : ZoneInfo or None
        The plant's zone.
    begins : timedelta
        How long after midnight its day begins.
    stamps : str
        ``begin`` or ``end``: which of its hour, or of its day, a stamp is; empty if it isn't said.
    fill : bool
        Whether an hour without a figure is 0.
    counters : dict of str to Decimal
        The tags whose figures are a counter's, and the figure at which it begins again at 0.
    """

    level: float | None = None
    level_at: Cell | None = None
    zone: ZoneInfo | None = None
    begins: datetime.timedelta = datetime.timedelta(0)
    stamps: str = ""
    fill: bool = False
    counters: dict[str, Decimal] = field(default_factory=dict)

    def take(self, reader: Reader, name: Cell, value: Cell, of: Cell) -> None:
        """Take a row.

        Raises
        ------
        InputFault
            If there is no such setting, or it can't have this value.
        """
        word = name.text.casefold()
        if word == TESTS:
            self.level, self.level_at = _level(reader, value), value
        elif word == ZONE:
            self.zone = _zone(reader, value)
        elif word == BEGINS:
            self.begins = _clock(reader, value)
        elif word == STAMPS and value.text.casefold() in ("begin", "end"):
            self.stamps = value.text.casefold()
        elif word == STAMPS:
            what = SheetCause.NO_END_OF_HOUR(text=value.text)
            raise reader.fault(value, what, "write begin or end")
        elif word == MISSING_HOURS:
            if reader.number(value) != 0:
                raise reader.fault(value, SheetCause.MISSING_HOURS(), "write 0")
            self.fill = True
        elif word == COUNTER:
            self.counters[of.text] = _modulus(reader, value, of)
        else:
            known = ", ".join((TESTS, ZONE, BEGINS, STAMPS, MISSING_HOURS, COUNTER))
            what = SheetCause.NO_SETTING(text=name.text)
            raise reader.fault(name, what, Sentence("write one of {known}", known=known))


def _level(reader: Reader, cell: Cell) -> float:
    """Return a level: `5 %` or 0.05."""
    share = reader.error(cell, head="value").share if cell.text.endswith("%") else None
    level = float(reader.number(cell) if share is None else share * reader.divisor)
    if not 0 < level < 1:
        what = SheetCause.NOT_A_LEVEL_OF_TEST(text=cell.text)
        raise reader.fault(cell, what, "write the chance of a false alarm: 5 %, or 0.05")
    return level


def _zone(reader: Reader, cell: Cell) -> ZoneInfo:
    try:
        return ZoneInfo(cell.text)
    except (ZoneInfoNotFoundError, ValueError, OSError) as error:
        remedy = "write it as Europe/Berlin, or UTC"
        raise reader.fault(cell, SheetCause.NO_ZONE(text=cell.text), remedy) from error


def _clock(reader: Reader, cell: Cell) -> datetime.timedelta:
    """Return a time of the day."""
    if isinstance(cell.value, datetime.time):
        return datetime.timedelta(hours=cell.value.hour, minutes=cell.value.minute)
    match = _CLOCK.fullmatch(cell.text)
    if match is None or isinstance(cell.value, Percent):
        raise reader.fault(cell, SheetCause.NOT_A_CLOCK(text=cell.text), "write it as 06:00")
    return datetime.timedelta(hours=int(match.group(1)), minutes=int(match.group(2) or 0))


def _modulus(reader: Reader, value: Cell, of: Cell) -> Decimal:
    """Return the figure at which a counter begins again at 0."""
    number = reader.number(value)
    if number <= 0 or not of.text:
        remedy = "write the figure at which it begins again at 0, and its tag into the column for"
        raise reader.fault(value, SheetCause.COUNTER_UNTOLD(), remedy)
    return number


def read_settings(
    rows: Iterable[tuple[Cell, Cell, Cell]], reader: Reader
) -> tuple[Settings, list[InputFault]]:
    """Return the settings that rows of names, values and tags say, and what is wrong with others."""
    found, faults = Settings(), []
    for name, value, of in rows:
        try:
            found.take(reader, name, value, of)
        except InputFault as fault:
            faults.append(fault)
    return found, faults
