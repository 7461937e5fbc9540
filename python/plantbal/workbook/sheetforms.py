"""What a kind of sheet is: its word, its columns, what it is for, what reads it, and when."""

from __future__ import annotations

from collections.abc import Callable
from dataclasses import dataclass
from enum import Enum, auto
from typing import TYPE_CHECKING

if TYPE_CHECKING:
    from plantbal.workbook.converter import Converter


class Stage(Enum):
    """When a sheet is read."""

    PLANT = auto()  # by the plant, as a whole
    FACTS = auto()  # one after the other, after the plant
    END = auto()  # what is asked of the session, and rows as they are


@dataclass(frozen=True)
class SheetColumn:
    """A column of a sheet.

    Attributes
    ----------
    head : str
        Its head.
    about : str
        What it holds: the note at its head in the template.
    needed : bool
        Whether each sheet of its kind has it.
    words : tuple of str
        The words to choose from; none for any.
    of : tuple of str, optional
        The sheet and the head of the column from which its texts are chosen; None for any text.
    is_day : bool
        Whether days stand in it.
    """

    head: str
    about: str
    needed: bool = False
    words: tuple[str, ...] = ()
    of: tuple[str, str] | None = None
    is_day: bool = False


@dataclass(frozen=True)
class SheetKind:
    """A kind of sheet.

    Attributes
    ----------
    word : str
        What its name begins with.
    about : str
        What it is for.
    columns : tuple of SheetColumn
        Its columns, in the order in which the template has them.
    reader : callable
        Reads the sheets of this kind; one that several kinds have is called once.
    stage : Stage
        When they are read.
    plants : tuple of str
        The templates that have it.
    said : str
        Its columns in the help of `convert`, if a list of their heads says too little.
    is_shaped : bool
        Whether it may be in other shapes than a row for each figure.
    is_across : bool
        Whether one of these shapes has a column for each tank.
    first : str
        The head over the days in the template, if it has no columns of its own.
    without : str
        What holds without some of its columns, or without the sheet, as the documents say it.
    """

    word: str
    about: str
    columns: tuple[SheetColumn, ...]
    reader: Callable[[Converter], None]
    stage: Stage = Stage.FACTS
    plants: tuple[str, ...] = ()
    said: str = ""
    is_shaped: bool = False
    is_across: bool = False
    first: str = ""
    without: str = ""

    @property
    def needed(self) -> tuple[str, ...]:
        """The heads that it needs."""
        return tuple(column.head for column in self.columns if column.needed)

    @property
    def others(self) -> tuple[str, ...]:
        """The heads that it may have."""
        return tuple(column.head for column in self.columns if not column.needed)

    @property
    def heads(self) -> tuple[str, ...]:
        """The heads of the template."""
        return tuple(column.head for column in self.columns) or (self.first,)


# Columns that several kinds have.
DENSITY = SheetColumn("density", "in kg/m3, or with its unit: 0.862 t/m3")
TANK = SheetColumn("tank", "the tank's name", needed=True, of=("tanks", "tank"))
DAY = SheetColumn("day", "the day", is_day=True)
FIRST = SheetColumn("first", "the first day", is_day=True)
MONTH = SheetColumn("month", "the month, in place of days: 2024-01")
LAST = SheetColumn("last", "the last day, counted too; if it is empty, the first", is_day=True)
