"""Cells as numbers, amounts and errors, written as a locale writes them; what was rounded is kept."""

from __future__ import annotations

import datetime
import math
import re
from dataclasses import dataclass, field
from decimal import Context, Decimal, Inexact
from fractions import Fraction

from plantbal.causes import Case, CausedFault
from plantbal.sentence import Phrase, Sentence
from plantbal.workbook.causes import SheetCause
from plantbal.workbook.celldays import day_in_cell
from plantbal.workbook.cellfaults import cell_fault
from plantbal.workbook.figures import plain_number, without_spaces
from plantbal.workbook.locales import symbols
from plantbal.workbook.remedies import CellRemedy, OptionRemedy
from plantbal.workbook.sheets import Cell, InThousands, NoValue, Percent, Shown
from plantbal.workbook.units import (
    AMOUNTS,
    DENSITIES,
    GRADES,
    GRAMS,
    LENGTHS,
    VOLUMES,
    WET,
    of_rate,
    unit_of,
)

MISSING = frozenset(
    "- -- --- – — . n/a na #n/a #n/a! #nv nv nan null none nil missing fehlt fehlend k.a. ? bad "
    "no_data nodata".split()
) | {"no data", "bad input", "i/o timeout", "pt created", "not available", "#n/a n/a"}
_DIGIT = re.compile("[0-9]")
_EXPONENT = re.compile(r"(.*[0-9.,])[eE]([+-]?[0-9]{1,3})")
_EITHER = re.compile(r"[+-]?[1-9][0-9]{0,2}[.,][0-9]{3}")
_GRADE = re.compile(r"(.*?[0-9])\s*(%|[^\W\d_]+(?:/[^\W\d_]+)?)")
EXACT = Context(prec=400, traps=[Inexact])
# The locales whose marks are recognised in another's figures, and what their marks are called.
MARKS = {"en": "a decimal point", "de": "a decimal comma"}
# Tons that aren't of 1,000 kg, or may not be.
OTHER_TONS = ("ton", "tons", "short ton", "short tons", "st", "lt")
# In kg/m3 the least and the greatest density that is written without its unit.
PLAIN_DENSITY = 20, 20_000


@dataclass(frozen=True, slots=True)
class Error:
    """The standard deviation of a figure: the greatest of its parts.

    Attributes
    ----------
    share : Fraction
        This share of the figure.
    grams : Fraction
        This many grams.
    mm : Fraction
        This many millimetres of level.
    """

    share: Fraction = Fraction(0)
    grams: Fraction = Fraction(0)
    mm: Fraction = Fraction(0)

    def variance(self, grams: int, slope: Fraction = Fraction(0)) -> int:
        """Return the variance in squared grams, rounded up.

        Parameters
        ----------
        grams : int
            The figure.
        slope : Fraction
            Grams for a millimetre of level.
        """
        deviation = max(self.share * abs(grams), self.grams, self.mm * slope)
        return math.ceil(deviation * deviation)


@dataclass
class Reader:
    """Reads cells, and keeps what was rounded.

    Attributes
    ----------
    locale : str
        Whose numbers and days are read, such as ``de`` or ``en_GB``; empty for digits with a point,
        and days that can be read in one way alone.
    missing : frozenset of str
        What stands for nothing, in small letters.
    divisor : int
        What errors are divided by: 2 if they are limits that hold 95 times in 100.
    rounded : dict
        Of each sheet how many figures were rounded, the first of them, and the most by which.
    passed : dict
        Of each sheet and word with digits that stands for nothing the first cell that has it.
    """

    locale: str = ""
    missing: frozenset[str] = MISSING
    divisor: int = 1
    rounded: dict[str, tuple[int, Cell, Fraction]] = field(default_factory=dict)
    passed: dict[tuple[str, str], Cell] = field(default_factory=dict)

    def fault(self, cell: Cell, what: Case, remedy: str | Case = "", head: str = "") -> CausedFault:
        """Return a fault at a cell."""
        return cell_fault(cell, what, remedy, head)

    def is_missing(self, cell: Cell) -> bool:
        """Say whether nothing stands in a cell, or a word for nothing."""
        if cell.value is None:
            return True
        word = cell.text.casefold()
        if word not in self.missing:
            return False
        if word not in MISSING and _DIGIT.search(word):
            self.passed.setdefault((cell.sheet.name, word), cell)
        return True

    # ---- numbers

    def number(self, cell: Cell, head: str = "") -> Decimal:
        """Return the number of a cell."""
        value = cell.value
        if isinstance(value, Decimal) and not isinstance(value, InThousands):
            return value
        if not isinstance(value, str):
            raise self.fault(cell, *self._no_number(cell), head)
        return self.number_of(cell, value, head)

    def _no_number(self, cell: Cell) -> tuple[Case, str | Case]:
        if isinstance(cell.value, NoValue):
            return SheetCause.NO_VALUE(), "open the workbook in a spreadsheet, and save it"
        if isinstance(cell.value, Percent):
            return SheetCause.PERCENTAGE(text=cell.text), "write a figure"
        if isinstance(cell.value, InThousands):
            shown = f"{cell.value.shown.normalize():f}"
            remedy = (
                "give the cell a form that shows the whole figure, and look whether it is right"
            )
            return SheetCause.SHOWN_IN_THOUSANDS(text=cell.text, shown=shown), remedy
        if isinstance(cell.value, datetime.datetime | datetime.time):
            remedy = "give the cell the form of a number, and look whether its figure is right"
            return SheetCause.DATE_FOR_FIGURE(text=cell.text), remedy
        return SheetCause.NO_FIGURE(text=cell.text), CellRemedy.WRITE_FIGURE()

    def number_of(self, cell: Cell, text: str, head: str = "") -> Decimal:
        """Return the number of a text in a cell."""
        plain = without_spaces(text.strip().replace("\u2212", "-"))
        exponent = _EXPONENT.fullmatch(plain)
        if exponent:
            plain = exponent.group(1)
        mark, group = self.marks_of(cell)
        number = plain_number(plain, mark, "" if exponent else group)
        if number is None or (
            not self.locale_of(cell) and not exponent and _EITHER.fullmatch(plain)
        ):
            raise self.fault(cell, *self._why_not(cell, text, plain, bool(exponent)), head)
        return number.scaleb(int(exponent.group(2)), EXACT) if exponent else number

    def locale_of(self, cell: Cell) -> str:
        """Return whose numbers and days a cell has: its sheet's own, or the workbook's."""
        return cell.sheet.locale or self.locale

    def marks_of(self, cell: Cell) -> tuple[str, str]:
        """Return the decimal mark of a cell's figures, and what is between thousands."""
        locale = self.locale_of(cell)
        return symbols(locale) if locale else (".", "")

    def _why_not(self, cell: Cell, text: str, plain: str, powers: bool) -> tuple[Case, str | Case]:
        """Return what is wrong with a text that is no number, and what to do."""
        own_locale = self.locale_of(cell)
        if not own_locale and _EITHER.fullmatch(plain):
            return (
                SheetCause.POINT_OR_THOUSANDS(text=text),
                OptionRemedy.NAME_LOCALE(),
            )
        for locale, mark in MARKS.items():
            point, group = symbols(locale)
            if plain_number(plain, point, "" if powers else group) is not None:
                own = OptionRemedy.OWN_LOCALE(locale=own_locale) if own_locale else ""
                what = SheetCause.MARK_OF_OTHER_LOCALE(text=text, mark=Phrase(mark), locale=own)
                return what, CellRemedy.USE_LOCALE(locale=locale)
        what = SheetCause.NO_FIGURE(text=text)
        if of_rate(text.rpartition(" ")[2]):
            return what, of_rate(text.rpartition(" ")[2])
        if text.startswith("#"):
            return SheetCause.FORMULA_FAILS(text=text), CellRemedy.CLEAR_CELL()
        return what, CellRemedy.USE_MISSING(text=text)

    def day(self, cell: Cell, head: str = "") -> datetime.date:
        """Return the day of a cell."""
        return day_in_cell(cell, self.locale_of(cell), head)

    # ---- amounts

    def unit(self, cell: Cell | None, kinds: dict[str, Fraction], default: str) -> str:
        """Return the unit that a cell names, or the one that holds without it."""
        if cell is None or self.is_missing(cell):
            return default
        found = unit_of(cell.text)
        if found not in kinds:
            remedy: str | Case = of_rate(cell.text) or CellRemedy.ONE_OF(units=", ".join(kinds))
            if cell.text.casefold() in OTHER_TONS:
                remedy = CellRemedy.NOT_TONS()
            elif found in WET:
                remedy = CellRemedy.DRY_TONNES()
            raise self.fault(cell, SheetCause.NO_UNIT_OF_KIND(text=cell.text), remedy, "unit")
        return found

    def split(self, cell: Cell, kinds: dict[str, Fraction], head: str) -> tuple[Decimal, str]:
        """Return the number of a cell, and the unit that stands after it, or nothing."""
        if isinstance(cell.value, str):
            parted = re.fullmatch(r"(.*?[0-9.,])\s*([^\W\d_][\w³]*(?:/[\w³]+)?)", cell.value)
            if parted and unit_of(parted.group(2)) in kinds:
                return self.number_of(cell, parted.group(1), head), unit_of(parted.group(2))
        number = self.number(cell, head)
        if not isinstance(number, Shown):
            return number, ""
        if unit_of(number.unit) not in kinds:
            text = f"{number:f} {number.unit}"
            raise self.fault(cell, SheetCause.NO_FIGURE(text=text), CellRemedy.WRITE_FIGURE(), head)
        return Decimal(number), unit_of(number.unit)

    def grams(self, cell: Cell, unit: str, density: Fraction | None, head: str = "") -> int:
        """Return an amount in whole grams; a volume is multiplied by its density in g/m3."""
        number, own = self.split(cell, AMOUNTS, head)
        exact = Fraction(number) * self.factor(cell, own or unit, density, head)
        return self.whole(cell, exact)

    def is_wet(self, cell: Cell, unit: str, head: str = "") -> bool:
        """Say whether an amount has its water in it, by the unit after it or the one beside."""
        return (self.split(cell, AMOUNTS, head)[1] or unit) in WET

    def factor(self, cell: Cell, unit: str, density: Fraction | None, head: str = "") -> Fraction:
        """Return the grams of one unit."""
        if unit in GRAMS or unit in WET:
            return (GRAMS | WET)[unit]
        if density is None:
            what = SheetCause.NO_DENSITY_OF_VOLUME(text=cell.text, unit=unit)
            raise self.fault(cell, what, CellRemedy.WRITE_DENSITY(), head)
        return VOLUMES[unit] * density

    def whole(self, cell: Cell, exact: Fraction) -> int:
        """Return a number rounded to a whole one, halves to the even one, and keep that it was."""
        if exact.denominator == 1:
            return int(exact)
        whole = round(exact)
        name = cell.sheet.name
        count, first, most = self.rounded.get(name, (0, cell, Fraction(0)))
        self.rounded[name] = count + 1, first, max(most, abs(exact - whole))
        return whole

    def density(self, cell: Cell | None) -> Fraction | None:
        """Return a density in g/m3; a plain number is in kg/m3."""
        if cell is None or self.is_missing(cell):
            return None
        number, unit = self.split(cell, DENSITIES, "density")
        low, high = PLAIN_DENSITY
        if number <= 0 or (not unit and not low <= number <= high):
            what = SheetCause.NOT_A_DENSITY(text=cell.text)
            raise self.fault(cell, what, CellRemedy.DENSITY_WITH_UNIT(), "density")
        return Fraction(number) * DENSITIES[unit or "kg/m3"]

    def level(
        self, cell: Cell, head: str = "level", unit: Cell | None = None, top: int | None = None
    ) -> int:
        """Return a level in whole millimetres.

        Parameters
        ----------
        cell : Cell
            The level, perhaps with its unit.
        head : str
            The head of its column.
        unit : Cell, optional
            Its unit.
        top : int, optional
            The greatest level of the tank's table: with it a number with decimals that may be in
            metres or centimetres isn't taken for millimetres, nor one that may be in metres in a
            column of millimetres.
        """
        number, own = self.split(cell, LENGTHS, head)
        beside = "" if own else self.unit(unit, LENGTHS, "")
        if top is not None and not own and number != number.to_integral_value():
            maybe = {"": ("m", "cm"), "mm": ("m",)}.get(beside, ())
            others = [each for each in maybe if 0 < number * int(LENGTHS[each]) <= top]
            if others:
                said = " or ".join(f"{cell.text} {each}" for each in others)
                what = SheetCause.LEVEL_WITHOUT_UNIT(text=cell.text, readings=said)
                if beside:
                    what = SheetCause.LEVEL_LIKE_METRES(text=cell.text)
                mm = self._written(cell, number * int(LENGTHS[others[0]]))
                remedy = CellRemedy.LEVEL_IN(unit=others[0], mm=mm, whole=round(number))
                raise self.fault(cell, what, remedy, head)
        return self.whole(cell, Fraction(number) * LENGTHS[own or beside or "mm"])

    def _written(self, cell: Cell, number: Decimal) -> str:
        """Return a figure with all its digits, as the cell's workbook writes them."""
        text = f"{number:f}"
        text = text.rstrip("0").rstrip(".") if "." in text else text
        return text.replace(".", self.marks_of(cell)[0])

    def grade(self, cell: Cell, unit: Cell | None = None, head: str = "grade") -> Fraction:
        """Return a grade in parts per million; it needs a unit after it or in a cell of its own."""
        if isinstance(cell.value, Percent):
            return Fraction(cell.value.number) * GRADES["%"]
        own = ""
        if isinstance(cell.value, str):
            parted = _GRADE.fullmatch(cell.value.strip())
            if parted and unit_of(parted.group(2)) in GRADES:
                number, own = self.number_of(cell, parted.group(1), head), unit_of(parted.group(2))
                return Fraction(number) * GRADES[own]
        number = self.number(cell, head)
        own = self.unit(unit, GRADES, "")
        if not own:
            remedy = "write its unit after it, such as 0.9 %, 120 g/t or 9000 ppm"
            raise self.fault(cell, SheetCause.GRADE_WITHOUT_UNIT(text=cell.text), remedy, head)
        return Fraction(number) * GRADES[own]

    # ---- errors

    def grade_error(self, cell: Cell, grade: Fraction, head: str = "error") -> Fraction:
        """Return the standard deviation of a grade in parts per million.

        A percentage is one of the grade, as it is of other figures; `180 ppm` and `2 g/t` are
        absolute.
        """
        if isinstance(cell.value, Percent):
            return Fraction(cell.value.number) / 100 * grade / self.divisor
        found = []
        for part in re.split(r"\s+(?:or|oder|ou)\s+", cell.text):
            parted = _GRADE.fullmatch(part.strip())
            unit = unit_of(parted.group(2)) if parted else ""
            if parted is None or unit not in GRADES:
                what = SheetCause.NOT_AN_ERROR(text=cell.text)
                remedy = "write `2 %` of the grade, `180 ppm`, or `2 % or 20 ppm`"
                raise self.fault(cell, what, remedy, head)
            number = Fraction(self.number_of(cell, parted.group(1), head)) / self.divisor
            if number < 0:
                what = SheetCause.BELOW_0(text=cell.text)
                raise self.fault(cell, what, "an error is 0 or more", head)
            found.append(number / 100 * grade if unit == "%" else number * GRADES[unit])
        return max(found)

    def error(
        self, cell: Cell, density: Fraction | None = None, level: bool = False, head: str = "error"
    ) -> Error:
        """Return a standard deviation, such as `1.5 % or 0.2 t`, or `3 mm` of a level."""
        if isinstance(cell.value, Percent):
            return Error(share=Fraction(cell.value.number) / 100 / self.divisor)
        share = grams = mm = Fraction(0)
        units = {"%": Fraction(1)} | GRAMS | VOLUMES | (LENGTHS if level else {})
        for part in re.split(r"\s+(?:or|oder|ou)\s+", cell.text):
            parted = re.fullmatch(r"(.*?[0-9])\s*(%|[^\W\d_][\w³]*)", part.strip())
            unit = unit_of(parted.group(2)) if parted else ""
            if parted is None or unit not in units:
                such = "`3 mm` or `8 t`" if level else "`1.5 %`, `0.2 t`, or `1.5 % or 0.2 t`"
                what = SheetCause.NOT_AN_ERROR(text=cell.text)
                raise self.fault(cell, what, Sentence("write {such}", such=such), head)
            number = Fraction(self.number_of(cell, parted.group(1), head)) / self.divisor
            if number < 0:
                what = SheetCause.BELOW_0(text=cell.text)
                raise self.fault(cell, what, "an error is 0 or more", head)
            if unit == "%":
                share = number / 100
            elif unit in LENGTHS and level:
                mm = number * LENGTHS[unit]
            else:
                grams = number * self.factor(cell, unit, density, head)
        return Error(share, grams, mm)
