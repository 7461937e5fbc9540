"""How a workbook is read: whose numbers and days, which texts are missing figures, what is left out."""

from __future__ import annotations

from dataclasses import dataclass, replace

from plantbal.workbook.cells import MISSING, Reader
from plantbal.workbook.locales import check_locale
from plantbal.workbook.mapping.applying import applied
from plantbal.workbook.mapping.finding import sheet_mapping
from plantbal.workbook.mapping.form import WorkbookMapping
from plantbal.workbook.sheets import Sheet


@dataclass(frozen=True)
class ReadingOptions:
    """How a workbook is read.

    Attributes
    ----------
    locale : str
        Whose numbers and days are read, such as ``de``; empty for digits with a decimal point.
    missing : tuple of str
        Further words that stand for a missing figure.
    skip : tuple of str
        Heads of columns that are left out.
    limits : bool
        Whether errors are limits that hold 95 times in 100, of which half is taken.
    mapping : WorkbookMapping, optional
        Which sheet and column is what.
    """

    locale: str = ""
    missing: tuple[str, ...] = ()
    skip: tuple[str, ...] = ()
    limits: bool = False
    mapping: WorkbookMapping | None = None

    def kept(self, mapping: WorkbookMapping | None) -> ReadingOptions:
        """Return how a workbook of a book is read, of which a mapping is kept.

        What is said for this workbook comes first; words and heads are added to those kept.
        """
        mapping = self.mapping or mapping
        if mapping is None:
            return self
        return ReadingOptions(
            self.locale or mapping.locale,
            tuple(dict.fromkeys([*mapping.missing, *self.missing])),
            tuple(dict.fromkeys([*mapping.skip, *self.skip])),
            self.limits or mapping.limits,
            mapping,
        )

    def as_mapping(self) -> WorkbookMapping:
        """Return it as a mapping, which a book keeps."""
        own = self.kept(None)
        base = own.mapping or WorkbookMapping()
        return replace(
            base, locale=own.locale, missing=own.missing, skip=own.skip, limits=own.limits
        )

    def sheets(self, given: list[Sheet]) -> list[Sheet]:
        """Return the sheets of a workbook as the mapping says.

        Raises
        ------
        InputFault
            If the mapping doesn't fit.
        """
        if self.mapping is None or not self.mapping.sheets:
            return given
        return applied(self.mapping, given)

    def names(self, sheet: Sheet) -> bool:
        """Say whether the mapping has a sheet of this name."""
        return self.mapping is not None and sheet_mapping(self.mapping, sheet) is not None

    @property
    def reader(self) -> Reader:
        """How its cells are read.

        Raises
        ------
        Fault
            If there is no such locale.
        """
        words = MISSING | {word.casefold() for word in self.missing}
        return Reader(check_locale(self.locale), words, 2 if self.limits else 1)
