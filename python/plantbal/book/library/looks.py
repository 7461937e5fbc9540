"""The calls of a book that only look: what is there, and what an action would do, on a copy."""

from __future__ import annotations

from collections.abc import Iterator
from contextlib import contextmanager
from typing import TYPE_CHECKING

from plantbal.book import looking, trial
from plantbal.book.actions import Withheld
from plantbal.book.looking import Contents, FactLine, KeptReport, MonthFacts
from plantbal.book.library.base import Base
from plantbal.workbook.mapping.form import WorkbookMapping

if TYPE_CHECKING:
    from plantbal.book.library.book import Book


class Looking(Base):
    """What `plantbal.Book` has for whoever shows a book."""

    def contents(self) -> Contents:
        """Return its version, its months, its plant by the years, and its journal."""
        return looking.contents(self._store())

    def kept(self, period: str, number: int | None = None) -> KeptReport:
        """Return a period's report as it is kept, with the session that asked for it.

        Parameters
        ----------
        period : str
            The period.
        number : int, optional
            The number of an earlier report, counted from 1.

        Raises
        ------
        Fault
            If there is no such period or report.
        """
        return looking.kept(self._store(), period, number)

    def kept_window(self, first: str, last: str) -> KeptReport:
        """Return the report of a window as it is kept.

        Raises
        ------
        Fault
            If there is none.
        """
        return looking.kept_window(self._store(), first, last)

    def facts(self, period: str) -> MonthFacts:
        """Return the facts that touch a period, with what each was before it was edited.

        Raises
        ------
        Fault
            If there is no such period.
        """
        return looking.facts_of(self._store(), period)

    def fact(self, year: str, identity: str) -> FactLine:
        """Return a fact of a year, and the lines of the journal that booked and changed it.

        Raises
        ------
        Fault
            If there is no such fact.
        """
        return looking.fact_line(self._store(), year, identity)

    def mapping(self) -> WorkbookMapping | None:
        """Return how its workbooks are read, as it keeps that, or None if it keeps nothing."""
        return looking.kept_mapping(self._store())

    @contextmanager
    def trial(self) -> Iterator[Book]:
        """Give a copy of the book, on which anything can be tried; it goes away in the end.

        What wants an approval by the rules of the book is done there without one.

        Raises
        ------
        Fault
            If there is no book, or one of its files was changed.
        """
        from plantbal.book.library.book import Book

        with trial.copied(self._store()) as folder:
            yield Book(folder, program=self.program, withheld=Withheld.DONE)
