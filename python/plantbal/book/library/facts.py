"""What a book does with facts: it adds, shows, amends, strikes and estimates them."""

from __future__ import annotations

from plantbal.book import adding, editing, estimating, showing
from plantbal.book.adding import Why
from plantbal.book.library.base import Base, Day, day_or_none
from plantbal.book.meters import Meter
from plantbal.book.reading import Given
from plantbal.book.results import Added, Edited, Estimated, ShownFact
from plantbal.workbook.options import ReadingOptions


class BookFacts(Base):
    """The facts of a book."""

    def add(
        self,
        workbook: Given,
        *,
        why: str | Why = "",
        strike: bool = False,
        anyway: bool = False,
        year: str | None = None,
        reading: ReadingOptions = ReadingOptions(),
        dry_run: bool = False,
    ) -> Added:
        """Add a workbook: what is new, and what is changed, with its reason.

        Parameters
        ----------
        workbook : str, Path or Tabled
            An xlsx file, a CSV file, or a folder of CSV files; or sheets that come from elsewhere.
        why : str, callable or Reasoned
            The reason of what is changed or struck, or what gives it for each change: it gets
            the sentence that says the change, or the fact.
        strike : bool
            Whether facts are struck that are no longer in the workbook.
        anyway : bool
            Whether most of what is booked may be struck so.
        year : str, optional
            The year of its plant; the last one without it.
        reading : ReadingOptions
            How the workbook is read.
        dry_run : bool
            Whether nothing is booked, to see what would be.

        Raises
        ------
        Unreasoned
            If something is changed without a reason.
        Fault
            If something is wrong with the workbook, or doesn't agree with the book.
        """
        return adding.add(
            self._store(),
            workbook,
            why=why,
            strike=strike,
            anyway=anyway,
            year=year,
            reading=reading,
            dry_run=dry_run,
            who=self.who,
        )

    def show(
        self, name: str, first: Day = None, last: Day = None
    ) -> tuple[list[ShownFact], Meter | None, list[str]]:
        """Return what is booked of a stream or tank, its meter, and what waits in the book.

        Parameters
        ----------
        name : str
            A tag, stream or tank.
        first, last : date or str, optional
            The first and the last day.

        Raises
        ------
        Fault
            If nothing of it is booked on these days.
        """
        return showing.show(self._store(), name, day_or_none(first), day_or_none(last))

    def amend(
        self,
        name: str,
        day: Day,
        amount: str,
        *,
        why: str,
        density: str = "",
        error: str = "",
        locale: str = "",
    ) -> Edited:
        """Give a fact another value.

        Parameters
        ----------
        name : str
            A tag, stream or tank; or the id of a fact.
        day : date, str or None
            The day; None with an id.
        amount : str
            The amount with its unit, ``12188 t``; of a dip its level, ``13838 mm``.
        why : str
            The reason.
        density, error : str
            Another density and another error, if they change; the error is else the meter's.
        locale : str
            Whose numbers and days these are.

        Raises
        ------
        Fault
            If there is no such fact, or a text is wrong.
        """
        other = editing.Other(amount, density, error, locale)
        when = day_or_none(day, locale)
        return editing.amend(self._store(), name, when, other, why=why, who=self.who)

    def strike(self, name: str, day: Day = None, *, why: str, locale: str = "") -> Edited:
        """Take a fact out; the parameters are those of `amend`."""
        return editing.strike(self._store(), name, day_or_none(day, locale), why=why, who=self.who)

    def undo(self, name: str, day: Day = None, *, why: str, locale: str = "") -> Edited:
        """Give a fact back what it was before its last change, while its period is open.

        An amendment is undone by another. A struck fact is booked again, under another id. The
        journal has both; the parameters are those of `amend`.

        Raises
        ------
        Fault
            If there is no such fact, it wasn't changed, or a period of it is closed.
        """
        return editing.undo(self._store(), name, day_or_none(day, locale), why=why, who=self.who)

    def estimate(
        self, period: str, stream: str = "", *, take: bool = False, why: str = ""
    ) -> Estimated:
        """Propose estimates for the days without a reading, or book them.

        Parameters
        ----------
        period : str
            The period.
        stream : str
            A tag or stream; all that have such days without it. Of a named one the zero or frozen
            readings of a dead meter are replaced, too.
        take : bool
            Whether the estimates are booked.
        why : str
            The reason, if they are.

        Raises
        ------
        Fault
            If there is no such period or stream, or no reason.
        """
        who = self.who
        return estimating.estimate(self._store(), period, stream, take=take, why=why, who=who)
