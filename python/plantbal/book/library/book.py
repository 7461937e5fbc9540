"""A plant's book: its years, what it quiets, its state, and its chain."""

from __future__ import annotations

from collections.abc import Sequence
from pathlib import Path

from plantbal.book import overview, quieting, verifying
from plantbal.book.answers import Quiet
from plantbal.book.beginning import begin
from plantbal.book.following import follow, retire
from plantbal.book.library.approvals import Approvals
from plantbal.book.library.base import Day, day_or_none
from plantbal.book.library.facts import BookFacts
from plantbal.book.library.looks import Looking
from plantbal.book.library.reports import Reports
from plantbal.book.results import AcceptedFile, Begun, BookStatus, Verified
from plantbal.book.store import Head
from plantbal.faults import Fault
from plantbal.workbook.options import ReadingOptions


class Book(BookFacts, Reports, Looking, Approvals):
    """A plant's book: a folder with a session for each year, its reports, and a journal.

    Parameters
    ----------
    folder : str or Path
        The folder.
    who : str
        Who does what is done, besides the user whose process it is.
    program : str or Path, optional
        The program, for what has no settings of a run; as `plantbal.find_program` takes it.
    seconds : float
        The most seconds to wait for another process that is at work in the book.
    expected : Version, optional
        The version of the book that was shown to whoever acts on it now: if it is another one, an
        action isn't done, and raises `plantbal.book.expected.Moved`.
    key : str or Path, optional
        The key with which submissions and approvals are signed.
    given : tuple of str, optional
        A submission that was signed elsewhere: its text, and its signature.
    withheld : Withheld
        What becomes of an action that wants an approval by the rules of the book: it is submitted
        and raises `Submitted`, nothing is done and the text that its submission signs comes as
        `Unsigned`, or it is done, as on the copy of `trial`.

    Examples
    --------
    >>> book = Book("mill")  # doctest: +SKIP
    >>> added = book.add("april.xlsx", why="typed wrong")  # doctest: +SKIP
    """

    # ---- years

    def begin(
        self,
        year: str,
        workbook: str | Path,
        *,
        reading: ReadingOptions = ReadingOptions(),
    ) -> Begun:
        """Make the book of the plant that a workbook has, with its first year.

        Parameters
        ----------
        year : str
            The first year, such as ``2024``.
        workbook : str or Path
            An xlsx file, a CSV file, or a folder of CSV files.
        reading : ReadingOptions
            How the workbook is read.

        Raises
        ------
        Fault
            If something of a book is there already, or something is wrong with the workbook.
        """
        store = self._store()
        return begin(store, year, workbook, reading=reading, program=self.program, who=self.who)

    def next(
        self,
        year: str,
        *,
        plant: str | Path | None = None,
        first: Day = None,
        reading: ReadingOptions = ReadingOptions(),
    ) -> Begun:
        """Begin the next year with the plant, the dips of its eve, and what touches both years.

        Parameters
        ----------
        year : str
            The next year.
        plant : str or Path, optional
            The workbook of another plant; without it the plant stays.
        first : date or str, optional
            Its first day; January 1st without it.
        reading : ReadingOptions
            How the workbook is read.

        Raises
        ------
        Fault
            If the year doesn't follow, or a tank wouldn't hold the same in both years.
        """
        return follow(
            self._store(),
            year,
            plant=plant,
            first=day_or_none(first, reading.locale),
            reading=reading,
            program=self.program,
            who=self.who,
        )

    def retire(self, name: str, until: Day, *, year: str = "", locale: str = "") -> Begun:
        """End the service of a tank or stream that is booked, by a new part of the year.

        Parameters
        ----------
        name : str
            The tank, with the streams at it, or the stream.
        until : date or str
            Its last day in service.
        year : str
            The name of the new part; without it ``2024b`` after ``2024``.
        locale : str
            Whose days are read.

        Raises
        ------
        Fault
            If there is none, or its last day is before the new part begins.
        """
        day = day_or_none(until, locale)
        if day is None:
            raise Fault("there is no last day", remedy="write it as 2024-02-20")
        return retire(self._store(), name, day, year=year, program=self.program, who=self.who)

    # ---- quiet

    def quiet(self, code: str, *names: str, why: str) -> None:
        """Quiet a rule of lint for good, for some names, with a reason.

        Parameters
        ----------
        code : str
            The rule.
        names : str
            The streams, tanks or units that it speaks of.
        why : str
            The reason.

        Raises
        ------
        Fault
            If there is no such rule, it can't be quieted, or there is no reason.
        """
        quieting.quiet(self._store(), code, names, why=why, who=self.who)

    def heed(self, code: str, *names: str, why: str) -> None:
        """Have a rule that was quieted speak again; the parameters are those of `quiet`.

        Raises
        ------
        Fault
            If it isn't quieted for these names.
        """
        quieting.heed(self._store(), code, names, why=why, who=self.who)

    def quieted(self) -> list[Quiet]:
        """Return which rules are quieted, for which names and why."""
        return quieting.quieted_rules(self._store())

    # ---- the book

    def status(self) -> BookStatus:
        """Return what is open or missing, which reports are old, and how full each year is."""
        return overview.status(self._store())

    def verify(self, bundles: Sequence[str] = (), *, heads: Sequence[str] = ()) -> Verified:
        """Test every file of the book against its journal, up to each place that it names.

        Parameters
        ----------
        bundles : sequence of str
            Bundles that name a head of this book, in their order.
        heads : sequence of str
            Heads that were kept elsewhere, and that this book has to have.

        Raises
        ------
        Fault
            If there is no book, its journal can't be read, or a text is no head.
        """
        return verifying.verify(self._store(), bundles, heads)

    @property
    def head(self) -> Head:
        """The end of its chain, after a test of its files."""
        return verifying.head_of(self.folder)

    def accept(self, file: str, *, why: str) -> AcceptedFile:
        """Take a file that was changed by other means as it is now, or its loss.

        Parameters
        ----------
        file : str
            The file, such as ``meters.csv``.
        why : str
            The reason, which the journal shows for good.

        Raises
        ------
        Fault
            If it is no file of the book that differs from its journal.
        """
        return verifying.accept(self._store(), file, why=why, who=self.who)
