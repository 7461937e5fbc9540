"""What a book says of its periods: reports, windows, closes, accounts, and what is handed over."""

from __future__ import annotations

from collections.abc import Iterator, Mapping

from plantbal.book import accounting, closing, handing, reporting, window
from plantbal.book.difference import Difference, difference
from plantbal.book.handing import Handed
from plantbal.book.library.base import Base
from plantbal.book.posting import post, unanswered
from plantbal.book.results import Closed, Reported, Windowed
from plantbal.gates import Gate, Stop
from plantbal.program import RunSettings


class Reports(Base):
    """The reports and the accounts of a book."""

    def report(self, *periods: str, settings: RunSettings | None = None) -> list[Reported]:
        """Write the reports of periods, each with its history; without periods of all open ones.

        Parameters
        ----------
        periods : str
            The periods.
        settings : RunSettings, optional
            How they are run; without a number of rounds each as its last report.

        Raises
        ------
        OtherRounds
            If a period is closed, and these rounds give another report than those of its last one.
        Fault
            If there is no such period, or none is open.
        """
        return list(self.reports(*periods, settings=settings))

    def reports(self, *periods: str, settings: RunSettings | None = None) -> Iterator[Reported]:
        """Write the reports as `report`, and give each when it is kept."""
        return reporting.reports(self._store(), periods, self._settings(settings), self.who)

    def session_asking(self, *periods: str) -> str:
        """Return the session that asks for the reports of periods of one year."""
        return reporting.session_asking(self._store(), periods)

    def window(self, first: str, last: str, *, settings: RunSettings | None = None) -> Windowed:
        """Reconcile several periods at once, over a dip that is missing.

        Parameters
        ----------
        first, last : str
            The first and the last period.
        settings : RunSettings, optional
            How they are run; without a number of rounds as the last report of this window.

        Raises
        ------
        Fault
            If these periods are no window.
        """
        return window.window(self._store(), first, last, self._settings(settings), self.who)

    def close(
        self,
        period: str,
        *,
        anyway: Mapping[Gate, str] | None = None,
        settings: RunSettings | None = None,
    ) -> Closed:
        """Close a period with its report.

        Parameters
        ----------
        period : str
            The period.
        anyway : mapping of Gate to str, optional
            Why it is closed although something has to be looked at first: a reason for each gate.
        settings : RunSettings, optional
            How it is run; without a number of rounds as its last report.

        Raises
        ------
        NotClosed
            If there is no reason for a gate; the fault has the report.
        Fault
            If there is no such period.
        """
        how = self._settings(settings)
        given = anyway or {}
        return closing.close(self._store(), period, anyway=given, settings=how, who=self.who)

    # ---- accounts

    def account(self, period: str) -> accounting.PeriodAccount:
        """Return the account of a period, how old its report is, and what is unusual in it.

        Raises
        ------
        Fault
            If there is no such period, or it has no report.
        """
        return accounting.account(self._store(), period)

    def handed(self, period: str) -> Handed:
        """Return what is handed over of a period: flows, stock, what was posted, with an id.

        Raises
        ------
        Fault
            If there is no such period, or its report is missing or older than its facts.
        """
        return handing.handed(self._store(), period)

    def difference(self, period: str, *states: str) -> Difference:
        """Return how two states of a period differ, and why.

        Parameters
        ----------
        period : str
            The period.
        states : str
            None or two: the number of an earlier report, ``posted`` or ``now``.

        Raises
        ------
        Fault
            If there is no such state.
        """
        return difference(self._store(), period, states)

    def post(
        self,
        period: str,
        *,
        anyway: bool = False,
        reasons: Mapping[Gate, str] | None = None,
        why: str = "",
    ) -> Difference:
        """Record what is handed over of a closed period, with an id that is given once.

        Parameters
        ----------
        period : str
            The period.
        anyway : bool
            Whether it may be open.
        reasons : mapping of Gate to str, optional
            Why it is posted although its report stops it: a reason for each gate for which its
            close has none.
        why : str
            What there is to say of it.

        Raises
        ------
        NotPosted
            If there is no reason for a gate.
        Fault
            If its report is old, it is open, or the same is posted already.
        """
        given = reasons or {}
        return post(self._store(), period, anyway=anyway, reasons=given, why=why, who=self.who)

    def unanswered(self, period: str) -> list[Stop]:
        """Return for what of a period's report `post` needs a reason, since its close has none.

        Raises
        ------
        Fault
            If there is no such period, or it has no report.
        """
        return unanswered(self._store(), period)
