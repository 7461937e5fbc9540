"""The state of each month, as a word, and what it waits for, by whom.

A month is *incomplete* if readings, dips or assays are missing, *open* if nothing but a report is,
*rejected* if its report rejects or says nothing, *untested* if nothing tested it, and *ready* if only
an answer is wanted or nothing; once closed it is *closed*, or *changed* since, if something was
booked of it.
"""

from __future__ import annotations

from collections.abc import Sequence
from dataclasses import dataclass
from enum import Enum
from pathlib import Path

from django.utils.translation import gettext as _
from django.utils.translation import gettext_lazy, ngettext

from plantbal.book.looking import BookMonth
from plantbal.book.reporting import stops_in
from plantbal.book.results import BookStatus, ReportState
from plantbal.gates import Gate, Stop
from plantbal.report.output import Output, parse_report
from plantbal_office.access import Role
from plantbal_office.plants.models import Plant
from plantbal_office.shelf import KEPT, book_contents, plain_book


class Standing(Enum):
    """How a month stands; the value is the class of its sign."""

    OPEN = "open"
    LACKING = "lacking"
    REJECTED = "rejected"
    UNTESTED = "untested"
    READY = "ready"
    CLOSED = "closed"
    CHANGED = "changed"


WORDS = {
    Standing.OPEN: gettext_lazy("open"),
    Standing.LACKING: gettext_lazy("incomplete"),
    Standing.REJECTED: gettext_lazy("rejected"),
    Standing.UNTESTED: gettext_lazy("not tested"),
    Standing.READY: gettext_lazy("ready"),
    Standing.CLOSED: gettext_lazy("closed"),
    Standing.CHANGED: gettext_lazy("changed since"),
}
SIGNS = {
    Standing.OPEN: "○",
    Standing.LACKING: "◔",
    Standing.REJECTED: "✗",
    Standing.UNTESTED: "–",
    Standing.READY: "✓",
    Standing.CLOSED: "■",
    Standing.CHANGED: "▲",
}
_REJECTS = {Gate.NO_REPORT, Gate.UNCONVERGED, Gate.REJECTED, Gate.UNDECIDED}


@dataclass(frozen=True)
class Stand:
    """How a month stands.

    Attributes
    ----------
    month : BookMonth
        The month.
    standing : Standing
        The word for it.
    waits : str
        What it waits for, as a sentence without a full stop.
    whom : tuple of Role
        Who can do that.
    missing : tuple of str
        What is missing in it.
    stops : tuple of Stop
        What its report has to look at.
    output : Output or None
        The report, if it has one.
    """

    month: BookMonth
    standing: Standing
    waits: str
    whom: tuple[Role, ...]
    missing: tuple[str, ...] = ()
    stops: tuple[Stop, ...] = ()
    output: Output | None = None

    @property
    def word(self) -> str:
        """The word for how it stands, in the person's language."""
        return str(WORDS[self.standing])

    @property
    def is_untested(self) -> bool:
        """Whether its report wasn't tested for want of critical values."""
        return any(stop.gate is Gate.UNTESTED and stop.values for stop in self.stops)

    @property
    def sign(self) -> str:
        """A sign for it."""
        return SIGNS[self.standing]


def status_of(plant: Plant) -> BookStatus:
    """Return how the book of a plant stands."""
    return KEPT.of(Path(plant.folder), "status", (), plain_book(plant).status)


def stands_of(plant: Plant) -> list[Stand]:
    """Return how each month of a plant stands, in the order of their days."""
    status = status_of(plant)
    missing = {each.name: each.missing for year in status.years for each in year.periods}
    return [
        _stand(plant, month, missing.get(month.name, ())) for month in book_contents(plant).months
    ]


def stand_of(plant: Plant, month: BookMonth) -> Stand:
    """Return how a month stands."""
    years = status_of(plant).years
    missing = [each.missing for year in years for each in year.periods if each.name == month.name]
    return _stand(plant, month, missing[0] if missing else ())


def _stand(plant: Plant, month: BookMonth, missing: Sequence[str]) -> Stand:
    """Return how a month stands, by its report and by what is missing."""
    if month.closed:
        if month.report is ReportState.CURRENT:
            return Stand(month, Standing.CLOSED, "", ())
        waits = _("a new report, and a handover of what has changed")
        return Stand(month, Standing.CHANGED, waits, (Role.ENGINEER, Role.APPROVER))
    if month.report is not ReportState.CURRENT:
        if missing:
            return Stand(month, Standing.LACKING, _lacks(missing), (Role.CLERK,), tuple(missing))
        return Stand(month, Standing.OPEN, _("a report"), (Role.ENGINEER,))
    stops, output = looked_at(plant, month.name)
    more = tuple(missing), tuple(stops), output
    gates = {stop.gate for stop in stops}
    if gates & _REJECTS:
        waits = _("a correction of what its report rejects")
        return Stand(month, Standing.REJECTED, waits, (Role.ENGINEER,), *more)
    if Gate.UNTESTED in gates:
        waits = _("critical values, by which its report is tested")
        return Stand(month, Standing.UNTESTED, waits, (Role.ENGINEER,), *more)
    if missing:
        return Stand(month, Standing.LACKING, _lacks(missing), (Role.CLERK,), *more)
    if stops:
        count = len(gates)
        waits = ngettext(
            "a review of %(count)d matter before the close",
            "a review of %(count)d matters before the close",
            count,
        ) % {"count": count}
        return Stand(month, Standing.READY, waits, (Role.ENGINEER, Role.APPROVER), *more)
    return Stand(month, Standing.READY, _("the close"), (Role.APPROVER,), *more)


def _lacks(missing: Sequence[str]) -> str:
    """Return how much is missing."""
    words = ngettext("%(count)d missing item", "%(count)d missing items", len(missing))
    return words % {"count": len(missing)}


def looked_at(plant: Plant, period: str) -> tuple[list[Stop], Output]:
    """Return what there is to look at in the report of a period as it is kept, and the report."""

    def make() -> tuple[list[Stop], Output]:
        kept = plain_book(plant).kept(period)
        output = parse_report(kept.text, f"the report of {period}")
        quiets = book_contents(plant).quiets
        return stops_in(kept.rows, period, output, quiets), output

    return KEPT.of(Path(plant.folder), "looked", (period,), make)
