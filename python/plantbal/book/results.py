"""What `Book` returns: what became of an action on a book, and the state of a book."""

from __future__ import annotations

import datetime
from collections.abc import Mapping
from dataclasses import dataclass, field
from enum import Enum
from pathlib import Path

from plantbal.book.changes import Changes
from plantbal.book.ledger import BookFact
from plantbal.book.store import Head
from plantbal.diagnosis.proposal import Proposal
from plantbal.gates import Gate, Stop
from plantbal.lint import Finding
from plantbal.report.output import Output


@dataclass(frozen=True)
class Begun:
    """A book that was made, or its next year.

    Attributes
    ----------
    year : str
        The year.
    rows : int
        How many rows its plant has.
    classes : mapping of str to list of str
        The streams of each class by the design; of a next year only if it has another plant.
    notes : tuple of str
        What was skipped in the workbook of the plant.
    first : date or None
        The first day of a next year.
    contents : mapping of str to int
        The grams in its tanks as it begins.
    unopened : tuple of str
        Its tanks without a dip of the evening before.
    is_begun : bool
        Whether it was begun now: not if it was there already.
    """

    year: str
    rows: int
    classes: Mapping[str, list[str]]
    notes: tuple[str, ...] = ()
    first: datetime.date | None = None
    contents: Mapping[str, int] | None = None
    unopened: tuple[str, ...] = ()
    is_begun: bool = True


@dataclass(frozen=True)
class YearAdded:
    """What a workbook adds to a year.

    Attributes
    ----------
    name : str
        The year.
    rows : tuple of tuple of str
        The rows that are added to its session.
    doubts : tuple of Finding
        What they bring that looks wrong.
    missing : tuple of str
        What is missing in the periods of the workbook's facts, in sentences.
    """

    name: str
    rows: tuple[tuple[str, ...], ...]
    doubts: tuple[Finding, ...] = ()
    missing: tuple[str, ...] = ()


@dataclass(frozen=True)
class Added:
    """A workbook that was added.

    Attributes
    ----------
    workbook : str
        The name of its file.
    years : tuple of YearAdded
        What it adds to each year.
    accounts : tuple of str
        What it adds to what the book keeps beside its years, in sentences: how it changes meters,
        the sheet of accounts, products, the mapping.
    changes : Changes
        The facts that are new in it, changed, moved or gone.
    struck : bool
        Whether those that are gone were struck.
    notes : tuple of str
        What was rounded or skipped in it.
    is_booked : bool
        Whether something was booked: not if there was nothing new, or only to see what would be.
    closed : tuple of str
        The closed periods whose facts it changes or strikes.
    causes : tuple of str
        The densities by which booked facts change.
    """

    workbook: str
    years: tuple[YearAdded, ...]
    accounts: tuple[str, ...]
    changes: Changes
    struck: bool
    notes: tuple[str, ...]
    is_booked: bool
    closed: tuple[str, ...] = ()
    causes: tuple[str, ...] = ()


@dataclass(frozen=True)
class Edited:
    """A fact that was amended or struck.

    Attributes
    ----------
    old : BookFact
        The fact as it was booked.
    new : BookFact or None
        The fact as it is; None if it is struck.
    is_booked : bool
        Whether that was booked now: not if it was so already.
    older_reports : tuple of str
        The periods whose reports don't have that.
    closed : tuple of str
        Those of its periods that are closed.
    """

    old: BookFact
    new: BookFact | None
    is_booked: bool
    older_reports: tuple[str, ...] = ()
    closed: tuple[str, ...] = ()


@dataclass(frozen=True)
class Estimated:
    """Estimates that are proposed, or were booked.

    Attributes
    ----------
    period : str
        The period.
    proposals : tuple of Proposal
        The proposals.
    missing : tuple of str
        The streams with days for which an estimate is wanted.
    is_booked : bool
        Whether they were booked now.
    older_reports : tuple of str
        The periods whose reports don't have them.
    closed : tuple of str
        Those of the periods that are closed.
    """

    period: str
    proposals: tuple[Proposal, ...]
    missing: tuple[str, ...]
    is_booked: bool = False
    older_reports: tuple[str, ...] = ()
    closed: tuple[str, ...] = ()


@dataclass(frozen=True)
class Reported:
    """A period's report.

    Attributes
    ----------
    period : str
        The period.
    output : Output
        The report.
    path : Path
        Its file.
    is_new : bool
        Whether it is another than was there.
    missing : tuple of str
        The readings and dips that are missing, in sentences.
    stops : tuple of Stop
        What has to be looked at before it is closed, but for what is quieted.
    holes : tuple of str
        If it is rejected how much is missing, where, and since when, in sentences.
    """

    period: str
    output: Output
    path: Path
    is_new: bool
    missing: tuple[str, ...]
    stops: tuple[Stop, ...] = ()
    holes: tuple[str, ...] = ()

    @property
    def edits(self) -> int:
        """How many edits its history has."""
        return sum(row["row"] == "edit" for row in self.output.rows)


@dataclass(frozen=True)
class Closed:
    """A period that was closed.

    Attributes
    ----------
    period : str
        The period.
    report : Reported or None
        The report with which it was closed; None if it was closed already.
    head : Head or None
        The end of the book's chain after that, to be kept elsewhere; None if it was closed already.
    reasons : mapping of Gate to str
        The reason for each gate, if something was to be looked at.
    """

    period: str
    report: Reported | None
    head: Head | None = None
    reasons: Mapping[Gate, str] = field(default_factory=dict)


@dataclass(frozen=True)
class Windowed:
    """The report of a window.

    Attributes
    ----------
    first, last : str
        Its first and its last period.
    output : Output
        The report.
    path : Path
        Its file.
    is_new : bool
        Whether it is another than was there.
    session : str
        The session that asked for it.
    closed : tuple of str
        Those of its periods that are closed: their reports have other figures.
    """

    first: str
    last: str
    output: Output
    path: Path
    is_new: bool
    session: str
    closed: tuple[str, ...] = ()


class ReportState(Enum):
    """How old a report is."""

    MISSING = "there is none"
    OLDER = "something was booked since"
    CURRENT = "it has all that is booked"


@dataclass(frozen=True)
class PeriodStatus:
    """How a period stands.

    Attributes
    ----------
    name : str
        The period.
    closed : bool
        Whether it is closed.
    report : ReportState
        How old its report is.
    missing : tuple of str
        What is missing in it while it is open, in sentences.
    """

    name: str
    closed: bool
    report: ReportState
    missing: tuple[str, ...]


@dataclass(frozen=True)
class YearStatus:
    """How a year stands.

    Attributes
    ----------
    name : str
        The year.
    facts : int
        How many facts its session has, with those that were struck.
    periods : tuple of PeriodStatus
        Its periods in their order.
    older_windows : tuple of (str, str)
        The windows of which something was booked since their reports.
    """

    name: str
    facts: int
    periods: tuple[PeriodStatus, ...]
    older_windows: tuple[tuple[str, str], ...]


@dataclass(frozen=True)
class TankApart:
    """A dip between two years that says another thing in each.

    Attributes
    ----------
    tank : str
        The tank.
    old_year, new_year : str
        The years.
    old, new : BookFact
        The dip in each.
    """

    tank: str
    old_year: str
    new_year: str
    old: BookFact
    new: BookFact


@dataclass(frozen=True)
class BookStatus:
    """How a book stands.

    Attributes
    ----------
    waiting : tuple of str
        What a command that was stopped has left to do, in sentences.
    years : tuple of YearStatus
        Its years.
    apart : tuple of TankApart
        Dips that aren't the same at the end of one year and as the next begins.
    """

    waiting: tuple[str, ...]
    years: tuple[YearStatus, ...]
    apart: tuple[TankApart, ...]


@dataclass(frozen=True)
class Verified:
    """What a test of all files of a book has found.

    Attributes
    ----------
    head : Head
        The end of its chain.
    files : int
        How many files its journal knows.
    wrong : tuple of str
        What isn't as the journal says, in sentences.
    waiting, notes : tuple of str
        What a command that was stopped has left to do, and what else there is to say.
    """

    head: Head
    files: int
    wrong: tuple[str, ...]
    waiting: tuple[str, ...] = ()
    notes: tuple[str, ...] = ()

    @property
    def ok(self) -> bool:
        """Whether every file is as the journal says, and each bundle and head is of this book."""
        return not self.wrong


@dataclass(frozen=True)
class AcceptedFile:
    """A file that was taken as it is.

    Attributes
    ----------
    file : str
        The file.
    said : str
        How it differs from what the journal says; empty if it doesn't.
    """

    file: str
    said: str


@dataclass(frozen=True)
class ShownFact:
    """A fact of a book, with what it was.

    Attributes
    ----------
    fact : BookFact
        The fact, as it is or as it was struck.
    struck : bool
        Whether it was struck.
    before : tuple of BookFact
        What it was before each edit.
    """

    fact: BookFact
    struck: bool
    before: tuple[BookFact, ...]
