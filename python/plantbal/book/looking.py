"""What is there in a book, for whoever shows it: its plant, its months, its facts, its reports.

Nothing here changes a book. Each call tests the files against the journal, as every command does.
"""

from __future__ import annotations

import datetime
import re
from dataclasses import dataclass

from plantbal.book.answers import Quiet, quieted
from plantbal.book.expected import BookVersion
from plantbal.book.forms import EARLIER, report_file, window_file, year_file
from plantbal.book.journal import JournalLine
from plantbal.book.ledger import BookFact, YearLedger
from plantbal.book.mapping import mapping_of
from plantbal.book.meters import Meter, read_meters
from plantbal.book.overview import report_state, seen_by
from plantbal.book.reporting import rows_asking
from plantbal.book.results import ReportState, ShownFact
from plantbal.book.said import touched_by
from plantbal.book.store import Act, Store
from plantbal.book.years import Years
from plantbal.faults import Fault
from plantbal.model.periods import period_days
from plantbal.model.plant import Service
from plantbal.model.state import State
from plantbal.report.rounds import rounds_in
from plantbal.sentence import Sentence
from plantbal.workbook.mapping.form import WorkbookMapping

# The row of an output that begins the balance of a component.
_BALANCE = re.compile(r"^component,([^,\n]*)", re.MULTILINE)


@dataclass(frozen=True)
class BookStream:
    """A stream as a book has it.

    Attributes
    ----------
    name, kind : str
        Its name, and ``metered``, ``batch`` or ``plain``.
    from_, to : str
        Its ends; a boundary by its name.
    meter : Meter or None
        Its meter.
    service : Service
        From which day to which it is in service.
    """

    name: str
    kind: str
    from_: str
    to: str
    meter: Meter | None
    service: Service


@dataclass(frozen=True)
class Vessel:
    """A tank as a book has it: its name, its gauge, its days of service."""

    name: str
    meter: Meter | None
    service: Service


@dataclass(frozen=True)
class BookMonth:
    """A period as a book has it: its year, its days, whether it is closed, how old its report is."""

    name: str
    year: str
    first: datetime.date
    last: datetime.date
    closed: bool
    report: ReportState
    earlier: int = 0


@dataclass(frozen=True)
class Contents:
    """What a book has.

    Attributes
    ----------
    version : BookVersion
        Its version.
    months : tuple of BookMonth
        Its periods in the order of their days.
    flows : dict of str to tuple of BookStream
        The streams by the years.
    vessels : dict of str to tuple of Vessel
        The tanks by the years.
    windows : tuple of (str, str)
        The windows that have a report.
    quiets : tuple of Quiet
        The rules that are quieted.
    lines : tuple of JournalLine
        The journal.
    """

    version: BookVersion
    months: tuple[BookMonth, ...]
    flows: dict[str, tuple[BookStream, ...]]
    vessels: dict[str, tuple[Vessel, ...]]
    windows: tuple[tuple[str, str], ...]
    quiets: tuple[Quiet, ...]
    lines: tuple[JournalLine, ...]

    def month(self, name: str) -> BookMonth | None:
        """Return a period by its name."""
        return next((month for month in self.months if month.name == name), None)


@dataclass(frozen=True)
class KeptReport:
    """A report as it is kept, with the session that asked for it.

    Attributes
    ----------
    period : str
        The period, or the first and the last of a window.
    text : str
        What the program wrote.
    rows : str
        The year's rows that it saw; empty of an earlier report.
    asking : str
        The rows that asked for it.
    state : ReportState
        How old it is.
    """

    period: str
    text: str
    rows: str
    asking: str
    state: ReportState

    @property
    def session(self) -> str:
        """The session that asked for it; empty of an earlier report."""
        return self.rows + self.asking

    @property
    def rounds(self) -> int:
        """With how many rounds of elimination it was made, as far as it shows that."""
        return rounds_in(self.text, f"the report of {self.period}")


@dataclass(frozen=True)
class MonthFacts:
    """The facts that touch a period, with the state of the session that has them.

    Attributes
    ----------
    facts : tuple of ShownFact
        The facts, with those that were struck.
    state : State
        The session as it is in the end.
    plant : tuple of tuple of str
        The rows of its year that declare the plant.
    """

    facts: tuple[ShownFact, ...]
    state: State
    plant: tuple[tuple[str, ...], ...] = ()


def contents(book: Store) -> Contents:
    """Return what is there in a book."""
    with book.opened(reading=True):
        years = Years(book)
        meters = read_meters(book)
        journal = book.journal()
        months = [
            _month(book, each, journal, name) for each in years.all() for name in each.periods
        ]
        flows = {each.name: tuple(_flows(each, meters)) for each in years.all()}
        vessels = {each.name: tuple(_vessels(each, meters)) for each in years.all()}
        asked = dict.fromkeys(line.of for line in journal if line.act is Act.WINDOW)
        pairs = [(first, last) for first, _, last in (of.partition(" ") for of in asked)]
        windows = tuple(pair for pair in pairs if book.has(window_file(*pair)))
        months.sort(key=lambda month: (month.first, month.last))
        quiets = tuple(quieted(journal))
        return Contents(
            BookVersion.of(journal), tuple(months), flows, vessels, windows, quiets, tuple(journal)
        )


def _month(book: Store, ledger: YearLedger, journal: list[JournalLine], name: str) -> BookMonth:
    """Return a period of a year."""
    period = ledger.periods[name]
    state = report_state(book, ledger, journal, name)
    earlier = 0
    while book.has(f"{EARLIER}/{name}.{earlier + 1}.csv"):
        earlier += 1
    return BookMonth(name, ledger.name, *period_days(period), period.closed, state, earlier)


def _flows(ledger: YearLedger, meters: dict[str, Meter]) -> list[BookStream]:
    """Return the streams of a year."""
    found = []
    for name, stream in ledger.session.state.plant.streams.items():
        if stream.kind == "tank":
            continue
        ends = (stream.arc.from_, stream.arc.to)
        from_, to = (stream.boundary or "env" if end == "env" else end for end in ends)
        found.append(BookStream(name, stream.kind, from_, to, meters.get(name), stream.service))
    return found


def _vessels(ledger: YearLedger, meters: dict[str, Meter]) -> list[Vessel]:
    """Return the tanks of a year."""
    tanks = [name for name, kind in ledger.session.nodes.items() if kind == "tank"]
    return [Vessel(name, meters.get(name), ledger.session.service(name)) for name in tanks]


def kept(book: Store, period: str, number: int | None = None) -> KeptReport:
    """Return a period's report as it is kept; with a number an earlier one.

    Raises
    ------
    Fault
        If there is no such period or no such report.
    """
    with book.opened(reading=True):
        ledger = Years(book).of_period(period)
        if number is not None:
            text = book.text(f"{EARLIER}/{period}.{number}.csv")
            form = "{period} has no earlier report {number}"
            _check_there(text, Sentence(form, period=period, number=number))
            return KeptReport(period, text, "", "", ReportState.OLDER)
        text = book.text(report_file(period))
        _check_there(text, Sentence("{period} has no report yet", period=period))
        journal = book.journal()
        seen = seen_by(journal, ledger, period, Act.REPORT, Act.CLOSE)
        rows = book.text(year_file(ledger.name)).splitlines(keepends=True)
        components = set(_BALANCE.findall(text))
        names = [name for name in ledger.session.components_in(period) if name in components]
        state = report_state(book, ledger, journal, period)
        seen_rows = "".join(rows[:seen] if seen else rows)
        return KeptReport(period, text, seen_rows, rows_asking(period, names), state)


def _check_there(text: str, what: str) -> None:
    if not text:
        raise Fault(what, remedy="make it, and look again")


def kept_window(book: Store, first: str, last: str) -> KeptReport:
    """Return the report of a window as it is kept.

    Raises
    ------
    Fault
        If there is none.
    """
    with book.opened(reading=True):
        text = book.text(window_file(first, last))
        form = "there is no report of a window from {first} to {last}"
        _check_there(text, Sentence(form, first=first, last=last))
        return KeptReport(f"{first}+{last}", text, "", "", ReportState.CURRENT)


def facts_of(book: Store, period: str) -> MonthFacts:
    """Return the facts that touch a period, with what each was.

    Raises
    ------
    Fault
        If there is no such period.
    """
    with book.opened(reading=True):
        ledger = Years(book).of_period(period)
        found = [
            ShownFact(fact, struck, tuple(was for _, was in ledger.edits.get(fact.id, [])))
            for some, struck in ((ledger.facts, False), (ledger.struck, True))
            for fact in some.values()
            if period in touched_by(ledger, fact)
        ]
    found.sort(key=lambda each: (each.fact.place, each.fact.first, each.fact.id))
    return MonthFacts(tuple(found), ledger.session.state, tuple(ledger.plant))


def kept_mapping(book: Store) -> WorkbookMapping | None:
    """Return how the workbooks of a book are read, as it keeps that, or None."""
    with book.opened(reading=True):
        return mapping_of(book)


def journal_line(lines: tuple[JournalLine, ...], year: str, row: int) -> JournalLine | None:
    """Return the line of a journal that added a row of a year."""
    return next((line for line in lines if row in line.added.get(year, ())), None)


@dataclass(frozen=True)
class FactLine:
    """A fact, where it stands, and what the journal says of it.

    Attributes
    ----------
    shown : ShownFact
        The fact, with what it was.
    year : str
        The year whose file has it.
    row : int
        The row of that file, counted from 1.
    periods : tuple of str
        The periods that it touches.
    closed : tuple of str
        Those that are closed.
    booked : JournalLine or None
        The line of the journal that booked it.
    edits : tuple of (JournalLine, BookFact)
        The lines that amended or struck it, each with what it was before.
    meter : Meter or None
        Its meter or gauge.
    """

    shown: ShownFact
    year: str
    row: int
    periods: tuple[str, ...]
    closed: tuple[str, ...]
    booked: JournalLine | None
    edits: tuple[tuple[JournalLine | None, BookFact], ...]
    meter: Meter | None


def fact_line(book: Store, year: str, identity: str) -> FactLine:
    """Return a fact of a year by its id, with its lines of the journal.

    Raises
    ------
    Fault
        If there is no such fact.
    """
    with book.opened(reading=True):
        years = Years(book)
        ledger = years.named(year)
        struck = identity in ledger.struck
        fact = ledger.struck.get(identity) or ledger.facts.get(identity)
        if fact is None:
            what = Sentence("there is no fact {id} in {year}", id=identity, year=year)
            raise Fault(what, text=identity)
        lines = tuple(book.journal())
        there = ledger.session.state.facts.find(identity)
        row = there.booked if there is not None else 0
        edited = ledger.edits.get(identity, [])
        edits = tuple((journal_line(lines, year, number), was) for number, was in edited)
        touched = touched_by(ledger, fact)
        meters = read_meters(book)
        shown = ShownFact(fact, struck, tuple(was for _, was in edited))
        closed = tuple(name for name, each in touched.items() if each.closed)
        booked = journal_line(lines, year, row)
        return FactLine(
            shown, year, row, tuple(touched), closed, booked, edits, meters.get(fact.place)
        )
