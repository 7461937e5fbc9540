"""What commands on a book say: what was added and changed, and which days are missing."""

from __future__ import annotations

import datetime
from collections import Counter
from collections.abc import Callable, Collection, Iterable

from plantbal.book.changes import Changes
from plantbal.book.forms import JOURNAL
from plantbal.book.ledger import PLANT_KINDS, BookFact, YearLedger
from plantbal.book.meters import Meter
from plantbal.book.remedies import BookRemedy
from plantbal.book.results import ReportState, YearAdded
from plantbal.book.store import Store
from plantbal.sentence import Joined, Sentence
from plantbal.session import Period, day_of_number, in_service, is_served, period_days
from plantbal.workbook.base import days_between
from plantbal.workbook.missing import spans, tank_days

FIRST = 12  # things of which each is shown; the others are counted
_NEW = {
    "period": "period",
    "reading": "reading",
    "transfer": "ticket",
    "dip": "dip",
    "assay": "assay",
}
_EDITED = {"amend": "amended", "strike": "struck", "close": "closed"}


def count_said(count: int, word: str) -> str:
    """Return how many of something there are: `1 fact`, `1,200 facts`."""
    return f"{count:,} {word}{'' if count == 1 else 's'}"


def waiting_said(book: Store) -> list[str]:
    """Return what is to be said of an action that waits, if one does."""
    if not book.waits:
        return []
    names = listed([entry.file for entry in book.waits if entry.file != JOURNAL])
    form = (
        "{what} was stopped, and is shown as if it were done; the next command that writes to the "
        "book does what is left of it, to {names}"
    )
    return [Sentence(form, what=book.journal()[-1].said(), names=names)]


def behind_said(state: ReportState, period: str) -> str:
    """Return what is to be said of a period's report, or nothing if it has all that is booked."""
    if state is ReportState.OLDER:
        return BookRemedy.OLDER_THAN_FACTS(period=period).sentence
    return "not reported yet" if state is ReportState.MISSING else ""


def listed(names: list[str]) -> str:
    """Return names with commas, of many the first."""
    first = Joined(", ", names[:FIRST])
    if len(names) <= FIRST:
        return first
    return Sentence("{names} and {count:,} more", names=first, count=len(names) - FIRST)


def added(year: YearAdded) -> str:
    """Return what was added to a year, in a line."""
    counts = Counter(row[1] if row[0] == "late" else row[0] for row in year.rows)
    new = [count_said(counts[kind], word) for kind, word in _NEW.items() if counts[kind]]
    plant = sum(counts[kind] for kind in PLANT_KINDS)
    new += [count_said(plant, "row") + " of the plant"] if plant else []
    late = sum(row[0] == "late" for row in year.rows)
    parts = [f"new: {', '.join(new)}"] if new else []
    parts += [f"late: {late:,} of them"] if late else []
    parts += [f"{word}: {counts[kind]:,}" for kind, word in _EDITED.items() if counts[kind]]
    return f"{year.name}.csv: {'; '.join(parts) or 'nothing new'}"


_ASKED = "is booked, and is no longer in {}: plantbal-desk book strike takes it out"


def changes_said(
    changes: Changes, name: str, struck: bool, when: Callable[[BookFact], str] = lambda fact: ""
) -> list[str]:
    """Return what a workbook changes, a line each, and what it leaves.

    Parameters
    ----------
    changes : Changes
        What it changes.
    name : str
        The workbook's name.
    struck : bool
        Whether facts that are gone are struck.
    when : callable
        Returns when the source changed a fact; empty if that isn't known.
    """
    pairs = [(each.said(), when(each.old)) for each in [*changes.changed, *changes.left]]
    said = [f"{text}, changed at the source at {at}" if at else text for text, at in pairs]
    every = list(dict.fromkeys(said))
    lines = every[:FIRST]
    if len(every) > FIRST:
        lines.append(f"{len(every) - FIRST:,} more are changed")
    if changes.same:
        are = "is" if changes.same == 1 else "are"
        lines.append(f"{count_said(changes.same, 'fact')} {are} booked already")
    for change in changes.stale[:FIRST]:
        old = change.old
        booked = f"amended to {old.said()}" if old.id in change.ledger.facts else "struck"
        lines.append(f"{old.id}: it stays {booked}; {name} still has {change.new.said()}")
    if len(changes.stale) > FIRST:
        lines.append(f"{len(changes.stale) - FIRST:,} more are kept as they were amended")
    if changes.gone:
        ids = ", ".join(fact.id for _, fact in changes.gone[:3])
        ids += ", .." if len(changes.gone) > 3 else ""
        are = "is" if len(changes.gone) == 1 else "are"
        what = f"{count_said(len(changes.gone), 'fact')} {are} booked and not in {name}: {ids}"
        lines.append(f"{what}; struck" if struck else f"{what}; kept, and --strike takes them out")
    lines += [
        f"{fact.id}: {fact.said()} {_ASKED.format(name)}" for _, fact in changes.asked[:FIRST]
    ]
    if len(changes.asked) > FIRST:
        lines.append(f"{len(changes.asked) - FIRST:,} more are no longer in {name}")
    return lines


def touched_by(ledger: YearLedger, fact: BookFact) -> dict[str, Period]:
    """Return the periods of a year that a fact touches; a dip closes one and opens the next."""
    eve = 1 if fact.kind == "dip" else 0
    first, last = fact.first.toordinal(), fact.last.toordinal()
    periods = ledger.periods.items()
    return {n: each for n, each in periods if first <= each.last and last >= each.first - eve}


def closed_in(facts: Iterable[tuple[YearLedger, BookFact]]) -> list[str]:
    """Return the closed periods that facts touch."""
    touched = [touched_by(ledger, fact) for ledger, fact in facts]
    return list(dict.fromkeys(n for some in touched for n, each in some.items() if each.closed))


def reopened_said(period: str) -> str:
    """Return what is to be said if a fact of a closed period is changed."""
    return BookRemedy.REPORT_AND_DIFFERENCE(period=period).sentence


def lacks_said(
    ledger: YearLedger, facts: Iterable[BookFact], meters: dict[str, Meter]
) -> list[str]:
    """Return what is missing in the periods in which some facts are."""
    days = {fact.first.toordinal() for fact in facts}
    periods = ledger.periods.values()
    found = [each for each in periods if any(each.first <= day <= each.last for day in days)]
    return [line for period in found for line in lacks(ledger, period, meters)]


_NO_READING = "{period}: no reading of {names} on {days}"
_NO_DIP = "{period}: no dip of {names} on {days}"


def lacks(ledger: YearLedger, period: Period, meters: dict[str, Meter]) -> list[str]:
    """Return which readings and dips of a period are missing, those of the same days in a line."""
    first, last = period_days(period)
    days = days_between(first, last)
    groups: dict[tuple[str, str], list[str]] = {}  # by the form and the days
    for name, kind in ledger.session.streams.items():
        if kind == "metered":
            service = ledger.session.service(name)
            served = [day for day in days if in_service(service, day.toordinal())]
            missing = ledger.without(name, served)
            if missing:
                tag = meters[name].tag if name in meters else ""
                said = f"{tag} ({name})" if tag else name
                groups.setdefault((_NO_READING, spans(missing)), []).append(said)
    for name, kind in ledger.session.nodes.items():
        if kind == "tank":
            service = ledger.session.service(name)
            missing = ledger.without(name, tank_days(service, first, last))
            if missing:
                when = _by_window(ledger, name, period, missing, spans(missing))
                if service is not None and missing == [day_of_number(service[0] - 1)]:
                    form = "{days}, the evening before it is in service"
                    when = Sentence(form, days=when)
                groups.setdefault((_NO_DIP, when), []).append(name)
    lines: list[str] = [
        Sentence(form, period=period.name, names=listed(names), days=when)
        for (form, when), names in groups.items()
    ]
    return lines + unassayed(ledger, period)


def unassayed(ledger: YearLedger, period: Period, none: bool = False) -> list[str]:
    """Return which streams the period before has assays of and an open period hasn't, in lines.

    Parameters
    ----------
    ledger : YearLedger
        The year.
    period : Period
        The period.
    none : bool
        Whether that is said of a component too of which the period has no assay at all.
    """
    before = [each for each in ledger.periods.values() if each.last < period.first]
    if ledger.periods[period.name].closed or not before:
        return []
    last = max(before, key=lambda each: each.last)
    lines: list[str] = []
    for component in dict.fromkeys(of for of, _, when in ledger.assays if when == last.name):
        here = {name for of, name, when in ledger.assays if (of, when) == (component, period.name)}
        names = [
            name
            for of, name, when in ledger.assays
            if (of, when) == (component, last.name)
            and name not in here
            and is_served(ledger.session.service(name), period.first, period.last)
        ]
        if names and (here or none):
            form = (
                "{period}: no assay of {component} in {names}, which {before} has: enter it before "
                "the close"
            )
            words = {"component": component, "names": listed(names), "before": last.name}
            lines.append(Sentence(form, period=period.name, **words))
    return lines


def _by_window(
    ledger: YearLedger, tank: str, period: Period, missing: Collection[datetime.date], days: str
) -> str:
    """Return days without a dip, and which window has what the tank held on one of them."""
    service = ledger.session.service(tank)
    for other in ledger.session.periods:
        one, next_ = sorted((period, other), key=lambda each: each.first)
        served = all(is_served(service, each.first, each.last) for each in (one, next_))
        if served and one.last + 1 == next_.first and day_of_number(one.last) in missing:
            form = "{days}; if nobody took it: plantbal-desk book window {one} {after}"
            return Sentence(form, days=days, one=one.name, after=next_.name)
    return days
