"""What a workbook changes in a book: facts that are new, changed, moved or gone."""

from __future__ import annotations

from collections.abc import Iterator
from dataclasses import dataclass, field, replace
from typing import Protocol

from plantbal.book.ledger import BookFact, YearLedger
from plantbal.book.years import Years
from plantbal.estimates import is_marked
from plantbal.faults import Fault
from plantbal.sentence import Day, Joined, Sentence
from plantbal.session import Period
from plantbal.workbook.converter import Converter


@dataclass(frozen=True)
class Change:
    """A fact that is booked, and what the workbook has in its place.

    Attributes
    ----------
    ledger : YearLedger
        The year.
    old, new : BookFact
        The fact as it is booked, and as it is in the workbook.
    """

    ledger: YearLedger
    old: BookFact
    new: BookFact

    @property
    def moved(self) -> bool:
        """Whether its stream or its days are others, which no amendment can change."""
        return self.old.slot != self.new.slot

    def said(self) -> str:
        """Return what changes."""
        if self.moved:
            was, now = (Joined(" ", _parts(fact)) for fact in (self.old, self.new))
            return Sentence("{id}: {was} becomes {now}", id=self.old.id, was=was, now=now)
        if self.old.values == self.new.values:
            form = "{id}: its error {was} becomes {now}"
            return Sentence(form, id=self.old.id, was=self.old.error(), now=self.new.error())
        form = "{id}: {was} becomes {now}"
        return Sentence(form, id=self.old.id, was=self.old.said(), now=self.new.said())


def _parts(fact: BookFact) -> tuple[str, str, str]:
    """Return where a fact is, when, and what it says."""
    return fact.place, _days(fact), fact.said()


def _days(fact: BookFact) -> str:
    first, last = Day(fact.first), Day(fact.last)
    return first if first == last else Sentence("{first} to {last}", first=first, last=last)


class ReasonGiver(Protocol):
    """Gives the reason of a change, by the fact and what is said of the change."""

    def __call__(self, fact: BookFact, said: str, *, is_gone: bool = False) -> str:
        """Return the reason; of a fact that is gone from where it came from, that of its strike."""


@dataclass
class Changes:
    """What a workbook changes.

    Attributes
    ----------
    new : list of (YearLedger, BookFact)
        Facts that aren't booked.
    changed : list of Change
        Facts that are booked otherwise.
    left : list of Change
        Tickets that are booked in a year which their days in the workbook don't touch.
    gone : list of (YearLedger, BookFact)
        Facts that are booked and might stand in the workbook, and don't.
    asked : list of (YearLedger, BookFact)
        Facts that were pulled from a source and have vanished there: are they to be struck?
    stale : list of Change
        Facts that a command has amended or struck, and that the workbook has as they were before.
    same : int
        How many are booked as they stand there.
    rows : list of (YearLedger, int, str, str)
        Of each fact that was put to a year the number of its row, its id in the workbook, and the
        one under which it is booked.
    """

    new: list[tuple[YearLedger, BookFact]] = field(default_factory=list)
    changed: list[Change] = field(default_factory=list)
    left: list[Change] = field(default_factory=list)
    gone: list[tuple[YearLedger, BookFact]] = field(default_factory=list)
    asked: list[tuple[YearLedger, BookFact]] = field(default_factory=list)
    stale: list[Change] = field(default_factory=list)
    same: int = 0
    rows: list[tuple[YearLedger, int, str, str]] = field(default_factory=list)

    def edited(self, strike: bool) -> list[tuple[YearLedger, BookFact]]:
        """Return the booked facts that are changed or struck, with their years."""
        pairs = [(change.ledger, change.old) for change in [*self.changed, *self.left]]
        return [*pairs, *(self.gone if strike else ())]

    def put(self, reason: ReasonGiver, strike: bool) -> None:
        """Put the rows to the ledgers.

        Parameters
        ----------
        reason : ReasonGiver
            Returns the reason of a change.
        strike : bool
            Whether facts that are gone are struck.
        """
        for ledger, fact in self.gone if strike else ():
            ledger.put(
                "strike",
                fact.id,
                reason(fact, Sentence("{id} is struck", id=fact.id), is_gone=True),
            )
        for change in self.left:
            change.ledger.put("strike", change.old.id, reason(change.old, change.said()))
        for change in self.changed:
            why = reason(change.old, change.said())
            if change.moved:
                change.ledger.put("strike", change.old.id, why)
                self.new.append((change.ledger, change.new))
            else:
                ledger, identity = change.ledger, change.old.id
                ledger.put(*change.new.amendment(identity, why))
                self.rows.append((ledger, ledger.count, change.new.id, identity))
        for ledger, fact in self.new:
            identity = ledger.free(fact.id)
            ledger.put_fact(replace(fact, id=identity))
            self.rows.append((ledger, ledger.count, fact.id, identity))


def compare(years: Years, facts: list[BookFact]) -> Changes:
    """Return what facts change; what is gone isn't looked for."""
    found = Changes()
    own = frozenset(fact.id for fact in facts)
    scope = {ledger.name: ledger for ledger, _ in scope_of(years, facts)}
    for fact in facts:
        ledgers = years.of_fact(fact)
        for ledger in ledgers:
            if fact.kind == "transfer":
                old = ledger.ticket(fact.id, own)
            else:
                old = ledger.on(fact.place, fact.first)
            was = old or ledger.lost(fact, own)
            if old is not None and old.says(fact):
                found.same += 1
            elif old is not None and _estimated(years, ledger, old, fact):
                found.stale.append(Change(ledger, old, fact))
            elif was is not None and _before(years, ledger, was, fact):
                found.stale.append(Change(ledger, was, fact))
            elif old is None:
                found.new.append((ledger, fact))
            else:
                found.changed.append(Change(ledger, old, fact))
        if fact.kind == "transfer":
            names = [ledger.name for ledger in ledgers]
            booked = [(each, each.ticket(fact.id, own)) for each in [*ledgers, *scope.values()]]
            twins = [twin for each, old in booked if old for twin in years.twins(each, old)]
            left = {ledger.name: Change(ledger, old, fact) for ledger, old in twins}
            found.left += [change for name, change in left.items() if name not in names]
    return found


def _estimated(years: Years, ledger: YearLedger, old: BookFact, fact: BookFact) -> bool:
    """Say whether a fact is booked as an estimate that a command put in the place of this one."""
    lost = ledger.lost(fact) if is_marked(old.id) else None
    return lost is not None and _before(years, ledger, lost, fact)


def _before(years: Years, ledger: YearLedger, was: BookFact, fact: BookFact) -> bool:
    """Say whether a fact says what one said before a command amended or struck it."""
    for number, before in reversed(ledger.edits.get(was.id, [])):
        if number not in years.typed[ledger.name]:
            return False
        if before.says(fact):
            return True
    return False


def scope_of(years: Years, facts: list[BookFact]) -> list[tuple[YearLedger, Period]]:
    """Return the periods of which a workbook has readings or, if it has none, other facts."""
    days = {fact.first for fact in facts if fact.kind == "reading"}
    days = days or {fact.first for fact in facts}
    ledgers = {ledger.name: ledger for ledger in map(years.of_day, days) if ledger is not None}
    return [
        (ledger, period)
        for ledger in ledgers.values()
        for period in ledger.periods.values()
        if any(period.first <= day.toordinal() <= period.last for day in days)
    ]


def strayed(years: Years, changes: Changes, facts: list[BookFact]) -> Iterator[Fault]:
    """Give what is to be said of tickets that have the id of one of another period."""
    scope = scope_of(years, facts)
    for change in [*changes.changed, *changes.left]:
        if change.moved and not any(_touches(change.old, period) for _, period in scope):
            old = change.old
            form = "{id}: the book has a ticket of this id already, of {place} on {days}"
            what = Sentence(form, id=change.new.id, place=old.place, days=_days(old))
            such = f"{change.new.first:%Y-%m}-{change.new.id}"
            remedy = Sentence("give it another id, such as {such}", such=such)
            yield Fault(what, text=change.new.id, remedy=remedy)


def not_in_workbook(
    years: Years, work: Converter, facts: list[BookFact]
) -> list[tuple[YearLedger, BookFact]]:
    """Return the facts that are booked and might stand in a workbook, and don't.

    These are, in the periods of which the workbook has readings (or, if it has none, other facts):
    the readings of the streams that have a column in it, the dips if it has a sheet of dips, and
    the tickets if it has a sheet of these. A fact that begins in another period, such as the dip
    that closes the period before, isn't one of them: it is of the workbook of its own period. One
    that is booked in two years is given for both.
    """
    scope = scope_of(years, facts)
    own = frozenset(fact.id for fact in facts)
    slots = {(fact.place, fact.first) for fact in facts if fact.kind != "transfer"}
    found: dict[tuple[str, str], tuple[YearLedger, BookFact]] = {}
    for ledger in {ledger.name: ledger for ledger, _ in scope}.values():
        kept = {fact.id for fact in (ledger.ticket(each, own) for each in own) if fact is not None}
        for fact in ledger.within(period for _, period in scope):
            there = fact.id in kept or (fact.place, fact.first) in slots
            if there or not _in_sheets(work, fact):
                continue
            touches = any(_touches(fact, period) for _, period in scope)
            if touches and not _begins_elsewhere(ledger, fact, scope):
                for twin, same in years.twins(ledger, fact):
                    found[twin.name, same.id] = twin, same
    return list(found.values())


def _begins_elsewhere(
    ledger: YearLedger, fact: BookFact, scope: list[tuple[YearLedger, Period]]
) -> bool:
    """Say whether the first day of a fact is one of another year, or of a period out of scope."""
    day = fact.first.toordinal()
    within = (each for each in ledger.periods.values() if each.first <= day <= each.last)
    return fact.first < ledger.first or any((ledger, each) not in scope for each in within)


def _in_sheets(work: Converter, fact: BookFact) -> bool:
    """Say whether a workbook has a sheet in which a fact might stand."""
    if fact.kind == "reading":
        return bool(work.sheets["readings"]) and fact.place in work.readings.listed
    return bool(work.sheets["dips" if fact.kind == "dip" else "tickets"])


def _touches(fact: BookFact, period: Period) -> bool:
    eve = 1 if fact.kind == "dip" else 0
    first, last = fact.first.toordinal(), fact.last.toordinal()
    return first <= period.last and last >= period.first - eve
