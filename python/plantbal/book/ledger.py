"""A year's session as a ledger: its plant, its periods, and its facts with their last values."""

from __future__ import annotations

import datetime
import re
from collections.abc import Iterable, Iterator, Mapping, Sequence
from dataclasses import dataclass, replace
from decimal import Decimal
from math import isqrt

from plantbal.amounts import tonnes_of
from plantbal.book.reasons import in_ascii
from plantbal.book.remedies import BookRemedy
from plantbal.faults import Fault, InputFault, Place, Refusal
from plantbal.memory import uncollected
from plantbal.model import facts
from plantbal.model.booking import Amends, BooksAssay, BooksFact, Strikes
from plantbal.model.causes import Cause
from plantbal.model.effects import DeclaresStream, DeclaresTank, Effect
from plantbal.model.file import Rows, Step
from plantbal.model.forms import REASONED
from plantbal.model.periods import Period
from plantbal.model.plant import Service, dip_days, is_served
from plantbal.records import text_of, without_empty_end
from plantbal.sentence import Figure, Sentence, phrase
from plantbal.session import Session

PLANT_KINDS = ("version", "boundary", "unit", "tank", "strap", "stream", "critical")
FACT_KINDS = ("reading", "transfer", "dip")
_DAY = datetime.timedelta(1)
_AGAIN = re.compile(r"\.[0-9]+$")  # how the id ends of what was struck and came again


@dataclass(frozen=True)
class BookFact:
    """A reading, a transfer or a dip.

    Attributes
    ----------
    kind, id, place : str
        What it is, its id, and its stream or tank.
    first, last : date
        Its days; of a reading and of a dip both are its day.
    values : tuple of int
        Its grams, or its level in mm and its density in g/m3.
    variance : int
        Its variance in squared grams.
    """

    kind: str
    id: str
    place: str
    first: datetime.date
    last: datetime.date
    values: tuple[int, ...]
    variance: int

    @classmethod
    def booked(cls, fact: facts.Fact) -> BookFact:
        """Return a fact of a session's model."""
        days = datetime.date.fromordinal(fact.first), datetime.date.fromordinal(fact.last)
        values = (fact.mm, fact.density) if fact.kind == "dip" else (fact.grams,)
        return cls(fact.kind, fact.id, fact.of, *days, values, fact.variance)

    @classmethod
    def of(cls, row: Sequence[str]) -> BookFact:
        """Return the fact of a row of a session, with ``late`` in front of it or without."""
        kind, identity, place, *rest = row[1:] if row[0] == "late" else row
        count = 2 if kind == "transfer" else 1
        days = [datetime.date.fromisoformat(text) for text in rest[:count]]
        *values, variance = map(int, rest[count:])
        return cls(kind, identity, place, days[0], days[-1], tuple(values), variance)

    def row(self) -> tuple[str, ...]:
        """Return it as a row of a session."""
        days = [self.first, self.last] if self.kind == "transfer" else [self.first]
        return (
            self.kind,
            self.id,
            self.place,
            *map(str, days),
            *map(str, self.values),
            str(self.variance),
        )

    def amendment(self, identity: str, reason: str) -> tuple[str, ...]:
        """Return the row that gives the fact of an id these values."""
        return ("amend", identity, *map(str, self.values), str(self.variance), reason)

    @property
    def slot(self) -> tuple[str, str, datetime.date, datetime.date]:
        """What an amendment doesn't change: its kind, stream or tank, and days."""
        return self.kind, self.place, self.first, self.last

    def says(self, other: BookFact) -> bool:
        """Say whether another fact says the same, whatever its id."""
        return replace(self, id="") == replace(other, id="")

    def said(self) -> str:
        """Return what it says: `12,188 t`, or `6,560 mm at 1,250 kg/m3`."""
        if self.kind == "dip":
            density = number_with_commas(Decimal(self.values[1]) / 1000)
            words = {
                "level": Figure(f"{self.values[0]:,} mm"),
                "density": Figure(f"{density} kg/m3"),
            }
            return Sentence("{level} at {density}", **words)
        return Figure(f"{number_with_commas(tonnes_of(self.values[0]))} t")

    def error(self) -> str:
        """Return its standard deviation: `182.82 t`."""
        root = Decimal(isqrt(self.variance * 10**6)).scaleb(-9)
        return Figure(f"{number_with_commas(round(root, 3))} t")


def rows_text(rows: Iterable[Sequence[str]]) -> str:
    """Return rows as they stand in a session."""
    return "".join(text_of(tuple(row)) + "\n" for row in rows)


def number_with_commas(number: Decimal) -> str:
    """Return a number with commas between thousands, and without zeros at its end."""
    text = f"{number:,f}"
    return text.rstrip("0").rstrip(".") if "." in text else text


class Booked(Mapping[str, BookFact]):
    """The facts of a session that aren't struck, by their ids.

    A year has many, of which a command looks at few: each is made when it is asked for.
    """

    def __init__(self, there: facts.Facts) -> None:
        self._there = there

    def __getitem__(self, identity: str) -> BookFact:
        found = self._there.find(identity)
        if found is None or found.struck:
            raise KeyError(identity)
        return BookFact.booked(found)

    def __iter__(self) -> Iterator[str]:
        return (fact.id for fact in self._there.live())

    def __len__(self) -> int:
        return len(self._there) - self._there.struck


class YearLedger:
    """A year of a book.

    Parameters
    ----------
    name : str
        The year's name.
    first, last : date
        Its first and its last day.

    Attributes
    ----------
    session : Session
        Its rows.
    plant : list of tuple of str
        The rows that declare the plant.
    facts : Booked
        The facts that aren't struck, by their ids, with their last values.
    struck : dict of str to BookFact
        Those that are.
    edits : dict of str to list of (int, BookFact)
        Of each fact that was amended or struck the numbers of these rows, and what it was before.
    added : list of tuple of str
        The rows that were put after those that were read.
    """

    def __init__(self, name: str, first: datetime.date, last: datetime.date) -> None:
        self.name = name
        self.first = first
        self.last = last
        self.session = Session()
        self.plant: list[tuple[str, ...]] = []
        self.facts = Booked(self.session.state.facts)
        self.struck: dict[str, BookFact] = {}
        self.edits: dict[str, list[tuple[int, BookFact]]] = {}
        self.added: list[tuple[str, ...]] = []
        self.count = 0
        self._lost: dict[tuple[str, datetime.date], list[BookFact]] = {}
        self._declared: list[tuple[Service, int]] = []
        self._latest: dict[int, int] = {}
        self._latest_dip: dict[int, int] = {}
        self._latest_assay: dict[str, int] = {}

    @classmethod
    def read(
        cls, name: str, file: str, text: str, first: datetime.date, last: datetime.date
    ) -> YearLedger:
        """Return the ledger of a year's session.

        Parameters
        ----------
        name : str
            The year's name.
        file : str
            The file, for what is said of it.
        text : str
            The session.
        first, last : date
            The year's first and last day.

        Raises
        ------
        Fault
            If the program would refuse a row, or the last line is cut.
        """
        ledger = cls(name, first, last)
        if text and not text.endswith("\n"):
            place = Place(file=file, line=len(text.splitlines()))
            remedy = "was it changed by hand? Take back what was changed"
            raise InputFault("its last line has no end", place=place, remedy=remedy)
        try:
            with uncollected():
                for step in ledger.session.taking(file, text.encode("utf-8")):
                    ledger._took(step)
        except Refusal as refusal:
            form = "{remedy}; rows of a book are written by its commands alone"
            refusal.remedy = Sentence(form, remedy=phrase(refusal.remedy))
            raise
        return ledger

    # ---- rows

    def put(self, *fields: str) -> None:
        """Add a row; a reason in another alphabet, or with accents, in plain letters.

        Raises
        ------
        Refusal
            If the program would refuse it.
        """
        if fields[0] in REASONED:
            fields = (*fields[:-1], in_ascii(fields[-1]))
        number = self.count + 1  # a row is a line
        effect = self.session.take_row(fields, at=facts.At(number, number))
        assert effect is not None, "the session is strict"
        self.count += 1
        self.added.append(without_empty_end(fields))
        self._keep(effect, self.added[-1])

    def put_fact(self, fact: BookFact) -> bool:
        """Add a fact, and return whether it comes late."""
        try:
            self.put(*fact.row())
        except Refusal as refusal:
            if refusal.code == Cause.FULL:
                refusal.remedy = BookRemedy.BEGIN_PART().sentence
            if refusal.code != Cause.CLOSED:
                raise
            self.put("late", *fact.row())
            return True
        return False

    def _took(self, step: Step | Rows) -> None:
        """Keep what rows do that were read."""
        if isinstance(step, Step):
            self.count = step.at.record
            if step.effect is not None:
                self._keep(step.effect, without_empty_end(step.fields))
        elif step.run is not None:
            self.count = step.record + len(step.rows) - 1
            self._latest.update(zip(step.run.days, range(step.record, self.count + 1)))

    def _keep(self, effect: Effect, fields: tuple[str, ...]) -> None:
        """Keep what a row does, as the row of the last number."""
        if isinstance(effect, BooksFact):
            self._touch(effect.fact)
        elif isinstance(effect, BooksAssay):
            self._latest_assay[effect.period] = self.count
        elif isinstance(effect, (Amends, Strikes)):
            self._edit(self.session.state.edits[-1])
        elif fields and fields[0] in PLANT_KINDS:
            self.plant.append(fields)
            if isinstance(effect, (DeclaresTank, DeclaresStream)):
                self._declared.append((effect.service, self.count))

    def _edit(self, edit: facts.Edit) -> None:
        assert edit.before is not None
        fact = BookFact.booked(edit.before)
        self.edits.setdefault(fact.id, []).append((self.count, fact))
        self._touch(edit.before)
        if edit.after is None:
            self.struck[fact.id] = fact
            if fact.kind != "transfer":
                self._lost.setdefault((fact.place, fact.first), []).append(fact)

    def _touch(self, fact: facts.Fact) -> None:
        if fact.kind == "dip":
            self._latest_dip[fact.first] = self.count
        else:
            self._latest.update(dict.fromkeys(range(fact.first, fact.last + 1), self.count))

    def added_text(self) -> str:
        """Return the rows that were added, as they stand in the file."""
        return rows_text(self.added)

    def added_said(self) -> str:
        """Return which rows were added, by their numbers."""
        first = self.count - len(self.added) + 1
        return f"{self.name}: {first}" + (f" to {self.count}" if self.count > first else "")

    # ---- what is there

    @property
    def periods(self) -> dict[str, Period]:
        """The periods by their names, in the order of their days."""
        found = sorted(self.session.periods, key=lambda period: period.first)
        return {period.name: period for period in found}

    @property
    def assays(self) -> dict[tuple[str, str, str], tuple[int, int]]:
        """The grade and its variance, by component, stream and period."""
        assays = self.session.state.assays
        return {key: (assay.ppm, assay.variance) for key, assay in assays.items()}

    @property
    def sealed(self) -> bool:
        """Whether a period is closed, so that the plant can no longer change."""
        return any(period.closed for period in self.session.periods)

    def within(self, periods: Iterable[Period]) -> Iterator[BookFact]:
        """Give the facts that aren't struck from the eve of some periods to their end.

        A year has many facts, and only these are made.
        """
        days = [(period.first - 1, period.last) for period in periods]
        if not days:
            return
        first, last = min(day for day, _ in days), max(day for _, day in days)
        for fact in self.session.state.facts.live():
            if fact.first <= last and fact.last >= first:
                yield BookFact.booked(fact)

    def on(self, place: str, day: datetime.date) -> BookFact | None:
        """Return the reading or the dip of a day, or None."""
        found = self.session.state.facts.on(place, day.toordinal())
        return None if found is None else BookFact.booked(found)

    def without(self, place: str, days: Iterable[datetime.date]) -> list[datetime.date]:
        """Return the days on which a stream has no reading, or a tank no dip."""
        numbers = {day.toordinal(): day for day in days}
        missing = self.session.state.facts.days_without(place, numbers)
        return [numbers[number] for number in missing]

    def ticket(self, identity: str, others: frozenset[str] = frozenset()) -> BookFact | None:
        """Return the transfer of a ticket; if it was struck, the one that was booked in its place.

        Parameters
        ----------
        identity : str
            The ticket's id.
        others : frozenset of str
            Ids that are those of other tickets.
        """
        chain = self._chain(identity, others)
        return next((fact for fact in chain if fact.id in self.facts), None)

    def _chain(self, identity: str, others: frozenset[str]) -> Iterator[BookFact]:
        """Give the transfers that were booked for a ticket one after the other, struck or not."""
        for name in self._names(identity):
            if name == identity or name not in others:
                fact = self.facts.get(name) or self.struck.get(name)
                if fact is None:
                    return
                if fact.kind == "transfer":
                    yield fact

    def origin(self, fact: BookFact) -> str:
        """Return the id of a transfer's ticket, which another had before it if that was struck."""
        for identity, before in self.struck.items():
            if before.kind == "transfer" and _AGAIN.search(fact.id):
                if any(each.id == fact.id for each in self._chain(identity, frozenset())):
                    return identity
        return fact.id

    def lost(self, fact: BookFact, others: frozenset[str] = frozenset()) -> BookFact | None:
        """Return the struck fact that says the same as a fact, or None."""
        if fact.kind == "transfer":
            found = [each for each in self._chain(fact.id, others) if each.id in self.struck]
        else:
            found = self._lost.get((fact.place, fact.first), [])
        return next((each for each in reversed(found) if each.says(fact)), None)

    def free(self, identity: str) -> str:
        """Return an id for a fact that was struck and comes again, or this id if it is free."""
        for name in self._names(identity):
            if name not in self.facts and name not in self.struck:
                return name
        raise Fault(Sentence("there is no free id for {id}", id=identity))

    @staticmethod
    def _names(identity: str) -> Iterator[str]:
        yield identity
        for number in range(2, 10_000):
            end = f".{number}"
            yield identity[: 32 - len(end)] + end

    def touched(self, period: Period, assays: bool = True) -> int:
        """Return the number of the last row that a report of a period depends on.

        Of the plant these are the streams and tanks in service on its days, of dips those of its
        ends and of the ends of such services.

        Parameters
        ----------
        period : Period
            The period.
        assays : bool
            Whether the balances of its components count too.
        """
        days = period.first, period.last
        served = [(at, number) for at, number in self._declared if is_served(at, *days)]
        ends = {day for service, _ in served for day in dip_days(service, *days)}
        ends |= set(dip_days(None, *days))
        numbers = [number for _, number in served]
        numbers += [self._latest_dip.get(day, 0) for day in ends]
        numbers += [self._latest.get(day, 0) for day in range(period.first, period.last + 1)]
        return max([*numbers, self._latest_assay.get(period.name, 0) if assays else 0])
