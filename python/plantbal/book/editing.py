"""Changes of single facts: other values, or none, and what they were before."""

from __future__ import annotations

import datetime
from collections.abc import Iterator
from dataclasses import dataclass, replace
from fractions import Fraction

from plantbal.book.forms import report_file
from plantbal.book.ledger import BookFact, YearLedger
from plantbal.book.measures import check_measured, trails_of
from plantbal.book.meters import Meter, plant_with_meters, read_meters
from plantbal.book.naming import Names, cell_of
from plantbal.book.results import Edited
from plantbal.book.said import closed_in, touched_by
from plantbal.book.store import Act, Action, Store
from plantbal.book.years import Years
from plantbal.faults import Fault, Refusal
from plantbal.sentence import Sentence
from plantbal.workbook.base import PeriodDays, share_at
from plantbal.workbook.cells import Reader
from plantbal.workbook.locales import check_locale
from plantbal.workbook.plant import TankRow
from plantbal.workbook.units import AMOUNTS, VOLUMES


# ---- other values


@dataclass
class Other:
    """The other values of a fact, as a command says them.

    Attributes
    ----------
    amount : str
        An amount with its unit; of a dip a level.
    density, error : str
        A density and an error, or nothing for what is known.
    locale : str
        Whose numbers they are.
    """

    amount: str
    density: str
    error: str
    locale: str

    def is_volume(self, meter: Meter) -> bool:
        """Whether the amount is a volume, which a density and a temperature make a mass."""
        cell = cell_of(self.amount)
        return (
            Reader(check_locale(self.locale)).split(cell, AMOUNTS, "")[1] or meter.unit
        ) in VOLUMES

    def of(self, fact: BookFact, meter: Meter, tank: TankRow | None, born: int = 0) -> BookFact:
        """Return a fact with these values, its variance by the error of its meter.

        What its day bears of a wide systematic error is added.

        Raises
        ------
        Fault
            If a text is none, or no error is known.
        """
        reader = Reader(check_locale(self.locale))
        density = reader.density(cell_of(self.density)) or meter.density
        if fact.kind == "dip":
            exact = reader.density(cell_of(self.density)) or Fraction(fact.values[1])
            top = tank.points[-1][0] if tank is not None and tank.points else None
            mm = reader.level(cell_of(self.amount), top=top)
            values: tuple[int, ...] = (mm, reader.whole(cell_of(self.density), exact))
            slope = tank.slope(mm, exact) if tank is not None else Fraction(0)
        else:
            unit = meter.unit or "t"
            if reader.is_wet(cell_of(self.amount), unit):
                raise Fault(
                    Sentence("{amount} is wet, and what is booked is dry", amount=self.amount),
                    text=self.amount,
                    remedy="give the dry amount in tonnes, such as '1104.2 t', or add the workbook "
                    "with its moisture again",
                )
            values = (reader.grams(cell_of(self.amount), unit, density),)
            slope = Fraction(0)
        error = meter.error
        if self.error:
            error = reader.error(cell_of(self.error), density, level=fact.kind == "dip")
        if error is None:
            raise Fault(
                Sentence("no error of {name} is known", name=meter.name),
                remedy="give it: --error '0.2 t'; or write it into meters.csv",
            )
        variance = error.variance(0 if fact.kind == "dip" else values[0], slope)
        return replace(fact, values=values, variance=variance + born)


def born(ledger: YearLedger, fact: BookFact, meter: Meter) -> int:
    """Return what the day of a reading bears of a systematic error that is wider than a row."""
    excess = meter.stream("metered", cell_of("")).excess
    if not excess or fact.kind != "reading":
        return 0
    spans = [PeriodDays(each.first, each.last) for each in ledger.periods.values()]
    service = ledger.session.service(fact.place)
    return share_at(excess, spans, service, fact.first.toordinal())


# ---- amend and strike


def amend(
    book: Store,
    name: str,
    day: datetime.date | None,
    other: Other,
    *,
    why: str,
    who: str = "",
) -> Edited:
    """Give a fact other values; the parameters are those of `plantbal.Book.amend`."""
    with book.opened():
        meters = read_meters(book)
        named = Names(Years(book), meters).find(name, day)
        fact, places = named.fact, named.places
        if named.struck:
            remedy = "add it anew by a workbook: plantbal-desk book add"
            raise Fault(Sentence("{id} was struck", id=fact.id), text=name, remedy=remedy)
        tanks = {tank.name: tank for tank in plant_with_meters(places[-1][0].plant, meters)[1]}
        meter = meters.get(fact.place, Meter(fact.place))
        is_volume = fact.kind != "dip" and other.is_volume(meter)
        check_measured(trails_of(book), places, is_volume)
        more = born(places[-1][0], fact, meter)
        new = other.of(fact, meter, tanks.get(fact.place), more)
        if (new.values, new.variance) == (fact.values, fact.variance):
            return Edited(fact, new, is_booked=False)
        action = Action(Act.AMEND, fact.id, new.said(), why, who)
        for ledger, there in places:
            _put(ledger, new.amendment(there.id, why))
            action.add(ledger)
        book.do(action)
        return Edited(fact, new, True, tuple(_older(book, places)), tuple(closed_in(places)))


def strike(book: Store, name: str, day: datetime.date | None, *, why: str, who: str = "") -> Edited:
    """Take a fact out; the parameters are those of `plantbal.Book.strike`."""
    with book.opened():
        meters = read_meters(book)
        named = Names(Years(book), meters).find(name, day)
        fact = named.fact
        if named.struck:
            return Edited(fact, None, is_booked=False)
        action = Action(Act.STRIKE, fact.id, why=why, who=who)
        for ledger, there in named.places:
            _put(ledger, ("strike", there.id, why))
            action.add(ledger)
        book.do(action)
        return Edited(
            fact, None, True, tuple(_older(book, named.places)), tuple(closed_in(named.places))
        )


# ---- undo


def undo(book: Store, name: str, day: datetime.date | None, *, why: str, who: str = "") -> Edited:
    """Give a fact back what it was; the parameters are those of `plantbal.Book.undo`."""
    with book.opened():
        meters = read_meters(book)
        named = Names(Years(book), meters).find(name, day)
        fact = named.fact
        places = [(ledger, there) for ledger, there in named.places if there.slot == fact.slot]
        for closed in closed_in(places):
            remedy = "amend it instead, or add it by a workbook: the difference is then handed over"
            raise Fault(Sentence("{closed} is closed", closed=closed), text=name, remedy=remedy)
        changed = _restored(places) if named.struck else _reverted(places, why)
        if not changed:
            raise Fault(
                Sentence("{id} wasn't changed", id=fact.id),
                text=name,
                remedy="strike it if it is wrong",
            )
        action = Action(Act.AMEND, changed[-1].id, changed[-1].said(), why, who)
        for ledger in {ledger.name: ledger for ledger, _ in places}.values():
            action.add(ledger)
        book.do(action)
        return Edited(fact, changed[-1], True, tuple(_older(book, places)))


def _reverted(places: list[tuple[YearLedger, BookFact]], why: str) -> list[BookFact]:
    """Put the amendments that give a fact its values before the last one; none if there is none."""
    found = []
    for ledger, there in places:
        for _, before in ledger.edits.get(there.id, [])[-1:]:
            _put(ledger, before.amendment(there.id, why))
            found.append(before)
    return found


def _restored(places: list[tuple[YearLedger, BookFact]]) -> list[BookFact]:
    """Book a struck fact again, under a free id, and return it as each year has it."""
    found = []
    for ledger, there in {ledger.name: (ledger, there) for ledger, there in places}.values():
        again = replace(there, id=ledger.free(there.id))
        try:
            ledger.put_fact(again)
        except Refusal as refusal:
            raise Fault(refusal.said, text=refusal.text, remedy=refusal.remedy) from refusal
        found.append(again)
    return found


def _put(ledger: YearLedger, row: tuple[str, ...]) -> None:
    """Put a row to a ledger; what is refused is a word of the command."""
    try:
        ledger.put(*row)
    except Refusal as refusal:
        raise Fault(refusal.said, text=refusal.text, remedy=refusal.remedy) from refusal


def _older(book: Store, places: list[tuple[YearLedger, BookFact]]) -> Iterator[str]:
    """Give the periods with a report that doesn't have the last values of a fact."""
    for ledger, fact in places:
        for name in touched_by(ledger, fact):
            if book.has(report_file(name)):
                yield name
