"""What a book keeps of how volumes become masses, and how each of its masses was calculated.

`measures.csv` has the products, factors, gauges and tables of water of its workbooks, so that a
later workbook needs none of these sheets. `measured.csv` has a row for each fact that was calculated
by them: what was measured, what was applied, and the row of the session that it is booked in.
`summed.csv` has one for each reading that is made of hours, or of what a counter showed.
"""

from __future__ import annotations

import csv
import io
from collections.abc import Iterator, Mapping, Sequence
from decimal import Decimal

from plantbal.book.changes import Change, Changes
from plantbal.book.forms import MEASURED, MEASURES, SUMMED
from plantbal.book.meters import Meter, exact_decimal
from plantbal.book.store import Action, Store
from plantbal.book.ledger import BookFact, YearLedger
from plantbal.faults import Fault, Faults
from plantbal.sentence import Figure, Joined, Sentence, counted
from plantbal.volumes.liquid import MeasuredFigure, Product, Sample
from plantbal.volumes.trail import Trail, read_trails, trail_number, trails_text
from plantbal.workbook.cells import Reader
from plantbal.workbook.converter import Converter
from plantbal.workbook.measurekinds import KEPT
from plantbal.workbook.measuresheets import Gauge, MeasureReader, Measures
from plantbal.workbook.sheets import Sheet, Value
from plantbal.workbook.summed import SummedFact, as_booked, summed_text
from plantbal.workbook.tables import Tables

_SAID = 5  # periods or streams that are named

# ---- what a book keeps


def measures_text(found: Measures) -> str:
    """Return what a book keeps of measures as a file: the kind of a sheet, and a row of it."""
    out = io.StringIO()
    writer = csv.writer(out, lineterminator="\n")
    for product in found.products.values():
        writer.writerow(("products", *_product(product, found.product_densities.get(product.name))))
    for product in found.products.values():
        for temperature, factor in product.table.points if product.table else ():
            writer.writerow(
                ("factors", product.name, trail_number(temperature), trail_number(factor))
            )
    for name, gauge in found.gauges.items():
        writer.writerow(("gauges", name, *_gauge(gauge)))
    for name, points in found.waters.items():
        for mm, ml in points:
            writer.writerow(("waters", name, str(mm), trail_number(Decimal(ml).scaleb(-6)), "m3"))
    return out.getvalue()


def _product(product: Product, sample: Sample | None) -> tuple[str, ...]:
    group = product.group.value if product.group else ""
    coefficient = trail_number(product.coefficient) if product.coefficient is not None else ""
    own = product.name, group, coefficient, product.rounding.value
    if sample is None:
        return (*own, "", "", "", "")
    at = trail_number(sample.at) if sample.at is not None else ""
    by = sample.by.value if sample.by else ""
    return (*own, trail_number(sample.density.value), trail_number(sample.density.sd), at, by)


def _gauge(gauge: Gauge) -> tuple[str, ...]:
    errors = tuple(
        trail_number(sd) if sd is not None else "" for sd in (gauge.temperature_sd, gauge.water_sd)
    )
    if gauge.roof is None:
        return (gauge.product, *errors, "", "", "", "", "")
    roof = gauge.roof
    masses = _kilograms(roof.mass), _kilograms(MeasuredFigure(roof.mass.sd))
    zone = _kilograms(MeasuredFigure(roof.zone)) if roof.zone is not None else ""
    return (
        gauge.product,
        *errors,
        *masses,
        trail_number(roof.rests),
        trail_number(roof.floats),
        zone,
    )


def _kilograms(mass: MeasuredFigure) -> str:
    return f"{trail_number(mass.value)} kg"


def take_measures(work: Converter, file: str, text: str, into: Measures | None = None) -> None:
    """Have a workbook's reader take what a book keeps; what the workbook has comes after it.

    Parameters
    ----------
    work : Converter
        The reader, which knows the plant.
    file, text : str
        The file and its text.
    into : Measures, optional
        What takes it; that of the workbook without it.

    Raises
    ------
    Faults
        If the file is none: no command writes such a row.
    """
    sheets = []
    known = {*work.plant.tanks, *work.plant.streams}
    for kind in KEPT:
        lines: list[tuple[int, list[Value]]] = [(1, list(kind.heads))]
        for number, (word, *fields) in enumerate(csv.reader(io.StringIO(text)), 1):
            of_plant = kind.word in ("gauges", "waters")
            if word == kind.word and (not of_plant or fields[0] in known):
                lines.append((number, [field or None for field in fields]))
        sheets.append(Sheet(file, kind.word, lines, is_csv=True))
    tables = Tables(sheets, Reader("en"))
    MeasureReader(tables, work.plant, into or work.measures.found).read()
    if tables.faults:
        raise Faults(tables.faults, list(map(str, tables.faults)), "nothing is booked")


def keep_measures(work: Converter, book: Store) -> None:
    """Keep what a book has of measures beside those of a workbook, which was read already."""
    kept, found = Measures(), work.measures.found
    take_measures(work, str(book.path(MEASURES)), book.text(MEASURES), kept)
    found.products = kept.products | found.products
    found.product_densities = kept.product_densities | found.product_densities
    found.gauges = kept.gauges | found.gauges
    found.waters = kept.waters | found.waters


def put_measures(book: Store, action: Action, found: Measures) -> list[str]:
    """Have an action write what is kept, and return what is said of it."""
    text, before = measures_text(found), book.text(MEASURES)
    if text == before:
        return []
    action.written[MEASURES] = text
    new = set(text.splitlines()) - set(before.splitlines())
    one, many = "{file}: 1 row, new or changed", "{file}: {count:,} rows, new or changed"
    return [counted(len(new), one, many, file=MEASURES)]


# ---- how masses were calculated


def trails_of(book: Store) -> dict[tuple[str, str], Trail]:
    """Return how each fact was calculated last, by its year and its id."""
    return {(each.year, each.fact): each for each in read_trails(book.text(MEASURED))}


def check_measured(
    trails: Mapping[tuple[str, str], Trail],
    places: Sequence[tuple[YearLedger, BookFact]],
    is_volume: bool,
) -> None:
    """Refuse another level or volume for a fact of which more was measured than that.

    Raises
    ------
    Fault
        If it is so.
    """
    for ledger, fact in places:
        if (ledger.name, fact.id) in trails and (fact.kind == "dip" or is_volume):
            form = (
                "{id} was calculated from more than its level ({file})"
                if fact.kind == "dip"
                else "{id} was calculated from more than its volume ({file})"
            )
            what = Sentence(form, id=fact.id, file=MEASURED)
            remedy = (
                "correct the workbook, with its density, temperature and water, and add it again"
            )
            raise Fault(what, text=fact.id, remedy=remedy)


def put_trails(book: Store, action: Action, changes: Changes, trails: Sequence[Trail]) -> None:
    """Have an action write how the facts were calculated that it books."""
    by_fact = {each.fact: each for each in trails}
    found = [
        by_fact[own].booked(ledger.name, number, booked)
        for ledger, number, own, booked in changes.rows
        if own in by_fact
    ]
    if found:
        action.appended[MEASURED] = trails_text(found, heads=not book.has(MEASURED))


def put_summed(book: Store, action: Action, changes: Changes, summed: Sequence[SummedFact]) -> None:
    """Have an action write of what hours, or of what counter, the facts are made that it books."""
    by_fact = {each.fact: each for each in summed}
    found = [
        as_booked(by_fact[own], ledger.name, number, fact)
        for ledger, number, own, fact in changes.rows
        if own in by_fact
    ]
    if found:
        action.appended[SUMMED] = summed_text(found, heads=not book.has(SUMMED))


def density_changes(
    before: Mapping[tuple[str, str], Trail],
    changes: Sequence[Change],
    trails: Sequence[Trail],
    meters: Mapping[str, Meter],
    now: Mapping[str, Meter],
) -> Iterator[str]:
    """Give the densities by which booked facts would change, a line for each.

    Parameters
    ----------
    before : mapping of (str, str) to Trail
        How the booked facts were calculated, by year and id.
    changes : sequence of Change
        The booked facts that would change.
    trails : sequence of Trail
        How those of the workbook were calculated.
    meters, now : mapping of str to Meter
        The meters of the book, and those of the workbook.
    """
    new = {each.fact: each for each in trails}
    found: dict[tuple[str, str, str], list[Change]] = {}
    for change in changes:
        place = change.old.place
        was, become = before.get((change.ledger.name, change.old.id)), new.get(change.new.id)
        old = _density_of(was, meters.get(place))
        other = _density_of(become, now.get(place))
        if old and other and old != other:
            found.setdefault((place, old, other), []).append(change)
    for (place, old, other), own in found.items():
        form = "the density of {place}, {old}, becomes {other}, which changes {facts}"
        densities = {"old": Figure(f"{old} kg/m3"), "other": Figure(f"{other} kg/m3")}
        yield Sentence(form, place=place, facts=_periods_of(own), **densities)


def _density_of(trail: Trail | None, meter: Meter | None) -> str:
    """Return the density by which a fact was calculated, in kg/m3; nothing if none is known."""
    if trail is not None:
        return trail.figures["density"]
    if meter is None or meter.density is None:
        return ""
    return exact_decimal(meter.density / 1000)


def _periods_of(changes: Sequence[Change]) -> str:
    """Return how many facts of which periods change, and which of these are closed."""
    names: dict[str, bool] = {}
    for change in changes:
        day = change.old.first.toordinal()
        for name, period in change.ledger.periods.items():
            if period.first <= day <= period.last:
                names[name] = period.closed
    closed = "{name} (closed)"
    said = [Sentence(closed, name=name) if done else name for name, done in names.items()]
    if not said:
        return counted(len(changes), "1 fact", "{count:,} facts")
    which: str = Joined(", ", said[:_SAID])
    if len(said) > _SAID:
        which = Sentence("{names} and {count} more", names=which, count=len(said) - _SAID)
    return counted(len(changes), "1 fact of {names}", "{count:,} facts of {names}", names=which)
