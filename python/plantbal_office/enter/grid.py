"""The grid: readings by day and meter, dips by tank, tickets and assays, typed or pasted."""

from __future__ import annotations

import datetime
from collections.abc import Mapping, Sequence
from dataclasses import dataclass
from decimal import Decimal

from django.core.files.base import ContentFile
from django.http import Http404, HttpRequest, HttpResponse, JsonResponse
from django.shortcuts import render
from django.urls import reverse

from plantbal.amounts import tonnes_of
from plantbal.book.ledger import BookFact, number_with_commas
from plantbal.book.looking import BookMonth, BookStream, Vessel
from plantbal.book.meters import Meter
from plantbal.book.results import ShownFact
from plantbal.estimates import is_marked
from plantbal.faults import Fault
from plantbal.model.plant import in_service
from plantbal.workbook.units import GRAMS, VOLUMES, WET
from plantbal_office.deeds.once import once
from plantbal_office.enter.core import core_files
from plantbal_office.enter.drops import write_workbook_files, folder_of
from plantbal_office.enter.judging import Judged, judge_ticket, judge_typed
from plantbal_office.enter.models import Drop
from plantbal_office.enter.rules import JUDGED, judging_rules
from plantbal_office.enter.typed import KINDS, SHEETS, cells_of, file_of, parted, typing_locale
from plantbal_office.look.views import month_in_address
from plantbal_office.middleware import POLICY_WITH_CORE
from plantbal_office.shelf import book_contents, period_facts
from plantbal_office.shown import in_language

_DAY = datetime.timedelta(1)
BLANK_ROWS = 12
MOST_JUDGED = 400


@dataclass(frozen=True)
class GridCell:
    """A cell of the grid: what is booked, as it would be typed, and how it is marked."""

    label: str
    day: datetime.date
    text: str
    mark: str = ""
    part: str = "amount"


@dataclass(frozen=True)
class Dip:
    """A row of the grid of dips."""

    tank: str
    day: datetime.date
    level: GridCell
    density: GridCell
    grams: int | None
    ml: int | None
    is_end: bool


def grid(request: HttpRequest, period: str, kind: str) -> HttpResponse:
    """Show the grid of a month, or go on to what it would do if it is booked."""
    month = month_in_address(request, period)
    if kind not in KINDS:
        raise Http404
    fault: Fault | None = None
    if request.method == "POST":

        def act() -> str:
            rows, cleared = parted(kind, cells_of(request.POST.get("cells", "")))
            return typed_drop(request, period, kind, rows, cleared)

        try:
            return once(request, act)
        except Fault as found:
            fault = found
    contents = book_contents(request.plant)
    flows = contents.flows[month.year]
    core = core_files() if kind in JUDGED else None
    words = {
        "month": month,
        "kind": kind,
        "kinds": KINDS,
        "fault": fault,
        "section": "enter",
        "streams": [each.name for each in flows if each.kind == "batch"],
        "metered": [each.name for each in flows if each.kind == "metered"],
        "all_streams": [each.name for each in flows],
        "heads": SHEETS.get(kind, ()),
        "blank": range(BLANK_ROWS),
        "core": core,
    }
    if kind == "readings":
        words["columns"], words["rows"] = readings_of(request, month)
    elif kind == "dips":
        words["dips"] = dips_of(request, month)
    answer = render(request, "enter/grid.html", words, status=400 if fault else 200)
    if core is not None:
        answer["Content-Security-Policy"] = POLICY_WITH_CORE
    return answer


def typed_drop(
    request: HttpRequest,
    period: str,
    kind: str,
    rows: Sequence[Mapping[str, str]],
    cleared: list[list[str]],
) -> str:
    """Keep what was typed of a month as a workbook, and return where it is seen what it would do."""
    drop = Drop(
        person=request.user,
        plant=request.plant,
        name=f"typed_{period}_{kind}",
        locale=typing_locale(),
        is_typed=True,
        cleared=cleared,
    )
    if rows:
        write_workbook_files(folder_of(drop), drop.name, [file_of(kind, rows)])
    drop.save(force_insert=True)
    return reverse("enter:seen", args=[request.plant.slug, drop.pk])


def tests_page(request: HttpRequest) -> HttpResponse:
    """Go on to what tests at a level would say: the critical values that the plant may need."""

    def act() -> str:
        drop = Drop(
            person=request.user, plant=request.plant, name="tests_at_5_percent", is_typed=True
        )
        sheet = ContentFile(b"setting,value\ntests,0.05\n", name="settings.csv")
        write_workbook_files(folder_of(drop), drop.name, [sheet])
        drop.save(force_insert=True)
        return reverse("enter:seen", args=[request.plant.slug, drop.pk])

    return once(request, act)


def readings_of(
    request: HttpRequest, month: BookMonth
) -> tuple[list[BookStream], list[tuple[datetime.date, list[GridCell]]]]:
    """Return the meters of a month, and for each day what is booked of each."""
    flows = [
        each for each in book_contents(request.plant).flows[month.year] if each.kind == "metered"
    ]
    found = period_facts(request.plant, month.name)
    there = {(each.fact.place, each.fact.first): each for each in found.facts if not each.struck}
    rows = []
    for number in range(month.first.toordinal(), month.last.toordinal() + 1):
        day = datetime.date.fromordinal(number)
        rows.append((day, [_reading(flow, day, there.get((flow.name, day))) for flow in flows]))
    return flows, rows


def meter_label(place: BookStream) -> str:
    """Return how a workbook calls a meter: by its tag, or else by its stream."""
    return place.meter.tag if place.meter is not None and place.meter.tag else place.name


def _reading(flow: BookStream, day: datetime.date, shown: ShownFact | None) -> GridCell:
    """Return the cell of a reading."""
    label = meter_label(flow)
    if shown is None:
        served = in_service(flow.service, day.toordinal())
        return GridCell(label, day, "", "missing" if served else "off")
    mark = "amended" if shown.before else "estimated" if is_marked(shown.fact.id) else ""
    return GridCell(label, day, in_language(typed_of(shown.fact, flow.meter)), mark)


def typed_of(fact: BookFact, meter: Meter | None) -> str:
    """Return a reading as it would be typed: in the unit of its meter, to six digits after the point."""
    unit = meter.unit if meter is not None else ""
    if unit in ("", "t", *WET):
        return number_with_commas(tonnes_of(fact.values[0]))
    factor = GRAMS.get(unit) or VOLUMES[unit] * ((meter.density if meter is not None else 0) or 0)
    if not factor:
        return number_with_commas(tonnes_of(fact.values[0])) + " t"
    number = fact.values[0] / factor
    return number_with_commas(round(Decimal(number.numerator) / Decimal(number.denominator), 6))


def dips_of(request: HttpRequest, month: BookMonth) -> list[Dip]:
    """Return the dips of a month: of each tank at its ends, and on each other day that has one."""
    found = period_facts(request.plant, month.name)
    there = {(each.fact.place, each.fact.first): each for each in found.facts if not each.struck}
    rows = []
    for tank in book_contents(request.plant).vessels[month.year]:
        ends = {month.first - _DAY, month.last}
        days = sorted(ends | {day for name, day in there if name == tank.name})
        rows += [
            _dip(found.state, tank, day, there.get((tank.name, day)), day in ends) for day in days
        ]
    return rows


def _dip(
    state: object, tank: Vessel, day: datetime.date, shown: ShownFact | None, is_end: bool
) -> Dip:
    """Return the row of a dip."""
    from plantbal.model.state import State
    from plantbal_office.enter.judging import volume_at

    assert isinstance(state, State)
    if shown is None:
        mark = "missing" if is_end else ""
        usual = tank.meter.density if tank.meter is not None else None
        text = in_language(number_with_commas(Decimal(round(usual)) / 1000)) if usual else ""
        level, dense = GridCell(tank.name, day, "", mark, "level"), GridCell(
            tank.name, day, text, "", "density"
        )
        return Dip(tank.name, day, level, dense, None, None, is_end)
    mark = "amended" if shown.before else ""
    mm, density = shown.fact.values
    ml = volume_at(state.plant.tables.get(tank.name, []), mm)
    grams = ml * density // 10**6 if ml is not None else None
    level = GridCell(tank.name, day, in_language(f"{mm:,}"), mark, "level")
    dense = GridCell(
        tank.name, day, in_language(number_with_commas(Decimal(density) / 1000)), "", "density"
    )
    return Dip(tank.name, day, level, dense, grams, ml, is_end)


def judged(request: HttpRequest, period: str) -> HttpResponse:
    """Say of cells that were typed what a workbook and the program would say of them."""
    month = month_in_address(request, period)
    cells = cells_of(request.POST.get("cells", ""))[:MOST_JUDGED]
    locale = typing_locale()
    found = []
    for cell in cells:
        if "stream" in cell:
            said = judge_ticket(request.plant, month, cell, locale)
        else:
            words = {key: value for key, value in cell.items() if key not in ("name", "day")}
            said = judge_typed(
                request.plant, month, cell.get("name", ""), cell.get("day", ""), words, locale
            )
        found.append(_answer(said))
    return JsonResponse({"cells": found})


def judged_by(request: HttpRequest, period: str, kind: str) -> HttpResponse:
    """Give a page what it needs to judge the cells of its grid by itself."""
    month = month_in_address(request, period)
    return JsonResponse({"rules": judging_rules(request.plant, month, kind, typing_locale())})


def _answer(said: Judged) -> dict[str, object]:
    """Return what is said of a cell for the page."""
    from plantbal_office.shown import t

    volume = (
        in_language(number_with_commas(Decimal(said.ml) / 10**6)) if said.ml is not None else ""
    )
    return {"level": said.level, "said": said.said, "mass": t(said.grams), "volume": volume}
