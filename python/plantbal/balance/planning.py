"""`plantbal-desk advise --period`: what meters and assays are worth, and which to buy for an aim."""

from __future__ import annotations

import argparse
import sys
from collections.abc import Iterator, Sequence
from fractions import Fraction
from pathlib import Path

from plantbal.balance.causes import BalanceCause
from plantbal.balance.choose import Choice, best_for, cheapest, redundant, within
from plantbal.balance.known import Known
from plantbal.balance.reading import GRAMS, MILLION, asked_period
from plantbal.balance.solve import solve
from plantbal.balance.table import table_lines
from plantbal.balance.worth import (
    Instrument,
    PeriodState,
    SpreadChange,
    known_after,
    spread_changes,
)
from plantbal.faults import Fault, InputFault, Place, WordsFault
from plantbal.files import replacing, write_text
from plantbal.report.chart import ENDINGS
from plantbal.sentence import Sentence, phrase
from plantbal.statuses import ExitStatus
from plantbal.workbook.cells import Reader
from plantbal.workbook.locales import check_locale
from plantbal.workbook.sheets import Cell, Sheet, read_workbook

_HEADS = ("stream", "component", "cost", "error")


def period_state(data: bytes, period: str, source: str, program: str | None) -> PeriodState:
    """Return the flows and grades of a period, on which other measurements are put."""
    asked = asked_period(data, period, source=source, program=program, mass_alone=True)
    return PeriodState(Known(solve(asked.problem)))


def offers_of(path: str, state: PeriodState, locale: str = "") -> list[Instrument]:
    """Return what could be bought, by a table of stream, component, cost and error.

    Parameters
    ----------
    path : str
        The table, CSV or xlsx. Without a component an offer is a meter.
    state : PeriodState
        The plant. An error in percent is one of its flow or grade.
    locale : str
        Whose numbers are read.

    Raises
    ------
    InputFault
        If a row can't be read, or names no stream or component of the period.
    """
    reader = Reader(check_locale(locale))
    found: list[Instrument] = []
    for cells in _rows_of(path):
        stream, component = cells["stream"].text, cells["component"].text
        if stream not in state.problem.place:
            remedy = f"use one of {', '.join(state.problem.place)}"
            what = BalanceCause.NO_STREAM(name=stream)
            raise reader.fault(cells["stream"], what, remedy, "stream")
        if component and component not in state.problem.components:
            there = ", ".join(state.problem.components) or "none"
            what = BalanceCause.NO_GRADE(component=component)
            raise reader.fault(cells["component"], what, f"the components are {there}", "component")
        cost = reader.number(cells["cost"], "cost")
        if cost != int(cost) or cost < 0:
            remedy = "write a whole number from 0, in any unit, such as cents"
            what = BalanceCause.NOT_A_COST(text=cells["cost"].text)
            raise reader.fault(cells["cost"], what, remedy, "cost")
        one = Instrument(
            stream, component, _deviation(reader, state, stream, component, cells["error"])
        )
        if any((each.stream, each.component) == (stream, component) for each in found):
            what = BalanceCause.OFFER_TWICE(offer=one.said)
            raise reader.fault(cells["stream"], what, "leave one of the two out", "stream")
        found.append(Instrument(stream, component, one.deviation, int(cost)))
    return found


def _rows_of(path: str) -> Iterator[dict[str, Cell]]:
    """Give the rows of a table of offers."""
    for sheet in read_workbook(path):
        lines = list(sheet.rows())
        for at, cells in enumerate(lines):
            heads = [cell.text.casefold() for cell in cells]
            if not {"stream", "cost", "error"} <= set(heads):
                continue
            for row in lines[at + 1 :]:
                none = Cell(sheet, row[0].line, 0, None)
                places = {head: heads.index(head) for head in _HEADS if head in heads}
                found = {head: row[c] if c < len(row) else none for head, c in places.items()}
                yield {"component": none, **found}
            return
    remedy = "write stream,component,cost,error over the columns"
    what = "no row has the heads stream, cost and error"
    raise InputFault(what, place=Place(file=path), remedy=remedy)


def _deviation(
    reader: Reader, state: PeriodState, stream: str, component: str, cell: Cell
) -> float:
    """Return an error as tonnes of the period, or as a fraction of a grade."""
    if component:
        grade = Fraction(state.grade(stream, component) * MILLION)
        found = float(reader.grade_error(cell, grade)) / MILLION
    else:
        error = reader.error(cell)
        share = float(error.share) * abs(state.flow(stream))
        found = max(share, float(error.grams) / GRAMS)
    if not found > 0:
        of = component or phrase("a meter")
        what = BalanceCause.NOT_AN_ERROR_OF(text=cell.text, what=of, stream=stream)
        remedy = Sentence("write one that isn't 0, such as 2 %")
        if not component:
            remedy = Sentence("write one that isn't 0, such as 1.5 % or 20 t")
        raise reader.fault(cell, what, remedy, "error")
    return found


def instrument_named(text: str, state: PeriodState, locale: str = "en") -> Instrument:
    """Return what STREAM or STREAM:COMPONENT=ERROR names, with its error if there is one.

    Parameters
    ----------
    text : str
        The text.
    state : PeriodState
        The flows and errors of the period.
    locale : str
        Whose numbers the error has.
    """
    name, _, error = text.partition("=")
    stream, _, component = name.partition(":")
    if stream not in state.problem.place:
        remedy = Sentence("use one of {words}", words=", ".join(state.problem.place))
        raise Fault(Sentence("there is no stream {name}", name=stream), text=text, remedy=remedy)
    if component and component not in state.problem.components:
        what = Sentence("no grade of {component} is known", component=component)
        there = ", ".join(state.problem.components) or phrase("none")
        raise Fault(what, text=text, remedy=Sentence("there are {names}", names=there))
    if not error:
        return Instrument(stream, component)
    cell = Cell(Sheet("", "", [], is_csv=True), 0, 0, error)
    return Instrument(stream, component, _deviation(Reader(locale), state, stream, component, cell))


def add_arguments(parser: argparse.ArgumentParser) -> None:
    """Add the words of the command."""
    period = "look at all flows of this period, with their errors and those of assays"
    parser.add_argument("--period", metavar="PERIOD", help=period)
    for word, shown, about in (
        ("add", "STREAM[:COMPONENT]=ERROR", "what if this meter or assay were there too"),
        ("lose", "STREAM[:COMPONENT]", "what if this one failed"),
        ("want", "STREAM=ERROR", "buy what makes the ± of this flow at most ERROR"),
    ):
        parser.add_argument(
            f"--{word}", metavar=shown, action="append", default=[], help=f"with --period: {about}"
        )
    redundant_ = "with --period: buy what keeps all flows known if any one meter or assay fails"
    parser.add_argument("--redundant", action="store_true", help=redundant_)
    budget = "with --period: buy what makes the ± of all flows, or of --of, least for this"
    parser.add_argument("--budget", metavar="COST", type=int, help=budget)
    of = "with --budget: a flow whose ± counts"
    parser.add_argument("--of", metavar="STREAM", action="append", default=[], help=of)
    seconds = "with --period: how long to look for a cheaper choice (default: 30)"
    parser.add_argument("--within", metavar="SECONDS", type=float, default=30.0, help=seconds)


def run(options: argparse.Namespace, source: str, data: bytes) -> int:
    """Write what is bought, and the ± before and after."""
    state = period_state(data, options.period, source, options.program)
    offers = offers_of(options.costs, state, options.locale) if options.costs else []
    lines: list[str] = []
    add = [_with_error(text, state) for text in options.add]
    lose = [instrument_named(text, state) for text in options.lose]
    if options.want or options.redundant or options.budget is not None:
        if add or lose:
            raise WordsFault(
                "--add and --lose are for a what-if", remedy="ask for one thing at a time"
            )
        choice, said = _bought(options, state, offers)
        lines += list(_choice_lines(choice, said))
        add = list(choice.instruments)
    before, after = state.with_(state.here), known_after(state, add, lose)
    changes = spread_changes(state, before, after)
    if options.form == "csv":
        lines = list(_csv(changes))
    else:
        lines += list(_text(changes, bool(add or lose)))
    write_text("-", "".join(f"{line}\n" for line in lines))
    if options.draw:
        _draw(options.draw, changes)
    if any(line.kind.value == "unobservable" for line in table_lines(after) if not line.component):
        print(f"{options.prog}: some flows stay unknown: they have no ±", file=sys.stderr)
    return ExitStatus.GOOD


def _with_error(text: str, state: PeriodState) -> Instrument:
    """Return what is to be added."""
    found = instrument_named(text, state)
    if not found.deviation:
        remedy = f"give it, such as {text}=2%"
        raise Fault(f"{found.said} has no error", text=text, remedy=remedy)
    return found


def _bought(
    options: argparse.Namespace, state: PeriodState, offers: Sequence[Instrument]
) -> tuple[Choice, str]:
    """Return what is bought for the aim, and the aim in words."""
    if not offers:
        remedy = "name a table with the columns stream, component, cost and error"
        raise WordsFault("nothing is offered", remedy=remedy)
    aims = [bool(options.want), bool(options.redundant), options.budget is not None]
    if sum(aims) > 1:
        raise WordsFault(
            "there are several aims", remedy="use one of --want, --redundant and --budget"
        )
    streams = [flow.name for flow in state.problem.flows]
    if options.redundant:
        aim = redundant(state, streams)
        return cheapest(offers, aim, options.within), "every flow is known if any one fails"
    if options.budget is not None:
        wanted = [instrument_named(text, state).stream for text in options.of] or streams
        choice, ratio = best_for(state, offers, wanted, options.budget)
        return choice, f"every ± asked for is at most {ratio:.3f} times that with all offers"
    wants = {}
    for text in options.want:
        found = _with_error(text, state)
        wants[found.stream] = found.deviation
    said = ", ".join(f"± of {name} at most {most:,.3f} t" for name, most in wants.items())
    return cheapest(offers, within(state, wants), options.within), said


def _choice_lines(choice: Choice, said: str) -> Iterator[str]:
    """Give what is bought."""
    if not choice.instruments:
        yield f"nothing is needed: {said} already"
        return
    count = len(choice.instruments)
    what = "1 instrument" if count == 1 else f"{count} instruments"
    yield f"{what} for {choice.cost:,}: {said}"
    if choice.is_cheapest:
        yield "no cheaper choice of those offered does"
    else:
        yield f"the cheapest found in this time; none costs less than {choice.bound:,.0f}"
    wide = max(len(each.said) for each in choice.instruments)
    for each in choice.instruments:
        error = f"±{each.deviation:.4%}" if each.component else f"±{each.deviation:,.3f} t"
        yield f"  {each.said:{wide}}  {each.cost:>10,}  {error}"


def _shown(change: SpreadChange, number: float) -> str:
    if number == float("inf"):
        return "unknown"
    return f"{number * 100:.4f} %" if change.component else f"{number:,.3f} t"


def _text(changes: Sequence[SpreadChange], is_changed: bool) -> Iterator[str]:
    """Give the table to be read."""
    heads = ("± now", "± then", "") if is_changed else ("± now", "", "")
    wide = max(len(each.stream) + 2 for each in changes)
    yield f"{'':{wide}}  {'':6}{heads[0]:>16}{heads[1]:>16}{heads[2]:>8}  class"
    for each in changes:
        name = f"  {each.component}" if each.component else each.stream
        now, then = _shown(each, each.before), _shown(each, each.after)
        part = ""
        if is_changed and each.before < float("inf") and each.after < float("inf"):
            part = f"{each.after / each.before - 1:+.1%}" if each.before else ""
        kinds = [each.kind_before.value, each.kind_after.value]
        kind = kinds[0] if kinds[0] == kinds[1] else " → ".join(kinds)
        yield f"{name:{wide}}  {'':6}{now:>16}{then if is_changed else '':>16}{part:>8}  {kind}"


def _csv(changes: Sequence[SpreadChange]) -> Iterator[str]:
    """Give the table in CSV, with all digits; nothing for what isn't known."""
    yield "stream,component,before,after,class_before,class_after"
    for each in changes:
        numbers = ["" if n == float("inf") else f"{n}" for n in (each.before, each.after)]
        kinds = (each.kind_before.value, each.kind_after.value)
        yield ",".join([each.stream, each.component, *numbers, *kinds])


def _draw(path: str, changes: Sequence[SpreadChange]) -> None:
    """Draw the ± of the flows before and after."""
    from plantbal.balance.chart import write_worth

    form = Path(path).suffix[1:].lower()
    if form not in ENDINGS:
        raise WordsFault(f"{path} ends with {form!r}", text=path, remedy="use .svg, .png or .pdf")
    with replacing(path) as made:
        write_worth(changes, made, form)
