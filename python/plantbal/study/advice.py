"""Says which streams to meter so that every stream is observable, at the least cost."""

from __future__ import annotations

import argparse
import sys
from collections.abc import Iterable, Iterator, Mapping, Sequence
from dataclasses import dataclass
from pathlib import Path

from plantbal.audit.asks import some
from plantbal.balance import planning
from plantbal.commands.options import add_program
from plantbal.explain import explain_bytes, is_report
from plantbal.faults import Fault, InputFault, Place
from plantbal.files import write_bytes, write_text
from plantbal.forms import read_session
from plantbal.program import call
from plantbal.report.blocks import Values, advice_of
from plantbal.report.parsing import parse_rows
from plantbal.report.picture import advised, svg
from plantbal.schema import schema
from plantbal.session import Session
from plantbal.statuses import ExitStatus
from plantbal.study.causes import OfferCause
from plantbal.workbook.cells import Reader
from plantbal.workbook.locales import check_locale
from plantbal.workbook.sheets import Cell, read_workbook

HELP = """
SESSION is a session, of which only the plant is used: boundaries, units, tanks and streams. COSTS
is a table, CSV or xlsx, with the columns stream and cost: what a meter on this stream would cost,
a whole number in any unit. A meter on a stream that isn't in COSTS costs 1.

The program says which streams to meter. It is proved that no other choice that makes every stream
observable costs less. Each stream to meter has a line with its cost, and with the other streams on
its cycle: they stay without a meter, and none of them costs less. With --form csv the columns are
stream, cost and cycle; with --draw the plant is drawn, with the streams to meter in violet.

With --period the flows and grades of a period of the session are looked at, with the errors of
meters and assays, and each has its ± from both; this part isn't proved. --add and --lose say what
the ± of every flow and grade would be with one more meter or assay, or one fewer; no reading is
needed. COSTS then has the columns stream, component (empty for a meter), cost and error, and the
cheapest of these offers are chosen: for a ± (--want), to keep every flow known if any one meter or
assay fails (--redundant), or for the least ± that a budget buys (--budget). --draw draws ± before
and after. The proved advice comes after it, for meters alone and for observability alone.

examples:
  plantbal-desk advise plant.csv costs.csv --draw meters.svg
  plantbal-desk advise month.csv --period 2024-07 --add DX-310=0.8% --lose WIC-201
  plantbal-desk advise month.csv offers.csv --period 2024-07 --want TAILINGS=100t
"""
_PLANT = ("version", "boundary", "unit", "tank", "strap", "stream")


@dataclass(frozen=True)
class Advice:
    """Which streams to meter.

    Attributes
    ----------
    rows : list of dict
        What the program wrote: the design, and the advice.
    meters : list of dict
        The streams to meter: ``stream``, ``cost`` and ``parts``, the cycle.
    costs : dict of str to int
        What a meter costs on each stream that has none.
    """

    rows: Sequence[Values]
    meters: Sequence[Values]
    costs: dict[str, int]

    @property
    def total(self) -> int:
        """What the meters cost together."""
        return sum(int(meter["cost"]) for meter in self.meters)

    def lines(self) -> Iterator[str]:
        """Give what it says, a line each."""
        if not self.meters:
            yield "no meter is needed: every stream is observable as it is"
            return
        meters = "1 meter" if len(self.meters) == 1 else f"{len(self.meters):,} meters"
        verb = "makes" if len(self.meters) == 1 else "make"
        yield f"{meters} for {self.total:,} {verb} every stream observable; no cheaper choice does"
        names = max(len(meter["stream"]) for meter in self.meters)
        costs = max(len(f"{int(meter['cost']):,}") for meter in self.meters)
        for meter in self.meters:
            name, cost = meter["stream"], int(meter["cost"])
            others = [part[1:] for part in meter["parts"].split(" ")[1:]]
            said = ", ".join(f"{other} {self.costs[other]:,}" for other in others)
            yield f"{name:{names}}  {cost:{costs},}  on its cycle: {said}"


def plant_session(source: str, data: bytes) -> Session:
    """Return the plant of a session: its rows that declare boundaries, units, tanks and streams.

    Raises
    ------
    Fault
        If one of these rows is refused, or there is no stream.
    """
    if is_report(data):
        place = Place(file=source)
        raise InputFault("this is an output", place=place, remedy="name the session")
    session = Session(strict=False)
    session.take(source, data)
    refused = any(each.row[0] in _PLANT for each in session.refused)
    if not session.streams or refused:
        found = explain_bytes(source, data)
        whole = [told for told in found.whole if not told.asks_nothing]  # which isn't wrong here
        for told in [*whole, *found.rows]:
            raise Fault(told.headline, text=told.row)
        raise InputFault("it has no stream", place=Place(file=source), remedy="is it a session?")
    return session


def read_costs(path: str | Path, plant: Session, locale: str = "") -> dict[str, int]:
    """Return the costs of a table with the columns stream and cost.

    Parameters
    ----------
    path : str or Path
        The table, CSV or xlsx.
    plant : Session
        The plant of which the streams are.
    locale : str
        Whose numbers are read.

    Raises
    ------
    InputFault
        If there are no such columns, a stream is none that a meter could be put on, or stands
        twice, or a cost is no whole number of its range.
    """
    reader = Reader(check_locale(locale))
    found: dict[str, int] = {}
    for stream, cost in _cells_of(path):
        name = stream.text
        kind = plant.streams.get(name)
        if kind is None:
            what = OfferCause.NO_STREAM(name=name) if name else OfferCause.NO_NAME()
            if name in plant.nodes:
                what = OfferCause.NOT_A_STREAM(name=name, kind=plant.nodes[name])
            raise reader.fault(stream, what, "correct the name, or remove the row", "stream")
        if kind != "plain":
            what = OfferCause.MEASURED_ALREADY(name=name, kind=kind)
            raise reader.fault(stream, what, "take the row out", "stream")
        if name in found:
            what = OfferCause.TWICE(name=name)
            raise reader.fault(stream, what, "leave one of the two out", "stream")
        number, column = reader.number(cost, "cost"), schema().row("advise").tail[1]
        low, high = column.low or 0, column.high or 0
        if number != int(number) or not low <= number <= high:
            remedy = f"write a whole number from {low} to {high:,}, in any unit, such as cents"
            raise reader.fault(cost, OfferCause.NOT_A_COST(text=cost.text), remedy, "cost")
        found[name] = int(number)
    return found


def _cells_of(path: str | Path) -> Iterator[tuple[Cell, Cell]]:
    """Give the cells of the streams and of their costs."""
    sheets = read_workbook(path)
    for sheet in sheets:
        lines = list(sheet.rows())
        for at, cells in enumerate(lines):
            heads = [cell.text.casefold() for cell in cells]
            if "stream" in heads and "cost" in heads:
                places = heads.index("stream"), heads.index("cost")
                for row in lines[at + 1 :]:
                    none = Cell(sheet, row[0].line, 0, None)
                    one, other = (row[at] if at < len(row) else none for at in places)
                    yield one, other
                return
    raise InputFault(
        "no row has the heads stream and cost",
        place=Place(file=str(path)),
        remedy="write stream,cost over the columns",
    )


def advise(
    plant: Session, costs: Mapping[str, int] | None = None, *, program: str | None = None
) -> Advice:
    """Return which streams of a plant to meter so that every stream is observable.

    Parameters
    ----------
    plant : Session
        The plant; its facts and reports aren't needed.
    costs : mapping of str to int, optional
        What a meter of a stream costs; of those that aren't named it is 1.
    program : str, optional
        The program.
    """
    asked = Session(strict=True)
    for row in plant:
        if row[0] in _PLANT:
            asked.row(*row)
    asked.design()
    asked.advise(costs)
    status, output = call(["run"], asked.to_csv().encode("ascii"), program=program)
    rows = parse_rows("the advice", output.decode("ascii"))
    meters = advice_of(rows)
    if status or meters is None:
        raise Fault("the program doesn't advise on this plant", remedy="is it of an older version?")
    plain = [name for name, kind in plant.streams.items() if kind == "plain"]
    return Advice(rows, meters, {name: (costs or {}).get(name, 1) for name in plain})


def add_arguments(parser: argparse.ArgumentParser) -> None:
    """Add the words of the command."""
    parser.add_argument("session", metavar="SESSION", nargs="?", default="-")
    parser.add_argument("costs", metavar="COSTS", nargs="?", help="a table of stream and cost")
    parser.add_argument("--form", choices=["text", "csv"], default="text", help="how it is written")
    parser.add_argument("--draw", metavar="FILE", help="a drawing of the plant, as SVG")
    form = "how numbers are written, such as de"
    parser.add_argument("--locale", metavar="NAME", default="", help=form)
    planning.add_arguments(parser)
    add_program(parser)


def _plan(options: argparse.Namespace, source: str, data: bytes, plant: Session) -> int:
    """Write what meters and assays are worth in a period, and the proved advice beside it."""
    status = planning.run(options, source, data)
    if options.form == "text":
        proved = advise(plant, program=options.program)
        names = ", ".join(meter["stream"] for meter in proved.meters) or "none"
        said = "proved, without assays: meters that make every stream observable, fewest: "
        write_text("-", f"{said}{names}\n")
    return status


def run(options: argparse.Namespace) -> int:
    """Write which streams to meter."""
    source, data = read_session(options.session)
    plant = plant_session(source, data)
    if options.period:
        return _plan(options, source, data, plant)
    costs = read_costs(options.costs, plant, options.locale) if options.costs else {}
    plain = [name for name, kind in plant.streams.items() if kind == "plain"]
    uncosted = [name for name in plain if name not in costs]
    if costs and uncosted:
        said = f"{options.costs} has no cost of {some(uncosted)}: a meter there counts as 1"
        print(f"{options.prog}: {said}", file=sys.stderr)
    found = advise(plant, costs, program=options.program)
    lines: Iterable[str] = found.lines()
    if options.form == "csv":
        rows = [(each["stream"], each["cost"], each["parts"]) for each in found.meters]
        lines = [",".join(row) for row in [("stream", "cost", "cycle"), *rows]]
    write_text("-", "".join(f"{line}\n" for line in lines))
    if options.draw:
        write_bytes(options.draw, svg(advised(found.rows, plant.crossings()).dot()))
    return ExitStatus.GOOD
