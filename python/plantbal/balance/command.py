"""Reconciles flows and grades together, and has the program certify the flows."""

from __future__ import annotations

import argparse
import json
import sys
from collections.abc import Iterable, Iterator, Sequence
from dataclasses import dataclass, replace
from pathlib import Path

from plantbal.balance.certify import pulls_of, session_of
from plantbal.balance.known import Class, Known
from plantbal.balance.pulps import with_water
from plantbal.balance.reading import GRAMS, AskedPeriod, asked_period
from plantbal.balance.solve import solve
from plantbal.balance.stock import Held, held_of, lines_of_stocks, stocks_of, unknown_stocks
from plantbal.balance.table import (
    SOLIDS,
    BalanceLine,
    FigureUnit,
    table_lines,
    recoveries_of,
    evidence_said,
)
from plantbal.commands.options import add_program
from plantbal.faults import Fault, read_bytes, WordsFault
from plantbal.files import replacing, write_text
from plantbal.limits import SESSION_BYTES
from plantbal.report.blocks import last_blocks
from plantbal.report.chart import ENDINGS
from plantbal.report.output import Output
from plantbal.runs import check, run as run_program
from plantbal.statuses import looks
from plantbal.study.advice import plant_session

HELP = """
SESSION is a session with assays. The flows of PERIOD and the grades in them are reconciled at once:
the assays help to determine the flows, as the flows help to determine the grades. Without
--component all components are used that were assayed in the period.

There is a line for each flow, in tonnes, and below it one for each grade, in percent: what was
measured, what fits best, its standard deviation from the errors of all meters and assays, and the
adjustment in standard deviations of the measurement. A flow that only assays determine says by
which balances. The recoveries come at the end.

What assays say of a flow is then handed to the program as a measurement, and the program
reconciles the mass once more and certifies it: these flows balance to the gram, within proved
bounds. That no other flows and grades fit better isn't proved. --given and --out keep what the
program was given and what it wrote.

  text   a table to be read
  csv    tonnes and fractions with all digits
  json   the same as a list of objects; a missing figure is null

--pulps balances water beside the solids. The sheet pulps has a row for each stream whose water was
measured: stream, measure, value, error; and unit, solids density, from, to, period where they are
needed. The measure is solids (the part of the pulp, such as 34 %), density (of the pulp, such as
1.62 t/m3, with the solids density beside it), or water: a stream of water alone, in t or m3, with
its ends. Without a value such a stream is found by the balances.

The grade of what a tank gained comes below its gain. That of what it holds needs what it held
before, which no row of a session says: --held says it, tonnes and grades, each with its error.

--chart draws the grades, each as it was assayed and as it is reconciled, with two standard
deviations to each side.

examples:
  plantbal-desk balance month.csv 2024-07
  plantbal-desk balance month.csv 2024-07 --component cu --component s --form csv
"""
# The certified flows differ from those found by at most this part of their standard deviation.
MOST_DIFFERENCE = 0.05


def add_arguments(parser: argparse.ArgumentParser) -> None:
    """Add the words of the command."""
    parser.add_argument("session", metavar="SESSION")
    parser.add_argument("period", metavar="PERIOD")
    parser.add_argument(
        "--component", metavar="NAME", action="append", default=[], help="a component to balance"
    )
    parser.add_argument(
        "--closed",
        metavar="STREAM",
        action="append",
        default=[],
        help="a stream whose components sum to 100 %%",
    )
    parser.add_argument(
        "--feed",
        metavar="STREAM",
        action="append",
        default=[],
        help="recoveries are fractions of what this stream carries",
    )
    pulps = "balance water too: a workbook with a sheet pulps, or that sheet"
    parser.add_argument("--pulps", metavar="WORKBOOK", help=pulps)
    form = "how numbers in the sheet are written, such as de or en_GB"
    parser.add_argument("--locale", metavar="NAME", default="", help=form)
    held = (
        "what a tank held before the period, with its error: STOCK=12000t,1%% or STOCK:cu=26%%,1%%"
    )
    parser.add_argument(
        "--held", metavar="TANK=AMOUNT,ERROR", action="append", default=[], help=held
    )
    parser.add_argument("--chart", metavar="FILE", help="a .svg, .png or .pdf file")
    parser.add_argument(
        "--form", choices=["text", "csv", "json"], default="text", help="how it is written"
    )
    parser.add_argument("--given", metavar="FILE", help="keep the session that is certified")
    parser.add_argument("--out", metavar="FILE", help="keep what the program wrote")
    add_program(parser)


def _asked(options: argparse.Namespace) -> AskedPeriod:
    """Return what is to be balanced."""
    source, data = read_bytes(options.session, SESSION_BYTES)
    plant_session(source, data)  # says what is wrong with the session
    asked = asked_period(
        data,
        options.period,
        options.component,
        options.closed,
        source=source,
        program=options.program,
        mass_alone=bool(options.pulps),
    )
    if options.pulps:
        watered = with_water(asked.problem, options.pulps, options.period, options.locale)
        asked = replace(asked, problem=watered)
    names = [flow.name for flow in asked.problem.flows]
    for name in [*options.feed, *options.closed]:
        if name not in names:
            remedy = f"use one of {', '.join(names)}"
            raise Fault(f"there is no stream {name}", text=name, remedy=remedy)
    return asked


def run(options: argparse.Namespace) -> int:
    """Write the flows and grades; somebody has to look if one of them isn't certified."""
    asked = _asked(options)
    found = solve(asked.problem)
    known = Known(found)
    lines = list(table_lines(known))
    held = held_of(options.held, known)
    stocks = list(lines_of_stocks(stocks_of(known, held)))
    given = session_of(asked.problem, pulls_of(found, known), options.period)
    output = run_program(given.encode("ascii"), tests=False, program=options.program)
    certificate = certificate_of(lines, output, options.program)
    written = list(_FORMS[options.form](known, [*lines, *stocks], options.feed))
    written += certificate.lines() if options.form == "text" else ()
    write_text("-", "".join(f"{row}\n" for row in written))
    for name, text in ((options.given, given), (options.out, output.to_csv())):
        if name:
            write_text(name, text)
    if options.chart:
        _chart(options.chart, known)
    why_not = certificate.why_not
    notes = list(balance_notes(asked, known, lines, held))
    for note in [*notes, *([f"not certified: {why_not}"] if why_not else [])]:
        print(f"{options.prog}: {note}", file=sys.stderr)
    return looks(why_not)


def _chart(path: str, known: Known) -> None:
    """Draw the grades."""
    from plantbal.balance.chart import write_grades_chart
    from plantbal.balance.grades import of_known

    form = Path(path).suffix[1:].lower()
    if form not in ENDINGS:
        raise WordsFault(f"{path} ends with {form!r}", text=path, remedy="use .svg, .png or .pdf")
    with replacing(path) as made:
        write_grades_chart(of_known(known), made, form)


def balance_notes(
    asked: AskedPeriod, known: Known, lines: Iterable[BalanceLine], held: Held
) -> Iterable[str]:
    """Yield what is to be said of a balance beside its figures."""
    for said in asked.left_out:
        yield f"left out: {said}"
    for bound in known.held:
        yield f"{bound.said}: the measurements pull it there"
    alone = known.system.problem.alone
    loose = [
        line.stream
        for line in lines
        if line.kind is Class.UNOBSERVABLE and (not line.component or line.stream in alone)
    ]
    if loose:
        yield f"nothing determines the flow of {', '.join(loose)}: add a meter or an assay there"
    if unknown := unknown_stocks(known, held):
        yield (
            f"what was held before the period isn't given (--held), so the grade of the stock isn't"
            f" known: {', '.join(unknown)}"
        )


@dataclass(frozen=True, slots=True)
class Certificate:
    """How far the flows are from those that the program certified.

    Attributes
    ----------
    is_checked : bool
        Whether the program's check of its report says yes.
    stream : str
        The stream that differs by the greatest part of its standard deviation.
    tonnes, part : float
        By how many tonnes, and by which part.
    """

    is_checked: bool
    stream: str = ""
    tonnes: float = 0.0
    part: float = 0.0

    @property
    def why_not(self) -> str:
        """Why the flows aren't certified; empty if they are."""
        if not self.is_checked:
            return "the program's check of its report doesn't say yes"
        if self.part > MOST_DIFFERENCE:
            return f"the flow of {self.stream} differs by {self.part:.2f} of its ±"
        return ""

    def lines(self) -> Iterator[str]:
        """Give what is proved, what isn't, and the difference between both."""
        if not self.why_not:
            of = f" ({self.stream})" if self.stream else ""
            yield f"certified: the program's flows differ by at most {self.tonnes:,.3f} t{of}"
            yield "proved: balance and bounds of mass; only computed: grades, ±, best fit"


def certificate_of(
    lines: Iterable[BalanceLine], output: Output, program: str | None
) -> Certificate:
    """Return how far flows are from those that the program certified."""
    blocks = list(last_blocks(output.blocks_in_order).values())
    if not blocks or list(check(output, program=program)["verdict"]) != ["yes"]:
        return Certificate(False)
    worst = (0.0, 0.0, "")
    flows = {
        row["name"].removesuffix("_gain"): int(row["flow"]) / GRAMS for row in blocks[-1].streams
    }
    for line in lines:
        if not line.component and line.kind is not Class.UNOBSERVABLE and line.sd > 0:
            off = abs(flows[line.stream] - line.value)
            worst = max(worst, (off / line.sd, off, line.stream))
    part, tonnes, stream = worst
    return Certificate(True, stream, tonnes, part)


def _text(known: Known, lines: list[BalanceLine], feeds: Sequence[str]) -> Iterable[str]:
    """Yield the table to be read."""
    alone, beside = known.system.problem.alone, {SOLIDS, *known.system.problem.ratios}
    wide = max(len(line.stream) for line in lines)
    yield f"{'':{wide}}  {'':8}{'measured':>16}{'reconciled':>16}{'±':>12}{'in sd':>8}  class"
    for line in lines:
        if (
            line.kind is Class.UNOBSERVABLE
            and line.component in beside
            and line.stream not in alone
        ):
            continue  # few streams have their water measured
        is_part, is_own = line.unit is FigureUnit.PART, not line.component or line.stream in alone
        factor, digits = (100.0, 4) if is_part else (1.0, 3)
        name = line.stream if is_own else line.component
        shown = [
            "" if value != value else f"{value * factor:,.{digits}f}"
            for value in (line.measured, line.value, line.sd)
        ]
        pull = (
            "" if line.adjustment != line.adjustment else f"{round(line.adjustment, 2) + 0.0:+.2f}"
        )
        left = f"{'  ' * (not is_own)}{name}"
        unit = "%" if is_part else f"t {line.component}" if line.stream in alone else "t"
        why = f": {evidence_said(line.evidence)}" if line.evidence else ""
        yield (
            f"{left:{wide}}  {unit:8}{shown[0]:>16}{shown[1]:>16}{shown[2]:>12}{pull:>8}"
            f"  {line.kind.value}{why}"
        )
    yield f"weighted squares: {known.solution.squares:.3f} at {known.degrees_of_freedom} degrees of freedom"
    for part in recoveries_of(known, feeds):
        yield f"recovery of {part.component} in {part.stream}: {part.part:.2%} ±{part.sd:.2%}"


def _csv(known: Known, lines: list[BalanceLine], feeds: Sequence[str]) -> Iterable[str]:
    """Yield the table in CSV."""
    heads = "stream component unit kind measured measured_sd value sd adjustment".split()
    yield ",".join([*heads, "evidence"])
    for line in lines:
        cells = ["" if v is None else f"{v}" for v in map(line.as_dict().get, heads)]
        yield ",".join([*cells, " ".join(f"{c or 'mass'}@{node}" for c, node in line.evidence)])


def _json(known: Known, lines: list[BalanceLine], feeds: Sequence[str]) -> Iterable[str]:
    """Yield the table in JSON."""
    yield json.dumps([line.as_dict() for line in lines], indent=1)


_FORMS = {"text": _text, "csv": _csv, "json": _json}
