"""Makes tables of a session's reports: flows, classes, suspects or imbalances by period."""

from __future__ import annotations

import argparse
import sys
from collections.abc import Iterator, Sequence
from dataclasses import dataclass
from decimal import Decimal
from typing import TYPE_CHECKING

from plantbal.amounts import tonnes_of
from plantbal.faults import Fault, WordsFault
from plantbal.files import write_text
from plantbal.forms import read_session
from plantbal.inert import csv_text, inert_frame
from plantbal.report.blocks import Block, Values, blocks_of, last_blocks
from plantbal.report.frames import need_pandas
from plantbal.report.parsing import read_rows
from plantbal.statuses import ExitStatus

if TYPE_CHECKING:
    import pandas

HELP = """
OUTPUT is what plantbal wrote, as JSON lines or as CSV; without it standard input is read. The table
goes to standard output, as CSV:

  flows      a row for each stream, two columns for each period: the flow to book in tonnes, and its
             standard deviation in the column ±; empty if nothing determines it
  classes    a row for each stream, a column for each period: the class
  count      a row for each class, a column for each period: how many streams have it
  contents   for a window, a row for each tank: what it holds before the first period and after each
             period, in tonnes, with its standard deviation in the column ±

or as lines with tabs between:

  suspects   for each round the streams whose measurement test rejects: period, round, stream,
             statistic
  imbalance  what the measurements leave over at each unit whose streams are all measured: period,
             unit, tonnes

or, of the first round of each period's last report, as CSV:

  balances   under a global test that rejects what doesn't close, the worst first: the nodes that
             unmeasured streams join, in less out, standard deviations, percent of each stream
  holes      the errors that the tests find: the measurements of which no readings can tell which
             is wrong, tonnes, and with --session the days and what fits them
  unseen     the measurements that nothing checks: by how much each may be too much and too little
             before a stream would flow backwards, and the streams that rest on it alone

or, of the last round of each period's last report, as CSV:

  grades     with --session: each grade as it was assayed and as it is reconciled with the flows,
             its standard deviation, the adjustment in standard deviations of the assay, what the
             stream carries, recovery; grades as parts of the whole, flows in tonnes

With --keep the session of a period's days is written: a run of it makes the report of each day.

Flows, classes and count are of the last round of each period's last report. With --component they
are those of the balances of a component, and with --window those of the last window: its flows
have a row for each stream and its periods as columns.

examples:
  plantbal run < month.csv | plantbal-desk tables flows > flows.csv
  plantbal run --tests < month.csv | plantbal-desk tables suspects
  plantbal-desk tables flows shifts.out.csv --component cu
  plantbal-desk tables contents month.out.csv
  plantbal-desk tables grades month.out.csv --session month.csv --component cu
  plantbal-desk tables holes march.out.csv --session march.csv --keep march.days.csv
"""


# The tables of what is diagnosed.
DIAGNOSED = ("balances", "holes", "unseen")


@dataclass(frozen=True, slots=True)
class BlockChoice:
    """Which blocks a table is of: the reports of periods, the balances of a component, or a window.

    Attributes
    ----------
    component : str
        The component, if it is of one.
    window : bool
        Whether it is of the last window.
    """

    component: str = ""
    window: bool = False

    def of(self, rows: Sequence[Values]) -> list[Block]:
        """Return the rounds that are chosen, in order.

        Raises
        ------
        Fault
            If there is none.
        """
        blocks = blocks_of(rows)
        if self.window:
            found = [block for block in blocks if block.window]
            found = [block for block in found if block.subject == found[-1].subject]
            what, row = "window", "window,FIRST,LAST"
        elif self.component:
            found = [block for block in blocks if block.component == self.component]
            what, row = f"balance of {self.component}", f"component,{self.component},PERIOD"
        else:
            found = [block for block in blocks if block.is_report]
            what, row = "report", "report,PERIOD"
        if not found:
            remedy = f"the row {row} of the session asks for one"
            raise Fault(f"there is no {what} in what was read", remedy=remedy)
        return found

    def latest(self, rows: Sequence[Values]) -> list[Block]:
        """Return the last round of each period."""
        return list(last_blocks(self.of(rows)).values())


def _lines(block: Block) -> Iterator[tuple[str, str, Values]]:
    """Give the period, the declared name and the row of each stream; of a window its flows."""
    for stream in block.streams:
        if block.window is None:
            yield block.period, stream["name"], stream
        elif not (spot := block.window.spots[stream["name"]]).is_content:
            yield spot.period, spot.name, stream


def frame(rows: Sequence[Values], choice: BlockChoice = BlockChoice()) -> pandas.DataFrame:
    """Return a row for each stream of each period."""
    need_pandas()
    import pandas

    return pandas.DataFrame(
        [
            {
                "period": period,
                "stream": name,
                "class": stream["class"],
                "flow": None
                if stream["class"] == "unobservable"
                else int(stream["flow"]) / 1000000,
            }
            for block in choice.latest(rows)
            for period, name, stream in _lines(block)
        ]
    )


def pivot(streams: pandas.DataFrame, what: str) -> pandas.DataFrame:
    """Return the table that is asked for, with streams and periods in their order."""
    periods = list(dict.fromkeys(streams["period"]))
    if what == "count":
        return streams.groupby(["class", "period"]).size().unstack(fill_value=0)[periods]
    column = {"flows": "flow", "classes": "class"}[what]
    table = streams.pivot(index="stream", columns="period", values=column)
    return table.loc[list(dict.fromkeys(streams["stream"]))][periods]


def with_deviations(
    table: pandas.DataFrame, rows: Sequence[Values], choice: BlockChoice = BlockChoice()
) -> pandas.DataFrame:
    """Return a table of flows with a column ± beside each period: the standard deviation in
    tonnes."""
    import pandas

    from plantbal.study.uncertainty import uncertainty_of

    blocks = choice.latest(rows)
    sd = {(each.block, each.name): each.sd for each in uncertainty_of(blocks).itertuples()}
    found = pandas.DataFrame(
        [
            {"period": period, "name": name, "sd": sd.get((block.number, stream["name"]))}
            for block in blocks
            for period, name, stream in _lines(block)
        ]
    )
    deviations = found.pivot(index="name", columns="period", values="sd").reindex(
        index=table.index, columns=table.columns
    )
    table = table.copy()
    for place, period in enumerate(deviations.columns):
        table.insert(2 * place + 1, f"{period} ±", (deviations[period] / 1e6).round(6))
    return table


def tank_contents(rows: Sequence[Values]) -> pandas.DataFrame:
    """Return what the tanks of the last window hold, in tonnes, with standard deviations."""
    import pandas

    from plantbal.study.uncertainty import uncertainty_of

    block = BlockChoice(window=True).latest(rows)[-1]
    assert block.window is not None
    sd = {each.name: each.sd / 1e6 for each in uncertainty_of([block]).itertuples()}
    table: dict[str, dict[str, float | None]] = {}
    when = [f"before {block.window.first}", *(f"after {name}" for name in block.window.periods)]
    for stream in block.streams:
        spot = block.window.spots[stream["name"]]
        if not spot.is_content:
            continue
        line = table.setdefault(spot.name, {})
        at = f"{'before' if spot.is_opening else 'after'} {spot.period}"
        known = stream["class"] != "unobservable"
        line[at] = int(stream["flow"]) / 1000000 if known else None
        line[f"{at} ±"] = round(sd[stream["name"]], 6) if known else None
    columns = [name for at in when for name in (at, f"{at} ±")]
    found = pandas.DataFrame.from_dict(table, orient="index", columns=None)
    return found.reindex(columns=columns).rename_axis("tank")


def short(number: Decimal) -> str:
    """Return a decimal number without zeros at its end."""
    text = f"{number:f}"
    return text.rstrip("0").rstrip(".") if "." in text else text


def suspects(blocks: list[Block]) -> Iterator[tuple[str, str, str, str]]:
    """Give the suspects of each round: period, round, stream and statistic."""
    for block in blocks:
        low = {row["stream"]: Decimal(row["low"]) / 1000 for row in block.measure}
        for name in block.suspects():
            yield block.period, str(block.round), block.shown(name), short(low[name])


def imbalances(blocks: list[Block]) -> Iterator[tuple[str, str, str]]:
    """Give what the measurements leave over at each unit whose streams are all measured."""
    for block in blocks:
        values: dict[str, list[int | None]] = {}
        for stream in block.streams:
            value = int(stream["value"]) if stream["value"] else None
            for end, sign in ((stream["to"], 1), (stream["from"], -1)):
                values.setdefault(end, []).append(None if value is None else sign * value)
        for unit in sorted(values):
            known = [value for value in values[unit] if value is not None]
            if unit != "env" and len(known) == len(values[unit]):
                yield block.period, block.shown(unit), short(tonnes_of(sum(known)))


def add_arguments(parser: argparse.ArgumentParser) -> None:
    """Add the words of the command."""
    words = ["flows", "classes", "count", "contents", "suspects", "imbalance"]
    parser.add_argument("what", choices=[*words, *DIAGNOSED, "grades"])
    parser.add_argument("output", metavar="OUTPUT", nargs="?", default="-")
    which = parser.add_mutually_exclusive_group()
    component = "use the balances of component NAME"
    which.add_argument("--component", metavar="NAME", default="", help=component)
    which.add_argument("--window", action="store_true", help="use the last window")
    session = "the session: with grades its assays, with holes days, tickets and dips"
    parser.add_argument("--session", metavar="FILE", help=session)
    keep = "with --session: write the session of the days of its last report"
    parser.add_argument("--keep", metavar="FILE", help=keep)


def _write_diagnosed(options: argparse.Namespace, blocks: list[Block]) -> None:
    """Write a table of what is diagnosed, and the session of the days if it is to be kept."""
    from plantbal.diagnosis.tables import days_kept, diagnosis_rows
    from plantbal.model.ledger import Ledger

    if options.keep and not options.session:
        raise WordsFault("--keep needs the session", remedy="use --session FILE too")
    ledger = Ledger(*read_session(options.session)) if options.session else None
    sys.stdout.write(csv_text(diagnosis_rows(options.what, blocks, ledger)))
    if options.keep and ledger is not None:
        write_text(options.keep, days_kept(ledger))


def _write_grades(options: argparse.Namespace, blocks: list[Block]) -> None:
    """Write the grades of the reports, reconciled with the flows."""
    from plantbal.balance.grades import Grades, by_period, table_of
    from plantbal.model.ledger import Ledger

    if not options.session:
        raise WordsFault("grades need the assays", remedy="use --session FILE")
    if options.window:
        raise WordsFault("grades are only those of reports", remedy="leave --window out")
    found = by_period(blocks, Ledger(*read_session(options.session)))
    name = options.component
    if name and not any(name in each.by_component for each in found.values()):
        there = sorted({one for each in found.values() for one in each.by_component})
        remedy = "a balance needs two assays"
        if there:
            remedy = f"there are grades of {', '.join(there)}"
        raise Fault(f"there are no grades of {name}", text=name, remedy=remedy)
    for period, each in found.items():
        for said in each.said:
            print(f"{options.prog}: {period}: {said}", file=sys.stderr)
        if name:
            found[period] = Grades({name: each.by_component.get(name, [])}, each.recoveries)
    heads, cells = table_of(found)
    texts = (["" if cell is None else str(cell) for cell in row] for row in cells)
    sys.stdout.write(csv_text([heads, *texts]))


def run(options: argparse.Namespace) -> int:
    """Write the table."""
    rows = read_rows(options.output, "report")
    choice = BlockChoice(options.component, options.window)
    if options.session and options.what not in ("holes", "grades"):
        raise WordsFault(
            "--session works only with the tables holes and grades", remedy="leave it out"
        )
    if options.keep and options.what != "holes":
        raise WordsFault("--keep works only with the table holes", remedy="leave it out")
    if options.what in DIAGNOSED:
        _write_diagnosed(options, choice.of(rows))
    elif options.what == "grades":
        _write_grades(options, BlockChoice().latest(rows))
    elif options.what == "contents":
        if options.component:
            raise WordsFault("contents are only those of a window", remedy="leave --component out")
        sys.stdout.write(inert_frame(tank_contents(rows)).to_csv())
    elif options.what in ("suspects", "imbalance"):
        blocks = choice.of(rows)
        lines = suspects(blocks) if options.what == "suspects" else imbalances(blocks)
        sys.stdout.writelines("\t".join(line) + "\n" for line in lines)
    else:
        table = pivot(frame(rows, choice), options.what)
        if options.what == "flows":
            table = with_deviations(table, rows, choice)
        sys.stdout.write(inert_frame(table).to_csv())
    return ExitStatus.GOOD
