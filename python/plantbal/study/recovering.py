"""Says where a component goes: what each stream carries of it in each period, and its recovery."""

from __future__ import annotations

import argparse
import json
import sys
from collections.abc import Iterable, Iterator, Sequence
from pathlib import Path
from typing import Any

from plantbal.amounts import tonnes_text
from plantbal.faults import Fault, WordsFault
from plantbal.files import replacing
from plantbal.forms import read_session
from plantbal.inert import inert_frame
from plantbal.report.blocks import Block
from plantbal.report.chart import ENDINGS
from plantbal.report.output import Output, read_whole
from plantbal.sentence import Sentence
from plantbal.statuses import ExitStatus
from plantbal.study.recovery import (
    ComponentBalance,
    Share,
    balances_of,
    mass_of,
    products_of,
    strange_gains,
    together,
)
from plantbal.study.recovery_chart import write_recovery_chart
from plantbal.study.uncertainty import table_text

HELP = """
OUTPUT is what plantbal wrote for a session with assays and component rows, as CSV or as JSON
lines; without it standard input is read. For each balance the last round of its last report is
used.

There is a row for each stream that enters or leaves the plant, and for what each tank gained: how
much of the component it carries in tonnes, with its standard deviation, and what share that is of
what came in. The share of a product is its recovery. The same rows for all periods together come at
the end. A stream that nothing determines has no figure.

With --feed the shares are of what that stream carries, such as the feed of a mill that has a
stockpile before it. A stream that --product names is in the table too, wherever it flows.

Beside it is the grade, what the stream carries in parts of its flow, and by how much that is off
the assay, in standard deviations of the assay. All standard deviations are from the errors of
assays and meters. If OUTPUT has no report of the period, they are of the assays alone, and standard
error says so. It also says which streams carry more of a component than their whole mass, and if
what a tank gained has a different grade from what flows there.

  text   tonnes and percent, as a table to be read
  csv    grams, and shares as fractions, with all digits
  json   the same as a list of objects; a missing figure is null

--chart draws the recovery of each product over the periods, in a band of two standard deviations
to each side, with the values by the assays alone as circles; and below it where the component
went. A product is what --product names, or else the leaving stream that carries most.

examples:
  plantbal-desk recovery shifts.out.csv
  plantbal-desk recovery shifts.out.csv --product CONCENTRATE --chart recovery.svg
  plantbal-desk recovery mine.out.csv --feed MILL_FEED --product CONCENTRATE
"""


# Where a stream goes that doesn't leave.
WAYS = ("in", "within")


def lines_of_shares(shares: Iterable[Share]) -> list[dict[str, str]]:
    """Return rows as a person reads them."""
    lines = []
    for each in shares:
        known = each.way != "in" and each.share_sd == each.share_sd
        stream = each.stream
        if each.way == "gain":
            stream = Sentence("gain of {name}", name=stream)
        lines.append(
            {
                "component": each.component,
                "period": each.period or "all",
                "stream": stream,
                "way": each.way if each.way in WAYS else "out",
                "t": "" if each.grams is None else tonnes_text(each.grams),
                "± t": "" if each.sd != each.sd else f"{each.sd / 1e6:,.3f}",
                "grade": "" if each.grade != each.grade else f"{each.grade:.4%}",
                "± of it": "" if each.grade != each.grade else f"{each.grade_sd:.4%}",
                "in sd": "" if each.adjustment != each.adjustment else f"{each.adjustment:+.2f}",
                "share": "" if each.share != each.share else f"{each.share:.2%}",
                "±": f"{each.share_sd:.2%}" if known else "",
            }
        )
    return lines


def _data(shares: Iterable[Share]) -> list[dict[str, Any]]:
    """Return rows as data; what there is none of is None."""
    names = (
        *("component", "period", "stream", "way", "grams", "sd", "share", "share_sd", "raw"),
        *("grade", "grade_sd", "assay", "assay_sd"),
    )
    rows = []
    for each in shares:
        row = {name: getattr(each, name) for name in names}
        row = {name: None if value != value else value for name, value in row.items()}
        rows.append({**row, "period": each.period or "all"})
    return rows


def add_arguments(parser: argparse.ArgumentParser) -> None:
    """Add the words of the command."""
    parser.add_argument("output", metavar="OUTPUT", nargs="?", default="-")
    parser.add_argument("--component", metavar="NAME", default="", help="of this component alone")
    parser.add_argument(
        "--feed",
        metavar="NAME",
        action="append",
        default=[],
        help="shares are of what this stream carries; may be given more than once",
    )
    parser.add_argument(
        "--product",
        metavar="NAME",
        action="append",
        default=[],
        help="chart the recovery of this stream; may be given more than once",
    )
    form = "the form of the table (default: text)"
    parser.add_argument("--form", choices=["text", "csv", "json"], default="text", help=form)
    parser.add_argument("--chart", metavar="FILE", help="a .svg, .png or .pdf file")
    session = "the session, which has the days of the periods"
    parser.add_argument("--session", metavar="SESSION", help=session)


def _check_names(blocks: Sequence[Block], names: Sequence[str]) -> None:
    """Raise a fault if a stream is in no balance.

    Raises
    ------
    Fault
        If one isn't.
    """
    there = list(dict.fromkeys(row["name"] for block in blocks for row in block.streams))
    for name in names:
        if name not in there:
            raise Fault(
                f"there is no stream {name}", text=name, remedy=f"use one of {', '.join(there)}"
            )


def _not_known(balances: Sequence[ComponentBalance]) -> Iterator[str]:
    """Give the components of which nothing determines what came in, with the periods."""
    for component in dict.fromkeys(balance.block.component for balance in balances):
        own = [b for b in balances if b.block.component == component and b.unknown]
        if own:
            names = ", ".join(dict.fromkeys(name for balance in own for name in balance.unknown))
            periods = ", ".join(balance.block.period for balance in own)
            what = f"nothing determines the {component} of {names} in {periods}, so no share is"
            yield f"{what} known there: assay it, or use --feed STREAM, such as a mill's feed"


def _exact(balances: Sequence[ComponentBalance]) -> Iterator[str]:
    """Give the periods whose flows count as exact, since their report isn't there."""
    without = list(dict.fromkeys(each.block.period for each in balances if each.mass is None))
    if without:
        what = f"there is no report of {', '.join(without)} before its balance"
        yield f"{what}, so ± is of the assays alone, and there are no grades: ask for the report"


def _chart(options: argparse.Namespace, output: Output, shares: Sequence[Share]) -> None:
    """Write the chart that is asked for."""
    from plantbal.report.trend import trend_of

    form = Path(options.chart).suffix[1:].lower()
    if form not in ENDINGS:
        what, remedy = f"{options.chart} ends with {form!r}", "use .svg, .png or .pdf"
        raise WordsFault(what, text=options.chart, remedy=remedy)
    components = list(dict.fromkeys(each.component for each in shares))
    if len(components) > 1:
        what = f"there are balances of {', '.join(components)}"
        raise Fault(what, remedy="choose one with --component NAME")
    session = read_session(options.session)[1] if options.session else b""
    trend = trend_of(output, session, components[0])
    products = products_of(shares, options.product)
    with replacing(options.chart) as made:
        write_recovery_chart(trend, shares, products, made, form)


def run(options: argparse.Namespace) -> int:
    """Write the table, and the chart."""
    output = read_whole(options.output, "component")
    blocks = [each for each in balances_of(output, options.component) if each.ended]
    _check_names(blocks, [*options.feed, *(options.product if options.feed else ())])
    within = options.product if options.feed else ()
    balances = [
        ComponentBalance(each, options.feed, within, mass=mass_of(output, each)) for each in blocks
    ]
    shares = [share for balance in balances for share in balance.shares()]
    if options.product:
        products_of(shares, options.product)
    if options.chart:
        _chart(options, output, shares)
    rows: list[Share] = []
    for component in dict.fromkeys(balance.block.component for balance in balances):
        own = [balance for balance in balances if balance.block.component == component]
        rows += [share for share in shares if share.component == component]
        rows += together(own) if len(own) > 1 else []
    if options.form == "json":
        text = json.dumps(_data(rows), indent=1, ensure_ascii=False) + "\n"
    else:
        import pandas

        if options.form == "csv":
            text = inert_frame(pandas.DataFrame(_data(rows))).to_csv(index=False)
        else:
            left = {"component", "period", "stream", "way"}
            text = table_text(pandas.DataFrame(lines_of_shares(rows)), left)
    sys.stdout.write(text)
    strange = [line for balance in balances for line in strange_gains(balance)]
    for line in [*_not_known(balances), *_exact(balances), *output.impossible, *strange]:
        print(f"{options.prog}: {line}", file=sys.stderr)
    return ExitStatus.GOOD
