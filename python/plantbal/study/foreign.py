"""Writes another program's reconciliation, here one made with scipy, in the form of plantbal's
report, so that it can be checked."""

from __future__ import annotations

import argparse
import re

from plantbal.faults import Fault
from plantbal.files import write_text
from plantbal.report.blocks import reports_of
from plantbal.report.parsing import csv_of, read_rows
from plantbal.statuses import ExitStatus
from plantbal.study.certificate import solved_rows

HELP = """
REPORT is what plantbal wrote for a session, as CSV or as JSON lines; without it standard input is
read. The first round of a period gives the plant, the measurements, the classes and their
certificates. Nothing of its solution is used: scipy solves for the flows and the multipliers of
the balances, in floating point, and they are refined. Then the multipliers are rounded to prices
and the flows to whole grams that balance, and gap, bounds, least bounds and statistic follow from
these by the rules of the report.

With --change the report has another flow for one stream, and everything else as before: such a
report is wrong. With --without-least its streams have no least bounds, as in the report of a
program that doesn't know them.

examples:
  plantbal run < day.csv | plantbal-desk from-scipy --period day1 | plantbal check
"""


def add_arguments(parser: argparse.ArgumentParser) -> None:
    """Add the words of the command."""
    parser.add_argument("report", metavar="REPORT", nargs="?", default="-")
    parser.add_argument("--period", metavar="NAME", help="the period; without it the first one")
    parser.add_argument(
        "--change",
        metavar=("STREAM", "GRAMS"),
        nargs=2,
        help="write a flow that is this many grams higher",
    )
    parser.add_argument(
        "--without-least", action="store_true", help="leave the two columns of least bounds out"
    )


def run(options: argparse.Namespace) -> int:
    """Write the report."""
    every = reports_of(read_rows(options.report, "report"))
    blocks = [b for b in every if options.period in (None, b.period) and b.round == 0]
    if not blocks:
        there = ", ".join(dict.fromkeys(block.period for block in every))
        raise Fault(f"there is no report of {options.period}", remedy=f"there are {there}")
    block = blocks[0]
    change = None
    if options.change:
        name, grams = options.change
        if name not in [stream["name"] for stream in block.streams]:
            raise Fault(f"there is no stream {name} in the report", remedy="correct its name")
        if not re.fullmatch(r"-?[0-9]+", grams):
            raise Fault(f"{grams!r} isn't a whole number of grams", remedy="write 1500000")
        change = name, int(grams)
    write_text("-", csv_of(solved_rows(block, least=not options.without_least, change=change)))
    return ExitStatus.GOOD
