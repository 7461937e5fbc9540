"""Proposes how to read a plant's workbook, as a small file that a person checks and changes."""

from __future__ import annotations

import argparse
import sys
from pathlib import Path

from plantbal.book.meters import read_meters
from plantbal.book.opening import read_book
from plantbal.book.years import Years
from plantbal.files import write_text
from plantbal.workbook.mapping.form import mapping_text
from plantbal.workbook.mapping.known import KnownPlant, meter_units
from plantbal.workbook.mapping.proposing import MappingProposal, propose
from plantbal.workbook.sheets import read_workbook

HELP = """
WORKBOOK is an xlsx or ods file, a CSV file, or a folder of CSV files, as the plant keeps it. The
mapping says which sheet is what, which column, whose numbers and days, which unit, what streams and
tanks are called in the book. It is guessed from words in English, German, Spanish and French, and
from the shape of the data; the reason for each guess is beside it.

A "?" is a question: the workbook can be read in two ways there, and isn't read by a mapping that
still has one. The status is 1 then. `convert`, `book new` and `book add` take the mapping with
--mapping FILE; a book keeps it, and reads every later workbook by it.

examples:
  plantbal-desk map plant.xlsx --out plant.toml
  plantbal-desk book new 2024 plant.xlsx --mapping plant.toml
  plantbal-desk map april.xlsx --book mill --out april.toml
"""


def add_arguments(parser: argparse.ArgumentParser) -> None:
    """Add the words of the command."""
    parser.add_argument("workbook", metavar="WORKBOOK")
    parser.add_argument("--out", metavar="FILE", default="-", help="the mapping")
    plant = "which plant to read, if the workbook has several"
    parser.add_argument("--plant", metavar="NAME", default="", help=plant)
    book = "a book whose tags, streams and tanks are looked for"
    parser.add_argument("--book", metavar="FOLDER", help=book)


def run(options: argparse.Namespace) -> int:
    """Write the mapping, and say which questions are open."""
    known = known_in_folder(options.book) if options.book else KnownPlant()
    found = propose(read_workbook(options.workbook), known, options.plant)
    write_text(options.out, proposal_text(found, options.workbook))
    questions = found.open()
    for line in questions:
        print(f"{options.prog}: ? {line}", file=sys.stderr)
    count = len(questions)
    if options.out != "-":
        open_ = f", with {count} question{'' if count == 1 else 's'} open" if count else ""
        print(f"{options.out}: {len(found.mapping.sheets)} sheets{open_}")
    return 1 if questions else 0


def proposal_text(found: MappingProposal, workbook: str | Path) -> str:
    """Return the file of a proposal."""
    head = (
        f"How {Path(workbook).name} is read, as plantbal-desk map proposes it. Look at each line.\n"
    )
    head += "Left of = is what the workbook has; right of it is what it is taken for; # says why."
    if found.open():
        head += '\nA "?" is a question: write the answer in its place.'
    return mapping_text(found.mapping, found.evidence, head)


def known_in_folder(folder: str | Path) -> KnownPlant:
    """Return the tags, streams and tanks of a book."""
    with read_book(folder) as book:
        last = Years(book, lambda _: None).last
        meters = read_meters(book)
    tags = tuple(meter.tag for meter in meters.values() if meter.tag)
    tanks = tuple(row[1] for row in last.plant if row[0] == "tank")
    streams = tuple(row[1] for row in last.plant if row[0] == "stream")
    units = meter_units((each.name, each.tag, each.unit) for each in meters.values())
    return KnownPlant(tags, streams, tanks, units)
