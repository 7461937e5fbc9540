"""Makes a session of plantbal from a plant's workbook, or says everything that is wrong in it."""

from __future__ import annotations

import argparse
import sys
from collections.abc import Hashable, Iterable
from dataclasses import dataclass, field
from pathlib import Path

from plantbal.causes import CausedFault
from plantbal.commands.options import add_reading, reading_of
from plantbal.faults import Fault, InputFault, Place, Refusal
from plantbal.lint import say_brief
from plantbal.memory import uncollected
from plantbal.session import Session
from plantbal.statuses import ExitStatus
from plantbal.workbook.converter import Converter
from plantbal.workbook.fates import SheetFates
from plantbal.workbook.mapping.form import WorkbookMapping
from plantbal.workbook.options import ReadingOptions
from plantbal.workbook.sheetforms import Stage
from plantbal.workbook.sheetkinds import help_lines
from plantbal.workbook.sheets import Source, read_workbook

HELP = f"""
WORKBOOK is an xlsx file, or a folder of CSV files, each of which is the sheet of its name:
{help_lines()}

straps and dips may have a column for each tank, and tables may be side by side; units may be in
brackets in a head, or in a row below the heads. A stream of which no kind is written is a batch if
it has tickets, and metered if it has readings or a tag.
Readings with a row for each hour are added up by day, and a counter's are subtracted; an hour
without a figure is a fault, unless settings has missing hours 0.
Columns may be in any order; titles above, sums below, remarks and other columns are skipped, and
standard error says so; a column or row of figures or units that isn't read is a fault.
Units are t, kt, kg, g, lb, klb, and with a density m3, L, mL, bbl; densities are in kg/m3 and
levels in mm unless a unit comes after them. An error is `1.5 %`, `0.2 t`, or both with `or`
between; a tank's may be `3 mm`. What is in wmt is booked dry, with the variance of both errors. A
grade has its unit after it, %, ppm or g/t, and an error in percent is a percentage of the grade; a
balance is asked for each component of a period. What is finer than a gram is rounded, and a note
says so. A stream or tank is in service from its day `since` to its day `until`, both inclusive;
without a day there is no such end. With these columns, or with boundaries, the session is of
version 2. If there is a fault, no session is written; all faults are reported at once.

examples:
  plantbal-desk convert april.xlsx --out april.csv
  plantbal-desk convert --locale de_DE april_folder --out april.csv
"""
NO_STREAMS = "plantbal-desk map proposes how it is read, and template writes an empty one"
_SAID = 3  # faults of one cause in a sheet whose places are said; the others are counted


@dataclass
class Conversion:
    """What a workbook gives.

    Attributes
    ----------
    session : Session
        The session; it is whole only if there is no fault.
    faults : list of Fault
        All that is wrong, each with its place.
    notes : list of str
        What was rounded, skipped or is missing.
    account : list of SheetFates
        What became of the rows of each sheet.
    """

    session: Session
    faults: list[Fault]
    notes: list[str]
    account: list[SheetFates] = field(default_factory=list)

    @property
    def ok(self) -> bool:
        """Whether nothing is wrong."""
        return not self.faults

    def said(self) -> list[str]:
        """Return the faults as sentences; more than three of one cause in a sheet are one sentence.

        It is that of the first, with their number and the first three places.
        """
        groups: dict[tuple[Hashable, ...], list[Fault]] = {}
        for fault in self.faults:
            key = fault.place.file, fault.place.sheet, _cause_of(fault)
            groups.setdefault(key, []).append(fault)
        lines = []
        for faults in groups.values():
            first, *more = dict.fromkeys(map(str, faults))
            if len(faults) <= _SAID:
                lines += [first, *more]
                continue
            places = [str(fault.place).rstrip(":") for fault in faults[1:_SAID]]
            lines.append(f"{first} ({len(faults):,} like this; the next: {', '.join(places)})")
        return lines


def _cause_of(fault: Fault) -> Hashable:
    """Return the cause of a fault; one that has none is alike to no other."""
    if isinstance(fault, CausedFault):
        return fault.case.cause
    return fault.refused.reason if isinstance(fault, Refusal) else id(fault)


def convert(
    path: Source,
    *,
    locale: str = "",
    missing: Iterable[str] = (),
    skip: Iterable[str] = (),
    limits: bool = False,
    design: bool = False,
    mapping: WorkbookMapping | None = None,
) -> Conversion:
    """Return the session of a workbook, all that is wrong in it and all that has to be said.

    Parameters
    ----------
    path : str, Path, binary file or mapping of DataFrame
        An xlsx file, also an open one, or a folder of CSV files; or tables by the names of the
        sheets, of which floats are read as the decimal numbers that they show.
    locale : str
        Whose numbers and days are read, such as ``de``; empty for digits with a decimal point.
    missing : iterable of str
        Further words that stand for a missing figure.
    skip : iterable of str
        Heads of columns that are left out.
    limits : bool
        Whether errors are limits that hold 95 times in 100, of which half is taken.
    design : bool
        Whether the design is asked for before the reports.
    mapping : WorkbookMapping, optional
        Which sheet and column is what, as `plantbal.read_mapping` returns it.

    Raises
    ------
    Fault
        If the workbook itself can't be read, or there is no such locale.
    """
    how = ReadingOptions(locale, tuple(missing), tuple(skip), limits, mapping).kept(None)
    reader = how.reader
    with uncollected():
        work = Converter(how.sheets(read_workbook(path)), reader, how.skip)
        if not work.sheets["streams"] and not work.sheets["rows"] and not work.faults:
            what, remedy = "there is no sheet streams", NO_STREAMS
            name = str(path) if isinstance(path, (str, Path)) else ""
            raise InputFault(what, place=Place(file=name), remedy=remedy)
        work.read(Stage.PLANT)
        if design:
            work.session.design()
        work.read_facts()
        work.assays.put()
        work.read(Stage.END)
        work.check_whole(design)
        work.tables.say_unread()
        if not work.faults:  # what is missing would mostly follow from these
            work.say_missing()
            work.say_rounded()
    work.faults.extend(work.session.refused)
    return Conversion(work.session, work.faults, work.notes, work.tables.fates.of_sheets())


def add_arguments(parser: argparse.ArgumentParser) -> None:
    """Add the words of the command."""
    parser.add_argument("workbook", metavar="WORKBOOK")
    parser.add_argument("--out", metavar="FILE", default="-", help="the session")
    add_reading(parser)
    parser.add_argument(
        "--design", action="store_true", help="ask for the design before the reports"
    )


def run(options: argparse.Namespace) -> int:
    """Write the session, or say all that is wrong."""
    found = convert(
        options.workbook,
        locale=options.locale,
        missing=options.missing,
        skip=options.skip,
        limits=options.limits,
        design=options.design,
        mapping=reading_of(options).mapping,
    )
    for line in found.notes:
        print(f"{options.prog}: {line}", file=sys.stderr)
    if found.ok:
        found.session.to_csv(options.out)
        say_brief(options.prog, found.session)
        return ExitStatus.GOOD
    for line in found.said():
        print(f"{options.prog}: {line}", file=sys.stderr)
    count = len(found.faults)
    print(
        f"{options.prog}: {count:,} fault{'s' if count > 1 else ''}, and no session is written",
        file=sys.stderr,
    )
    return ExitStatus.LOOK
