"""Makes a session of plantbal from a spreadsheet of daily readings and a table of tags."""

from __future__ import annotations

import argparse
import calendar
import csv
import datetime
import io
import sys
from itertools import groupby

from plantbal import limits
from plantbal.faults import InputFault, Place, read_text
from plantbal.files import write_text
from plantbal.lint import brief, lint_session
from plantbal.session import rows_of_kind
from plantbal.statuses import ExitStatus
from plantbal.workbook.sheets import csv_rows
from plantbal.workbook.tagsheets import (
    MARKS,
    Choices,
    CsvTable,
    ReadingSheet,
    Tag,
    TagDays,
    TagSheet,
)

HELP = """
READINGS is a CSV file with a row for each day: the day in the first column, then a column for each
tag, in tonnes. The heads of the columns are the tags. An empty field is a missing reading.

TAGS is a CSV file with the heads tag,stream,from,to,error and, if you want it, base:
  tag     the head of the column in READINGS; empty for a stream without a meter
  stream  the name of the stream in the session; from and to are its ends, `env` the world outside
  error   the standard deviation of a day's reading: `1.5 %` of the reading, `0.2 t`, or
          `1.5 % or 0.2 t`, the greater of the two; empty for a stream without a meter
  base    a further standard deviation that the meter has in every period, such as `0.5 t`

Fields are separated by commas, semicolons or tabs, whichever the first line has. Tonnes become
grams exactly; more than six decimals are refused. Each month of READINGS becomes a period from its
first to its last row, and a report. Standard error says what is missing, including days at the
ends of a month, and how many warnings lint has. No session is written if nothing would enter a
unit, or nothing would leave it: usually its name is mistyped.

examples:
  plantbal-desk from-spreadsheet tags.csv readings.csv > session.csv
  plantbal-desk from-spreadsheet --decimal comma --date %d.%m.%Y tags.csv readings.csv > session.csv
"""


def read_before(path: str) -> tuple[list[list[str]], set[str]]:
    """Return the rows of a file of further rows, and the nodes and boundaries that they declare."""
    source, text = read_text(path, limits.SESSION_BYTES)
    rows = []
    for row in csv_rows(text, ",", source):
        if not any(row.fields):
            continue
        if not rows_of_kind(row.fields[0]):
            raise InputFault(
                f"a session has no row of the kind {row.fields[0]!r}",
                place=Place(file=source, line=row.last),
                remedy="write rows of a session there, with commas between fields",
            )
        rows.append(row.fields)
    kinds = ("unit", "tank", "boundary")
    return rows, {row[1] for row in rows if row[0] in kinds and len(row) > 1}


def session_rows(
    tags: list[Tag], days: TagDays, before: list[list[str]], declared: set[str]
) -> list[list[str]]:
    """Return the rows of the session.

    Parameters
    ----------
    tags : list of Tag
        The streams.
    days : dict
        The readings of each day.
    before : list of list of str
        Rows to put in front.
    declared : set of str
        The units, tanks and boundaries that these declare.
    """
    rows = list(before)
    for name in dict.fromkeys(end for tag in tags for end in tag.ends):
        if name != "env" and name not in declared:
            rows.append(["unit", name])
    for tag in tags:
        kind = ["metered", str(tag.base)] if tag.tag else ["plain", "0"]
        rows.append(["stream", tag.stream, *tag.ends, *kind])
    months: dict[str, list[datetime.date]] = {}
    for day in days:
        months.setdefault(day.strftime("%Y-%m"), []).append(day)
    rows += [["period", month, str(some[0]), str(some[-1])] for month, some in months.items()]
    for tag in tags:
        for day, readings in days.items():
            grams = readings.get(tag.tag)
            if grams is not None:
                amounts = [str(grams), str(tag.variance(grams))]
                rows.append(["reading", f"{tag.tag}_{day}", tag.stream, str(day), *amounts])
    return rows + [["report", month] for month in months]


def missing_days_said(tags: list[Tag], days: TagDays) -> list[str]:
    """Return what is missing, a sentence each: one missing day leaves a stream without a value."""
    said = []
    for tag in tags:
        lacks = [
            str(day) for day, readings in days.items() if tag.tag and readings[tag.tag] is None
        ]
        if lacks:
            said.append(f"no reading of {tag.tag} ({tag.stream}) on {', '.join(lacks)}")
    every = list(days)
    for one, other in zip(every, every[1:]):
        if one.month == other.month and other - one != datetime.timedelta(1):
            said.append(f"no row between {one} and {other}: no meter has a value in that month")
    return said + short_months(days)


def short_months(days: TagDays) -> list[str]:
    """Return which months have no first or last days: their periods are shorter."""
    said = []
    for (year, month), some in groupby(days, key=lambda day: (day.year, day.month)):
        rows = list(some)
        first, last = rows[0], rows[-1]
        end = calendar.monthrange(year, month)[1]
        lacks = [f"its first {first.day - 1}"] if first.day > 1 else []
        lacks += [f"its last {end - last.day}"] if last.day < end else []
        if lacks:
            what = f"the period {first:%Y-%m} goes from {first} to {last}"
            said.append(f"{what}: days of the month are missing, {' and '.join(lacks)}")
    return said


def add_arguments(parser: argparse.ArgumentParser) -> None:
    """Add the words of the command."""
    parser.add_argument("tags", metavar="TAGS")
    parser.add_argument("readings", metavar="READINGS")
    parser.add_argument(
        "--decimal",
        choices=list(MARKS),
        default="point",
        help="the decimal mark of both files",
    )
    parser.add_argument(
        "--date",
        metavar="FORM",
        default="",
        help="how days are written, such as %%d.%%m.%%Y; without it 2024-06-30",
    )
    parser.add_argument(
        "--limits",
        action="store_true",
        help="errors are limits that hold 95 times in 100: half of each is taken",
    )
    parser.add_argument(
        "--missing",
        metavar="TEXT",
        action="append",
        default=[],
        help="a text that means a missing reading",
    )
    parser.add_argument(
        "--skip",
        metavar="HEAD",
        action="append",
        default=[],
        help="a column of READINGS to leave out",
    )
    parser.add_argument(
        "--before",
        metavar="ROWS",
        help="rows of a session to put in front: tanks, batch streams, critical values",
    )


def run(options: argparse.Namespace) -> int:
    """Write the session, and say on standard error what is missing."""
    choices = Choices(
        mark=MARKS[options.decimal],
        date=options.date,
        divisor=2 if options.limits else 1,
        missing=tuple(options.missing),
        skip=tuple(options.skip),
    )
    tags = TagSheet(CsvTable(options.tags), choices).tags()
    by_tag = {tag.tag: tag for tag in tags if tag.tag}
    days = ReadingSheet(CsvTable(options.readings), by_tag, choices).days()
    before, declared = read_before(options.before) if options.before else ([], set())
    rows = session_rows(tags, days, before, declared)
    for line in missing_days_said(tags, days):
        print(f"{options.prog}: {line}", file=sys.stderr)
    out = io.StringIO()
    csv.writer(out, lineterminator="\n").writerows(rows)
    text = out.getvalue()
    findings = lint_session(text.encode())
    wrong = [each for each in findings if each.code in ("one-sided", "near-names")]
    if any(each.code == "one-sided" for each in wrong):
        for each in wrong:
            print(f"{options.prog}: {options.tags}: {each.text}: {each.remedy}", file=sys.stderr)
        raise InputFault(
            "a unit's flows would be 0, and no session is written",
            place=Place(file=options.tags),
            remedy="correct the ends of its streams",
        )
    looks_wrong = brief(findings)
    if looks_wrong:
        said = f"lint of the session: {looks_wrong} (plantbal-desk lint SESSION says more)"
        print(f"{options.prog}: {said}", file=sys.stderr)
    write_text("-", text)
    return ExitStatus.GOOD
