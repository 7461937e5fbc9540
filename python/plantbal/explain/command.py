"""Says for each refused row of a session, in a sentence with its line, which field is wrong and
what was probably meant."""

from __future__ import annotations

import argparse
import sys
from array import array
from collections.abc import Sequence
from itertools import zip_longest

from plantbal.explain.sessions import explain_bytes
from plantbal.explain.told import Explanation
from plantbal.faults import InputFault, Place, read_bytes, WordsFault
from plantbal.files import write_text
from plantbal.plain import plain
from plantbal.records import read_records, without_empty_end
from plantbal.report.blocks import Values
from plantbal.report.parsing import read_rows
from plantbal.schema import schema
from plantbal.statuses import ExitStatus

_MOST_RECORD = (1 << 56) - 1

HELP = """
SESSION is a file as plantbal reads it; `-` is standard input. Each refused row is shown with its
line, a mark under the field, what the field should be, and what was probably meant. Rows that are
refused only because an earlier row was are shown under that row. What is wrong with the whole file
(UTF-16, semicolons, an unclosed quote, no report row) is said once.

OUTPUT is what plantbal wrote for the session, as CSV or as JSON lines: the two are compared.

If the first file is a report, the second is what a check said about it; without it the command runs
the check itself. Each `no` and each `unreadable` is shown with its row, and with what the test asks
for.

With --fact, the line of one fact is shown, and what is booked of it. If its figure is a sum of hours or
what a counter advanced, --book shows the cells and hours of which it was made.

The status is 1 if there was anything to explain, and 0 otherwise.

examples:
  plantbal-desk explain day.csv
  plantbal-desk explain april.csv --fact FI-302_2024-04-16 --book mill
  plantbal check < report.csv | plantbal-desk explain report.csv -
"""


def same_refusals(explanation: Explanation, rows: Sequence[Values], output: str, file: str) -> None:
    """Raise a fault if an output has other refused rows than a session.

    Raises
    ------
    InputFault
        If it is the output of another session.
    """
    here = array("Q", sorted(_key(*pair) for pair in explanation.refusals.pairs()))
    refused = (row for row in rows if row["row"] == "refused")
    there = array("Q", sorted(_key(int(row["at"]), int(row["code"])) for row in refused))
    if here == there:
        return
    pairs = zip_longest(here, there, fillvalue=_key(_MOST_RECORD, 255))
    one, other = next((one, other) for one, other in pairs if one != other)
    at = min(one, other) >> 8
    side = "refused here, and not in the same way there"
    if other >> 8 == at and other != one and not any(key >> 8 == at for key in here):
        side = "refused there and accepted here"
    raise InputFault(
        f"this isn't the output of {file}: record {at} is {side}",
        place=Place(file=output),
        remedy="run the session again",
    )


def _key(number: int, code: int) -> int:
    """Return the number of a record and a code as one number."""
    return min(number, _MOST_RECORD) << 8 | min(code, 255)


def is_report(data: bytes) -> bool:
    """Say whether bytes are a report rather than a session."""
    if data.lstrip().startswith(b"{"):
        return True
    first = next(read_records(data[:100_000]), None)
    if first is None:
        return False
    kind, count = first.fields[0], len(without_empty_end(first.fields))
    if kind in ("report", "design", "advise", "history"):
        return count > 2 or (kind == "design" and count > 1)
    if kind == "window":
        return count > 3
    return kind in schema().output


def add_arguments(parser: argparse.ArgumentParser) -> None:
    """Add the words of the command."""
    parser.add_argument("session", metavar="SESSION", help="a session, or a report")
    parser.add_argument(
        "output", metavar="OUTPUT", nargs="?", help="its output, or what a check said of the report"
    )
    parser.add_argument("--fact", metavar="ID", help="the fact to explain, by its id")
    parser.add_argument("--book", metavar="FOLDER", help="the book that the session is from")
    parser.add_argument("--program", metavar="PATH", help="the program, which checks a report")


def run(options: argparse.Namespace) -> int:
    """Write the explanation."""
    if options.book is not None and options.fact is None:
        raise WordsFault("--book is for a fact", remedy="name the fact with --fact ID")
    source, data = read_bytes(options.session)
    if options.fact is not None:
        from plantbal.explain.facts import fact_lines

        said_lines = fact_lines(source, data, options.fact, options.book)
        write_text("-", plain("\n".join(said_lines) + "\n"))
        return ExitStatus.GOOD
    if is_report(data):
        from plantbal.audit.verdicts import explain_check

        said = explain_check(source, data, options.output, options.program)
    else:
        said = explain_bytes(source, data)
        if options.output is not None:
            same_refusals(said, read_rows(options.output), options.output, source)
    if not said.whole and not said.rows:
        print(f"{options.prog}: {source}: nothing to explain", file=sys.stderr)
        return ExitStatus.GOOD
    write_text("-", plain(f"{said}\n"))
    return ExitStatus.LOOK
