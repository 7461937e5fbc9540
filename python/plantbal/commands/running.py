"""Runs, checks, solutions and conversions as subcommands: what a shell needs of the package's
calls."""

from __future__ import annotations

import argparse
import errno
import os
import sys
from collections.abc import Callable, Iterator, Mapping
from pathlib import Path
from types import SimpleNamespace
from typing import TYPE_CHECKING

from plantbal import schema
from plantbal.commands.data import add_json, answer_with_json
from plantbal.commands.options import add_program, add_run, add_sweeps, add_timeout
from plantbal.commands.progress import Progress
from plantbal.faults import InputFault, ProgramFault, WordsFault, decoded, read_bytes
from plantbal.files import unwritten, write_text
from plantbal.gates import by_session, line_of_stop, unsaid
from plantbal.forms import session_to_run
from plantbal.model.ledger import Ledger
from plantbal.records import read_records
from plantbal.report.blocks import blocks_of, last_blocks, over_of, subjects_of
from plantbal.report.parsing import parse_rows, refuse_other, refuse_parts
from plantbal.report.output import Output, parse_report, read_report
from plantbal.report.rows import Numbers
from plantbal.runs import check, run
from plantbal.statuses import ExitStatus, looks

if TYPE_CHECKING:
    import pandas

OUTPUT_HELP = """
The report goes to standard output, or to the file of --out by its ending: .csv, .sqlite or .xlsx.
The file is written whole or not at all. If somebody has to look at a report before it is booked
(refused rows, no report, not converged, a global test that rejects), standard error says why, and
the status is 1. It also says which streams carry more of a component than their whole mass.
"""
RUN_HELP = """
Standard error says how many rows are refused, with the first five in sentences with their lines.
For each period it says whether there is a report, whether it converged, and what its global test
says; then where the output is. On a terminal a long run shows its progress. If the program itself
couldn't do its work, the status is 3, and standard error has the program's message.
"""
FIRST = 5


def say(options: argparse.Namespace, output: Output) -> int:
    """Say why an output isn't ok, and what in it can't be, and return the status."""
    for line in [*output.why, *output.impossible]:
        print(f"{options.prog}: {line}", file=sys.stderr)
    return looks(not output.ok)


def writer_of(path: str) -> Callable[[Output], object]:
    """Return what writes an output, by the ending of a file's name; before a long run is made.

    Raises
    ------
    WordsFault
        If the ending is none of these, or the file can't be written.
    """
    ending = Path(path).suffix.lower()
    writers: dict[str, Callable[[Output], object]] = {
        ".csv": lambda output: output.to_csv(path),
        ".sqlite": lambda output: output.to_sqlite(path),
        ".db": lambda output: output.to_sqlite(path),
        ".xlsx": lambda output: output.to_xlsx(path),
    }
    if path == "-":
        return writers[".csv"]
    if ending not in writers:
        raise WordsFault(
            f"{path} ends with {ending!r}", text=path, remedy="use .csv, .sqlite or .xlsx"
        )
    if not Path(path).parent.is_dir():
        raise unwritten(path, OSError(errno.ENOENT, os.strerror(errno.ENOENT)))
    if Path(path).is_dir():
        raise unwritten(path, OSError(errno.EISDIR, os.strerror(errno.EISDIR)))
    return writers[ending]


def _add_session(parser: argparse.ArgumentParser) -> None:
    parser.add_argument("session", metavar="SESSION", nargs="?", default="-")
    parser.add_argument("--out", metavar="FILE", default="-", help="a .csv, .sqlite or .xlsx file")


def _add_run(parser: argparse.ArgumentParser) -> None:
    _add_session(parser)
    add_timeout(parser)
    add_run(parser)


def _run(options: argparse.Namespace) -> int:
    write = writer_of(options.out)
    _say_reading(options.session)
    source, data = session_to_run(options.session)
    try:
        with Progress(options.prog, data) as progress:
            output = run(
                data,
                tests=not options.no_tests,
                eliminate=options.eliminate or 0,
                gap=options.gap,
                sweeps=options.sweeps,
                program=options.program,
                timeout=options.timeout,
                watch=progress.watch(),
                judged=True,
            )
    except ProgramFault as fault:
        print(f"{options.prog}: {source}: {fault}", file=sys.stderr)
        return fault.ends
    write(output)
    status = say(options, output)
    say_rows(options, source, data, output)
    for line in period_lines(data, output):
        print(f"{options.prog}: {line}", file=sys.stderr)
    for stop in unsaid(by_session(Ledger(source, data, kept=0), flows=False), missing=True):
        print(f"{options.prog}: {line_of_stop(stop)}", file=sys.stderr)
    if options.out != "-":
        print(f"{options.prog}: the output is in {options.out}", file=sys.stderr)
    return status


def say_rows(options: argparse.Namespace, source: str, data: bytes, output: Output) -> None:
    """Say what is wrong with the file, and with the first refused rows."""
    if output.ok or not any(row["row"] == "refused" for row in output.rows):
        if output.blocks_in_order:
            return
    from plantbal.explain import explain_bytes

    found = explain_bytes(source, data)
    for told in [*found.whole, *found.rows[:FIRST]]:
        print(told, file=sys.stderr)
    more = max(0, len(found.rows) - FIRST) + found.more
    if more > 0:
        what = "row is" if more == 1 else "rows are"
        named = "" if source == "standard input" else f" {source}"
        hint = f"plantbal-desk explain{named} says why"
        print(f"{options.prog}: {more} more {what} refused: {hint}", file=sys.stderr)


def period_lines(data: bytes, output: Output) -> list[str]:
    """Return a line on each period: its last report, or that it has none.

    Parameters
    ----------
    data : bytes
        The session.
    output : Output
        Its output.
    """
    last = last_blocks(output.blocks_in_order)
    refused = Numbers(output.rows)
    over = {
        str(subject): f"no {subject.what}: the total of {stream} is beyond the limits"
        for subject, stream in over_of(output.rows, subjects_of(data, refused)).items()
    }
    accepted = [
        record.fields[1]
        for record in read_records(data)
        if record.fields[0] == "period" and record.number not in refused
    ]
    lines = []
    for name in dict.fromkeys([*accepted, *last, *over]):
        if name in over:
            lines.append(f"{name}: {over[name]}")
        elif name in last:
            lines.append(f"{name}: a {last[name].asked.what}, {last[name].verdict}")
        else:
            lines.append(f"{name}: no report was asked for; the row report,{name} asks for it")
    return lines


def _say_reading(path: str) -> None:
    if path == "-" and sys.stdin.isatty():
        print("reading standard input, up to Ctrl-D", file=sys.stderr)


def _add_solve(parser: argparse.ArgumentParser) -> None:
    _add_session(parser)
    add_program(parser)
    add_sweeps(parser)


def _solve(options: argparse.Namespace) -> int:
    from plantbal.study.solver import solve

    write = writer_of(options.out)
    _say_reading(options.session)
    source, data = session_to_run(options.session)
    output = solve(data, gap=options.gap, sweeps=options.sweeps, program=options.program)
    write(output)
    status = say(options, output)
    say_rows(options, source, data, output)
    return status


def _add_check(parser: argparse.ArgumentParser) -> None:
    parser.add_argument("report", metavar="REPORT", nargs="?", default="-")
    add_json(parser)
    add_program(parser)


def _subjects(source: str, text: str, periods: list[str]) -> list[str]:
    """Return what each block that was judged is of: a period, a window or a component's balance.

    If some row is none of the program's, the blocks are called by their periods alone.
    """
    try:
        found = [block.subject for block in blocks_of(parse_rows(source, text))]
    except InputFault:
        return periods
    return found[: len(periods)] if len(found) >= len(periods) else periods


def _impossible(source: str, text: str) -> list[str]:
    """Return what can't be in a report whose rows are the program's."""
    try:
        return parse_report(text, source).impossible
    except (InputFault, ValueError):  # the check has said so
        return []


def _verdicts_said(verdicts: pandas.DataFrame, subjects: Mapping[int, str]) -> Iterator[object]:
    """Give the verdicts as values; what a verdict hasn't is null."""
    import pandas

    for index, row in zip(verdicts.index, verdicts.to_dict("records")):
        found = {str(name): None if pandas.isna(value) else value for name, value in row.items()}
        yield {"subject": subjects.get(index), **found}


def _check(options: argparse.Namespace) -> int:
    _say_reading(options.report)
    source, data = read_bytes(options.report)
    text = decoded(source, data)
    if text.startswith("{"):
        verdicts = check(parse_report(text, source), program=options.program, source=source)
    else:
        refuse_other(source, text)
        verdicts = check(data, program=options.program, source=source)
    blocks = verdicts[verdicts["verdict"] != "unreadable"]
    subjects = dict(zip(blocks.index, _subjects(source, text, list(blocks["period"]))))
    last = {subject: index for index, subject in subjects.items()}
    options.found = list(_verdicts_said(verdicts, subjects))
    for row in verdicts.itertuples():
        subject = subjects.get(row.Index, "")
        if row.verdict == "yes":
            end = "" if last[subject] == row.Index else "; a later block of this period follows"
            print(f"yes: {subject}, round {row.round}{end}")
        elif row.verdict == "no":
            where = f" at {row.name}" if row.name else ""
            numbers = f" (stated {row.stated}, found {row.found})" if row.name else ""
            print(f"no: {subject}, round {row.round}: {row.word}{where}{numbers}: {row.about}")
        else:
            print(f"unreadable: row {row.at}: {row.word}: it {row.about}")
    for line in _impossible(source, text):
        print(f"{options.prog}: {line}", file=sys.stderr)
    if (verdicts["verdict"] == "yes").all():
        return ExitStatus.GOOD
    named = "FILE" if source == "standard input" else source
    hint = f"plantbal-desk explain {named} shows the rows"
    print(f"{options.prog}: {source}: not all of it passes: {hint}", file=sys.stderr)
    return ExitStatus.LOOK


def _add_report(parser: argparse.ArgumentParser) -> None:
    parser.add_argument("report", metavar="REPORT", nargs="?", default="-")
    parser.add_argument("--out", metavar="FILE", default="-", help="a .csv, .sqlite or .xlsx file")


def _report(options: argparse.Namespace) -> int:
    write = writer_of(options.out)
    _say_reading(options.report)
    output = read_report(options.report)
    refuse_parts(output.source, output.rows, checks=True)
    write(output)
    return ExitStatus.GOOD


def _add_schema(parser: argparse.ArgumentParser) -> None:
    del parser


def _schema(options: argparse.Namespace) -> int:
    del options
    write_text("-", schema.text())
    return ExitStatus.GOOD


RUN = SimpleNamespace(
    __doc__="Runs a session with plantbal and says what needs a look before it is booked.",
    HELP=f"""
SESSION is a file; without it standard input is read.{OUTPUT_HELP}{RUN_HELP}
examples:
  plantbal-desk run day.csv --out day.xlsx
""",
    add_arguments=_add_run,
    run=_run,
)
SOLVE = SimpleNamespace(
    __doc__="Reconciles a session with scipy, and returns only what plantbal's check accepts.",
    HELP=f"""
It is for plants on which sweeps don't converge, such as long lines of units with equal meters.
SESSION is a file; without it standard input is read.{OUTPUT_HELP}
examples:
  plantbal-desk solve line.csv --out line.csv
""",
    add_arguments=_add_solve,
    run=_solve,
)
CHECK = SimpleNamespace(
    __doc__="Checks a report, in CSV or as JSON lines, and says in a sentence what is wrong.",
    HELP="""
REPORT is a file; without it standard input is read. The status is 0 if each block gets a yes, and
1 otherwise; a file without a block is a fault. Standard error says which streams carry more of a
component than their whole mass; no block is refused for that.

examples:
  plantbal-desk check report.jsonl
""",
    add_arguments=_add_check,
    run=lambda options: answer_with_json(_check, options),
)
REPORT = SimpleNamespace(
    __doc__="Turns a report into CSV, an SQLite database, or a workbook with one table per sheet.",
    HELP="""
REPORT is what plantbal wrote, as CSV or as JSON lines; without it standard input is read. JSON
lines are turned back into CSV, which a check can read.

examples:
  plantbal-desk report day.jsonl | plantbal check
  plantbal-desk report day.csv --out day.xlsx
""",
    add_arguments=_add_report,
    run=_report,
)
SCHEMA = SimpleNamespace(
    __doc__="Writes the rows of sessions and outputs as data: kinds, columns, ranges, words, "
    "codes.",
    HELP="""
examples:
  plantbal-desk schema | jq '.session[] | .kind'
""",
    add_arguments=_add_schema,
    run=_schema,
)
