"""Makes the month's statement: one page for a browser that needs no network, a workbook, a PDF."""

from __future__ import annotations

import argparse
import sys
from collections.abc import Sequence
from dataclasses import dataclass, replace
from itertools import islice
from pathlib import Path
from typing import TYPE_CHECKING

from plantbal import limits
from plantbal.audit.believed import require_believed
from plantbal.audit.linked import named_book, was_in
from plantbal.commands.options import AS_REPORTED, add_rounds, add_timeout
from plantbal.faults import Fault, InputFault, Place, WordsFault
from plantbal.files import write_text
from plantbal.forms import read_session, session_to_run
from plantbal.model.ledger import Ledger
from plantbal.program import RunSettings
from plantbal.page.account import account_of
from plantbal.page.books import FromBook, booked
from plantbal.page.gates import (
    ClosingNotes as BookTold,
    closing_notes,
    period_gates,
    with_gates,
    without_gates,
)
from plantbal.page.grades import grades_on
from plantbal.page.head import Origin
from plantbal.page.measured import measured_on
from plantbal.page.render import render
from plantbal.page.statement import Prepared, ShownRefusal, Worth
from plantbal.page.typed import with_typed
from plantbal.records import Record
from plantbal.report.blocks import Values, blocks_of, last_blocks
from plantbal.report.parsing import csv_fields, csv_of, read_rows
from plantbal.report.judged import judge_rows
from plantbal.schema import schema
from plantbal.statuses import looks

if TYPE_CHECKING:
    from plantbal.explain import ExplainedRow
    from plantbal.report.output import Output

HELP = """
OUTPUT is what plantbal wrote, as JSON lines or as CSV; without it standard input is read. The page
goes to standard output, or to the file of --out. If --session names the session, the page has the
days of periods, whether they are open, the opening and closing of tanks, edits with before and
after, refused rows in sentences, and what lint warns of. With --run the file is the session
itself, and it is run first, with its tests; standard error and the status are then as for
plantbal-desk run.

Each period has a verdict in words, its tanks and streams with measured value, adjustment and what
is booked, and a drawing. Choose a row or an arrow: its cut or cycle is marked. With more than 60
streams only what lies within two steps of the chosen stream is drawn. If Graphviz takes longer
than --seconds, the page comes without drawings and says so.

With --book each period has its account: stock that rolls forward from month to month, receipts,
shipments, losses and owners' shares, with what has changed since it was posted; and each fact whose
mass follows from more than its amount has what was measured and applied, so that it can be
calculated again.

--xlsx writes the tables as a workbook, --pdf the page on A4, with chromium. If either is given,
the page itself is written only if --out names a file.

examples:
  plantbal run --tests < may.csv | plantbal-desk page --title May --session may.csv > may.html
  plantbal-desk page may.csv --run --out may.html --pdf may.pdf --xlsx may.xlsx
"""
# A meter with a smaller share of a variance isn't named.
LEAST_SHARE = 0.005


@dataclass(frozen=True)
class Source:
    """What a page is made of.

    Attributes
    ----------
    rows : list of dict
        The rows of the output.
    name : str
        What the output is called.
    session : tuple of str and bytes, or None
        What the session is called, and its bytes.
    is_run : bool
        Whether the output is the session's for certain, since it was run here.
    told : BookTold
        What the book tells that the session is from.
    """

    rows: Sequence[Values]
    name: str = "output"
    session: tuple[str, bytes] | None = None
    is_run: bool = False
    told: BookTold = BookTold()


def worth_of(rows: Sequence[Values]) -> tuple[dict[tuple[int, str], Worth], str]:
    """Return how good the flows of each period's last round are, or why that isn't known.

    Returns
    -------
    tuple of dict and str
        The worth by the number of the block and the name of the stream; and why there is none,
        empty if there is.
    """
    from plantbal.study.uncertainty import flows_known

    last = last_blocks(blocks_of(rows))
    try:
        table = flows_known(last.values())
    except Fault as fault:
        return {}, str(fault)
    found = {}
    shown = {block.number: block.shown for block in last.values()}
    for row in table:
        gain = None if row.gain != row.gain else float(row.gain)
        meters = [(row.first, row.first_share), (row.second, row.second_share)]
        meters.append((row.third, row.third_share))
        named = ", ".join(
            f"{shown[row.block](name)} {100 * share:.0f} %"
            for name, share in meters
            if name and share >= LEAST_SHARE
        )
        found[row.block, row.name] = Worth(float(row.sd), gain, named)
    return found, ""


def refused_of(rows: Sequence[Values]) -> list[ShownRefusal]:
    """Return the first of the refused rows of an output."""
    codes = schema().refusals
    found = []
    for row in islice((row for row in rows if row["row"] == "refused"), limits.REFUSED_KEPT):
        code = codes.get(int(row["code"]))
        found.append(ShownRefusal(int(row["at"]), row["word"], code.remedy if code else ""))
    return found


def prepare(source: Source) -> Prepared:
    """Return all that a page shows.

    Raises
    ------
    InputFault
        If a row can't be shown, or the output is that of another session.
    """
    judge_rows(source.rows, source.name)
    refused = refused_of(source.rows)
    worth, why = worth_of(source.rows)
    if source.session is None:
        account = account_of(source.rows, refused=refused, worth=worth)
        return Prepared(account, why_no_worth=why)
    from plantbal.book.answers import without_quiet
    from plantbal.explain import explain_bytes, same_refusals
    from plantbal.lint import SEVERITIES, find

    name, data = source.session
    ledger = Ledger(name, data, kept=limits.REFUSED_KEPT)
    told: list[ExplainedRow] = []
    more = 0
    if refused or ledger.refused:
        explanation = explain_bytes(name, data)
        same_refusals(explanation, source.rows, source.name, name)
        told, more = [*explanation.whole, *explanation.rows], explanation.more
    _check_output(ledger, source.rows, source.name)
    if not source.is_run:
        _check_facts(name, ledger, source)
    findings = sorted(
        (each for each in find(ledger) if each.code != "refused"),
        key=lambda each: (SEVERITIES.index(each.severity), each.place.line or 0),
    )
    heard, quiet = without_quiet(without_gates(findings), source.told.quiets)
    units = source.told.units
    account = account_of(
        source.rows, ledger=ledger, refused=refused, findings=heard, worth=worth, units=units
    )
    gates = period_gates(ledger, blocks_of(source.rows), source.told)
    statements = [with_gates(each, gates) for each in account.statements]
    account = replace(account, statements=statements, gates=gates, quieted=len(quiet))
    return Prepared(account, told, why, more, grades_on(account, ledger))


def _check_output(ledger: Ledger, rows: Sequence[Values], output: str) -> None:
    """Raise a fault if an output has other reports than the session asks for.

    Raises
    ------
    InputFault
        If it is the output of another session.
    """
    heads = [
        row["period"]
        for row in rows
        if row["row"] == "over" or (row["row"] == "report" and row["round"] == "0")
    ]
    wanted = [seen.period.name for seen in ledger.seen]
    if heads == wanted:
        return
    if len(heads) != len(wanted):
        many = "1 report" if len(heads) == 1 else f"{len(heads)} reports"
        why = f"it has {many}, and the session asks for {len(wanted) or 'none'}"
    else:
        pairs = enumerate(zip(heads, wanted), 1)
        number, (found, asked) = next((n, pair) for n, pair in pairs if pair[0] != pair[1])
        why = f"report {number} is of {found}, and the session asks for {asked} there"
    remedy = "run the session again"
    if not wanted:  # such as a year of a book
        remedy = "name the one that asks, as plantbal-desk book report --session writes it"
    raise InputFault(
        f"this isn't the output of {ledger.source}: {why}",
        place=Place(file=output),
        remedy=remedy,
    )


def _check_facts(name: str, ledger: Ledger, source: Source) -> None:
    """Raise a fault if the facts of a session aren't those of an output.

    Raises
    ------
    InputFault
        If it is so: edits and dips of the session would stand beside flows that don't have them.
    """
    from plantbal.audit.held import answers_in, pairs_of
    from plantbal.model.studies import studies_of

    records = (Record(n, n, tuple(csv_fields(row))) for n, row in enumerate(source.rows, 1))
    answers = answers_in(records)
    for pair in pairs_of(studies_of(ledger), answers):
        differs = next(pair.differ(), None)
        if differs is not None:
            raise InputFault(
                f"this isn't the output of {name}: {pair.seen.subject}: {differs.text}",
                place=Place(file=source.name),
                remedy="run the session again",
            )


def page(
    rows: Sequence[Values],
    *,
    session: tuple[str, bytes] | None = None,
    title: str = "",
    origin: Origin = Origin(),
    seconds: float = 10,
) -> str:
    """Return the page of an output.

    Parameters
    ----------
    rows : list of dict
        The rows of the output.
    session : tuple of str and bytes, optional
        What the session is called, and its bytes.
    title : str
        The heading.
    origin : Origin
        The plant, and the program.
    seconds : float
        How long the layout of drawings may take.
    """
    prepared = prepare(Source(rows, "output", session))
    return render(prepared, title=title, origin=origin, seconds=seconds)


def add_arguments(parser: argparse.ArgumentParser) -> None:
    """Add the words of the command."""
    parser.add_argument("output", metavar="OUTPUT", nargs="?", default="-")
    parser.add_argument("--title", metavar="TEXT", default="", help="the heading of the page")
    parser.add_argument("--plant", metavar="TEXT", default="", help="what the plant is called")
    parser.add_argument("--session", metavar="SESSION", help="the session of the output")
    parser.add_argument("--run", action="store_true", dest="runs", help="run the file, a session")
    add_rounds(parser, default=AS_REPORTED, condition="with --run: ")
    parser.add_argument("--program", metavar="PATH", help="the program, with --run")
    book = "the book that the session is from: the page has its account, the head of its chain, "
    book += "and the reasons with which its periods were closed"
    parser.add_argument("--book", metavar="FOLDER", help=book)
    add_timeout(parser, condition="with --run: ")
    parser.add_argument("--out", metavar="FILE", help="the page")
    parser.add_argument("--xlsx", metavar="FILE", help="a workbook")
    parser.add_argument("--pdf", metavar="FILE", help="a PDF on A4")
    seconds = "the most seconds for drawings (default: 10)"
    parser.add_argument("--seconds", metavar="N", type=float, default=10, help=seconds)


def _source(options: argparse.Namespace) -> tuple[Source, Output | None, Path | None]:
    """Return what the page is made of, the output if it was run, and the program."""
    if not options.runs:
        if options.eliminate is not None or options.program:
            word = "--eliminate" if options.eliminate is not None else "--program"
            raise WordsFault(
                f"{word} works only with --run",
                remedy="use --run too, and name the session as the file",
            )
        name = "standard input" if options.output == "-" else options.output
        rows = read_rows(options.output)
        judge_rows(rows, name)
        remedy = "no statement is made of it: plantbal-desk explain shows each row that is wrong"
        require_believed(csv_of(rows).encode("utf-8"), name, remedy=remedy)
        session = None if options.session is None else read_session(options.session)
        return Source(rows, name, session), None, None
    if options.session is not None:
        place = Place(file=options.session)
        raise InputFault("--run takes the session as its file", place=place, remedy="give it once")
    from plantbal.program import find_program
    from plantbal.runs import run as run_program

    session = session_to_run(options.output)
    program = find_program(options.program)
    settings = _settings(options, session[1])
    numbers = settings.numbers
    output = run_program(
        session[1],
        tests=settings.is_tested,
        eliminate=settings.rounds,
        gap=numbers["gap"],
        sweeps=numbers["sweeps"],
        program=program,
        timeout=options.timeout,
        judged=True,
    )
    _check_closed(options, session[1], output, settings)
    source = Source(output.rows, f"the output of {session[0]}", session, is_run=True)
    return source, output, program


def _settings(options: argparse.Namespace, session: bytes) -> RunSettings:
    """Return how the session is run: one of a book, as far as nobody says it, as its reports."""
    given = RunSettings(eliminate=options.eliminate, program=options.program)
    if options.book is None or not was_in(options.book, session):
        return given
    from plantbal.book.rounds import settings_asked

    return settings_asked(options.book, session, given)


def _check_closed(
    options: argparse.Namespace, data: bytes, output: Output, how: RunSettings
) -> None:
    """Refuse a page of a closed period of a book that is made with other settings."""
    if options.book is not None and was_in(options.book, data):
        from plantbal.book.rounds import check_closed

        check_closed(options.book, output, how, older=False)


def _is_of_book(folder: str | None, source: Source, added: FromBook) -> bool:
    """Say whether a page is of a book, whose head it names; if it isn't, that is said too."""
    if folder is None:
        return False
    if source.session is None:
        is_of, name = bool(added.accounts) and not added.said, source.name
    else:
        is_of, name = was_in(folder, source.session[1]), source.session[0]
    if not is_of:
        added.said.append(
            f"{name} isn't of {folder}, so the page doesn't name the head of that book"
        )
    return is_of


def run(options: argparse.Namespace) -> int:
    """Write the page, the workbook and the PDF."""
    source, output, program = _source(options)
    added = booked(options.book, source.rows)
    is_of = _is_of_book(options.book, source, added)
    prepared = prepare(replace(source, told=closing_notes(options.book if is_of else None)))
    account = with_typed(prepared.account, options.book)
    measured = measured_on(options.book, source.session, account.ledger, account)
    prepared = replace(prepared, account=account, measured=measured)
    plant = options.plant
    if not plant and source.session is not None and source.session[0] != "standard input":
        plant = Path(source.session[0]).stem
    book = " ".join(named_book(options.book if is_of else None).values())
    origin = Origin(plant, source.session[0] if source.session else "", program, book)
    if options.out or options.pdf or not options.xlsx:
        text = render(
            prepared,
            title=options.title,
            origin=origin,
            seconds=options.seconds,
            parts=added.parts,
        )
        if options.out or not options.pdf:
            write_text(options.out or "-", text)
        if options.pdf:
            from plantbal.page.paper import print_pdf

            print_pdf(text, options.pdf)
    if options.xlsx:
        from plantbal.page.sheets import write_workbook

        accounts = list(added.accounts.values())
        write_workbook(options.xlsx, prepared, origin, accounts)
    why = output.why if output is not None else []
    if output is None and prepared.account.is_empty:
        why = [f"{source.name}: there is no report"]
    for line in [*added.said, *why]:
        print(f"{options.prog}: {line}", file=sys.stderr)
    return looks(why)
