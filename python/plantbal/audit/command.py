"""Says in sentences whether a bundle holds together, or a report and its session."""

from __future__ import annotations

import argparse

from plantbal.audit.contents import given_of_bundle, session_held
from plantbal.audit.holding import check_twice, hold, run_again
from plantbal.audit.runwords import words_read, words_shown
from plantbal.audit.said import Audit, Audited, SentenceKind
from plantbal.audit.signed import add_signers
from plantbal.commands.data import add_json, answer_with_json
from plantbal.commands.options import add_program, add_timeout
from plantbal.faults import Fault, InputFault, Place, read_bytes, ToolMissing, WordsFault
from plantbal.limits import SESSION_BYTES
from plantbal.program import find_program, words_of
from plantbal.report.output import Output, parse_report
from plantbal.statuses import looks

HELP = """
BUNDLE is what `plantbal-desk archive` wrote; or REPORT is an output of the program, as CSV or as
JSON lines, and SESSION its session. If you name a bundle and a session, that of the bundle must be
the same, or its beginning. In this order:

  the digests of the zip and of its files are compared; manifest and summary are made again and
  compared. If a digit of a file was changed, its place is known
  the program is run again with the same command line, and its output is compared byte for byte
  the report is checked by `plantbal check`, and by the checker in plain Python
  the report is compared with the session: its plant, the value and the variance of each stream,
  critical values, refused rows, and which block is the last of its period

With --signers the bundle has to be signed by one of them, in BUNDLE.sig; --signed-by says by whom. If
nothing but the bundle is compared, a note says that anybody could have written it.

Each sentence begins with `good:`, `note:` (you may want to know it) or `wrong:` (it doesn't hold).
Without a bundle the command line is that of --words, or else the one that the report shows.

With --no-program the program isn't run and need not be there; the checker in plain Python and the
comparison with the session remain. A note says what isn't compared then. With --timeout the program
is stopped after that many seconds, and the audit then fails.

The status is 1 if anything is wrong, and with --strict also if there is a note; otherwise it is 0.

examples:
  plantbal-desk audit plant_2024-04.zip
  plantbal-desk audit april.out.csv april.csv
"""
NOT_COMPARED = (
    "the program wasn't run, so these aren't compared: gap and sweeps, which measurements are"
    " tested and by what, advice, what was taken, the heads of windows and balances,"
    " histories"
)


def add_arguments(parser: argparse.ArgumentParser) -> None:
    """Add the words of the command."""
    parser.add_argument("report", metavar="BUNDLE|REPORT")
    parser.add_argument("session", metavar="SESSION", nargs="?")
    parser.add_argument(
        "--words", metavar="WORDS", help="the command line of the run, as one argument"
    )
    parser.add_argument("--no-program", action="store_true", help="don't run the program")
    parser.add_argument("--strict", action="store_true", help="status 1 on notes too")
    add_json(parser)
    book = (
        "the book whose head the bundle names: it has to have that head, and the session's rows up "
        "to it"
    )
    parser.add_argument("--book", metavar="FOLDER", help=book)
    before = "the previous bundle, which has to be the one that this bundle names"
    parser.add_argument("--before", metavar="BUNDLE", help=before)
    add_signers(parser)
    add_timeout(parser)
    add_program(parser)


def given_of(audit: Audit, options: argparse.Namespace) -> Audited:
    """Return what is audited, by the words of the command: a bundle, or a report and its session."""
    report, output = read_bytes(options.report)
    if output.startswith(b"PK"):
        if options.words:
            remedy = "leave --words out: a bundle has its own"
            raise WordsFault("--words is for a report and its session", remedy=remedy)
        given = given_of_bundle(audit, options.report, options)
        if options.session is not None:
            session_held(audit, given, options.session)
        return given
    if options.session is None or options.book or options.before or options.signers:
        raise Fault(  # it may have been one
            f"{options.report} isn't a bundle",
            text=options.report,
            remedy="name its session too: plantbal-desk audit REPORT SESSION",
        )
    session, data = read_bytes(options.session, SESSION_BYTES)
    parsed = None
    if output.lstrip().startswith(b"{") or not options.words:
        try:
            parsed = parse_report(output.decode("utf-8"), report)
        except UnicodeDecodeError as error:
            raise InputFault("this isn't UTF-8 text", place=Place(file=report)) from error
    if parsed is not None and output.lstrip().startswith(b"{"):
        output = parsed.to_csv().encode("utf-8")
        report = f"{report} (as CSV)"
    words = words_read(options.words) if options.words else words_shown(parsed or Output([]))
    return Audited(report, report, session, output, data, words)


def run(options: argparse.Namespace) -> int:
    """Audit, and return the status."""
    return answer_with_json(_audit, options)


def _audit(options: argparse.Namespace) -> int:
    """Audit, say what holds and what doesn't, and return the status."""
    audit = Audit()
    if not options.no_program:
        try:
            find_program(options.program)
        except ToolMissing as fault:
            fault.remedy += "; or use --no-program"
            raise
    given = given_of(audit, options)
    usual = words_of(tests=False, eliminate=0, gap=10, sweeps=5000)
    if not options.words and not given.sum and given.words[: len(usual)] != usual:
        what = (
            f"the report was asked for with {' '.join(given.words[1:])}, and {' '.join(usual[1:])}"
        )
        audit.add(
            SentenceKind.NOTE, f"{given.report}: {what} are usual: see whether this was meant"
        )
    if options.no_program:
        audit.add(SentenceKind.NOTE, f"{given.report}: {NOT_COMPARED}")
    else:
        run_again(audit, given, options.program, options.prog, options.timeout)
    verdicts = check_twice(audit, given, options.program, not options.no_program, options.timeout)
    checks = "the checker in plain Python says yes" if options.no_program else "both checks say yes"
    hold(audit, given, verdicts, checks)
    wrong, notes = audit.count(SentenceKind.WRONG), audit.count(SentenceKind.NOTE)
    counts = {"holds": not wrong, "wrong": wrong, "notes": notes}
    options.found = {"source": given.source, **counts, "sha256": given.sum.rpartition(" ")[2]}
    options.found["said"] = [{"kind": kind.value, "text": text} for kind, text in audit.said]
    end = f"{wrong} thing{'' if wrong == 1 else 's'} wrong" if wrong else "everything holds"
    print(f"{given.source}: {end}, with {notes} note{'' if notes == 1 else 's'}{given.sum}")
    return looks(wrong or (options.strict and notes))
