"""A report and its session: the program run again, the checks, and what is held against what."""

from __future__ import annotations

from dataclasses import dataclass
from itertools import chain

from plantbal import checker
from plantbal.audit.asks import some
from plantbal.audit.changed import digest
from plantbal.audit.designs import designs_differ
from plantbal.audit.held import Pair, answered_rows, pairs_of, refused_differ
from plantbal.audit.said import Audit, Audited, SentenceKind, differs_at
from plantbal.audit.summary import block_said, blocks_named
from plantbal.audit.verdicts import explain_check
from plantbal.audit.verify import second_verdict
from plantbal.commands.progress import Progress
from plantbal.faults import InputFault, Place, ProgramFault
from plantbal.model.ledger import Ledger
from plantbal.model.studies import studies_of
from plantbal.program import call, find_program
from plantbal.report.blocks import Block
from plantbal.report.output import parse_report


def run_again(
    audit: Audit, given: Audited, program: str | None, prog: str, seconds: float | None = None
) -> None:
    """Run the program again, for some seconds at most, and compare what it writes."""
    found = find_program(program)
    own = digest(found.read_bytes())
    if given.program and own != given.program:
        what = f"the program that is run here has the SHA-256 {own}, and that of the manifest has"
        audit.add(
            SentenceKind.NOTE,
            f"{given.source}: {what} {given.program}: it is another build or version",
        )
    try:
        with Progress(prog, given.data) as progress:
            written = call(
                given.words, given.data, program=found, timeout=seconds, watch=progress.watch()
            )[1]
    except ProgramFault as fault:
        audit.add(SentenceKind.WRONG, f"{given.session}: {fault}")
        return
    if written == given.output:
        what = f"plantbal {' '.join(given.words)} writes the same bytes of the session again"
        audit.add(SentenceKind.GOOD, f"{given.report}: {what}")
        return
    differs = differs_at(given.output, written)
    what = f"found {differs.one}, and plantbal {' '.join(given.words)} writes {differs.other}"
    rest = "the report, the session or the words are others"
    audit.add(SentenceKind.WRONG, f"{given.report}: {differs.place}: {what}: {rest}")


def check_twice(
    audit: Audit,
    given: Audited,
    program: str | None,
    with_program: bool,
    seconds: float | None = None,
) -> list[str]:
    """Check a report by the program and in plain Python, and return the verdict on each block."""
    rows = list(checker.findings(given.output))
    said = "".join(f"{','.join(row)}\n" for row in rows).encode("ascii")
    if with_program:
        try:
            other = call(["check"], given.output, program=program, timeout=seconds)[1]
        except ProgramFault as fault:
            audit.add(SentenceKind.WRONG, f"{given.report}: {fault}")
            other = said
        if other != said:
            found = differs_at(said, other)
            what = f"the checker in plain Python says {found.one}, and plantbal check {found.other}"
            audit.add(
                SentenceKind.WRONG,
                f"{given.report}: finding {found.line}: {what}: one of the two errs",
            )
        same, sentence = second_verdict(given.output, said, seconds)
        if sentence:
            audit.add(
                SentenceKind.GOOD if same else SentenceKind.WRONG, f"{given.report}: {sentence}"
            )
    if not rows and not any(answer.over for answer in answered_rows(given.output)):
        what = "a report has blocks from `report` to `end`" if given.output else "the file is empty"
        audit.add(SentenceKind.WRONG, f"{given.report}: there is no block to check: {what}")
    if any(row[0] != "yes" for row in rows):
        for told in explain_check(given.report, given.output, said=said).rows:
            audit.add(SentenceKind.WRONG, _at(given, told.line, told.sentence))
    return [row[0] for row in rows]


def hold(audit: Audit, given: Audited, verdicts: list[str], checks: str) -> None:
    """Hold a report against its session, and say of each block what holds."""
    ledger = Ledger(given.session, given.data)
    for each in chain(refused_differ(given.output, ledger), designs_differ(given.output, ledger)):
        audit.add(SentenceKind.WRONG, _at(given, each.line, each.text))
    answers = answered_rows(given.output)
    if len(ledger.seen) != len(answers):
        count = len(ledger.seen)
        asked = "1 report" if count == 1 else f"{count} reports"
        what = f"the session asks for {asked}, and the output has {len(answers)}"
        audit.add(SentenceKind.WRONG, f"{given.report}: {what}")
    held: list[bool] = []
    loose: list[bool] = []
    for pair in pairs_of(studies_of(ledger), answers):
        held += _pair_held(audit, given, pair)
        is_loose = pair.seen.component != "" and pair.mass is None
        loose += [is_loose] * len(pair.answer.blocks)
    try:
        blocks = blocks_named(parse_report(given.output.decode("utf-8"), given.report))
    except (InputFault, ValueError):
        blocks = []  # the check has said why
    good = [one == "yes" and other for one, other in zip(verdicts, held)]
    for holds, is_loose, (block, name, last) in zip(good, loose, blocks):
        if holds:
            _block_holds(audit, block, NamedBlock(name, last, checks, is_loose))
    reported = [
        period
        for block, _, _ in blocks
        for period in (block.window.periods if block.window else [block.period])
    ]
    _open_periods(audit, ledger, reported)
    _refused(audit, given, ledger)


def _pair_held(audit: Audit, given: Audited, pair: Pair) -> list[bool]:
    """Hold an answer against what its `report` row saw; return of each block whether it holds."""
    differ = list(pair.differ())
    for each in differ:
        audit.add(SentenceKind.WRONG, _at(given, each.line, each.text))
    if pair.answer.over is not None:
        stream = pair.answer.over.fields[-1]
        subject = pair.seen.subject
        name = subject if pair.seen.component or pair.seen.last else f"period {subject}"
        what = f"{name} has no report: the total of {stream} is beyond"
        audit.add(SentenceKind.NOTE, f"{given.report}: {what} the limits")
    elif pair.seen.component and pair.mass is None:
        what = f"{pair.seen.subject}: no report of the period before it has the same facts"
        rest = "so its values aren't compared with the assays: the row report before it would do"
        audit.add(SentenceKind.NOTE, f"{given.report}: {what}, {rest}")
    return [not differ] * len(pair.answer.blocks)


@dataclass(frozen=True, slots=True)
class NamedBlock:
    """How a block is called, whether it is its period's last, and what the checks say of it.

    A balance whose values weren't held against the assays is loose.
    """

    name: str
    last: bool
    checks: str
    is_loose: bool = False


def _block_holds(audit: Audit, block: Block, named: NamedBlock) -> None:
    """Say of a block that it holds, and what is to be noted of it."""
    measured = sum(bool(row["value"]) for row in block.streams)
    tests = len(block.nodal) + len(block.measure) + (block.whole is not None)
    values = f"its {measured} measured values and variances"
    tested = f"the critical values of its {tests} tests"
    if named.is_loose:
        values = tested if tests else "its streams"
    elif tests:
        values += f" and {tested}"
    book = "this is the last report of the period" if named.last else "a later report follows"
    if not block.is_report:
        book = "this is its last report" if named.last else "a later report of it follows"
    by = "those of the session"
    if block.component and not named.is_loose:
        by = "those of the assays and of the period's flows"
    what = f"flows balance, and {named.checks}; {values} are {by}"
    audit.add(SentenceKind.GOOD, f"{named.name}: {what}; {block_said(block)}; {book}")
    if named.last and (block.whole or {}).get("verdict") == "reject":
        what = "the global test rejects: the measurements don't fit together"
        audit.add(SentenceKind.NOTE, f"{named.name}: {what}")


def _open_periods(audit: Audit, ledger: Ledger, reported: list[str]) -> None:
    """Note the reported periods that aren't closed."""
    still = [period for period in dict.fromkeys(reported) if period not in ledger.closed]
    if len(still) == 1:
        audit.add(
            SentenceKind.NOTE, f"period {still[0]} isn't closed: rows may still be added to it"
        )
    elif still:
        audit.add(
            SentenceKind.NOTE,
            f"periods {some(still)} aren't closed: rows may still be added to them",
        )


def _at(given: Audited, line: int, text: str) -> str:
    """Return a sentence with its place in the report."""
    return f"{given.report}: line {line}: {text}" if line else f"{given.report}: {text}"


def _refused(audit: Audit, given: Audited, ledger: Ledger) -> None:
    """Say how many rows of the session are refused."""
    if not ledger.refused:
        audit.add(SentenceKind.GOOD, f"{given.session}: 0 rows refused")
    for refusal in ledger.refused:
        refusal.place = Place(file=given.session, line=refusal.place.line)
        audit.add(SentenceKind.NOTE, f"{refusal}: the reports are made without this row")
