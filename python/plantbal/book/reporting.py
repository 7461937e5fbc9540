"""Writes the reports of periods, each with the history of its edits, and says what to look at."""

from __future__ import annotations

from collections.abc import Iterator, Mapping, Sequence
from decimal import Decimal

from plantbal.accounts.sheet import SalesUnit, sales_units
from plantbal.audit.believed import program_digest, require_believed
from plantbal.book.accounting import accounts_of
from plantbal.book.answers import Quiet, quieted
from plantbal.book.forms import earlier_file, old_earlier_file, report_file, year_file
from plantbal.book.journal import Kept
from plantbal.book.ledger import YearLedger, number_with_commas
from plantbal.book.meters import read_meters
from plantbal.book.results import Reported
from plantbal.book.rounds import OtherSettings, kept_settings, settled
from plantbal.book.said import lacks
from plantbal.book.store import Act, Action, Store
from plantbal.book.years import Years
from plantbal.diagnosis.diagnose import diagnosis_of
from plantbal.diagnosis.rounds import one_of_said, suspects_by_set, taken_by_set
from plantbal.diagnosis.words import lines_said
from plantbal.faults import Fault
from plantbal.gates import Stop, stops_of
from plantbal.model import ledger as model
from plantbal.program import RunSettings, call
from plantbal.report.blocks import Block, last_blocks
from plantbal.report.output import Output, parse_report
from plantbal.sentence import Figure, Joined, Sentence, phrase

_MOST = 5  # suspects that are named


def report_of(
    settings: RunSettings, text: str, period: str, components: Sequence[str] = ()
) -> tuple[str, Output]:
    """Return the report of a period with its history, as the program writes it, and as tables.

    Parameters
    ----------
    settings : RunSettings
        How the session is run.
    text : str
        The session.
    period : str
        The period.
    components : sequence of str
        The components whose balances are asked for too.
    """
    return written_of(settings, text + rows_asking(period, components), period)


def written_of(settings: RunSettings, asked: str, what: str) -> tuple[str, Output]:
    """Return what the program writes of a session, and the same as tables.

    Parameters
    ----------
    settings : RunSettings
        How the session is run.
    asked : str
        The session.
    what : str
        What it asks for, in what is said.
    """
    status, output = call(settings.words, asked.encode("ascii"), program=settings.program)
    require_believed(output, f"the report of {what}", settings.program)
    written = output.decode("ascii")
    return written, parse_report(written, f"the report of {what}", status)


def stops_in(text: str, period: str, output: Output, quiets: Sequence[Quiet]) -> list[Stop]:
    """Return what has to be looked at before a period is closed, but for what is quieted.

    Parameters
    ----------
    text : str
        The session.
    period : str
        The period.
    output : Output
        Its report.
    quiets : sequence of Quiet
        Which rules the book has quieted.
    """
    ledger = model.Ledger("the book", f"{text}report,{period}\n".encode("ascii"))
    found = stops_of(ledger, output.blocks_in_order, period)
    return [stop for stop in found if not any(q.takes(stop.gate, stop.of) for q in quiets)]


def rows_asking(period: str, components: Sequence[str] = ()) -> str:
    """Return the rows that ask for the report of a period, balances and its history."""
    balances = "".join(f"component,{name},{period}\n" for name in components)
    return f"report,{period}\n{balances}history,{period}\n"


def report_state_line(output: Output, period: str) -> str:
    """Return what a report says as a whole, in a line."""
    block = output.reports[-1] if output.reports else None
    if block is None or block.solved is None:
        form = "{period}: no report: {why}"
        return Sentence(form, period=period, why=Joined("; ", map(phrase, output.why)))
    return state_of_block(block)


def balances_said(output: Output) -> list[str]:
    """Return what the balances of components say as a whole, their suspects, and what can't be."""
    last = [block for block in last_blocks(output.blocks_in_order).values() if block.component]
    said = [line for block in last for line in (state_of_block(block), *suspects_of_block(block))]
    return said + output.impossible


def state_of_block(block: Block) -> str:
    """Return what a round says as a whole, after what it is of."""
    words = {"subject": block.subject, "verdict": phrase(block.verdict)}
    if block.solved and block.whole and block.whole["critical"]:
        low = Figure(number_with_commas(Decimal(block.solved["low"]) / 1000))
        critical = Figure(number_with_commas(Decimal(block.whole["critical"]) / 1000))
        form = "{subject}: {verdict}: {low} (critical value {critical})"
        return Sentence(form, low=low, critical=critical, **words)
    return Sentence("{subject}: {verdict}", **words)


def suspects_of(output: Output) -> list[str]:
    """Return the suspects of a report that is rejected, in a line."""
    return suspects_of_block(output.reports[-1]) if output.reports else []


def suspects_of_block(block: Block) -> list[str]:
    """Return the suspects of a round that is rejected, or why nothing is tested for them."""
    if block.whole is None or block.whole["verdict"] != "reject":
        return []
    if not block.measure:
        count = sum(row["class"] == "redundant" for row in block.streams)
        form = (
            "{subject}: suspects aren't tested for: there is no critical value measure; "
            "plantbal-desk critical 0.05 --measure {count} gives one"
        )
        return [Sentence(form, subject=block.subject, count=count)]
    low = {row["stream"]: Decimal(row["low"]) / 1000 for row in block.measure}
    names = []
    for equals in suspects_by_set(block):
        tested = next(name for name in equals if name in low)
        statistic = Figure(number_with_commas(low[tested]))
        form = "{names} {statistic}"
        names.append(Sentence(form, names=one_of_said(equals, block), statistic=statistic))
    if not names:
        return []
    some: str = Joined(", ", names[:_MOST])
    if len(names) > _MOST:
        some = Sentence("{names} and {count:,} more", names=some, count=len(names) - _MOST)
    return [Sentence("{subject}: suspects: {names}", subject=block.subject, names=some)]


def holes_said(
    output: Output, session: bytes = b"", units: Mapping[str, SalesUnit] | None = None
) -> list[str]:
    """Return what is missing in a report that is rejected, where, and since when: a line each.

    Parameters
    ----------
    output : Output
        The report.
    session : bytes
        The session that asks for it: with it tickets, dips and days are looked at.
    units : mapping of str to SalesUnit, optional
        In what streams and tanks are sold, of those that aren't sold by the tonne.
    """
    blocks = [block for block in output.blocks_in_order if block.is_report]
    first = [block for block in blocks if block.round == 0][-1:]
    if not first or first[0].whole is None or first[0].whole["verdict"] != "reject":
        return []
    read = model.Ledger("the session", session) if session else None
    seen = read.reported.get(first[0].period) if read else None
    said = list(lines_said(diagnosis_of(first[0], read, seen).sold_in(units or {})))
    for names in taken_by_set(blocks, blocks[-1]):
        if len(names) > 1:
            one_of = one_of_said(names, blocks[-1])
            said.append(Sentence("taken out is one of {names}", names=one_of))
    subject = first[0].subject
    return [Sentence("{subject}: {said}", subject=subject, said=line) for line in said]


def write_and_keep(
    book: Store, action: Action, ledger: YearLedger, period: str, text: str, closed: bool
) -> bool:
    """Have an action write a report, and keep the one before it if it has gone out.

    It has if its period was closed then, or if it was posted.

    Returns
    -------
    bool
        Whether it is another than the one that is there.
    """
    name = report_file(period)
    before = book.text(name)
    if before and before != text:
        # Older versions gave the report of `2024-04.1` the name of an earlier one of `2024-04`.
        of = reported_in(before)
        if closed or of not in ("", period) or _is_posted(book, period, before):
            action.written[free_name(book, of or period)] = before
    return keep_as(book, action, ledger, name, text)


def _is_posted(book: Store, period: str, text: str) -> bool:
    """Return whether something was posted that was made of a report."""
    name, digest = report_file(period), Kept.of(text.encode("utf-8")).digest
    lines = (line for line in book.journal() if line.act is Act.POSTED and line.of == period)
    return any(name in line.files and line.files[name].digest == digest for line in lines)


def keep_as(book: Store, action: Action, ledger: YearLedger, name: str, text: str) -> bool:
    """Have an action write a report under a name.

    Returns
    -------
    bool
        Whether it is another than the one that is there.
    """
    if book.text(name) == text:
        return False
    action.written[name] = text
    action.seen.append(year_file(ledger.name))
    return True


def reported_in(text: str) -> str:
    """Return the period of the first report in a text."""
    rows = (line.split(",") for line in text.split("\n") if line.startswith("report,"))
    return next((row[1] for row in rows), "")


def free_name(book: Store, period: str) -> str:
    """Return the name for an earlier report of a period: the first number that none has."""
    number = 1
    while book.has(earlier_file(period, number)) or book.has(old_earlier_file(period, number)):
        number += 1
    return earlier_file(period, number)


def reports(
    book: Store, names: Sequence[str], settings: RunSettings, who: str = ""
) -> Iterator[Reported]:
    """Write the reports of periods, and give each when it is kept.

    Raises
    ------
    Fault
        If there is no such period, or none is open.
    OtherSettings
        If one is closed, and would be made with other settings than its report.
    """
    with book.opened():
        years = Years(book)
        meters = read_meters(book)
        periods = list(names) or years.open_periods()
        if not periods:
            raise Fault("no period is open", remedy="name the periods to report")
        for name in periods:
            ledger = years.of_period(name)
            components = ledger.session.components_in(name)
            text, output = _made(book, ledger, name, settings)
            action = Action(Act.REPORT, name, who=who)
            action.program = program_digest(settings.program)
            new = write_and_keep(book, action, ledger, name, text, ledger.periods[name].closed)
            if new:
                book.do(action)
            missing = lacks(ledger, ledger.periods[name], meters)
            text = book.text(f"{ledger.name}.csv")
            stops = stops_in(text, name, output, quieted(book.journal()))
            whole = text + rows_asking(name, components)
            units = sales_units(accounts_of(book))
            holes = holes_said(output, whole.encode("ascii"), units)
            path = book.path(report_file(name))
            yield Reported(name, output, path, new, tuple(missing), tuple(stops), tuple(holes))


def _made(book: Store, ledger: YearLedger, name: str, settings: RunSettings) -> tuple[str, Output]:
    """Return the report of a period as the program writes it, and as tables.

    Raises
    ------
    OtherSettings
        If the period is closed, and the settings of its last report give another one.
    """
    session, components = book.text(year_file(ledger.name)), ledger.session.components_in(name)
    how = settled(book, report_file(name), settings)
    made = report_of(how, session, name, components)
    if ledger.periods[name].closed and book.has(report_file(name)):
        last = RunSettings(program=how.program).after(kept_settings(book, report_file(name)))
        is_other = how.words != last.words
        if is_other and report_of(last, session, name, components)[0] != made[0]:
            raise OtherSettings(name, last, how)
    return made


def session_asking(book: Store, names: Sequence[str]) -> str:
    """Return the session that asks for the reports of periods of one year.

    Raises
    ------
    Fault
        If they are of several years.
    """
    found = _asking(book, names)
    if len(found) > 1:
        raise Fault("these periods are of several years", remedy="name those of one year")
    return next(iter(found.values()))


def sessions_asking(book: Store) -> dict[str, str]:
    """Return of each year with open periods the session that asks for the reports of these.

    Parameters
    ----------
    book : Store
        The book, which is tested first.
    """
    return _asking(book, ())


def _asking(book: Store, names: Sequence[str]) -> dict[str, str]:
    """Return the sessions that ask for periods, or for all open ones, by their years."""
    with book.opened(reading=True):
        years = Years(book)
        asked: dict[str, list[str]] = {}
        for name in list(names) or years.open_periods():
            asked.setdefault(years.of_period(name).name, []).append(name)
        found = {}
        for year, periods in asked.items():
            session = years.of_period(periods[0]).session
            rows = (rows_asking(name, session.components_in(name)) for name in periods)
            found[year] = book.text(year_file(year)) + "".join(rows)
    return found
