"""Makes the statement of an output's rows, with what its session says."""

from __future__ import annotations

from collections.abc import Iterable, Mapping, Sequence
from dataclasses import dataclass, replace
from decimal import Decimal
from typing import TYPE_CHECKING

from plantbal.diagnosis.diagnose import Diagnosis, diagnosis_of
from plantbal.diagnosis.rounds import in_order, suspects_by_set, taken_by_set
from plantbal.model.forms import day_text
from plantbal.model.ledger import Ledger, Seen
from plantbal.page.statement import (
    PageContents,
    Round,
    ShownEdit,
    ShownRefusal,
    ShownReport,
    Statement,
    StreamLine,
    Tank,
    Worth,
)
from plantbal.page.verdict import Lost, Verdict, names_of, plus_minus, verdict_of, whither
from plantbal.report.blocks import Block, ReportedWindow, Values, advice_of, blocks_of, designs_of
from plantbal.report.carried import Impossible, impossible
from plantbal.sentence import Capital, Sentence, counted, phrase

if TYPE_CHECKING:
    from plantbal.accounts.sheet import SalesUnit
    from plantbal.lint import Finding


# A space that stands within a name.
NO_BREAK = "\u00a0"
# What lint finds that a verdict says: a meter or a tank without a value, and facts too late.
READING, LATE = "missing-reading", "after-report"
TOLD = (READING, "missing-dip", LATE)


def _pair(row: Values, low: str, high: str) -> tuple[int, int] | None:
    return (int(row[low]), int(row[high])) if row.get(low) and row.get(high) else None


def declared(row: Values, window: ReportedWindow | None) -> Values:
    """Return a stream row of a window with declared names and periods in place of its codes."""
    if window is None:
        return row
    name_of = window.shown

    def shown(code: str) -> str:
        """Return what stands in place of a code; no part of it may stand on another line."""
        return name_of(code).replace(" ", NO_BREAK)

    side = " ".join(map(shown, row["side"].split(" "))) if row["side"] else ""
    parts = " ".join(part[:1] + shown(part[1:]) for part in row["parts"].split(" ") if part)
    names = {column: shown(row[column]) for column in ("name", "from", "to")}
    return {**row, **names, "side": side, "parts": parts}


def stream_line(
    row: Values,
    statistic: str = "",
    mark: str = "",
    worth: Worth | None = None,
    is_first: bool = False,
) -> StreamLine:
    """Return the line of a `stream` or a `class` row."""
    observable = row["class"] != "unobservable"
    return StreamLine(
        name=row["name"],
        from_=row["from"],
        to=row["to"],
        class_=row["class"],
        value=int(row["value"]) if row.get("value") else None,
        variance=int(row["variance"]) if row.get("variance") else None,
        flow=int(row["flow"]) if row.get("flow") and observable else None,
        bounds=_pair(row, "lo", "hi"),
        least=_pair(row, "least_lo", "least_hi"),
        shape=row["shape"],
        side=row["side"],
        parts=row["parts"],
        statistic=Decimal(statistic) / 1000 if statistic else None,
        mark=mark,
        worth=worth,
        is_first=is_first,
    )


# What a tank held by its dips at the beginning and the end of a period, in grams; None without one.
Contents = tuple[int | None, int | None]


def reported_contents(ledger: Ledger, seen: Seen) -> dict[str, Contents]:
    """Return what the tanks of a report held by its dips."""
    if not seen.is_report:
        return {}
    found = {}
    for tank, dips in seen.view.dips.items():
        opening, closing = (ledger.state.content(dip) if dip else None for dip in dips)
        found[tank] = opening, closing
    return found


def tanks_of(lines: Iterable[StreamLine], contents: Mapping[str, Contents]) -> list[Tank]:
    """Return the tanks among the lines of a round."""
    into: dict[str, int | None] = {}
    out: dict[str, int | None] = {}
    found = list(lines)
    for line in found:
        if line.is_tank:
            continue
        for sums, end in ((into, line.to), (out, line.from_)):
            before = sums.get(end, 0)
            sums[end] = None if before is None or line.flow is None else before + line.flow
    tanks = []
    for line in found:
        if line.is_tank:
            opening, closing = contents.get(line.name, (None, None))
            flows = into.get(line.name, 0), out.get(line.name, 0)
            tanks.append(Tank(line, opening, *flows, closing))
    return tanks


def round_of(
    block: Block,
    contents: Mapping[str, Contents],
    worth: Mapping[str, Worth],
    lost: Lost,
    before: Sequence[Block] = (),
    stop: str = "",
    mass: Block | None = None,
    diagnosis: Diagnosis | None = None,
) -> Round:
    """Return a round.

    Parameters
    ----------
    block : Block
        Its rows.
    contents : mapping
        What the tanks held by their dips, if the session is there.
    worth : mapping
        How good its flows are, by the streams.
    lost : Lost
        How many rows were refused before it.
    before : sequence of Block
        The rounds before it.
    stop : str
        Why the elimination ended after it.
    mass : Block, optional
        The report whose flows it takes, if it is the balance of a component.
    diagnosis : Diagnosis or None
        What is known of the first round's holes: it has the order of equals.
    """
    statistics = {row["stream"]: row["low"] for row in block.measure}
    # A test of one meter counts under a global test that rejects, and if no row of the plant is
    # missing.
    rejected = block.whole is not None and block.whole["verdict"] == "reject"
    suspects = suspects_by_set(block) if rejected and not lost.lacking else []
    suspects = in_order(suspects, diagnosis)
    marks = {name: "suspect" for names in suspects for name in names}
    marks |= {name: "taken" for name in block.taken}
    first = suspects[0] if len(suspects) > 1 else ()
    lines = [
        stream_line(
            declared(row, block.window),
            statistics.get(row["name"], ""),
            marks.get(row["name"], ""),
            worth.get(row["name"]),
            row["name"] in first,
        )
        for row in block.streams
    ]
    taken = in_order(taken_by_set(before, block), diagnosis)
    said = verdict_of(block, lost, suspects, lines, taken, stop)
    if block.component and worth:
        said = replace(said, reasons=[*said.reasons, *whither(block, mass)])
    return Round(block, lines, tanks_of(lines, contents), said)


@dataclass
class _Gathered:
    """Reports, windows and balances as they come, with how many rows were refused before each."""

    subject: str
    blocks: list[Block]
    over: str
    lost: Lost
    stop: str = ""


def _gather(rows: Sequence[Values]) -> list[_Gathered]:
    """Return the reports of an output in order."""
    blocks = iter(blocks_of(rows))
    found: list[_Gathered] = []
    lost = Lost()
    for row in rows:
        if row["row"] == "refused":
            lost = lost.plus(row["word"])
        elif row["row"] == "over":
            found.append(_Gathered(row["period"], [], row["stream"], lost))
        elif row["row"] == "report":
            block = next(blocks)
            if row["round"] == "0" or not found:
                found.append(_Gathered(block.subject, [], "", lost))
            found[-1].blocks.append(block)
        elif row["row"] == "stop" and found:
            found[-1].stop = row["reason"]
    return found


def _edits_of(rows: Sequence[Values]) -> dict[str, list[ShownEdit]]:
    """Return the edits that the last history of each period has."""
    found: dict[str, list[ShownEdit]] = {}
    period = ""
    for row in rows:
        if row["row"] == "history":
            period = row["period"]
            found[period] = []
        elif row["row"] == "edit":
            edit = ShownEdit(int(row["at"]), row["word"], row["id"], row["reason"])
            found.setdefault(period, []).append(edit)
    return found


def _states_of(rows: Sequence[Values]) -> dict[str, str]:
    return {row["period"]: row["state"] for row in rows if row["row"] == "history"}


def _with_changes(ledger: Ledger, period: str) -> list[ShownEdit]:
    """Return the edits of a period as the session has them."""
    return [
        ShownEdit(
            change.at.record,
            change.word,
            change.fact.id if change.fact else "",
            change.reason,
            change,
        )
        for change in ledger.edits_of(period)
    ]


def _days_of(ledger: Ledger, first: str, last: str = "") -> tuple[str, str] | None:
    """Return the first and the last day of a period, or of some; None if there is no such one."""
    if first not in ledger.periods:
        return None
    ends = ledger.periods[first], ledger.periods[last or first]
    return day_text(ends[0].first), day_text(ends[1].last)


def _order(statement: Statement) -> tuple[bool, str, int]:
    """Periods stand by their days, or, if these aren't known, as their last reports do."""
    days = statement.days
    return (days is None, days[1] if days else "", statement.number)


def account_of(
    rows: Sequence[Values],
    *,
    ledger: Ledger | None = None,
    refused: Sequence[ShownRefusal] = (),
    findings: Sequence[Finding] = (),
    worth: Mapping[tuple[int, str], Worth] | None = None,
    units: Mapping[str, SalesUnit] | None = None,
) -> PageContents:
    """Return all that a page shows of an output.

    Parameters
    ----------
    rows : list of dict
        The rows of the output.
    ledger : Ledger, optional
        The session.
    refused : sequence of ShownRefusal
        The refused rows.
    findings : sequence of Finding
        What lint finds in the session; notes are left out.
    worth : mapping, optional
        How good each flow is, by the number of its block and its name.
    units : mapping, optional
        In what streams and tanks are sold, of those that aren't sold by the tonne.
    """
    by_block: dict[int, dict[str, Worth]] = {}
    for (number, name), value in (worth or {}).items():
        by_block.setdefault(number, {})[name] = value
    by_period: dict[str, list[ShownReport]] = {}
    masses: dict[str, Block] = {}
    for number, some in enumerate(_gather(rows)):
        asked = ledger.seen[number] if ledger is not None else None
        subject = asked.subject if asked is not None else some.subject
        contents = (
            reported_contents(ledger, asked) if ledger is not None and asked is not None else {}
        )
        diagnosis = diagnosis_of(some.blocks[0], ledger, asked) if some.blocks else None
        diagnosis = diagnosis.sold_in(units) if diagnosis and units else diagnosis
        rounds = []
        for block in some.blocks:
            stop = some.stop if block is some.blocks[-1] else ""
            good = by_block.get(block.number, {})
            if block.is_report and block.ended:
                masses[block.period] = block
            mass = masses.get(block.period)
            before = some.blocks[: block.round]
            rounds.append(round_of(block, contents, good, some.lost, before, stop, mass, diagnosis))
        report = ShownReport(subject, rounds, some.over, asked, diagnosis)
        by_period.setdefault(subject, []).append(report)
    edits, states = _edits_of(rows), _states_of(rows)
    for period in states:
        by_period.setdefault(period, [ShownReport(period, [])])
    wanted = [each for each in findings if each.severity != "note"]
    beyond = impossible(blocks_of(rows)) if worth else []
    statements = [
        _statement(number, period, reports, edits, states, ledger, wanted, beyond)
        for number, (period, reports) in enumerate(by_period.items())
    ]
    statements = [
        replace(statement, number=number)
        for number, statement in enumerate(sorted(statements, key=_order))
    ]
    return PageContents(
        statements=statements,
        designs=_designs_of(rows),
        is_advised=advice_of(rows) is not None,
        refused=list(refused),
        refused_rows=sum(row["row"] == "refused" for row in rows),
        findings=wanted,
        ledger=ledger,
    )


def _designs_of(rows: Sequence[Values]) -> list[list[StreamLine]]:
    """Return the designs; in the last one each stream to meter has its cost and its cycle."""
    found = [[stream_line(row) for row in design] for design in designs_of(rows)]
    meters = {meter["stream"]: meter for meter in advice_of(rows) or ()}
    for at, line in enumerate(found[-1] if found else ()):
        if line.name in meters:
            meter = meters[line.name]
            cycle = {"shape": "cycle", "side": "", "parts": meter["parts"]}
            found[-1][at] = replace(line, mark="meter", cost=int(meter["cost"]), **cycle)
    return found


def _statement(
    number: int,
    period: str,
    reports: list[ShownReport],
    edits: Mapping[str, list[ShownEdit]],
    states: Mapping[str, str],
    ledger: Ledger | None,
    findings: Iterable[Finding],
    beyond: Iterable[Impossible],
) -> Statement:
    """Return the statement of a period."""
    days, state, changes = None, states.get(period, ""), edits.get(period, [])
    asked = reports[-1].asked
    if ledger is not None and asked is not None and not asked.is_report:
        days = _days_of(ledger, asked.period.name, asked.last)
    elif ledger is not None:
        days = _days_of(ledger, period)
        state = "closed" if period in ledger.closed else "open"
        changes = _with_changes(ledger, period)
    last = reports[-1].last
    said = last.verdict if last is not None else _without_report(period, reports[-1].over)
    said = replace(said, reasons=[*said.reasons, *_unseen(reports[-1].diagnosis, last)])
    wanted = [each for each in findings if each.period == period and each.code in TOLD]
    if wanted:
        names = [each.name for each in wanted if each.code != LATE]
        what = Sentence("facts come after the report")
        if names:
            one, many = "{names} has no value", "{names} have no value"
            what = counted(len(names), one, many, names=names_of(names, 2))
        said = said.but(what, [_sentence(each, reports[-1].last) for each in wanted])
    cant = [each for each in beyond if each.subject == period]
    if cant:
        names = [each.stream for each in cant]
        one, many = "the flow of {names} can't be", "the flows of {names} can't be"
        what = counted(len(names), one, many, names=names_of(names, 2))
        said = said.but(what, [Sentence("{said}.", said=phrase(each.said)) for each in cant])
    return Statement(number, period, days, state, reports, changes, said)


def _unseen(diagnosis: Diagnosis | None, last: Round | None) -> list[str]:
    """Return which measurements nothing checks, as a sentence, if there are tests."""
    if diagnosis is None or last is None or last.block.whole is None or not diagnosis.unchecked:
        return []
    names = [last.block.shown(each.name) for each in diagnosis.unchecked]
    one = "Nothing checks {names}. What each could hide is said below."
    many = "Nothing checks {count} measurements: {names}. What each could hide is said below."
    return [counted(len(names), one, many, names=names_of(names))]


def _sentence(finding: Finding, last: Round | None) -> str:
    """Return what lint finds as a sentence, with the ± of the flow that has no value.

    A name that it begins with stays as it is.
    """
    text = finding.text
    said = text if text.startswith(finding.name or " ") else Capital(text)
    worth = {line.name: line.worth for line in last.lines}.get(finding.name) if last else None
    if worth and finding.code == READING:
        return Sentence("{said} (± {sd} t).", said=said, sd=plus_minus(worth))
    return Sentence("{said}.", said=said)


def _without_report(period: str, over: str) -> Verdict:
    """Return what is said of a period without a report."""
    if over:
        form = "The total of {name} is beyond the limits: look for a digit too many in its facts."
        return Verdict("bad", phrase("No report"), [Sentence(form, name=over)])
    why = Sentence("The row report,{period} asks for one.", period=period)
    return Verdict("plain", phrase("No report"), [why])
