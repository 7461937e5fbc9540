"""What an action would do to the balance: it is done on a copy of the book, and reports are made.

Nothing is guessed. The copy gets the action by the same calls as the book would, and the program
makes the reports of the months that it touches; beside them stand those that are kept.
"""

from __future__ import annotations

import datetime
from collections.abc import Callable, Iterable, Sequence
from dataclasses import dataclass, field, replace
from pathlib import Path

from plantbal.book.changes import Changes
from plantbal.book.ledger import BookFact
from plantbal.book.library import Book
from plantbal.book.looking import BookMonth, Contents
from plantbal.book.reporting import suspects_of
from plantbal.book.results import Added, Reported, ReportState
from plantbal.diagnosis.rounds import suspects_by_set, taken_by_set
from plantbal.faults import Fault
from plantbal.gates import Stop
from plantbal.report.blocks import Block
from plantbal.report.output import Output, parse_report
from plantbal.sentence import Joined, phrase
from plantbal_office.plants.models import Plant
from plantbal_office.shelf import KEPT, book_contents, plain_book, run_settings

# How many months a preview makes the reports of, the latest ones, and how many flows it names.
MOST_MONTHS, MOST_FLOWS = 4, 12
_DAY = datetime.timedelta(1)
# The reason of a trial, which no book gets.
TRIED = "tried"


@dataclass(frozen=True)
class Said:
    """What a report says as a whole.

    Attributes
    ----------
    verdict : str
        The verdict in words.
    level : str
        ``good``, ``look`` or ``bad``: the class of its sign.
    statistic, critical : float or None
        The statistic of the global test, and its critical value.
    suspects, holes : tuple of str
        What it suspects, and what is missing where and since when, in sentences.
    stops : tuple of Stop
        What has to be looked at before the close.
    """

    verdict: str
    level: str
    statistic: float | None = None
    critical: float | None = None
    suspects: tuple[str, ...] = ()
    holes: tuple[str, ...] = ()
    stops: tuple[Stop, ...] = ()

    @property
    def bare(self) -> Said:
        """The same without what has to be looked at."""
        return replace(self, stops=(), suspects=(), holes=())

    @property
    def sign(self) -> str:
        """Its sign."""
        return {"good": "✓", "look": "!", "bad": "✗"}[self.level]


@dataclass(frozen=True)
class Shift:
    """A flow before and after, in grams; None where there is none."""

    name: str
    before: int | None
    after: int | None

    @property
    def by(self) -> int | None:
        """By how much it changes."""
        if self.before is None or self.after is None:
            return None
        return self.after - self.before

    @property
    def size(self) -> int:
        """How much it changes, whatever the sign; a flow that comes or goes comes first."""
        return 10**18 if self.by is None else abs(self.by)


@dataclass(frozen=True)
class ActionEffect:
    """What an action would do to a month.

    Attributes
    ----------
    month : BookMonth
        The month, as it would be.
    before, after : Said or None
        What the report says that is kept, and the one that would be.
    shifts : tuple of Shift
        The flows that change most.
    more : int
        How many others change.
    fault : Fault or None
        Why there would be no report.
    is_fresh : bool
        Whether the report before was made anew, since the one that is kept is older than the rows.
    """

    month: BookMonth
    before: Said | None
    after: Said | None
    shifts: tuple[Shift, ...] = ()
    more: int = 0
    fault: Fault | None = None
    is_fresh: bool = False


@dataclass(frozen=True)
class Trial:
    """What came of an action on a copy.

    Attributes
    ----------
    result : object
        What the action returned; None if it has a fault.
    fault : Fault or None
        Why it can't be done.
    effects : tuple of ActionEffect
        What it would do to each month that it touches.
    left_out : tuple of str
        Months that it touches and whose reports weren't made.
    """

    result: object = None
    fault: Fault | None = None
    effects: tuple[ActionEffect, ...] = ()
    left_out: tuple[str, ...] = field(default=())


def report_said(output: Output, stops: Sequence[Stop] = (), holes: Sequence[str] = ()) -> Said:
    """Return what a report says as a whole."""
    block = output.reports[-1] if output.reports else None
    if block is None or block.solved is None:
        return Said(Joined("; ", output.why) or phrase("no report"), "bad", stops=tuple(stops))
    whole = block.whole or {}
    level = "look" if stops or whole.get("verdict") != "accept" else "good"
    if whole.get("verdict") == "reject" or block.solved["state"] != "converged":
        level = "bad"
    critical = whole.get("critical")
    return Said(
        block.verdict,
        level,
        int(block.solved["low"]) / 1000 if critical else None,
        int(critical) / 1000 if critical else None,
        tuple(suspects_of(output)),
        tuple(holes),
        tuple(stops),
    )


def booked_flows(output: Output) -> dict[str, int]:
    """Return the flows to book of a report, in grams."""
    block: Block | None = output.reports[-1] if output.reports else None
    rows = block.streams if block is not None else []
    return {
        row["name"]: int(row["flow"])
        for row in rows
        if row["flow"] and row["class"] != "unobservable"
    }


def shifts_of(before: Output | None, after: Output) -> list[Shift]:
    """Return the flows that two reports have otherwise, those that change most first."""
    if before is None:
        return []
    old, new = booked_flows(before), booked_flows(after)
    found = [Shift(name, old.get(name), new.get(name)) for name in dict.fromkeys([*old, *new])]
    return sorted((each for each in found if each.by != 0), key=lambda each: -each.size)


def tried(
    plant: Plant,
    act: Callable[[Book], object],
    touches: Callable[[object, Contents], Iterable[str]],
) -> Trial:
    """Do an action on a copy of a book, and make the reports of the months that it touches.

    Parameters
    ----------
    plant : Plant
        The plant.
    act : callable
        Does the action on a book, and returns what came of it.
    touches : callable
        Returns the months that it touches, by what came of it and what is then in the book.
    """
    kept = book_contents(plant)
    with plain_book(plant).trial() as book:
        try:
            result = act(book)
        except Fault as fault:
            return Trial(fault=fault)
        then = book.contents()
        names = list(dict.fromkeys(touches(result, then)))
        some = names[-MOST_MONTHS:]
        effects = tuple(_effect(plant, book, kept, then, name) for name in some)
    return Trial(result, None, effects, tuple(names[: len(names) - len(some)]))


def _effect(plant: Plant, book: Book, kept: Contents, then: Contents, name: str) -> ActionEffect:
    """Return what an action on a copy does to a month."""
    month = then.month(name)
    assert month is not None
    was = kept.month(name)
    is_older = was is not None and was.report is ReportState.OLDER
    try:
        before = fresh_output(plant, name) if is_older else kept_output(plant, kept, name)
    except Fault:
        before, is_older = kept_output(plant, kept, name), False
    old = report_said(before) if before is not None else None
    try:
        report: Reported = next(iter(book.reports(name, settings=run_settings())))
    except Fault as fault:
        return ActionEffect(month, old, None, fault=fault, is_fresh=is_older)
    shifts = shifts_of(before, report.output)
    new = report_said(report.output, report.stops, report.holes)
    more = max(0, len(shifts) - MOST_FLOWS)
    return ActionEffect(month, old, new, tuple(shifts[:MOST_FLOWS]), more, is_fresh=is_older)


def fresh_output(plant: Plant, name: str) -> Output:
    """Return a report of a month of what is booked now, made on a copy of the book.

    Raises
    ------
    Fault
        If there is none.
    """

    def make() -> Output:
        with plain_book(plant).trial() as book:
            return next(iter(book.reports(name, settings=run_settings()))).output

    return KEPT.of(Path(plant.folder), "fresh", (name,), make)


def suspects_now(plant: Plant, name: str) -> frozenset[str]:
    """Return the measurements that a report of what is booked now suspects; none if there is no report."""
    kept = book_contents(plant)
    month = kept.month(name)
    is_current = month is not None and month.report is ReportState.CURRENT
    try:
        output = kept_output(plant, kept, name) if is_current else fresh_output(plant, name)
    except Fault:
        return frozenset()
    if output is None or not output.reports:
        return frozenset()
    blocks = output.reports
    named = [*taken_by_set(blocks, blocks[-1])]
    if blocks[0].whole is not None and blocks[0].whole["verdict"] == "reject":
        named += suspects_by_set(blocks[0])
    return frozenset(each for some in named for each in some)


def kept_output(plant: Plant, kept: Contents, name: str) -> Output | None:
    """Return the report of a month that is kept, or None."""
    month = kept.month(name)
    if month is None or month.report is ReportState.MISSING:
        return None
    return parse_report(plain_book(plant).kept(name).text, f"the report of {name}")


# ---- which months


def touched_months(facts: Iterable[BookFact], contents: Contents) -> list[str]:
    """Return the months that some facts touch, in the order of their days."""
    spans = {(fact.first, fact.last, fact.kind == "dip") for fact in facts}
    return [
        month.name
        for month in contents.months
        if any(
            first <= month.last
            and last >= month.first - (_DAY if is_dip else datetime.timedelta(0))
            for first, last, is_dip in spans
        )
    ]


def months_added(result: object, contents: Contents) -> list[str]:
    """Return the months that a workbook touches."""
    assert isinstance(result, Added)
    rows = [row for year in result.years for row in year.rows]
    named = {row[1] for row in rows if row[0] == "period"}
    named |= {row[3] for row in rows if row[0] == "assay"}
    touched = named | set(touched_months(facts_in(result.changes, result.struck), contents))
    return [month.name for month in contents.months if month.name in touched]


def facts_in(changes: Changes, struck: bool) -> list[BookFact]:
    """Return the facts that a workbook brings, changes or strikes."""
    found = [fact for _, fact in changes.new]
    for change in [*changes.changed, *changes.left]:
        found += [change.old, change.new]
    return found + ([fact for _, fact in changes.gone] if struck else [])
