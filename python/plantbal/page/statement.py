"""The month's statement as data: the page, the workbook and the drawing show its figures."""

from __future__ import annotations

from collections.abc import Mapping, Sequence
from dataclasses import dataclass, field
from decimal import Decimal
from math import sqrt
from typing import TYPE_CHECKING

from plantbal.model.facts import Edit as Change
from plantbal.model.ledger import Ledger, Seen
from plantbal.page.verdict import Verdict, names_of
from plantbal.report.blocks import Block
from plantbal.sentence import Sentence, counted

if TYPE_CHECKING:
    from plantbal.balance.grades import Grades
    from plantbal.diagnosis.diagnose import Diagnosis
    from plantbal.explain import ExplainedRow
    from plantbal.lint import Finding
    from plantbal.page.gates import PeriodGates
    from plantbal.page.measured import MeasuredPart


@dataclass(frozen=True, slots=True)
class Worth:
    """How good a reconciled flow is.

    Attributes
    ----------
    deviation : float
        Its standard deviation in grams.
    gain : float or None
        By which part it is less than the meter's; None of a stream without a meter.
    contributors : str
        The meters that contribute most.
    """

    deviation: float
    gain: float | None = None
    contributors: str = ""


@dataclass(frozen=True, slots=True)
class StreamLine:
    """A stream in a round of a report; a tank's line is what its content gained.

    Attributes
    ----------
    name, from_, to, class_ : str
        Its name, its ends and its class.
    value, variance : int or None
        What was measured, in grams; None if nothing was.
    flow : int or None
        The flow to book, in grams; None of an unobservable stream, which has no figure to book.
    bounds, least : tuple of int or None
        The bounds of the arithmetic.
    shape, side, parts : str
        The certificate of its class.
    statistic : Decimal or None
        The statistic of its measurement test, at least.
    mark : str
        ``suspect`` if its test rejects, under a global test that rejects; ``taken`` if it was
        taken out; ``meter`` if it is to be metered.
    worth : Worth or None
        How good the flow is, if that is known.
    cost : int or None
        What its meter costs, if it is to be metered.
    is_first : bool
        Whether it is of the first set of suspects, beside which there are others.
    """

    name: str
    from_: str
    to: str
    class_: str
    value: int | None = None
    variance: int | None = None
    flow: int | None = None
    bounds: tuple[int, int] | None = None
    least: tuple[int, int] | None = None
    shape: str = ""
    side: str = ""
    parts: str = ""
    statistic: Decimal | None = None
    mark: str = ""
    worth: Worth | None = None
    cost: int | None = None
    is_first: bool = False

    @property
    def is_tank(self) -> bool:
        """Whether it is a tank's."""
        return self.name == self.from_

    @property
    def adjustment(self) -> int | None:
        """The flow less the value, in grams."""
        return None if self.value is None or self.flow is None else self.flow - self.value

    @property
    def percent(self) -> float | None:
        """The adjustment in percent of the value."""
        if self.adjustment is None or not self.value:
            return None
        return 100 * self.adjustment / abs(self.value)

    @property
    def deviations(self) -> float | None:
        """The adjustment in standard deviations of the measurement."""
        if self.adjustment is None or not self.variance:
            return None
        return self.adjustment / sqrt(self.variance)


@dataclass(frozen=True, slots=True)
class Tank:
    """A tank over a period, in grams; None is what isn't known.

    Attributes
    ----------
    line : StreamLine
        What its content gained.
    opening, measured : int or None
        What it held by its dips at the beginning and at the end.
    into, out : int or None
        What flowed in and out, by the flows to book.
    """

    line: StreamLine
    opening: int | None
    into: int | None
    out: int | None
    measured: int | None

    @property
    def closing(self) -> int | None:
        """What it holds in the end by the books: the opening and what it gained."""
        if self.opening is None or self.line.flow is None:
            return None
        return self.opening + self.line.flow


@dataclass(frozen=True, slots=True)
class Round:
    """A round of a report: the streams by their kind, and what is said of the whole."""

    block: Block
    lines: list[StreamLine]
    tanks: list[Tank]
    verdict: Verdict

    @property
    def streams(self) -> list[StreamLine]:
        """The streams with a figure to book, those to be looked at first."""
        some = [line for line in self.lines if not line.is_tank and line.flow is not None]
        return sorted(some, key=lambda line: _rank(line))

    @property
    def unobservable(self) -> list[StreamLine]:
        """The streams without a figure to book."""
        return [line for line in self.lines if line.flow is None]


@dataclass(frozen=True, slots=True)
class ShownReport:
    """A report: its rounds, or the stream whose total is beyond the limits."""

    period: str
    rounds: list[Round]
    over: str = ""
    asked: Seen | None = None
    diagnosis: Diagnosis | None = None

    @property
    def last(self) -> Round | None:
        """The last round."""
        return self.rounds[-1] if self.rounds else None


@dataclass(frozen=True, slots=True)
class ShownEdit:
    """An edit that touches a period; the change is there if the session is.

    `typed` is the reason as it was typed, if the row has it in other letters.
    """

    record: int
    word: str
    id: str
    reason: str
    change: Change | None = None
    typed: str = ""


@dataclass(frozen=True, slots=True)
class Statement:
    """What there is to say of a period.

    Attributes
    ----------
    number : int
        Its number on the page, counted from 0.
    period : str
        The period.
    days : tuple of str or None
        Its first and its last day.
    state : str
        ``open`` or ``closed``; empty if that isn't known.
    reports : list of ShownReport
        Its reports, of which the last one counts.
    edits : list of ShownEdit
        The edits that touch it.
    verdict : Verdict
        What is said of it in words.
    """

    number: int
    period: str
    days: tuple[str, str] | None
    state: str
    reports: list[ShownReport]
    edits: list[ShownEdit]
    verdict: Verdict

    @property
    def report(self) -> ShownReport:
        """The report that counts."""
        return self.reports[-1]

    @property
    def is_of_period(self) -> bool:
        """Whether it is of a period, and of no window and no component."""
        report = self.report
        if report.last is not None:
            return report.last.block.is_report
        return report.asked is None or report.asked.is_report

    @property
    def older(self) -> list[ShownReport]:
        """The reports before it."""
        return self.reports[:-1]


@dataclass(frozen=True, slots=True)
class ShownRefusal:
    """A refused row, as the session's text or as its code alone says it."""

    record: int
    word: str
    remedy: str
    told: ExplainedRow | None = None


@dataclass(frozen=True)
class PageContents:
    """All that a page shows.

    Attributes
    ----------
    statements : list of Statement
        The periods in the order of their last days, or of their reports.
    designs : list of list of StreamLine
        The designs; with an advice the last one has the streams to meter marked.
    is_advised : bool
        Whether there is an advice on what to meter.
    refused : list of ShownRefusal
        The first of the refused rows.
    refused_rows : int
        How many rows are refused.
    findings : sequence of Finding
        What lint warns of.
    ledger : Ledger or None
        The session.
    gates : mapping of str to PeriodGates
        What stops the close of each period, or stopped it.
    quieted : int
        How many findings of lint are quieted by the book.
    """

    statements: list[Statement]
    designs: list[list[StreamLine]] = field(default_factory=list)
    is_advised: bool = False
    refused: list[ShownRefusal] = field(default_factory=list)
    refused_rows: int = 0
    findings: Sequence[Finding] = ()
    ledger: Ledger | None = None
    gates: Mapping[str, PeriodGates] = field(default_factory=dict)
    quieted: int = 0

    @property
    def periods(self) -> list[Statement]:
        """The statements of periods; if there is none, those of windows and components."""
        return [each for each in self.statements if each.is_of_period] or self.statements

    @property
    def unfolded(self) -> int:
        """The number of the last period's statement: it and those after it aren't folded."""
        return self.periods[-1].number if self.statements else 0

    @property
    def to_look_at(self) -> str:
        """Which of several periods need a look, as a sentence."""
        names = [each.period for each in self.statements if each.verdict.level in ("look", "bad")]
        total = len(self.statements)
        if not names:
            return Sentence("None of the {total:,} needs a look.", total=total)
        one = "{count:,} of {total:,} needs a look: {names}."
        many = "{count:,} of {total:,} need a look: {names}."
        return counted(len(names), one, many, total=total, names=names_of(names))

    @property
    def meters(self) -> list[StreamLine]:
        """The streams to meter."""
        return [line for design in self.designs[-1:] for line in design if line.mark == "meter"]

    @property
    def is_empty(self) -> bool:
        """Whether nothing was asked for: there is neither a period nor a design."""
        return not (self.statements or self.designs)


@dataclass(frozen=True)
class Prepared:
    """An account, its refused rows in sentences, and why there is no ± if there is none.

    `more` is how many further rows are refused, `grades` has those of each period with assays, and
    `measured` how the masses of each period were calculated.
    """

    account: PageContents
    told: Sequence[ExplainedRow] = field(default_factory=list)
    why_no_worth: str = ""
    more: int = 0
    grades: Mapping[str, Grades] = field(default_factory=dict)
    measured: Mapping[str, MeasuredPart] = field(default_factory=dict)


def _rank(line: StreamLine) -> tuple[int, float]:
    """Return the place of a stream: suspects first, by their statistics, then as they stand."""
    if line.mark == "suspect":
        return 0, -float(line.statistic or 0)
    return (1, 0.0) if line.mark == "taken" else (2, 0.0)
