"""What lint finds: its rules by their codes, and how a finding is said."""

from __future__ import annotations

from collections import defaultdict
from collections.abc import Callable, Iterable, Iterator, Sequence
from dataclasses import dataclass

from plantbal.amounts import tonnes_text
from plantbal.faults import Place
from plantbal.gates import Gate, about
from plantbal.kinds import Severity
from plantbal.model.facts import Fact
from plantbal.model.forms import day_text
from plantbal.model.ledger import Ledger
from plantbal.sentence import Day, Figure, Joined, Sentence

SEVERITIES = ("error", "warning", "note")


@dataclass(frozen=True, slots=True)
class Rule:
    """What is looked for.

    Attributes
    ----------
    code : str
        Its code, such as ``missing-reading``.
    severity : str
        ``error``: a report isn't of what stands in the session, or there is none. ``warning``: a
        report is made, and is likely to be wrong. ``note``: it may be meant.
    about : str
        What it says, in a few words.
    """

    code: str
    severity: Severity
    about: str


RULES: dict[str, Rule] = {
    rule.code: rule
    for rule in (
        Rule("refused", "error", "rows are refused, and reports are made without them"),
        Rule("nothing-asked", "error", "nothing is asked for: no report and no other output"),
        Rule("missing-reading", "warning", "a meter has no value in a reported period"),
        Rule("missing-dip", "warning", "a tank has no value in a reported period"),
        Rule("no-period", "warning", "a fact is in no period, so it counts nowhere"),
        Rule("after-report", "warning", "a fact comes after the last report of its period"),
        Rule("one-sided", "warning", "nothing enters a unit, or nothing leaves it"),
        Rule("never-served", "warning", "a stream or tank is in service in no period"),
        Rule("near-names", "warning", "two names differ in one letter"),
        Rule("magnitude", "warning", "a value is 50 times its stream's median or more, or 1/500"),
        Rule("small-deviation", "warning", "a standard deviation is below 0.00001 of its value"),
        Rule("large-deviation", "warning", "a standard deviation is greater than its value"),
        Rule("density", "warning", "a density is below 400,000 or above 3,000,000 g per m3"),
        Rule("exchanged", "warning", "each of two meters reads what the other one read before"),
        Rule("strap-slope", "warning", "a point of a strapping table breaks its slope"),
        Rule("scatter", "warning", "errors are ten times the scatter between days, or a tenth"),
        Rule("worse-class", "warning", "a stream's class in a report is worse than by design"),
        Rule("no-critical", "warning", "there is no critical value for a report's global test"),
        Rule("no-balance", "warning", "there are assays for which no balance is asked for"),
        Rule("after-balance", "warning", "an assay comes after the last balance that would use it"),
        Rule("unchecked-grade", "warning", "no other assay checks an assay of a balance"),
        Rule("unused-assay", "warning", "an assay is of a stream whose flow nothing determines"),
        Rule("grade", "warning", "a grade is 50 times that of the same stream in other periods"),
        Rule("no-cost", "warning", "a plain stream has no cost in an advise row that names costs"),
        Rule("no-account", "warning", "with --accounts: a stream or tank is in no account"),
        Rule("nearly-full", "warning", "a session is at 80 % of a limit or above"),
        Rule("not-looked-at", "warning", "more is asked for than lint looks at"),
        *(
            Rule(gate.value, "warning", about(gate))
            for gate in (
                Gate.NEGATIVE_FLOW,
                Gate.TANK_JUMP,
                Gate.TANK_RANGE,
                Gate.ZERO,
                Gate.FROZEN,
                Gate.NEGATIVE,
                Gate.COPY,
            )
        ),
        Rule(Gate.ESTIMATED.value, "note", about(Gate.ESTIMATED)),
        Rule("no-owner", "note", "with --accounts: it has no owner, though others have one"),
        Rule("untested", "note", "a report is asked for, and there is no critical value"),
        Rule("no-elimination", "note", "critical values that an elimination needs are missing"),
        Rule("no-transfer", "note", "a batch stream has no transfer in a period: it counts as 0"),
        Rule("unused-dip", "note", "a dip neither ends a period nor is on the eve of one"),
        Rule("not-reported", "note", "a period has facts, but no report is asked for"),
    )
}


@dataclass(frozen=True, slots=True)
class Finding:
    """What looks wrong.

    Attributes
    ----------
    code : str
        One of `RULES`.
    text : str
        What is there, as a sentence without its full stop.
    remedy : str
        What to do about it.
    place : Place
        The file and the line.
    name : str
        The unit, tank or stream, if it is of one.
    period : str
        The period, if it is of one.
    names : tuple of str
        All names that it speaks of, if there are more than one.
    """

    code: str
    text: str
    remedy: str
    place: Place
    name: str = ""
    period: str = ""
    names: tuple[str, ...] = ()

    @property
    def severity(self) -> Severity:
        """``error``, ``warning`` or ``note``."""
        return RULES[self.code].severity

    def __str__(self) -> str:
        where = f"{self.place.file}:{self.place.line}" if self.place.line else self.place.file
        return f"{where}: {self.severity}: {self.text}: {self.remedy} [{self.code}]"

    def as_dict(self) -> dict[str, str | int | None]:
        """Return it as JSON has it."""
        return {
            "code": self.code,
            "severity": self.severity,
            "file": self.place.file,
            "line": self.place.line,
            "period": self.period,
            "name": self.name,
            "text": self.text,
            "remedy": self.remedy,
        }


def span_said(days: Sequence[int]) -> str:
    """Return days in words: one by one, or from the first to the last."""
    texts = [Day(day_text(day)) for day in days]
    if len(days) > 2 and days[-1] - days[0] == len(days) - 1:
        return Sentence("{first} to {last}", first=texts[0], last=texts[-1])
    return some_of(texts)


def some_of(items: Sequence[str], most: int = 4) -> str:
    """Return items with commas between, and how many more there are."""
    if len(items) <= most:
        return Joined(", ", items)
    first, count = Joined(", ", items[: most - 1]), len(items) - most + 1
    return Sentence("{names} and {count} more", names=first, count=count)


def one_line(text: str, most: int = 160) -> str:
    """Return a text without line ends, and not all of it if it is long."""
    line = text.replace("\r", " ").replace("\n", " ")
    if line == text and len(line) <= most:
        return text
    return line if len(line) <= most else f"{line[: most // 2]} .. {line[-most // 2 :]}"


def tonnes_said(grams: int) -> str:
    """Return grams in tonnes, or as they are if they are few."""
    few = 0 < abs(grams) < 1_000_000
    return Figure(f"{grams:,} g" if few else f"{tonnes_text(grams)} t")


def called(fact: Fact) -> str:
    """Return what a fact is called."""
    return Sentence("{kind} {id} of {of}", kind=Sentence(fact.kind), id=fact.id, of=fact.of)


def place_in(ledger: Ledger, line: int | None) -> Place:
    """Return the place of a line of a session."""
    return Place(file=ledger.source, line=line)


def of_facts(
    ledger: Ledger,
    code: str,
    found: Iterable[tuple[Fact, int]],
    say: Callable[[Fact, int], tuple[str, str]],
) -> Iterator[Finding]:
    """Give a finding for each stream or tank: of its first fact, and how many more there are.

    Parameters
    ----------
    ledger : Ledger
        The session.
    code : str
        The code of the rule.
    found : iterable of (Fact, int)
        The facts, each with a number that it is compared with.
    say : callable
        Gives what is said of a fact, and what to do, from the two.
    """
    by_place: dict[tuple[str, str], list[tuple[Fact, int]]] = defaultdict(list)
    for one in found:
        by_place[one[0].kind, one[0].of].append(one)
    for some in by_place.values():
        fact, number = min(some, key=lambda one: one[0].line)
        text, remedy = say(fact, number)
        if len(some) > 1:
            form = "{text}; so it is with {count} more of {of}"
            text = Sentence(form, text=text, count=len(some) - 1, of=fact.of)
        yield Finding(code, text, remedy, place_in(ledger, fact.line), fact.of)
