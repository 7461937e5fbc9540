"""What a report says as a whole, in words."""

from __future__ import annotations

from collections.abc import Sequence
from dataclasses import dataclass, field, replace
from math import log10
from typing import TYPE_CHECKING

from plantbal.diagnosis.rounds import one_of_said
from plantbal.report.blocks import Block
from plantbal.sentence import Figure, Joined, Sentence, counted, phrase

if TYPE_CHECKING:
    from plantbal.page.statement import StreamLine, Worth

# The sign that stands before each level, so that none is known by its colour alone.
SIGNS = {"good": "✓", "plain": "–", "look": "!", "bad": "✗"}
STOPS = {
    "accepted": "the rest is accepted",
    "undecided": "its ends don't decide the global test",
    "nocritical": "there is no critical value for so few degrees of freedom",
    "notest": "nothing is left to test",
    "nosuspect": "no measurement test rejects any more",
    "spent": "as many were taken out as were asked for",
}


@dataclass(frozen=True, slots=True)
class Verdict:
    """What a reader has to know first.

    Attributes
    ----------
    level : str
        ``good``: it can be booked; ``plain``: nothing speaks against it, and nothing was tested;
        ``look``: a person has to look; ``bad``: it isn't to be booked.
    headline : str
        The same in a few words.
    reasons : list of str
        Why, in sentences.
    """

    level: str
    headline: str
    reasons: list[str] = field(default_factory=list)

    @property
    def sign(self) -> str:
        """The sign of its level."""
        return SIGNS[self.level]

    def but(self, what: str, more: Sequence[str]) -> Verdict:
        """Return it with something that needs a look: in a few words, and in sentences."""
        if self.level not in ("good", "plain"):
            return replace(self, reasons=[*self.reasons, *more])
        form = "{headline}, but {what}" if self.level == "good" else "{headline}, and {what}"
        headline = Sentence(form, headline=phrase(self.headline), what=what)
        return Verdict("look", headline, [*self.reasons, *more])


@dataclass(frozen=True, slots=True)
class Lost:
    """The rows that were refused before a report.

    Attributes
    ----------
    lacking : int
        How many may be missing in it.
    passed : int
        How many are there already, or touch a closed period: nothing of the plant is missing
        because of them.
    """

    lacking: int = 0
    passed: int = 0

    def plus(self, word: str) -> Lost:
        """Return it with one more refused row."""
        if word in ("duplicate", "closed"):
            return replace(self, passed=self.passed + 1)
        return replace(self, lacking=self.lacking + 1)

    @property
    def reasons(self) -> list[str]:
        """The same in sentences."""
        said: list[str] = []
        if self.lacking:
            one = (
                "1 row was refused before this report, which was made without it: correct it first."
            )
            many = (
                "{count:,} rows were refused before this report, which was made without them: "
                "correct them first."
            )
            said.append(counted(self.lacking, one, many))
        if self.passed:
            one = "1 row was refused as already there, or as touching a closed period."
            many = "{count:,} rows were refused as already there, or as touching a closed period."
            said.append(counted(self.passed, one, many))
        return said


def thousandths(text: str) -> str:
    """Return thousandths as a decimal number."""
    return Figure(f"{int(text) / 1000:,.3f}") if text else ""


def plus_minus(worth: Worth | None) -> str:
    """Return a standard deviation in tonnes, by three digits that say something."""
    if worth is None:
        return ""
    size = worth.deviation / 1e6
    places = 3 if size < 1e-9 else min(3, max(0, 2 - int(log10(size) // 1)))
    return Figure(f"{size:,.{places}f}")


def names_of(names: Sequence[str], most: int = 5) -> str:
    """Return names as a text, such as ``A, B and C``."""
    shown = Joined(", ", names[:most])
    if len(names) > most:
        return Sentence("{names} and {count} more", names=shown, count=len(names) - most)
    if len(names) == 1:
        return names[0]
    return Sentence("{names} and {last}", names=Joined(", ", names[:-1]), last=names[-1])


def count_of(number: int, one: str, many: str) -> str:
    """Return a number with its noun."""
    return f"1 {one}" if number == 1 else f"{number:,} {many}"


# How many names of a set of equals a headline has, and a sentence.
MOST_IN_HEADLINE, MOST_IN_SENTENCE = 4, 12
# A set of equals: measurements of which no readings can tell which is wrong.
Set = Sequence[str]


def verdict_of(
    block: Block,
    lost: Lost,
    suspects: Sequence[Set],
    lines: Sequence[StreamLine],
    taken: Sequence[Set] = (),
    stop: str = "",
) -> Verdict:
    """Return what is said of a round.

    Parameters
    ----------
    block : Block
        The round.
    lost : Lost
        The rows that were refused before it.
    suspects : sequence of sets of equals
        The streams whose test rejects, if that counts.
    lines : sequence of StreamLine
        Its streams.
    taken : sequence of sets of equals
        Those that were taken out before, each with those that might as well have been.
    stop : str
        Why the elimination ended after it.
    """
    if not block.ended or block.solved is None:
        return Verdict(
            "bad",
            phrase("The report is cut off"),
            [phrase("Its last rows are missing: run the session again.")],
        )
    level, headline = _headline(block, lost.lacking, suspects, taken)
    reasons = lost.reasons
    if block.solved["state"] != "converged":
        reasons.append(
            Sentence(
                "The arithmetic didn't converge in {sweeps} sweeps: the bounds are wider than asked "
                "for. Allow more sweeps, or use plantbal-desk solve.",
                sweeps=block.solved["k"],
            )
        )
    if block.taken:
        one, many = (
            ("The grade of {names} was taken out", "The grade of {names} were taken out")
            if block.component
            else ("The meter of {names} was taken out", "The meter of {names} were taken out")
        )
        out = counted(len(block.taken), one, many, names=names_of(_taken(block, taken)))
        ended = (
            Sentence("{out}: {why}.", out=out, why=Sentence(STOPS[stop])) if stop in STOPS else ""
        )
        reasons.append(ended or Sentence("{out}.", out=out))
        reasons += _equals_of_taken(block, taken)
    reasons.append(_tests(block))
    if block.whole is not None and block.whole["verdict"] == "reject":
        reasons.append(_suspects(block, lost.lacking, suspects))
    reasons += _of_lines(lines)
    return Verdict(level, headline, reasons)


def whither(block: Block, mass: Block | None = None) -> list[str]:
    """Return where a component went, or that what came in isn't known, as a sentence.

    Parameters
    ----------
    block : Block
        A round of its balance.
    mass : Block, optional
        The round of the report whose flows it takes, with the errors of the meters.
    """
    from plantbal.study.recovery import ComponentBalance

    balance = ComponentBalance(block, mass=mass)
    if balance.unknown:
        return [
            Sentence(
                "No recovery: nothing determines what came in by {unknown}.",
                unknown=names_of(balance.unknown),
            )
        ]
    leaving = [each for each in balance.shares() if each.way != "in"]
    known = [each for each in leaving if each.share == each.share]
    parts: list[str] = [
        Sentence(
            "{share:.2f} % ± {share_sd:.2f} % went into {stream}",
            share=100 * each.share,
            share_sd=100 * each.share_sd,
            stream=each.stream,
        )
        for each in sorted(known, key=lambda each: -each.share)
    ]
    return (
        [
            Sentence(
                "Of the {component} that came in, {parts}.",
                component=block.component,
                parts=names_of(parts),
            )
        ]
        if parts
        else []
    )


def _of_lines(lines: Sequence[StreamLine]) -> list[str]:
    """Return the greatest adjustment, and which streams have no figure, as sentences."""
    said: list[str] = []
    moved = {line.name: line.deviations for line in lines if line.deviations}
    if moved:
        name = max(moved, key=lambda each: abs(moved[each] or 0))
        said.append(
            Sentence(
                "The greatest adjustment is that of {name}: {moved:+,.2f} standard deviations.",
                name=name,
                moved=moved[name],
            )
        )
    without = [line.name for line in lines if line.flow is None]
    if without:
        one = "{names} has no figure to book: nothing determines it."
        many = "{names} have no figure to book: nothing determines them."
        said.append(counted(len(without), one, many, names=names_of(without)))
    return said


def _headline(
    block: Block, lacking: int, suspects: Sequence[Set], taken: Sequence[Set]
) -> tuple[str, str]:
    """Return the level and the headline of a round that isn't cut off."""
    assert block.solved is not None
    verdict = block.whole["verdict"] if block.whole else ""
    if block.solved["state"] != "converged":
        return "bad", phrase("Not converged: not to be booked")
    if lacking:
        one, many = "1 row refused: not to be booked", "{count:,} rows refused: not to be booked"
        return "bad", counted(lacking, one, many)
    if verdict == "reject":
        if suspects:
            names = one_of_said(suspects[0], block, MOST_IN_HEADLINE)
            return "look", Sentence("Look at {names}", names=names)
        if block.component:
            return "look", phrase("Rejected: look at the grades")
        return "look", phrase("Rejected: look at the meters")
    if verdict == "accept" and block.taken:
        return "look", Sentence("Accepted without {names}", names=names_of(_taken(block, taken)))
    if verdict == "accept":
        return "good", phrase("Accepted")
    if verdict == "undecided":
        return "look", phrase("The global test is undecided")
    return "plain", phrase("Not tested")


def _taken(block: Block, taken: Sequence[Set]) -> list[str]:
    """Return what was taken out: of a set of equals that it was one of them."""
    sets = taken or [(name,) for name in block.taken]
    some = (one_of_said(names, block, MOST_IN_HEADLINE) for names in sets)
    return [
        Sentence("one of {names}", names=text) if len(names) > 1 else text
        for names, text in zip(sets, some)
    ]


def _equals_of_taken(block: Block, taken: Sequence[Set]) -> list[str]:
    """Return that it isn't known of sets of equals which one is wrong, as a sentence each."""
    return [
        Sentence(
            "That it was {name} isn't a finding: these readings can't tell which of {names} is "
            "off.",
            name=block.shown(name),
            names=one_of_said(names, block, MOST_IN_SENTENCE),
        )
        for name, names in zip(block.taken, taken)
        if len(names) > 1
    ]


def _tests(block: Block) -> str:
    """Return what the global test says, as a sentence."""
    assert block.solved is not None
    solved = block.solved
    low, high = thousandths(solved["low"]), thousandths(solved["high"])
    dof = int(solved["dof"])
    words: dict[str, object] = {
        "between": (
            Sentence("between {low} and {high}", low=low, high=high)
            if high
            else Sentence("at least {low}", low=low)
        ),
        "degrees": counted(dof, "1 degree of freedom", "{count:,} degrees of freedom"),
    }
    if block.whole is None:
        return Sentence(
            "No tests were made (run with --tests). The statistic is {between} at {degrees}; with "
            "true variances it is {dof} on average.",
            dof=dof,
            **words,
        )
    words["critical"] = thousandths(block.whole["critical"])
    meters, grades = _SAID_OF_TEST[block.whole["verdict"]]
    return Sentence(grades if block.component else meters, **words)


# What is said of a global test, of meters and of grades, by its verdict.
_SAID_OF_TEST = {
    "accept": (
        "The meters fit together: the statistic is {between} at {degrees}, and up to {critical} is "
        "accepted.",
        "The grades fit together: the statistic is {between} at {degrees}, and up to {critical} is "
        "accepted.",
    ),
    "reject": (
        "No balanced flows fit these meters: the statistic is {between} at {degrees}, and up to "
        "{critical} is accepted.",
        "No balanced flows fit these grades: the statistic is {between} at {degrees}, and up to "
        "{critical} is accepted.",
    ),
    "undecided": (
        "The statistic is {between}, and {critical} lies between: ask for a smaller gap.",
        "The statistic is {between}, and {critical} lies between: ask for a smaller gap.",
    ),
    "nocritical": (
        "There is no critical value for {degrees}, so nothing is accepted or rejected. The "
        "statistic is {between}.",
        "There is no critical value for {degrees}, so nothing is accepted or rejected. The "
        "statistic is {between}.",
    ),
    "notest": (
        "No meter is checked by another: there is nothing to test.",
        "No grade is checked by another: there is nothing to test.",
    ),
}


def _suspects(block: Block, lacking: int, suspects: Sequence[Set]) -> str:
    """Return which meters a test that rejects points at."""
    if lacking:
        return "Which meter is off can't be said while rows of the plant are missing."
    if not suspects:
        if block.component:
            return (
                "No single grade explains it: several may be off, or a stream or a ticket may be "
                "missing."
            )
        return "No single meter explains it: several may be off, or a stream or a ticket may be missing."
    low = {row["stream"]: thousandths(row["low"]) for row in block.measure}
    critical = {row["stream"]: thousandths(row["critical"]) for row in block.measure}
    first = suspects[0]
    tested = next(name for name in first if name in low)
    names = one_of_said(first, block, MOST_IN_SENTENCE)
    one = (
        "The first to look at is {names}: without its measurement the statistic falls by at least "
        "{low}, where {critical} is critical."
    )
    many = (
        "The first to look at is {names} (these readings can't tell which): without the measurement "
        "of any one of them the statistic falls by at least {low}, where {critical} is critical."
    )
    words = {"names": names, "low": low[tested], "critical": critical[tested]}
    said = counted(len(first), one, many, **words)
    more = sum(len(names) for names in suspects[1:])
    if not more:
        return said
    one, many = (
        (
            "The tests of 1 other grade reject as well.",
            "The tests of {count} other grades reject as well.",
        )
        if block.component
        else (
            "The tests of 1 other meter reject as well.",
            "The tests of {count} other meters reject as well.",
        )
    )
    return Joined(" ", (said, counted(more, one, many)))
