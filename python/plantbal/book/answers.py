"""Reasons that a book keeps: for a close although something was to be looked at, and for quiet.

A close that needed reasons has the gates in its line of the journal, in the cell `what`, and a
reason for each in the cell `why`, in the same order. A rule that is quieted for some names has a
line of its own, and so has the end of that. So both are in the chain of digests, with who and when.
"""

from __future__ import annotations

from collections.abc import Iterable, Mapping, Sequence
from dataclasses import dataclass, field

from plantbal.book.journal import Act, JournalLine
from plantbal.book.remedies import BookRemedy
from plantbal.faults import Fault
from plantbal.gates import Gate, Stop, about, said_of_stop
from plantbal.lint.findings import RULES, Finding
from plantbal.sentence import Joined, Phrase, Sentence

# The word before the gates of a close, and what stands between their reasons.
ANYWAY = "anyway"
BETWEEN = " | "
# How many stops are said in the sentence that something isn't done.
_MOST = 3


@dataclass(frozen=True)
class Answered:
    """How a period was closed although something was to be looked at.

    Attributes
    ----------
    reasons : mapping of Gate to str
        A reason for each gate.
    who, when : str
        Who closed it, and when.
    """

    reasons: Mapping[Gate, str] = field(default_factory=dict)
    who: str = ""
    when: str = ""


def reasons_of(texts: Iterable[str]) -> dict[Gate, str]:
    """Return the reasons that a command was given, such as ``missing=FI-302 is in the shop``.

    Raises
    ------
    Fault
        If a text isn't a gate and a reason.
    """
    found = {}
    for text in texts:
        word, _, reason = (part.strip() for part in text.partition("="))
        if word not in list(Gate):
            words = ", ".join(gate.value for gate in Gate)
            remedy = Sentence("write GATE=REASON; the gates are {words}", words=words)
            raise Fault(Sentence("{word!r} isn't a gate", word=word), text=text, remedy=remedy)
        found[Gate(word)] = checked_reason(reason)
    return found


def checked_reason(reason: str) -> str:
    """Return a reason.

    Raises
    ------
    Fault
        If there is none, or it has the mark that stands between reasons.
    """
    if not reason.strip():
        raise Fault("there is no reason", remedy="say why, in a few words")
    if BETWEEN.strip() in reason:
        what = Sentence("{reason!r} has a {mark}", reason=reason, mark=BETWEEN.strip())
        raise Fault(what, remedy="write it without that")
    return reason.strip()


def reason_cells(reasons: Mapping[Gate, str]) -> tuple[str, str]:
    """Return the cells `what` and `why` of a close with these reasons."""
    if not reasons:
        return "", ""
    return " ".join((ANYWAY, *reasons)), BETWEEN.join(reasons.values())


def overruled_gates(line: JournalLine) -> list[Gate]:
    """Return the gates in spite of which a period was closed, or what it hands over was posted.

    What was posted has its id before them.
    """
    before = {Act.CLOSE: 0, Act.POSTED: 1}.get(line.act)
    words = line.what.split()[before:] if before is not None else []
    return [Gate(w) for w in words[1:] if w in list(Gate)] if words[:1] == [ANYWAY] else []


def answered(journal: Iterable[JournalLine], period: str) -> Answered:
    """Return how a period was closed."""
    found = Answered()
    for line in journal:
        gates = overruled_gates(line)
        if gates and line.act is Act.CLOSE and line.of == period:
            reasons = dict(zip(gates, line.why.split(BETWEEN)))
            found = Answered(reasons, line.who or line.user, line.when)
    return found


def stopped_said(stops: Sequence[Stop], unanswered: Sequence[Gate]) -> tuple[str, str]:
    """Return what stops an action for which some gates have no reason, and the words that give one."""
    mine = [stop for stop in stops if stop.gate in unanswered]
    why = [said_of_stop(stop) for stop in mine[:_MOST]]
    if len(mine) > _MOST:
        why.append(Sentence("{count:,} more", count=len(mine) - _MOST))
    return Joined("; ", why), " ".join(f"--anyway '{gate}=REASON'" for gate in unanswered)


# ---- quiet


@dataclass(frozen=True)
class Quiet:
    """A rule that is quieted for good, for some names.

    Attributes
    ----------
    code : str
        The rule, as lint has it.
    names : tuple of str
        The streams, tanks or units that it speaks of.
    why, who, when : str
        The reason, who gave it, and when.
    """

    code: str
    names: tuple[str, ...]
    why: str
    who: str
    when: str

    def takes(self, code: str, names: Sequence[str]) -> bool:
        """Say whether it quiets a finding: one of this rule that speaks of no other name."""
        return code == self.code and bool(names) and set(names) <= set(self.names)


def quieted(journal: Iterable[JournalLine]) -> list[Quiet]:
    """Return which rules are quieted, in the order in which that was done."""
    found: dict[tuple[str, frozenset[str]], Quiet] = {}
    for line in journal:
        names = tuple(line.what.split())
        key = line.of, frozenset(names)
        if line.act is Act.QUIET:
            found[key] = Quiet(line.of, names, line.why, line.who or line.user, line.when)
        elif line.act is Act.HEED:
            found.pop(key, None)
    return list(found.values())


def checked_rule(code: str, names: Sequence[str]) -> None:
    """Raise unless a rule can be quieted for some names.

    Raises
    ------
    Fault
        If there is no such rule, it is an error, or it speaks of a month and not of names.
    """
    if code not in RULES or RULES[code].severity == "error":
        words = ", ".join(code for code, rule in RULES.items() if rule.severity != "error")
        what = Sentence("{code!r} isn't a rule that can be quieted", code=code)
        raise Fault(what, text=code, remedy=Sentence("use one of {words}", words=words))
    if code in list(Gate) and not Gate(code).is_of_names:
        what = Sentence(
            "{code}: {about} is of a single month", code=code, about=Phrase(about(Gate(code)))
        )
        raise Fault(what, text=code, remedy=BookRemedy.ANSWER_AT_CLOSE(gate=code).sentence)
    if not names:
        remedy = "name the streams, tanks or units for which it is quieted"
        what = Sentence("{code} can be quieted only for names", code=code)
        raise Fault(what, text=code, remedy=remedy)


def without_quiet(
    findings: Iterable[Finding], quiets: Sequence[Quiet]
) -> tuple[list[Finding], list[Finding]]:
    """Return the findings that aren't quieted, and those that are."""
    kept: list[Finding] = []
    quiet: list[Finding] = []
    for each in findings:
        names = each.names or ((each.name,) if each.name else ())
        some = quiet if any(one.takes(each.code, names) for one in quiets) else kept
        some.append(each)
    return kept, quiet
