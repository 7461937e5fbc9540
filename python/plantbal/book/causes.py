"""Which facts a report has that another of the same period hadn't: who booked them, when, why.

A report saw the rows up to some number. The facts that the rows between two of these numbers book,
amend or strike are where the reports differ; the journal says whose action each row is.
"""

from __future__ import annotations

from collections.abc import Iterator, Mapping, Sequence
from dataclasses import dataclass, replace

from plantbal.accounts.month import Month
from plantbal.accounts.posting import FLOW, PostingChange, moved_said
from plantbal.accounts.entries import AccountLine
from plantbal.accounts.spread import Slopes, Spread, Sum
from plantbal.amounts import tonnes_of, tonnes_text
from plantbal.book.accounting import ReportVersion
from plantbal.book.forms import year_file
from plantbal.book.ledger import BookFact
from plantbal.book.store import Store
from plantbal.model.ledger import Ledger
from plantbal.model.facts import Fact as Booked
from plantbal.sentence import Joined, Moment, Sentence, phrase

_LEAST = 0.01  # of what a change owes to facts: those with less aren't named
_MOST = 3  # facts that are named
_WORDS = {"late": "late", "amend": "amended", "strike": "struck"}


@dataclass(frozen=True)
class DifferingFact:
    """A fact that one report has otherwise than another.

    Attributes
    ----------
    id, of : str
        The fact and its stream or tank.
    word : str
        `booked`, `late`, `amended` or `struck`.
    said : str
        What it was and is.
    who, when, why : str
        Who did it, when, and the reason.
    """

    id: str
    of: str
    word: str
    said: str
    who: str
    when: str
    why: str

    @property
    def sentence(self) -> str:
        """It in a sentence: which fact, what became of it, when, by whom and why."""
        words = {"id": self.id, "of": self.of, "word": phrase(self.word), "said": self.said}
        form = "{id} ({of}) {word}, {said}, {when} by {who}"
        told = Sentence(form, when=Moment(self.when), who=self.who, **words)
        return Sentence("{told}: {why}", told=told, why=str(self.why)) if self.why else told

    def __str__(self) -> str:
        return str(self.sentence)


def causes_of(
    book: Store, before: ReportVersion | None, after: ReportVersion
) -> list[DifferingFact]:
    """Return the facts that a report has otherwise than one before it."""
    name = year_file(after.year)
    first = before.seen if before is not None and before.year == after.year else 0
    text = book.text(name)
    ledger = Ledger(str(book.path(name)), text.encode("utf-8"))
    period = ledger.periods[after.period]
    actions = _actions(book, after.year)
    found = []
    for edit in ledger.edits_of(after.period):
        fact = edit.fact
        if fact is None or not first < edit.at.line <= after.seen:
            continue
        some = [_said(each) for each in (edit.before, edit.after) if each]
        said = some[0] if some else ""
        if len(some) > 1:
            said = Sentence("{was} becomes {now}", was=some[0], now=some[1])
        who, when, why = actions.get(edit.at.line, ("", "", ""))
        word = _WORDS[edit.word]
        found.append(DifferingFact(fact.id, fact.of, word, said, who, when, edit.reason or why))
    late = {cause.id for cause in found if cause.word == "late"}
    every = list(ledger.state.facts) if first else []
    for each in every:
        if not first < each.booked <= after.seen or each.id in late:
            continue
        if period in ledger.state.periods_of(each):
            who, when, why = actions.get(each.booked, ("", "", ""))
            found.append(DifferingFact(each.id, each.of, "booked", _said(each), who, when, why))
    return found


def _said(fact: Booked) -> str:
    return BookFact.booked(fact).said()


def _actions(book: Store, year: str) -> Mapping[int, tuple[str, str, str]]:
    """Return who added each row of a year, when, and why."""
    found = {}
    for line in book.journal():
        for number in line.added.get(year, ()):
            found[number] = line.who or line.user, line.when, line.why
    return found


def with_causes(
    changes: Sequence[PostingChange],
    causes: Sequence[DifferingFact],
    before: Month | None,
    after: Month,
) -> list[PostingChange]:
    """Return changes with the facts that caused each.

    What a fact changes of a flow is what it changes of the reading of its stream, times how the
    flow answers to that. The facts of the streams to which a flow owes most are named.

    Parameters
    ----------
    changes : sequence of PostingChange
        The changes.
    causes : sequence of DifferingFact
        The facts that are otherwise.
    before, after : Month
        The month by the first and by the second report.
    """
    by_stream: dict[str, list[DifferingFact]] = {}
    for cause in causes:
        by_stream.setdefault(cause.of, []).append(cause)
    moved = _moved(by_stream, before, after)
    names = [change.item.name for change in changes]
    spread = Spread(after)
    known = [name in after.flows or name in after.gains for name in names]
    sums = [Sum(flows={name: 1} if there else {}) for name, there in zip(names, known)]
    slopes = spread.slopes(sums)
    return [
        replace(change, cause=_cause(change, by_stream, moved, slope, after.name))
        for change, slope in zip(changes, slopes)
    ]


def _moved(
    by_stream: Mapping[str, Sequence[DifferingFact]], before: Month | None, after: Month
) -> dict[str, int | None]:
    """Return by how much the reading of each stream with a fact has changed; None if it is new."""
    found: dict[str, int | None] = {}
    for name in by_stream:
        pair = [
            month.flows.get(name) or month.gains.get(name) if month is not None else None
            for month in (before, after)
        ]
        values = [each.value if each is not None else None for each in pair]
        one, other = values
        found[name] = other - one if one is not None and other is not None else None
    return found


def _cause(
    change: PostingChange,
    by_stream: Mapping[str, Sequence[DifferingFact]],
    moved: Mapping[str, int | None],
    slopes: Slopes | None,
    period: str,
) -> str:
    """Return the facts that caused a change, in words."""
    item = change.item
    if item.what == AccountLine.OPENING.value:
        return phrase("the month before is booked differently")
    if item.what != FLOW and item.name not in by_stream:
        if item.what == AccountLine.ADJUSTMENT.value:
            return phrase("the month before is booked differently")
    weight = {}
    for name, grams in moved.items():
        slope = (slopes or {}).get((period, name))
        known = grams is not None and slope is not None
        weight[name] = abs(slope * grams) if known and slope and grams else 0.0 if known else 1e30
    total = sum(weight.values())
    named = [
        name
        for name in sorted(weight, key=lambda name: (-weight[name], name))
        if weight[name] > _LEAST * total
    ]
    facts = [cause for name in named for cause in by_stream[name]]
    if not facts:
        if not by_stream:
            return phrase("the accounts' sheet, or the options of the run")
        return phrase("other facts")
    return Joined("; ", _some(facts))


def _some(facts: Sequence[DifferingFact]) -> Iterator[str]:
    for cause in facts[:_MOST]:
        yield cause.sentence
    if len(facts) > _MOST:
        yield Sentence("and {count:,} more", count=len(facts) - _MOST)


def change_row(change: PostingChange, plain: bool = False) -> tuple[str, ...]:
    """Return a change as a row of texts, in tonnes.

    Parameters
    ----------
    change : PostingChange
        The change.
    plain : bool
        Whether the figures are to be read by a program, without commas and signs.
    """
    item = change.item
    account = moved_said(item)
    grams = (change.before, change.after, change.grams)
    if plain:
        figures = tuple(f"{tonnes_of(each):f}" for each in grams)
    else:
        sign = "+" if change.grams > 0 else ""
        texts = [tonnes_text(each, 6) for each in grams]
        figures = texts[0], texts[1], f"{sign}{texts[2]}"
    return (item.name, account, item.product, *figures, change.cause)
