"""The kind of a stream of which a workbook writes none: by what it has.

A stream with tickets is a batch, one with readings is metered, and one with neither is metered if
it has a tag and plain otherwise. One with tickets and with readings could be either.
"""

from __future__ import annotations

from collections.abc import Iterable
from dataclasses import dataclass, field
from itertools import islice

from plantbal.sentence import Sentence
from plantbal.workbook.shapeparts import HEADS_WITHIN, split_head
from plantbal.workbook.sheets import Sheet

_SAID = 3  # streams that a note names


@dataclass
class KindEvidence:
    """What the facts of a workbook say of the kinds of streams.

    Attributes
    ----------
    tickets, readings : set of str
        The streams and tags that have tickets, and the texts of the sheets of readings.
    batches, metered : list of str
        The streams that were taken for such without a tag.
    """

    tickets: set[str] = field(default_factory=set)
    readings: set[str] = field(default_factory=set)
    batches: list[str] = field(default_factory=list)
    metered: list[str] = field(default_factory=list)

    def kind(self, name: str, tag: str) -> str | None:
        """Return the kind of a stream; None if it has tickets and readings."""
        names = {name, tag} - {""}
        if names & self.tickets and names & self.readings:
            return None
        if names & self.tickets:
            self.batches.append(name)
            return "batch"
        if names & self.readings and not tag:
            self.metered.append(name)
        return "metered" if tag or names & self.readings else "plain"

    def notes(self) -> list[str]:
        """Return what was taken for a batch, and for metered without a tag."""
        return [
            _taken(names, one if len(names) == 1 else several)
            for names, one, several in (
                (
                    self.batches,
                    "streams: {names} is taken for batch, since no kind is written, and there are "
                    "tickets",
                    "streams: {names} are taken for batch, since no kind is written, and there are "
                    "tickets",
                ),
                (
                    self.metered,
                    "streams: {names} is taken for metered, since no kind is written, and there "
                    "are readings",
                    "streams: {names} are taken for metered, since no kind is written, and there "
                    "are readings",
                ),
            )
            if names
        ]


def evidence_of(tickets: Iterable[Sheet], readings: Iterable[Sheet]) -> KindEvidence:
    """Return what the sheets of tickets and of readings say."""
    found = KindEvidence()
    for sheet in tickets:
        found.tickets |= _streams_in(sheet)
    for sheet in readings:
        for _, values in sheet.lines:
            found.readings.update(value for value in values if isinstance(value, str))
    return found


def _streams_in(sheet: Sheet) -> set[str]:
    """Return the texts of the columns `stream` of a sheet."""
    for cells in islice(sheet.rows(), HEADS_WITHIN):
        columns = [at for at, cell in enumerate(cells) if split_head(cell)[0] == "stream"]
        if columns:
            cut = [values[at] for _, values in sheet.lines for at in columns if at < len(values)]
            return {value for value in cut if isinstance(value, str)}
    return set()


def _taken(names: list[str], form: str) -> Sentence:
    """Return what was taken for what."""
    first = ", ".join(names[:_SAID])
    if len(names) <= _SAID:
        return Sentence(form, names=first)
    more = Sentence("{names} and {count:,} more", names=first, count=len(names) - _SAID)
    return Sentence(form, names=more)
