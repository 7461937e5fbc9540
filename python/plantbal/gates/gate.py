"""What has to be looked at before a period is closed, as data: which gate stops it, and by what.

A gate is a kind of reason, a `Stop` one reason with the names and figures that it speaks of. What
decides looks at these alone; the sentences are made by `plantbal.gates.words`.
"""

from __future__ import annotations

from collections.abc import Iterable, Mapping
from dataclasses import dataclass, field
from enum import StrEnum

# What a gate compared, by names of its own: grams, counts, levels in millimetres.
Values = Mapping[str, int]


class Gate(StrEnum):
    """Why somebody has to look before a period is closed; the value is the word that is typed."""

    NO_REPORT = "no-report"
    UNCONVERGED = "unconverged"
    REJECTED = "rejected"
    UNDECIDED = "undecided"
    UNTESTED = "untested"
    MISSING = "missing"
    UNASSAYED = "unassayed"
    IMPOSSIBLE = "impossible"
    NEGATIVE_FLOW = "negative-flow"
    TANK_JUMP = "tank-jump"
    TANK_RANGE = "tank-range"
    ZERO = "zero"
    FROZEN = "frozen"
    NEGATIVE = "negative"
    COPY = "copy"
    ESTIMATED = "estimated"

    @property
    def is_of_names(self) -> bool:
        """Whether it speaks of streams or tanks that it may rightly be quieted for, for good."""
        return self in _OF_NAMES

    @property
    def is_of_facts(self) -> bool:
        """Whether a report says nothing of it: the facts alone show it."""
        return self in _OF_NAMES - {Gate.NEGATIVE_FLOW} or self is Gate.ESTIMATED


_OF_NAMES = frozenset(
    {
        Gate.NEGATIVE_FLOW,
        Gate.TANK_JUMP,
        Gate.TANK_RANGE,
        Gate.ZERO,
        Gate.FROZEN,
        Gate.NEGATIVE,
        Gate.COPY,
    }
)


@dataclass(frozen=True, slots=True)
class Stop:
    """A reason to look before a period is closed.

    Attributes
    ----------
    gate : Gate
        Which kind of reason it is.
    period : str
        The period.
    names : tuple of str
        The streams or tanks that it speaks of.
    days : tuple of int
        The days that it speaks of, as numbers of `datetime.date.toordinal`.
    values : Values
        The figures that it speaks of.
    subject : str
        What is said of it, if that was made elsewhere: a balance, a sentence of one.
    line : int
        The line of the first row that it speaks of; 0 if there is none.
    """

    gate: Gate
    period: str
    names: tuple[str, ...] = ()
    days: tuple[int, ...] = ()
    values: Values = field(default_factory=dict)
    subject: str = ""
    line: int = 0

    @property
    def of(self) -> tuple[str, ...]:
        """The streams or tanks that it is of: not the ends of one."""
        return self.names[:1] if self.gate is Gate.NEGATIVE_FLOW else self.names


def unsaid(stops: Iterable[Stop], *, missing: bool = False) -> list[Stop]:
    """Return what a report doesn't say, and, if wanted, which days are missing."""
    return [
        stop for stop in stops if stop.gate.is_of_facts or (missing and stop.gate is Gate.MISSING)
    ]
