"""A period as its report has it: the flows to book, and what tanks held by their dips."""

from __future__ import annotations

import datetime
from collections.abc import Mapping
from dataclasses import dataclass, field
from enum import StrEnum

from plantbal.model.ledger import Ledger, Seen
from plantbal.report.blocks import Block, Values

_DAY = datetime.date.fromordinal


class Basis(StrEnum):
    """What a figure rests on.

    The order is that of how directly: a total is what its least direct part is.
    """

    MEASURED = "measured"
    RECONCILED = "reconciled"
    REST = "the rest"
    UNKNOWN = "unknown"

    @classmethod
    def of(cls, row: Values) -> Basis:
        """Return the basis of a stream's row in a report."""
        if row["class"] == "unobservable":
            return cls.UNKNOWN
        if not row["value"]:
            return cls.REST
        return cls.MEASURED if row["class"] == "nonredundant" else cls.RECONCILED

    @classmethod
    def least(cls, some: set[Basis]) -> Basis:
        """Return the least direct of some; of none it is measured, as what is known for certain."""
        return max(some, key=list(cls).index, default=cls.MEASURED)


@dataclass(frozen=True, slots=True)
class MonthFlow:
    """A stream in a period.

    Attributes
    ----------
    name, start, end : str
        The stream and its ends; the world outside is ``env``.
    grams : int
        Its flow to book. One that nothing determines is one of many balanced choices.
    value : int or None
        What was measured.
    basis : Basis
        What the flow rests on.
    """

    name: str
    start: str
    end: str
    grams: int
    value: int | None = None
    basis: Basis = Basis.RECONCILED


@dataclass(frozen=True, slots=True)
class Gain:
    """A tank in a period: what it held as the period began, and what it gained.

    Attributes
    ----------
    tank : str
        The tank.
    grams : int
        What it gained, by the flows to book.
    opening, closing : int or None
        What it held by its dips at the beginning and at the end; None without one.
    value : int or None
        What the dips say that it gained.
    opening_variance, closing_variance : int
        The variances of these dips in squared grams.
    opening_day, closing_day : int
        Their days, by number.
    begins : bool
        Whether it comes into service after the period's first day.
    basis : Basis
        What the gain rests on.
    """

    tank: str
    grams: int
    opening: int | None = None
    closing: int | None = None
    value: int | None = None
    opening_variance: int = 0
    closing_variance: int = 0
    opening_day: int = 0
    closing_day: int = 0
    begins: bool = False
    basis: Basis = Basis.RECONCILED


@dataclass(frozen=True)
class Month:
    """A period.

    Attributes
    ----------
    name : str
        The period.
    first, last : date
        Its days.
    flows : dict of str to MonthFlow
        Its streams.
    gains : dict of str to Gain
        Its tanks.
    block : Block or None
        The round of its report that counts, from which the ± come.
    is_closed : bool
        Whether it is closed.
    """

    name: str
    first: datetime.date
    last: datetime.date
    flows: Mapping[str, MonthFlow]
    gains: Mapping[str, Gain] = field(default_factory=dict)
    block: Block | None = None
    is_closed: bool = False

    @classmethod
    def of(cls, block: Block, ledger: Ledger, seen: Seen) -> Month:
        """Return a period of its report.

        Parameters
        ----------
        block : Block
            The round of the report that counts.
        ledger : Ledger
            The session.
        seen : Seen
            The row that asked for the report, and what it saw.
        """
        flows, gains = {}, {}
        for row in block.streams:
            if row["from"] == row["name"]:
                gains[row["name"]] = _gain(row, ledger, seen)
            else:
                value = int(row["value"]) if row["value"] else None
                ends = row["from"], row["to"]
                flow = MonthFlow(row["name"], *ends, int(row["flow"]), value, Basis.of(row))
                flows[flow.name] = flow
        period = seen.period
        days = _DAY(period.first), _DAY(period.last)
        return cls(period.name, *days, flows, gains, block, period.name in ledger.closed)


def _gain(row: Values, ledger: Ledger, seen: Seen) -> Gain:
    """Return a tank of its row."""
    tank = row["name"]
    opening, closing = seen.view.dips[tank]
    stream = ledger.streams[tank]
    days = stream.ends_of(seen.period)
    return Gain(
        tank,
        int(row["flow"]),
        ledger.state.content(opening) if opening else None,
        ledger.state.content(closing) if closing else None,
        int(row["value"]) if row["value"] else None,
        opening.variance if opening else 0,
        closing.variance if closing else 0,
        *days,
        stream.days_in(seen.period).start > seen.period.first,
        Basis.of(row),
    )
