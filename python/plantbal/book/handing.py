"""What a book hands over of a period: its flows, its stock, and what was posted, with an id.

The id is a digest of the figures and of the journal's lines that made them. So the same state of a
period has the same id whenever it is asked for, and a report that is made again has another one,
even if it says what an earlier one said.
"""

from __future__ import annotations

import datetime
import hashlib
import json
from collections.abc import Iterator
from dataclasses import astuple, dataclass

from plantbal.accounts.account import MonthAccount
from plantbal.accounts.posting import Posted
from plantbal.book.accounting import rolled_of
from plantbal.book.difference import last_posted
from plantbal.book.overview import report_state
from plantbal.book.posting import check_answered
from plantbal.book.remedies import BookRemedy
from plantbal.book.results import ReportState
from plantbal.book.store import Act, Store
from plantbal.book.years import Years
from plantbal.faults import Fault
from plantbal.model.periods import Period
from plantbal.sentence import Sentence

_MADE = (Act.REPORT, Act.CLOSE, Act.POSTED)


@dataclass(frozen=True)
class HandedFigure:
    """A figure that is handed over.

    Attributes
    ----------
    kind : str
        ``flow``, ``stock`` or ``posting``.
    name : str
        The stream or tank.
    what : str
        Of a stock ``opening``, ``adjustment``, ``gain`` or ``closing``; of a posting what it is of.
    source, target : str
        Of a flow its ends, of a posting its accounts.
    product, group : str
        Of a posting.
    grams : int
        How much.
    measured : int or None
        Of a flow what was measured.
    """

    kind: str
    name: str
    what: str
    source: str
    target: str
    product: str
    group: str
    grams: int
    measured: int | None = None


@dataclass(frozen=True)
class Handed:
    """What is handed over of a period.

    Attributes
    ----------
    id : str
        The id of this state of it.
    period : str
        The period.
    first, last : date
        Its days.
    closed : bool
        Whether it is closed.
    posting : str
        The id of what was posted of it last; empty if nothing was.
    figures : tuple of HandedFigure
        The figures.
    """

    id: str
    period: str
    first: datetime.date
    last: datetime.date
    closed: bool
    posting: str
    figures: tuple[HandedFigure, ...]


def handed(book: Store, period: str) -> Handed:
    """Return what is handed over of a period.

    Raises
    ------
    Fault
        If there is no such period, its report is missing or older than its facts, or it is closed
        and something about its report has to be looked at first.
    """
    with book.opened(reading=True):
        ledger = Years(book).of_period(period)
        journal = book.journal()
        state = report_state(book, ledger, journal, period)
        if state is not ReportState.CURRENT:
            form = "the report of {period} isn't there, or is older than its facts"
            remedy = BookRemedy.MAKE_REPORT(period=period).sentence
            raise Fault(Sentence(form, period=period), text=period, remedy=remedy)
        check_answered(book, ledger, period)
        posted = last_posted(book, period)
        figures = tuple(_figures(rolled_of(book).account(period), posted))
        made = [line.digest for line in journal if line.act in _MADE and line.of == period]
        return _handed(ledger.periods[period], posted.id, figures, made[-1:])


def _handed(
    period: Period, posting: str, figures: tuple[HandedFigure, ...], made: list[str]
) -> Handed:
    first, last = map(datetime.date.fromordinal, (period.first, period.last))
    whole = [period.name, period.closed, posting, made, *map(astuple, figures)]
    digest = hashlib.sha256(json.dumps(whole).encode("ascii")).hexdigest()
    return Handed(digest, period.name, first, last, period.closed, posting, figures)


def _figures(account: MonthAccount, posted: Posted) -> Iterator[HandedFigure]:
    """Give the flows, the stock and what was posted."""
    for flow in account.month.flows.values():
        own = "", flow.start, flow.end, "", ""
        yield HandedFigure("flow", flow.name, *own, flow.grams, flow.value)
    for tank in account.tanks:
        stock = tank.stock
        for what, grams in (
            ("opening", stock.opening),
            ("adjustment", stock.adjustment),
            ("gain", stock.gain),
            ("closing", stock.closing),
        ):
            yield HandedFigure("stock", stock.tank, what, "", "", "", "", grams)
    for item, grams in posted.state.items():
        ends = item.source, item.target, item.product, item.group
        yield HandedFigure("posting", item.name, item.what, *ends, grams)
