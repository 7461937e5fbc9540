"""What a month hands over: its state as postings between accounts, and what two states differ by.

Each flow is posted from the account that it leaves to the one that it enters: the stock of a tank,
the process for the units, and for the world outside the line of its kind, such as `receipts`. A
stock adjustment goes from `stock adjustment` to the tank's stock. So each posting takes as much
from one account as it gives to another, and all of a month's, or of a difference's, add up to 0.
Those of the process add up to 0 alone, since units hold nothing: the balances of the report say so,
and `check_postings` says it again.
"""

from __future__ import annotations

import csv
import hashlib
import io
import re
from collections.abc import Iterable, Iterator, Mapping, Sequence
from dataclasses import dataclass, field

from plantbal.accounts.account import MonthAccount
from plantbal.accounts.entries import AccountLine, line_of_kind
from plantbal.accounts.month import MonthFlow
from plantbal.accounts.sheet import Accounts
from plantbal.amounts import tonnes_of
from plantbal.faults import Fault, InputFault, Place
from plantbal.inert import inert
from plantbal.model.plant import ENV
from plantbal.sentence import Sentence, phrase

PROCESS = "process"
_STOCK = "stock "  # before the name of a tank
HEADS = ("posting", "period", "name", "what", "from", "to", "product", "group", "grams")
POSTING_HEADS = (
    *("posting", "line", "period", "account", "stream or tank", "product", "group", "t", "cause"),
)
_GRAMS = re.compile("-?[0-9]{1,40}")
FLOW, OPENING, CLOSING = "flow", AccountLine.OPENING.value, AccountLine.CLOSING.value


@dataclass(frozen=True, order=True)
class Item:
    """A figure that is handed over: of a flow or an adjustment, with the accounts at its ends.

    Attributes
    ----------
    name : str
        The stream or tank.
    what : str
        `flow`, or the line of a tank's stock.
    source, target : str
        The accounts that it leaves and enters; empty of a stock, which is said beside them.
    product, group : str
        Its product and group.
    """

    name: str
    what: str
    source: str
    target: str
    product: str
    group: str

    @property
    def is_posted(self) -> bool:
        """Whether it moves anything from one account to another."""
        return self.source != self.target


State = Mapping[Item, int]


def handed_over(account: MonthAccount) -> State:
    """Return what a month hands over, in grams."""
    found = {}
    for flow in account.month.flows.values():
        found[_flow_item(flow, set(account.month.gains), account.accounts)] = flow.grams
    for tank in account.tanks:
        stock, own = tank.stock, account.accounts.of_tank(tank.stock.tank)
        words = own.product, own.group
        held = _stock_account(stock.tank)
        for what, source, target, grams in (
            (OPENING, "", "", stock.opening),
            (AccountLine.ADJUSTMENT.value, AccountLine.ADJUSTMENT.value, held, stock.adjustment),
            (CLOSING, "", "", stock.closing),
        ):
            found[Item(stock.tank, what, source, target, *words)] = grams
    return found


def _stock_account(tank: str) -> str:
    return f"{_STOCK}{tank}"


def account_said(account: str) -> str:
    """Return the name of an account in words; its files have it in English."""
    if account.startswith(_STOCK) and account != AccountLine.ADJUSTMENT.value:
        return Sentence("stock {tank}", tank=account.removeprefix(_STOCK))
    return phrase(account)


def moved_said(item: Item) -> str:
    """Return between which accounts a figure moves, or which line of a tank's stock it is."""
    if item.what != FLOW:
        return phrase(item.what)
    source, target = account_said(item.source), account_said(item.target)
    return Sentence("{start} to {end}", start=source, end=target)


def _flow_item(flow: MonthFlow, tanks: set[str], accounts: Accounts) -> Item:
    own = accounts.of_stream(flow.name, flow.start, flow.end)

    def account(end: str) -> str:
        if end == ENV:
            return line_of_kind(own.kind, flow.start == ENV).value
        return _stock_account(end) if end in tanks else PROCESS

    return Item(flow.name, FLOW, account(flow.start), account(flow.end), own.product, own.group)


@dataclass(frozen=True)
class PostingChange:
    """How two states differ.

    Attributes
    ----------
    item : Item
        Of what.
    before, after : int
        Grams.
    cause : str
        The facts that caused it.
    """

    item: Item
    before: int
    after: int
    cause: str = ""

    @property
    def grams(self) -> int:
        """The difference."""
        return self.after - self.before


def posting_changes(before: State, after: State) -> list[PostingChange]:
    """Return how two states differ, flows first."""
    items = dict.fromkeys([*after, *before])
    found = [PostingChange(item, before.get(item, 0), after.get(item, 0)) for item in items]
    return [change for change in found if change.grams]


@dataclass(frozen=True)
class Posting:
    """An amount on an account.

    Attributes
    ----------
    account : str
        The account.
    item : Item
        What it is of.
    grams : int
        How much; below 0 it is taken from the account.
    cause : str
        Why.
    """

    account: str
    item: Item
    grams: int
    cause: str = ""


def postings_of(changes: Iterable[PostingChange]) -> list[Posting]:
    """Return the postings of changes: two of each that moves something between accounts."""
    found = []
    for change in changes:
        if change.item.is_posted:
            ends = (change.item.source, -change.grams), (change.item.target, change.grams)
            found += [Posting(name, change.item, grams, change.cause) for name, grams in ends]
    check_postings(found)
    return found


def check_postings(postings: Sequence[Posting]) -> None:
    """Refuse postings that don't add up to 0, all of them and those of the process alone.

    Raises
    ------
    Fault
        If it is so: then the flows of a report don't balance.
    """
    total = sum(each.grams for each in postings)
    process = sum(each.grams for each in postings if each.account == PROCESS)
    if total or process:
        raise Fault(
            Sentence("these postings leave {grams:,} g", grams=total or process),
            remedy="the report's flows don't balance: plantbal-desk check says where",
        )


def id_of(period: str, number: int, changes: Sequence[PostingChange]) -> str:
    """Return the id of a posting: the period, how many there were, and a digest of what it says."""
    texts = [f"{change.item}{change.before}{change.after}" for change in changes]
    digest = hashlib.sha256("\n".join([period, str(number), *sorted(texts)]).encode()).hexdigest()
    return f"{period}.{number}-{digest[:12]}"


def posting_rows(identity: str, period: str, postings: Iterable[Posting]) -> Iterator[list[str]]:
    """Give postings as rows of texts, after their heads."""
    yield list(POSTING_HEADS)
    for number, each in enumerate(postings, 1):
        item = each.item
        words = each.account, item.name, item.product, item.group
        figures = f"{tonnes_of(each.grams):f}", each.cause
        yield [identity, str(number), period, *words, *figures]


# ---- the file of what was posted


@dataclass(frozen=True)
class Posted:
    """What was handed over of a period.

    Attributes
    ----------
    id : str
        The id of the posting.
    state : State
        The state of the month then.
    """

    id: str = ""
    state: State = field(default_factory=dict)


def posted_text(identity: str, period: str, state: State) -> str:
    """Return the file of what was posted."""
    out = io.StringIO()
    writer = csv.writer(out, lineterminator="\n")
    writer.writerow(HEADS)
    for item, grams in state.items():
        words = item.name, item.what, item.source, item.target, item.product, item.group
        writer.writerow([identity, period, *map(inert, words), grams])
    return out.getvalue()


def parse_posted(name: str, text: str) -> Posted:
    """Return what a file of `posted_text` says.

    Raises
    ------
    InputFault
        If it is none.
    """
    remedy = "no command writes that: put it back, from a backup"
    try:
        rows = list(csv.reader(io.StringIO(text, newline=""), strict=True))
    except csv.Error as error:
        raise InputFault(
            Sentence("this isn't CSV: {why}", why=str(error)),
            place=Place(file=name),
            remedy=remedy,
        ) from error
    if not rows or tuple(rows[0]) != HEADS:
        what = "this isn't a file of what was posted"
        raise InputFault(what, place=Place(file=name, line=1), remedy=remedy)
    state: dict[Item, int] = {}
    identity = rows[1][0] if len(rows) > 1 and rows[1] else ""
    for at, row in enumerate(rows[1:], 2):
        item = Item(*row[2:8]) if len(row) == len(HEADS) else None
        is_read = item is not None and row[0] == identity and _GRAMS.fullmatch(row[8])
        if item is None or not is_read or item in state:
            place = Place(file=name, line=at)
            raise InputFault("this isn't a row of what was posted", place=place, remedy=remedy)
        state[item] = int(row[8])
    return Posted(identity, state)
