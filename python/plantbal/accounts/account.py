"""The accounts of a month: lines that add up to the gram, by plant, group, product and owner.

Each account is opening stock + stock adjustment + what came - what went = closing stock. What came
and went are the flows to book of the certified report, so nothing is left over: what the meters and
dips don't explain is in their adjustments, in streams without a meter, and in loss accounts. As
*unaccounted* an account also says what the readings themselves leave: what came in less what went
out and what the stock gained, all as measured. A loss without a meter is left out of it, since it
is what the others leave.
"""

from __future__ import annotations

import datetime
from collections import defaultdict
from collections.abc import Callable, Iterable, Iterator, Mapping, Sequence
from dataclasses import dataclass, field
from enum import Enum
from fractions import Fraction

from plantbal.accounts.entries import AccountLine, Entry, entries_of
from plantbal.accounts.month import Basis, Month
from plantbal.accounts.owned import Owned, owned
from plantbal.accounts.sheet import Accounts
from plantbal.accounts.spread import Across, Sum, deviations
from plantbal.accounts.stock import Opened, Stock, rolled
from plantbal.sentence import Phrase, Sentence, phrase


class Level(Enum):
    """Over what an account is."""

    PLANT = "plant"
    GROUP = "product group"
    PRODUCT = "product"
    OWNER = "owner"


_DAY = datetime.timedelta(1)
# What cancels in the whole plant by the balances of its units and tanks.
_WITHIN = (AccountLine.PRODUCTION, AccountLine.PROCESSED, AccountLine.REGRADED)


@dataclass(frozen=True)
class Amount:
    """A figure of an account.

    Attributes
    ----------
    grams : int
        How much, below 0 if it takes away.
    deviation : float or None
        Its standard deviation in grams; None if it isn't known.
    basis : Basis
        What it rests on.
    sales : Fraction or None
        The same in the sales unit of the account, if it has one.
    """

    grams: int
    deviation: float | None = None
    basis: Basis = Basis.RECONCILED
    sales: Fraction | None = None


@dataclass(frozen=True)
class Unaccounted:
    """What the readings leave: above 0 it is missing, below 0 it is too much.

    Attributes
    ----------
    amount : Amount
        How much.
    percent : Fraction or None
        In percent of what came in; None if nothing did.
    """

    amount: Amount
    percent: Fraction | None


@dataclass(frozen=True)
class AccountTable:
    """An account.

    Attributes
    ----------
    level : Level
        Over what it is.
    name : str
        The group, product or owner; empty of the plant.
    unit : str
        The sales unit of all that is in it; empty if they have several.
    lines : dict of AccountLine to Amount
        Its lines, the closing stock last; those that nothing is in are left out.
    entries : sequence of Entry
        What the lines are made of.
    unaccounted : Unaccounted or None
        What the readings leave; None if a flow that nothing determines is in it.
    """

    level: Level
    name: str
    unit: str
    lines: Mapping[AccountLine, Amount]
    entries: Sequence[Entry]
    unaccounted: Unaccounted | None = None

    @property
    def title(self) -> str:
        """What it is called."""
        if not self.name:
            return phrase(self.level.value)
        return Sentence("{level} {name}", level=phrase(self.level.value), name=self.name)

    @property
    def moving(self) -> list[AccountLine]:
        """The lines that add up to the closing stock.

        What is processed moves no owner's stock: it is said beside it.
        """
        beside = (
            (AccountLine.CLOSING, AccountLine.PROCESSED)
            if self.level is Level.OWNER
            else (AccountLine.CLOSING,)
        )
        return [line for line in self.lines if line not in beside]

    @property
    def closing(self) -> int:
        """The closing stock in grams."""
        found = self.lines.get(AccountLine.CLOSING)
        return found.grams if found is not None else 0

    @property
    def rest(self) -> int:
        """What the lines leave of the closing stock: nothing, or the account is wrong."""
        return sum(self.lines[line].grams for line in self.moving) - self.closing

    @property
    def expansion(self) -> Fraction | None:
        """What the densities of its streams and tanks leave in the sales unit, if anything."""
        amounts = [amount.sales for amount in self.lines.values()]
        if not self.unit or any(each is None for each in amounts):
            return None
        closing = (
            self.lines[AccountLine.CLOSING].sales if AccountLine.CLOSING in self.lines else None
        )
        moved = [self.lines[line].sales or Fraction(0) for line in self.moving]
        rest = (closing or Fraction(0)) - sum(moved, Fraction(0))
        return rest or None


@dataclass(frozen=True)
class TankAmounts:
    """A tank's stock with the ± of its figures.

    Attributes
    ----------
    stock : Stock
        The tank over the month.
    opening, adjustment, closing : float or None
        The standard deviations in grams.
    """

    stock: Stock
    opening: float | None
    adjustment: float | None
    closing: float | None


@dataclass(frozen=True)
class MonthAccount:
    """The accounts of a month.

    Attributes
    ----------
    month : Month
        The month.
    plant : AccountTable
        The account of the whole plant.
    groups, products, owners : list of AccountTable
        The accounts by group, by product and by owner.
    tanks : list of TankAmounts
        The stocks by tank.
    accounts : Accounts
        The accounts' sheet.
    owned : Owned
        What each owner has.
    said : list of str
        What has to be looked at.
    """

    month: Month
    plant: AccountTable
    groups: list[AccountTable]
    products: list[AccountTable]
    owners: list[AccountTable]
    tanks: list[TankAmounts]
    accounts: Accounts
    owned: Owned
    said: list[str] = field(default_factory=list)

    @property
    def tables(self) -> list[AccountTable]:
        """All accounts, that of the plant first."""
        return [self.plant, *self.groups, *self.products, *self.owners]


class Rolled:
    """The months of a book, rolled forward, and their accounts.

    Parameters
    ----------
    months : sequence of Month
        The months from the first on, in the order of their days.
    accounts : Accounts
        The accounts' sheet.

    Attributes
    ----------
    stocks : list of list of Stock
        The tanks of each month.
    entries : list of list of Entry
        The entries of each month.
    """

    def __init__(self, months: Sequence[Month], accounts: Accounts) -> None:
        self.months = list(months)
        self.accounts = accounts
        self.stocks = rolled(self.months)
        self.entries = [
            entries_of(at, month, stocks, accounts)
            for at, (month, stocks) in enumerate(zip(self.months, self.stocks))
        ]
        self.owned = owned(self.entries)

    def at(self, name: str) -> int:
        """Return the place of a month."""
        return next(at for at, month in enumerate(self.months) if month.name == name)

    def account(self, name: str) -> MonthAccount:
        """Return the accounts of a month."""
        at = self.at(name)
        entries = self.entries[at]
        drafts = [_Draft(Level.PLANT, "", entries)]
        drafts += _by(Level.GROUP, entries, lambda entry: entry.account.group)
        drafts += _by(Level.PRODUCT, entries, lambda entry: entry.account.product)
        drafts += [_Draft(Level.OWNER, name, some) for name, some in self.owned[at].items()]
        wanted = [each for draft in drafts for each in draft.sums(self.months[at], at)]
        stocks = self.stocks[at]
        wanted += [each for stock in stocks for each in stock.sums]
        found = iter(deviations(self.months, wanted))
        tables = [draft.table(self.months[at], found) for draft in drafts]
        tanks = [TankAmounts(stock, *(next(found) for _ in range(3))) for stock in stocks]
        levels = defaultdict(list)
        for table in tables:
            levels[table.level].append(table)
        return MonthAccount(
            self.months[at],
            tables[0],
            levels[Level.GROUP],
            levels[Level.PRODUCT],
            levels[Level.OWNER],
            tanks,
            self.accounts,
            self.owned[at],
            [*self._before(at), *_said(self.months[at], stocks, entries, self.owned[at])],
        )

    def _before(self, at: int) -> Iterator[str]:
        """Say whether days are missing between a month and the one before it."""
        month = self.months[at]
        if at and (month.first - self.months[at - 1].last).days != 1:
            yield Sentence(
                "no report has {first} to {last}: what happened then is in the stock adjustments",
                first=self.months[at - 1].last + _DAY,
                last=month.first - _DAY,
            )


def _by(level: Level, entries: Iterable[Entry], key: Callable[[Entry], str]) -> list[_Draft]:
    """Return the accounts of a level, by the name of what each entry is in."""
    found: dict[str, list[Entry]] = defaultdict(list)
    for entry in entries:
        found[key(entry)].append(entry)
    return [_Draft(level, name, some) for name, some in sorted(found.items())]


def sum_across(some: Iterable[Across]) -> Across:
    """Return the sum of sums over periods."""
    found: dict[int, list[Sum]] = defaultdict(list)
    for each in some:
        for at, part in each.items():
            found[at].append(part)
    return {at: Sum.total(parts) for at, parts in found.items()}


@dataclass
class _Draft:
    """An account whose ± aren't known yet."""

    level: Level
    name: str
    entries: Sequence[Entry]

    @property
    def _lines(self) -> dict[AccountLine, list[Entry]]:
        found: dict[AccountLine, list[Entry]] = {line: [] for line in AccountLine}
        for entry in self.entries:
            found[entry.line].append(entry)
        cancel = self.level is Level.PLANT
        return {
            line: some
            for line, some in found.items()
            if some and not (cancel and line is AccountLine.REGRADED)
        }

    def sums(self, month: Month, at: int) -> list[Across]:
        """Return the sums whose ± are wanted: of each line, and of what is unaccounted."""
        lines = [sum_across(entry.sums for entry in some) for some in self._lines.values()]
        return [*lines, {at: self._left(month)[1]}]

    def table(self, month: Month, found: Iterable[float | None]) -> AccountTable:
        """Return the account with its ±, which come in the order of `sums`."""
        each = iter(found)
        units = {entry.account.unit.label for entry in self.entries}
        unit = next(iter(units)) if len(units) == 1 and units != {"t"} else ""
        lines = {}
        for line, some in self._lines.items():
            deviation = next(each)
            basis = Basis.least({entry.basis for entry in some})
            if deviation is None and month.block is not None:
                basis = Basis.UNKNOWN
            elif basis is Basis.UNKNOWN:
                basis = Basis.REST  # the sum is determined, though its parts aren't
            sales = [entry.account.unit.amount(entry.grams) for entry in some] if unit else []
            lines[line] = Amount(
                sum(entry.grams for entry in some),
                deviation,
                basis,
                sum(sales, Fraction(0)) if unit else None,
            )
        return AccountTable(
            self.level, self.name, unit, lines, self.entries, self._unaccounted(month, next(each))
        )

    def _left(self, month: Month) -> tuple[int, Sum]:
        """Return what the readings leave, and it as a sum."""
        if self.level is Level.OWNER:
            return 0, Sum()
        within = _WITHIN if self.level is Level.PLANT else ()
        weights: dict[str, int] = defaultdict(int)
        losses = {entry.name for entry in self.entries if entry.line is AccountLine.LOSS}
        for entry in self.entries:
            if entry.name in month.flows and entry.line not in within:
                sign = next(iter(entry.sums.values())).flows[entry.name]
                weights[entry.name] += round(sign)
            elif entry.line is AccountLine.CLOSING and entry.name in month.gains:
                weights[entry.name] -= 1
        grams = 0
        values: dict[str, float] = {}
        flows: dict[str, float] = {}
        for name, weight in weights.items():
            item = month.flows.get(name) or month.gains[name]
            if item.value is not None:
                grams += weight * item.value
                values[name] = weight
            elif name not in losses:
                grams += weight * item.grams
                flows[name] = weight
        return grams, Sum(flows, values)

    def _unaccounted(self, month: Month, deviation: float | None) -> Unaccounted | None:
        if self.level is Level.OWNER or deviation is None:
            return None
        grams, _ = self._left(month)
        stays = (AccountLine.OPENING, AccountLine.ADJUSTMENT, AccountLine.CLOSING)
        within = _WITHIN if self.level is Level.PLANT else ()
        moved = [each.grams for each in self.entries if each.line not in (*stays, *within)]
        came = sum(each for each in moved if each > 0)
        percent = Fraction(100 * grams, came) if came > 0 else None
        return Unaccounted(Amount(grams, deviation, Basis.MEASURED), percent)


def _said(
    month: Month,
    stocks: Iterable[Stock],
    entries: Sequence[Entry],
    owners: Mapping[str, Sequence[Entry]],
) -> Iterable[str]:
    """Give what has to be looked at in a month."""
    block = month.block
    if block is not None and (block.solved is None or block.solved["state"] != "converged"):
        yield "its report hasn't converged"
    if block is not None and block.whole is not None and block.whole["verdict"] == "reject":
        yield "its report is rejected: some reading is wrong, and the account with it"
    untold = dict.fromkeys(entry.name for entry in entries if not entry.account.is_told)
    if untold and len(untold) < len({entry.name for entry in entries}):
        yield Sentence("in no account: {names}", names=", ".join(untold))
    for stock in stocks:
        if stock.opened in (Opened.NOTHING, Opened.CLOSING_DIP):
            opened = Phrase(stock.opened.value)
            form = "{tank}: its opening stock rests on {opened}"
            yield Sentence(form, tank=stock.tank, opened=opened)
        if stock.basis is Basis.UNKNOWN and stock.opened is not Opened.NOTHING:
            yield Sentence("{tank}: nothing determines what it gained", tank=stock.tank)
        if stock.closing < 0:
            yield Sentence("{tank}: its closing stock is below 0", tank=stock.tank)
    for flow in month.flows.values():
        if flow.basis is Basis.UNKNOWN and any(entry.name == flow.name for entry in entries):
            yield Sentence("{name}: nothing determines its flow", name=flow.name)
        elif flow.grams < 0 and any(entry.name == flow.name for entry in entries):
            yield Sentence("{name}: its flow is below 0, against its direction", name=flow.name)
    for name, some in owners.items():
        closing = sum(entry.grams for entry in some if entry.line is AccountLine.CLOSING)
        if not name:
            yield "some amounts have no owner: see the account of nobody"
        elif closing < 0:
            form = "{name}: more went out than there was: the closing stock is below 0"
            yield Sentence(form, name=name)
