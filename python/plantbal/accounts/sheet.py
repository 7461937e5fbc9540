"""What the accounts' sheet says of each stream and tank: kind, product, group, owner, sales unit.

None of it reaches a session: the flows are reconciled without it, and it only says under which
heads they are added up.
"""

from __future__ import annotations

from collections.abc import Iterable, Iterator, Mapping
from dataclasses import dataclass, field
from enum import Enum, StrEnum
from fractions import Fraction

from plantbal.workbook.units import GRAMS, VOLUMES

# What a product or a group is called that no row of the sheet names.
NO_ACCOUNT = "in no account"
# What is said for an owner if there is none, so that no owner can have this name.
NOBODY = "nobody"


class AccountKind(StrEnum):
    """What a stream is to the account."""

    RECEIPT = "receipt"
    SHIPMENT = "shipment"
    PRODUCTION = "production"
    OWN_USE = "own use"
    FLARE = "flare"
    LOSS = "loss"
    INTERNAL = "internal"


# The kinds of streams that leave the plant.
OUTGOING = (AccountKind.SHIPMENT, AccountKind.OWN_USE, AccountKind.FLARE, AccountKind.LOSS)


class SplitRule(Enum):
    """By what an amount is split among owners."""

    NONE = ""
    FIXED = "fixed"
    BY_RECEIPTS = "by receipts"
    BY_STOCK = "by stock"


@dataclass(frozen=True)
class Ownership:
    """Whose something is.

    Attributes
    ----------
    rule : SplitRule
        By what it is split.
    parts : dict of str to Fraction
        The fixed parts of the owners, which add up to 1; empty under another rule.
    """

    rule: SplitRule = SplitRule.NONE
    parts: Mapping[str, Fraction] = field(default_factory=dict)

    def __str__(self) -> str:
        if self.rule is not SplitRule.FIXED:
            return str(self.rule.value)
        if len(self.parts) == 1:
            return next(iter(self.parts))
        return "; ".join(f"{name} {part_text(part)}" for name, part in self.parts.items())


def part_text(part: Fraction) -> str:
    """Return a part as a cell has it: `60 %`, or `1/3` if no decimal number is exact."""
    percent = part * 100
    if (100_000 * percent).denominator != 1:
        return f"{part.numerator}/{part.denominator}"
    text = f"{percent.numerator * 10**5 // percent.denominator / 10**5:.5f}"
    return f"{text.rstrip('0').rstrip('.')} %"


@dataclass(frozen=True)
class SalesUnit:
    """The unit in which something is sold.

    Attributes
    ----------
    label : str
        How it is written: `bbl`, `m3`, `dmt`.
    density : Fraction or None
        The density in g/m3 of a volume; None of a mass.
    """

    label: str = "t"
    density: Fraction | None = None

    @property
    def grams(self) -> Fraction:
        """The grams of one unit."""
        if self.density is None:
            return GRAMS.get(self.label, GRAMS["t"])
        return VOLUMES[self.label] * self.density

    def amount(self, grams: int) -> Fraction:
        """Return grams in this unit, exactly."""
        return grams / self.grams


@dataclass(frozen=True)
class Account:
    """What the sheet says of a stream or tank.

    Attributes
    ----------
    name : str
        The stream or tank.
    kind : AccountKind or None
        What a stream is; None of a tank.
    product, group : str
        Its product, and the product's group.
    owner : Ownership
        Whose it is.
    unit : SalesUnit
        The unit in which it is sold.
    is_told : bool
        Whether a row of the sheet says it, and not its ends alone.
    """

    name: str
    kind: AccountKind | None = None
    product: str = NO_ACCOUNT
    group: str = NO_ACCOUNT
    owner: Ownership = Ownership()
    unit: SalesUnit = SalesUnit()
    is_told: bool = True


class Accounts(Mapping[str, Account]):
    """The accounts of a plant, by the names of streams and tanks.

    Parameters
    ----------
    rows : iterable of Account
        The rows of the sheet.
    """

    def __init__(self, rows: Iterable[Account] = ()) -> None:
        self._rows = {row.name: row for row in rows}

    def __getitem__(self, name: str) -> Account:
        return self._rows[name]

    def __iter__(self) -> Iterator[str]:
        return iter(self._rows)

    def __len__(self) -> int:
        return len(self._rows)

    @property
    def owners(self) -> list[str]:
        """The owners, by name."""
        return sorted({name for row in self._rows.values() for name in row.owner.parts})

    def of_stream(self, name: str, start: str, end: str) -> Account:
        """Return the account of a stream; without a row its ends say what it is.

        Parameters
        ----------
        name : str
            The stream.
        start, end : str
            Its ends; the world outside is ``env``.
        """
        there = self._rows.get(name)
        if there is not None:
            return there if there.kind is not None else _kinded(there, start, end)
        return _kinded(Account(name, is_told=False), start, end)

    def of_tank(self, name: str) -> Account:
        """Return the account of a tank."""
        return self._rows.get(name) or Account(name, is_told=False)


def kind_by_ends(start: str, end: str) -> AccountKind:
    """Return what a stream is by its ends alone."""
    if start == "env":
        return AccountKind.RECEIPT
    return AccountKind.SHIPMENT if end == "env" else AccountKind.INTERNAL


def _kinded(account: Account, start: str, end: str) -> Account:
    """Return the account of a stream with the kind that its ends give it."""
    return Account(
        account.name,
        kind_by_ends(start, end),
        account.product,
        account.group,
        account.owner,
        account.unit,
        account.is_told,
    )


def sales_units(accounts: Accounts) -> dict[str, SalesUnit]:
    """Return in what streams and tanks are sold, of those that aren't sold by the tonne.

    One without a unit of its own has that of its product, if that has a single one.
    """
    tonne = SalesUnit()
    by_product: dict[str, set[SalesUnit]] = {}
    for row in accounts.values():
        if row.unit != tonne:
            by_product.setdefault(row.product, set()).add(row.unit)
    found = {}
    for name, row in accounts.items():
        others = by_product.get(row.product, set()) if row.product != NO_ACCOUNT else set()
        unit = next(iter(others)) if row.unit == tonne and len(others) == 1 else row.unit
        if unit != tonne:
            found[name] = unit
    return found
