"""What each owner has: his part of each stream, each adjustment and the first stock, month by month.

An owner's closing stock is what he had, what came in for him and what went out for him; it is his
opening stock in the next month. What comes in and goes out is split by the rule of its row: by
fixed parts, by what the owners received in the month, or by what they had as it began. Each split
adds up to the gram, so the owners' stocks add up to the plant's.
"""

from __future__ import annotations

from collections import defaultdict
from collections.abc import Mapping, Sequence
from dataclasses import replace
from fractions import Fraction

from plantbal.accounts.entries import AccountLine, Entry
from plantbal.accounts.month import Basis
from plantbal.accounts.shares import NOBODY, split
from plantbal.accounts.sheet import Account, SplitRule
from plantbal.accounts.spread import Across, Sum

# The entries of owners, by name.
Owned = Mapping[str, Sequence[Entry]]
# What passes through the plant's bounds; what is processed is only said beside it.
_CROSSING = (
    AccountLine.ADJUSTMENT,
    AccountLine.RECEIPTS,
    AccountLine.SHIPMENTS,
    AccountLine.OWN_USE,
    AccountLine.FLARE,
    AccountLine.LOSS,
)
_STOCK = "stock"


def owned(months: Sequence[Sequence[Entry]]) -> list[Owned]:
    """Return what owners have in each month; nothing if no row has an owner.

    Parameters
    ----------
    months : sequence of sequence of Entry
        The entries of each month, from the first on.
    """
    if not any(entry.account.owner.rule is not SplitRule.NONE for some in months for entry in some):
        return [{} for _ in months]
    found: list[Owned] = []
    held: dict[str, tuple[int, Across]] = {}
    for at, entries in enumerate(months):
        month = _Month(entries, held, first=at == 0)
        found.append(month.owned())
        held = month.held()
    return found


class _Month:
    """A month's entries, split.

    Parameters
    ----------
    entries : sequence of Entry
        The entries.
    before : dict
        What owners had, and as which sum.
    first : bool
        Whether it is the first month: then the tanks' own rows say whose the opening stock is.
    """

    def __init__(
        self, entries: Sequence[Entry], before: Mapping[str, tuple[int, Across]], first: bool
    ) -> None:
        self._found: dict[str, list[Entry]] = defaultdict(list)
        self._stock: dict[str, Fraction | int] = {name: had for name, (had, _) in before.items()}
        self._receipts: dict[str, Fraction | int] = {}
        receipts = [entry for entry in entries if entry.line is AccountLine.RECEIPTS]
        for entry in receipts:
            for name, grams in split(entry.grams, entry.account.owner.parts).items():
                self._receipts[name] = self._receipts.get(name, 0) + grams
        for name, (had, sums) in before.items():
            self._found[name].append(_own(AccountLine.OPENING, _STOCK, had, sums))
        for entry in entries if first else ():
            if entry.line is AccountLine.OPENING:
                self._share(entry)
        if first:
            self._stock = {name: grams for name, (grams, _) in self.held().items()}
        for entry in entries:
            if entry.line in (*_CROSSING, AccountLine.PROCESSED):
                self._share(entry)

    def _weights(self, account: Account) -> Mapping[str, Fraction | int]:
        """Return by what an entry is split."""
        rule = account.owner.rule
        if rule is SplitRule.BY_RECEIPTS:
            return self._receipts
        return self._stock if rule is SplitRule.BY_STOCK else account.owner.parts

    def _share(self, entry: Entry) -> None:
        """Split an entry."""
        weights = {
            name: number for name, number in self._weights(entry.account).items() if name != NOBODY
        }
        total = sum((Fraction(max(number, 0)) for number in weights.values()), Fraction(0))
        for name, grams in split(entry.grams, weights).items():
            part = float(Fraction(max(weights[name], 0)) / total) if name in weights else 1.0
            sums = {at: Sum().plus(each, part) for at, each in entry.sums.items()}
            self._found[name].append(replace(entry, grams=grams, sums=sums))

    def owned(self) -> Owned:
        """Return the entries of each owner, his closing stock last."""
        for name, (grams, sums) in self.held().items():
            if not any(entry.line is AccountLine.CLOSING for entry in self._found[name]):
                self._found[name].append(_own(AccountLine.CLOSING, _STOCK, grams, sums))
        return {name: self._found[name] for name in sorted(self._found, key=lambda n: (not n, n))}

    def held(self) -> dict[str, tuple[int, Across]]:
        """Return what each owner has in the end, and as which sum."""
        found = {}
        for name, entries in self._found.items():
            stay = [
                each
                for each in entries
                if each.line not in (AccountLine.PROCESSED, AccountLine.CLOSING)
            ]
            sums: dict[int, Sum] = {}
            for entry in stay:
                for at, each in entry.sums.items():
                    sums[at] = sums.get(at, Sum()).plus(each)
            found[name] = sum(entry.grams for entry in stay), sums
        return {name: each for name, each in found.items() if each[0] or name}


def _own(line: AccountLine, name: str, grams: int, sums: Across) -> Entry:
    """Return an entry of an owner's stock."""
    of_all = Account(name, product="", group="")
    return Entry(line, name, of_all, grams, Basis.RECONCILED, sums)
