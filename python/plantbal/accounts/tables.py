"""An account as a table of texts: for a terminal, for CSV, and for pages."""

from __future__ import annotations

from collections.abc import Iterable, Iterator, Sequence
from dataclasses import dataclass
from decimal import ROUND_HALF_EVEN, Decimal
from fractions import Fraction

from plantbal.accounts.account import (
    AccountTable,
    Amount,
    Level,
    MonthAccount,
    TankAmounts,
    Unaccounted,
)
from plantbal.accounts.entries import AccountLine
from plantbal.accounts.sheet import NOBODY
from plantbal.amounts import tonnes_of, tonnes_text
from plantbal.sentence import Figure, Sentence, phrase

HEADS = ("account", "line", "t", "± t", "sales", "unit", "basis")
STOCK_HEADS = (
    *("tank", "opening, t", "± t", "adjustment, t", "± t", "gain, t", "closing, t", "± t", "why"),
)


def sales_text(amount: Fraction | None, places: int = 3) -> str:
    """Return an amount of a sales unit with some decimals."""
    if amount is None:
        return ""
    number = Decimal(amount.numerator) / Decimal(amount.denominator)
    return Figure(f"{number.quantize(Decimal(1).scaleb(-places), rounding=ROUND_HALF_EVEN):,f}")


def deviation_text(grams: float | None) -> str:
    """Return a standard deviation in tonnes; nothing if it isn't known."""
    return "" if grams is None else Figure(f"{grams / 1e6:,.3f}")


def basis_text(amount: Amount) -> str:
    """Return what a figure rests on."""
    return amount.basis.value


def unaccounted_percent(left: Unaccounted) -> str:
    """Return what is unaccounted in percent of what came in."""
    if left.percent is None:
        return ""
    return Figure(f"{float(left.percent):+.3f} %")


def title_of(table: AccountTable) -> str:
    """Return what an account is called; what has no owner is nobody's."""
    if table.level is Level.OWNER and not table.name:
        return Sentence("{level} {name}", level=phrase(table.level.value), name=phrase(NOBODY))
    return table.title


@dataclass(frozen=True)
class ShownLine:
    """A line of an account as it is shown.

    Attributes
    ----------
    line : str
        What it is.
    amount : Amount
        The figure.
    is_total : bool
        Whether the lines above it add up to it.
    is_beside : bool
        Whether it is beside the sum.
    is_stock : bool
        Whether it is what was there, and nothing that moved.
    percent : str
        What it is in percent, if that is said.
    """

    line: str
    amount: Amount
    is_total: bool = False
    is_beside: bool = False
    percent: str = ""
    is_stock: bool = False


def shown_lines(table: AccountTable) -> Iterator[ShownLine]:
    """Give the lines of an account: those that add up, their total, and what is beside."""
    for line in table.moving:
        yield ShownLine(line.value, table.lines[line], is_stock=line is AccountLine.OPENING)
    if AccountLine.CLOSING in table.lines:
        yield ShownLine(AccountLine.CLOSING.value, table.lines[AccountLine.CLOSING], is_total=True)
    if table.level is Level.OWNER and AccountLine.PROCESSED in table.lines:
        yield ShownLine("throughput", _turned(table.lines[AccountLine.PROCESSED]), is_beside=True)
    left = table.unaccounted
    is_there = left is not None and bool(left.amount.grams or left.amount.deviation)
    if left is not None and is_there and table.level in (Level.PLANT, Level.GROUP):
        word = "unaccounted loss" if left.amount.grams >= 0 else "unaccounted gain"
        yield ShownLine(word, left.amount, is_beside=True, percent=unaccounted_percent(left))


def _turned(amount: Amount) -> Amount:
    sales = None if amount.sales is None else -amount.sales
    return Amount(-amount.grams, amount.deviation, amount.basis, sales)


def account_rows(table: AccountTable) -> Iterator[tuple[str, ...]]:
    """Give an account as rows of texts, in tonnes with all digits."""
    for each in shown_lines(table):
        basis = f"by the readings, {each.percent}" if each.percent else basis_text(each.amount)
        yield (
            title_of(table),
            each.line,
            f"{tonnes_of(each.amount.grams):f}",
            deviation_text(each.amount.deviation).replace(",", ""),
            sales_text(each.amount.sales).replace(",", ""),
            table.unit,
            basis,
        )


def stock_row(tank: TankAmounts) -> tuple[str, ...]:
    """Return a tank as a row of texts."""
    stock = tank.stock
    return (
        stock.tank,
        tonnes_text(stock.opening),
        deviation_text(tank.opening if stock.opening else None),
        tonnes_text(stock.adjustment) if stock.adjustment else "",
        deviation_text(tank.adjustment if stock.adjustment else None),
        tonnes_text(stock.gain),
        tonnes_text(stock.closing),
        deviation_text(tank.closing),
        stock.why.value,
    )


def account_tables_text(account: MonthAccount, tables: Iterable[AccountTable]) -> str:
    """Return accounts as lines of text."""
    month = account.month
    state = "closed" if month.is_closed else "open"
    lines = [f"{month.name}, {month.first} to {month.last}, {state}", ""]
    for table in tables:
        rows = [("", "t", "± t", table.unit, "")]
        for each in shown_lines(table):
            last = f"by the readings, {each.percent}" if each.percent else basis_text(each.amount)
            amount = each.amount
            rows.append(
                (
                    each.line,
                    tonnes_text(amount.grams),
                    deviation_text(amount.deviation),
                    sales_text(amount.sales),
                    last,
                )
            )
        lines += [title_of(table), *_aligned(rows), ""]
    return "\n".join(lines)


def stock_text(tanks: Iterable[TankAmounts]) -> str:
    """Return the stocks of tanks as lines of text."""
    rows = [STOCK_HEADS, *map(stock_row, tanks)]
    return "\n".join(_aligned(rows, {0, len(STOCK_HEADS) - 1})) + "\n"


def _aligned(rows: Sequence[tuple[str, ...]], left: set[int] | None = None) -> list[str]:
    """Return rows as lines, columns of numbers to the right."""
    words = {0, len(rows[0]) - 1} if left is None else left
    widths = [max(len(row[at]) for row in rows) for at in range(len(rows[0]))]
    lines = []
    for row in rows:
        cells = [
            text.ljust(width) if at in words else text.rjust(width)
            for at, (text, width) in enumerate(zip(row, widths))
        ]
        lines.append(f"  {'  '.join(cells)}".rstrip())
    return lines
