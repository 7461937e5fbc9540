"""The grades of each period on the page and in its workbook."""

from __future__ import annotations

from typing import TYPE_CHECKING

from plantbal.model.ledger import Ledger
from plantbal.page.statement import PageContents
from plantbal.sentence import Figure

if TYPE_CHECKING:
    from plantbal.balance.grades import Grades


def real(number: float | None, scale: float, places: int, plus: bool = False) -> str:
    """Return a number times a scale with some decimals; nothing if there isn't one."""
    if number is None or number != number:
        return ""
    text = f"{number * scale:{'+' if plus else ''},.{places}f}"
    return Figure(text.replace("-", "\u2212"))


def grades_on(account: PageContents, ledger: Ledger) -> dict[str, Grades]:
    """Return the grades of the periods that have assays, by the last round of their last report.

    Parameters
    ----------
    account : PageContents
        What the page shows.
    ledger : Ledger
        The session.
    """
    if not ledger.state.assays:
        return {}
    from plantbal.balance.grades import by_period

    lasts = (each.report.last for each in account.statements)
    return by_period([last.block for last in lasts if last is not None], ledger)
