"""The month's account as a part of the statement, and as a page of its own."""

from __future__ import annotations

from collections.abc import Sequence
from typing import TYPE_CHECKING, Any

from plantbal.accounts.account import AccountTable, MonthAccount
from plantbal.accounts.entries import AccountLine
from plantbal.accounts.posting import moved_said
from plantbal.accounts.sheet import NOBODY
from plantbal.accounts.tables import (
    basis_text,
    deviation_text,
    sales_text,
    shown_lines,
    title_of,
)
from plantbal.page.render import OWN, environment

if TYPE_CHECKING:
    from jinja2 import Environment

    from plantbal.accounts.trend import Unusual
    from plantbal.book.difference import Difference

# Lines that a table of accounts has a column for, if some account has them.
_COLUMNS: tuple[AccountLine, ...] = tuple(each for each in AccountLine)


def _environment() -> Environment:
    """Return the templates with the filters of accounts."""
    made = environment()
    made.filters.update(
        sd=deviation_text,
        sales=sales_text,
        basis=basis_text,
        account_title=title_of,
        moved=moved_said,
        shown=lambda table: list(shown_lines(table)),
    )
    return made


def compile_templates() -> None:
    """Compile all templates of pages, for whoever will make many in this process."""
    made = _environment()
    made.filters.update(dict.fromkeys(OWN, str))
    for name in made.list_templates(extensions=["j2"]):
        made.get_template(name)


def account_columns(tables: Sequence[AccountTable]) -> list[AccountLine]:
    """Return the lines that some of these accounts have."""
    return [line for line in _COLUMNS if any(line in table.lines for table in tables)]


def part_of(
    account: MonthAccount, unusual: Sequence[Unusual] = (), changed: Difference | None = None
) -> Any:
    """Return the account as a part of the statement: the plant, its groups, its stocks, owners.

    Parameters
    ----------
    account : MonthAccount
        The accounts of the month.
    unusual : sequence of Unusual
        What is unusual beside the months before.
    changed : Difference, optional
        What it has otherwise than what was posted, or than the report before it.
    """
    from markupsafe import Markup

    made: Any = _environment().get_template("account.html.j2").module
    return Markup(
        made.part(account, account_columns(account.groups), list(unusual), NOBODY, changed)
    )


def page_of(
    account: MonthAccount,
    title: str = "",
    owner: AccountTable | None = None,
    unusual: Sequence[Unusual] = (),
    changed: Difference | None = None,
) -> str:
    """Return the page of a month's account, or of one owner's.

    Parameters
    ----------
    account : MonthAccount
        The accounts of the month.
    title : str
        The heading.
    owner : AccountTable, optional
        The account of the owner, if it is one owner's page.
    unusual : sequence of Unusual
        What is unusual beside the months before.
    changed : Difference, optional
        What it has otherwise than what was posted, or than the report before it.
    """
    name = (owner.name or NOBODY) if owner is not None else ""
    heading = title or " ".join(filter(None, ("Account", account.month.name, name)))
    return (
        _environment()
        .get_template("account_page.html.j2")
        .render(
            title=heading,
            account=account,
            owner=owner,
            columns=account_columns(account.groups),
            product_columns=account_columns(account.products),
            unusual=list(unusual),
            changed=changed,
            nobody=NOBODY,
            whole={(entry.line, entry.name): entry.grams for entry in account.plant.entries},
        )
    )
