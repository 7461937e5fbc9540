"""The page of a night: plants that need a person first, and each plant's nights before it.

A night of many plants has several pages, of some hundred plants each, so that a browser shows each
at once: ``index.html``, ``index-2.html`` and so on.
"""

from __future__ import annotations

import sqlite3
from collections import defaultdict
from collections.abc import Iterator, Sequence
from dataclasses import dataclass
from functools import cache
from typing import TYPE_CHECKING
from urllib.parse import quote

from plantbal.faults import ToolMissing
from plantbal.files import write_text
from plantbal.fleet.keep import Times, database
from plantbal.fleet.night import Night
from plantbal.fleet.rows import FleetPlant, FleetRow, plants_summary

if TYPE_CHECKING:
    from jinja2 import Template

NIGHTS = 14
PLANTS = 500  # of a page


@dataclass(frozen=True, slots=True)
class IndexLine:
    """A row of the page.

    Attributes
    ----------
    row : FleetRow
        The row of the table.
    link : str
        Where its output is; empty if it has none.
    why : list of str
        Why a person has to look.
    before : list of tuple of str
        The nights before and this one: the night, and whether a person had to look.
    """

    row: FleetRow
    link: str
    why: list[str]
    before: list[tuple[str, bool]]


@cache
def index_template() -> Template:
    """Return the page's template.

    Raises
    ------
    ToolMissing
        If there is no Jinja2.
    """
    try:
        from jinja2 import Environment, PackageLoader
    except ImportError as error:
        raise ToolMissing("jinja2", "python3-jinja2") from error
    environment = Environment(
        loader=PackageLoader("plantbal.fleet"),
        autoescape=True,
        trim_blocks=True,
        lstrip_blocks=True,
    )
    return environment.get_template("fleet.html.j2")


def index(night: Night, plants: Sequence[FleetPlant], times: Times) -> None:
    """Write the pages of a night, and take away those that an earlier night had more."""
    with database(night.out / "fleet.sqlite") as base:
        before = _before(base, night)
        nights = base.execute(
            "SELECT night, plants, wanting FROM nights ORDER BY night DESC LIMIT 31"
        ).fetchall()
    ordered = sorted(plants, key=lambda plant: (not plant.needs, plant.site))
    parts = [ordered[at : at + PLANTS] for at in range(0, len(ordered), PLANTS)] or [[]]
    names = [page_name(number) for number in range(1, len(parts) + 1)]
    # the first one last: whoever sees it finds the others
    for name, part in reversed(list(zip(names, parts))):
        text = index_template().render(
            night=night,
            times=times,
            lines=list(_lines(night, part, before)),
            nights=nights,
            said=plants_summary(plants),
            words=" ".join(night.words),
            pages=names if len(names) > 1 else [],
            page=name,
            first=part[0].site if part else "",
            last=part[-1].site if part else "",
            pack=f"nights/{night.name}/{night.pack.name}" if night.pack.is_file() else "",
        )
        write_text(night.out / name, text)
    number = len(names) + 1
    while (path := night.out / page_name(number)).exists():
        path.unlink()
        number += 1


def page_name(number: int) -> str:
    """Return the name of a page, counted from 1."""
    return "index.html" if number == 1 else f"index-{number}.html"


def _lines(
    night: Night, plants: Sequence[FleetPlant], before: dict[str, list[tuple[str, bool]]]
) -> Iterator[IndexLine]:
    """Give the lines of plants."""
    for plant in plants:
        for place, row in enumerate(plant.rows):
            why = [*(plant.why if place == 0 else []), *plant.why_of.get(row.period, [])]
            yield IndexLine(row, _link(night, row), why, before[row.site] if place == 0 else [])


def _link(night: Night, row: FleetRow) -> str:
    """Return where a plant's output is, seen from the page."""
    name = f"{row.site}/{night.name}/{night.output_name}"
    return quote(name) if (night.out / name).exists() else ""


def _before(base: sqlite3.Connection, night: Night) -> dict[str, list[tuple[str, bool]]]:
    """Return the last nights of each plant, this one at the end."""
    found: dict[str, list[tuple[str, bool]]] = defaultdict(list)
    last = "SELECT night FROM nights WHERE night <= ? ORDER BY night DESC LIMIT ?"
    for site, name, wants in base.execute(
        f"SELECT site, night, MAX(look <> '') FROM plants WHERE night IN ({last})"
        " GROUP BY site, night ORDER BY night",
        (night.name, NIGHTS),
    ):
        found[site].append((name, bool(wants)))
    return found
