"""Books in the folder of a fleet: each is run by its open periods, from a session that asks for them.

A plant is a book if its folder has a journal. Its chain is tested first, as each command on a book
does; a book whose files were changed by other means isn't run, and needs a person. Books are read by
the processes that take in what came of plants, within their limits. The sessions are kept with the
night, so that their digests can be tested later.
"""

from __future__ import annotations

from collections.abc import Mapping
from dataclasses import dataclass, field

from plantbal.faults import InputFault
from plantbal.files import write_bytes
from plantbal.fleet.night import Night
from plantbal.fleet.rows import FleetPlant, FleetRow, failed_plant
from plantbal.fleet.sites import Site
from plantbal.fleet.taking import Taker

CLOSED = "closed"  # the state of a book without an open period


@dataclass
class Books:
    """The books of a fleet's folder, as they are made into sessions.

    Attributes
    ----------
    night : Night
        The night.
    sites : list of Site
        The sessions that were made.
    plants : dict of str to FleetPlant
        The books that have none, and why.
    """

    night: Night
    sites: list[Site] = field(default_factory=list)
    plants: dict[str, FleetPlant] = field(default_factory=dict)

    def read(self, taker: Taker, books: list[Site]) -> None:
        """Read all books, and write their sessions."""
        for site in books:

            def found(sessions: Mapping[str, str], site: Site = site) -> None:
                self._take(site, sessions)

            def wrong(said: str, site: Site = site) -> None:
                self.plants[site.name] = failed_plant(site, "nosession", said)

            taker.book(site, found, wrong)
        taker.finish()
        self.sites.sort()

    def _take(self, site: Site, sessions: Mapping[str, str]) -> None:
        """Write the sessions of a book; the newest year has the plant's name alone."""
        if not sessions:
            self.plants[site.name] = FleetPlant(site.name, [FleetRow(site.name, state=CLOSED)])
        newest = max(sessions, default="")
        for year, text in sessions.items():
            name = site.name if year == newest else f"{site.name}/{year}"
            path = self.night.folder / "books" / f"{name}.csv"
            made = Site(name, path)
            try:
                path.parent.mkdir(parents=True, exist_ok=True)
                data = text.encode("utf-8")
                if not (path.is_file() and path.read_bytes() == data):
                    write_bytes(path, data)  # else a night that goes on finds it as it was
                self.sites.append(made)
            except (OSError, InputFault) as error:
                self.plants[name] = failed_plant(
                    made, "nosession", f"its session isn't made: {error}"
                )
