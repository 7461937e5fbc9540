"""What each method of a book needs: the folder, who acts, and the program."""

from __future__ import annotations

import datetime
from pathlib import Path

from plantbal.book.actions import Withheld
from plantbal.book.expected import BookVersion
from plantbal.book.naming import day_named
from plantbal.book.store import Store
from plantbal.program import RunSettings

Day = datetime.date | str | None


class Base:
    """A plant's book, without what it does; the parameters are those of `plantbal.Book`."""

    def __init__(
        self,
        folder: str | Path,
        *,
        who: str = "",
        program: str | Path | None = None,
        seconds: float = 10,
        expected: BookVersion | None = None,
        key: str | Path | None = None,
        given: tuple[str, str] | None = None,
        withheld: Withheld = Withheld.SUBMITTED,
    ) -> None:
        self.folder = Path(folder)
        self.who = who
        self.program = program
        self.seconds = seconds
        self.expected = expected
        self.key = key
        self.given = given
        self.withheld = withheld

    def _store(self, given: tuple[str, str] | None = None) -> Store:
        return Store(
            self.folder,
            self.seconds,
            self.expected,
            key=self.key,
            given=given or self.given,
            withheld=self.withheld,
        )

    def _settings(self, settings: RunSettings | None) -> RunSettings:
        return settings or RunSettings(program=self.program)


def day_or_none(day: Day, locale: str = "") -> datetime.date | None:
    """Return a day, which may be a text."""
    return day_named(day, locale) if isinstance(day, str) else day
