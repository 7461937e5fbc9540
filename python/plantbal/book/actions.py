"""What a command does to a book, as data, and the head of the chain that it leaves."""

from __future__ import annotations

from dataclasses import dataclass, field
from enum import Enum
from fractions import Fraction

from plantbal.book.forms import year_file
from plantbal.book.journal import Act
from plantbal.book.ledger import YearLedger


class Withheld(Enum):
    """What becomes of an action that needs an approval by the rules of its book."""

    SUBMITTED = "it is submitted, and waits"
    TO_SIGN = "the text that its submission signs is given, and nothing is done"
    DONE = "it is done, as on a copy on which something is tried"


@dataclass
class Action:
    """What a command does to a book.

    Attributes
    ----------
    act : Act
        What it is.
    of : str
        What it is done to: a year, a period, the two periods of a window, a fact, a file.
    what : str
        What else there is to say of it: the workbook, the new value.
    why : str
        The reason, if there is one.
    who : str
        Who does it, as the words of the command say it.
    program : str
        The SHA-256 of the program that it ran, if it ran one.
    appended : dict of str to str
        What comes after the present end of files.
    written : dict of str to str
        Files that are written as a whole.
    rows : list of str
        Which rows of which year it adds, as the journal says it.
    seen : list of str
        Files that it has read and leaves as they are, such as the year of a report.
    gone : list of str
        Files that aren't there any more, which it accepts.
    ledgers : list of YearLedger
        The ledgers whose rows it adds.
    anyway : bool
        Whether it is done although something speaks against it.
    early : bool
        Whether it hands over what is open.
    estimated : Fraction
        Of a close the greatest part of a stream's flow that is estimated.
    cleared : bool
        Whether it has the approval that it wants.
    """

    act: Act
    of: str = ""
    what: str = ""
    why: str = ""
    who: str = ""
    program: str = ""
    appended: dict[str, str] = field(default_factory=dict)
    written: dict[str, str] = field(default_factory=dict)
    rows: list[str] = field(default_factory=list)
    seen: list[str] = field(default_factory=list)
    gone: list[str] = field(default_factory=list)
    ledgers: list[YearLedger] = field(default_factory=list)
    anyway: bool = False
    early: bool = False
    estimated: Fraction = Fraction(0)
    cleared: bool = False

    def add(self, ledger: YearLedger) -> None:
        """Take the rows that were added to a ledger."""
        if ledger.added:
            self.appended[year_file(ledger.name)] = ledger.added_text()
            self.rows.append(ledger.added_said())
            self.ledgers.append(ledger)


@dataclass(frozen=True)
class Head:
    """The end of a book's chain: how many actions there were, and the digest of the last.

    Attributes
    ----------
    number : int
        How many actions the journal has.
    digest : str
        The digest of the last.
    """

    number: int
    digest: str

    def __str__(self) -> str:
        return f"{self.number} {self.digest}"
