"""What somebody does in the browser while something fails, what they were told, and what has to hold of it.

A book is whole if its files are as its journal says, and each close and each amendment stands in its
year exactly as often as in its journal.
"""

from __future__ import annotations

import re
import shutil
import subprocess
import sys
from dataclasses import dataclass
from enum import Enum
from pathlib import Path

import requests
import services

from plantbal import Book
from plantbal.book.journal import Act
from plantbal.book.store import Store

PERIOD, FACT, METER, DAY = "2024-04", "WIC-101_2024-04-10", "WIC-101", "2024-04-10"
YEAR = "2023-24"
_CODE = """
from pathlib import Path; from plantbal import Book
from plantbal.workbook.options import ReadingOptions
top = Path({top!r}) / 'examples' / 'month_end'
book = Book({book!r}); de = ReadingOptions('de')
book.begin('2023-24', top / 'plant', reading=de); book.add(top / 'april', reading=de)
book.report('2024-04')
"""


def mill(office: services.Service, name: str = "mill") -> Path:
    """A plant whose April has its facts, and is open."""
    book = office.books / name
    code = _CODE.format(top=str(services.TOP), book=str(book))
    subprocess.run([sys.executable, "-c", code], env=office.here, check=True)
    office.plant(name, book)
    return book


class Doing(Enum):
    """What is done."""

    AMEND = "a figure is amended"
    CLOSE = "a month is closed"
    NOTE = "a comment with a file is kept"


@dataclass(frozen=True)
class State:
    """How a book is: the amount of a fact, and whether the month is closed."""

    amount: str
    closed: bool


def state_of(book: Path) -> State:
    """How a book is that is whole; what a stopped command had begun is finished first."""
    with Store(book).opened():
        lines = Store(book)
    found = Book(book).verify()
    assert found.ok, found.wrong
    with lines.opened(reading=True):
        journal, text = lines.journal(), lines.text(f"{YEAR}.csv")
    acts = [(line.act, line.of) for line in journal]
    closes, amends = (acts.count(each) for each in ((Act.CLOSE, PERIOD), (Act.AMEND, FACT)))
    assert text.count(f"\nclose,{PERIOD}\n") == closes <= 1, "half a close"
    assert text.count(f"\namend,{FACT},") == amends, "half an amendment"
    if closes:
        close = next(line for line in journal if line.act is Act.CLOSE)
        assert f"reports/{PERIOD}.csv" in close.files, "a close without its report"
    return State(Book(book).fact(YEAR, FACT).shown.fact.said(), bool(closes))


class Hands:
    """Somebody at work in a mill, of whom it is known what they were told.

    Attributes
    ----------
    told : int
        How often they were told that something is done.
    """

    def __init__(self, office: services.Service, name: str) -> None:
        self.office, self.book = office, office.books / "mill"
        self.visitor = office.signed_in(name)
        self.open = office.room / "open"
        shutil.copytree(self.book, self.open)
        page = self.visitor.get(f"/p/mill/correct/{PERIOD}/close").text
        self.gates = re.findall(r'name="(why-[a-z-]+)"', page)
        self.told = 0

    def form(self, doing: Doing, number: int) -> tuple[str, dict[str, str], dict[str, object]]:
        """The address of what is done, and what is sent there."""
        page = self.visitor.get("/p/mill/correct/quiet").text
        words = {name: _field(page, name) for name in ("deed", "version", "csrfmiddlewaretoken")}
        if doing is Doing.AMEND:
            words |= {"amount": f"{amount_of(number)}", "why": "tried"}
            return f"/p/mill/correct/fact/{YEAR}/{FACT}/amend", words, {}
        if doing is Doing.CLOSE:
            words |= dict.fromkeys(self.gates, "as it is")
            return f"/p/mill/correct/{PERIOD}/close", words, {}
        words |= {"about": f"month:{PERIOD}", "text": note_of(number), "then": "/p/mill/"}
        files = {"file": (f"{number}.txt", bytes_of(number), "text/plain")}
        return "/p/mill/notes/add", words, {"files": files}

    def send(self, form: tuple[str, dict[str, str], dict[str, object]]) -> int:
        """Send a form; the status, and 0 without an answer. What they are told is counted."""
        path, words, more = form
        heads = {"Referer": self.visitor.root + path}
        try:
            answer = self.visitor.session.post(
                self.visitor.root + path, data=words, headers=heads, allow_redirects=False, timeout=180, **more  # type: ignore[arg-type]
            )
        except requests.RequestException:
            return 0
        location = answer.headers.get("Location", "")
        is_told = (
            answer.status_code == 302 and "/sign-in" not in location and "/deeds/" not in location
        )
        self.told += is_told
        return 302 if is_told else answer.status_code

    def reopened(self) -> None:
        """Put the book back to where its month was open."""
        shutil.rmtree(self.book)
        shutil.copytree(self.open, self.book)


def amount_of(number: int) -> str:
    """The amount of a try."""
    return f"{12000 + number} t"


def said_of(number: int) -> str:
    """The amount of a try as it is said."""
    return f"{12000 + number:,} t"


def note_of(number: int) -> str:
    """The comment of a try."""
    return f"the comment of try {number}"


def bytes_of(number: int) -> bytes:
    """The file of a try."""
    return f"the file of try {number}\n".encode() * 1000


def _field(page: str, name: str) -> str:
    return re.findall(rf'name="{name}" value="([^"]*)"', page)[0]
