"""The statement of a month as the desk shows it: the page of `plantbal.page`, within the frame.

The page is made of the report as it is kept, of the session that it saw, and of the book. What is
between its `<main>` tags is taken over as it is, with links from streams and tanks to their
readings. Attributes of style are moved aside, since the desk allows none; its script sets them.
"""

from __future__ import annotations

import hashlib
import re
import zlib
from dataclasses import dataclass
from pathlib import Path

from django.urls import reverse
from django.utils.html import escape, format_html
from django.utils.safestring import SafeString
from django.utils.translation import get_language
from django.utils.translation import gettext as _

from plantbal.page.books import booked
from plantbal.page.command import Source, prepare
from plantbal.page.gates import closing_notes
from plantbal.page.head import Origin
from plantbal.page.render import render, speaking
from plantbal.page.statement import Prepared
from plantbal.report.parsing import parse_rows
from plantbal_office.plants.models import Plant
from plantbal_office.sentences import spoken
from plantbal_office.shelf import KEPT, book_contents, plain_book

_MAIN = re.compile(r"<main>(.*)</main>", re.DOTALL)
_FOOT = re.compile(r"<footer>(.*)</footer>", re.DOTALL)
_STYLE = re.compile(r' style="([^"<>]*)"')
_ROW = re.compile(
    r'(<tr[^>]*? data-stream="([^"]+)"[^>]*><td class="name">)(.*?)(</td>)', re.DOTALL
)
# What is said of one error, its set of suspects, and names in it.
_HOLE = re.compile(r'<li><p class="hole">.*?</ul></li>', re.DOTALL)
_HEAD = re.compile(r"<b>(.*?)</b>", re.DOTALL)
# A day: of another language it has beside it how a session writes it.
_DAY = re.compile(
    r'<span class="day">(?P<iso>\d{4}-\d\d-\d\d)</span>'
    r'|<span class="day" data-day="(?P<own>\d{4}-\d\d-\d\d)">[^<]*</span>'
)
_STREAM = re.compile(r"[A-Za-z0-9_.-]+")
# How many letters of bounds and certificates are within a page.
MOST_PROOF = 600_000
# A name in place of which each stream's is put.
_ANY = "ANY-STREAM"
# How long Graphviz has for the drawing of a page.
SECONDS = 8.0


@dataclass(frozen=True)
class ShownStatement:
    """A statement as it is shown: what is in it, its foot, and what there is to say of it.

    The bounds and certificates of a large plant are apart, packed, and come after the page.
    """

    body: str
    foot: str
    has_worth: bool
    said: tuple[str, ...]
    packed: bytes = b""

    @property
    def proof(self) -> bytes:
        """The bounds and certificates, if they aren't within the body."""
        return zlib.decompress(self.packed) if self.packed else b""


def prepared_of(plant: Plant, period: str, number: int | None = None) -> tuple[Prepared, Source]:
    """Return what a statement shows, and what it is made of."""
    source, _digest = _source_of(plant, period, number)
    return prepare(source), source


def _source_of(plant: Plant, period: str, number: int | None = None) -> tuple[Source, str]:
    """Return what a statement is made of, and the digest of its report."""
    kept = plain_book(plant).kept(period, number)
    rows = parse_rows(f"the report of {period}", kept.text)
    session = (f"{plant.name}.csv", kept.session.encode("ascii")) if kept.rows else None
    told = closing_notes(plant.folder)
    digest = hashlib.sha256(kept.text.encode("utf-8")).hexdigest()
    return Source(rows, f"the report of {period}", session, told=told), digest


def whole_page(plant: Plant, period: str) -> str:
    """Return the statement as a page of its own, for a file or for paper."""
    prepared, source = prepared_of(plant, period)
    added = booked(plant.folder, source.rows)
    head = str(book_contents(plant).version)
    origin = Origin(plant.name, "", None, head)
    title = f"{plant.name} {period}"
    return render(prepared, title=title, origin=origin, seconds=SECONDS, parts=added.parts)


def statement_of(plant: Plant, period: str, number: int | None = None) -> ShownStatement:
    """Return the statement of a month as the desk shows it."""

    def make() -> ShownStatement:
        source, digest = _source_of(plant, period, number)
        prepared = prepare(source)
        with speaking(spoken()):
            added = booked(plant.folder, source.rows if number is None else (), digest)
        del source
        packed: list[bytes] = []

        def apart(text: str) -> str:
            """Keep what is too long for the page."""
            if number is not None or len(text) <= MOST_PROOF:
                return text
            packed.append(zlib.compress(text.encode("utf-8"), 1))
            return _way_to_proof(plant, period)

        with speaking(spoken()):
            page = render(prepared, title=period, seconds=SECONDS, parts=added.parts, apart=apart)
        return ShownStatement(
            linked(plant, period, _inner(_MAIN, page)),
            _inner(_FOOT, page),
            "without-worth" not in page.partition("<body")[2].partition(">")[0],
            tuple(added.said),
            b"".join(packed[-1:]),
        )

    return KEPT.of(Path(plant.folder), "page", (period, number, get_language()), make)


def _way_to_proof(plant: Plant, period: str) -> SafeString:
    """Return what stands in place of bounds and certificates: a link, which a script follows."""
    address = reverse("look:proof", args=[plant.slug, period])
    link = '<div data-load="{}"><a href="{}">{}</a></div>'
    return format_html(link, address, address, _("Bounds, tests and certificates"))


def _inner(pattern: re.Pattern[str], page: str) -> str:
    """Return a part of a page, its styles moved aside."""
    found = pattern.search(page)
    return _STYLE.sub(r' data-style="\1"', found[1]) if found else ""


def inner_main(page: str) -> str:
    """Return what is between the main tags of a page, its styles moved aside."""
    return _inner(_MAIN, page)


def linked(plant: Plant, period: str, body: str) -> str:
    """Return the body of a statement with a link from each stream and tank to its readings."""

    # of 2,000 streams each address would be found anew, and names need no quoting
    front, _, rest = reverse("look:stream", args=[plant.slug, period, _ANY]).partition(_ANY)

    def link(found: re.Match[str]) -> str:
        address = escape(f"{front}{found[2]}{rest}")
        return f'{found[1]}<a href="{address}">{found[3]}</a>{found[4]}'

    return _HOLE.sub(lambda found: _hole(plant, period, found[0]), _ROW.sub(link, body))


def _hole(plant: Plant, period: str, text: str) -> str:
    """Return what is said of an error with links from its streams and its days to the readings."""
    head = _HEAD.search(text)
    names = _STREAM.findall(head[1]) if head else []
    month = book_contents(plant).month(period)
    year = month.year if month is not None else ""
    contents = book_contents(plant)
    there = {each.name for each in contents.flows.get(year, ())}
    there |= {each.name for each in contents.vessels.get(year, ())}
    known = [name for name in names if name in there]
    for name in known:
        address = escape(reverse("look:stream", args=[plant.slug, period, name]))
        text = re.sub(
            rf"(?<![\w.-]){re.escape(name)}(?![\w.-])", f'<a href="{address}">{name}</a>', text, 1
        )
    if known:
        address = escape(reverse("look:stream", args=[plant.slug, period, known[0]]))
        text = _DAY.sub(lambda day: _day_link(address, day), text)
    return text


def _day_link(address: str, day: re.Match[str]) -> str:
    """Return a day with a link to it among a stream's readings."""
    return f'<a href="{address}#d-{day["iso"] or day["own"]}">{day[0]}</a>'
