"""What a bundle names beside itself: the head of the book, and the plant's bundle before it.

So the bundles of a plant are a chain, as the actions of its book are: a bundle that was left out or
made anew is told by the one after it, and an older copy of the book by any bundle that is newer.
"""

from __future__ import annotations

import hashlib
from collections.abc import Iterable, Iterator
from dataclasses import dataclass
from typing import TYPE_CHECKING

from plantbal.audit.bundle import MANIFEST, Manifest, unpacked
from plantbal.audit.changed import digest
from plantbal.audit.said import SentenceKind
from plantbal.faults import InputFault, Place, read_bytes

if TYPE_CHECKING:
    from plantbal.book.journal import JournalLine
    from plantbal.book.store import Store

# The kinds of rows that ask for output, and change nothing.
_ASKING = frozenset((b"report", b"component", b"history", b"window", b"design", b"advise"))


def bundle_manifest(path: str) -> Manifest:
    """Return the manifest of a bundle.

    Parameters
    ----------
    path : str
        The bundle.

    Raises
    ------
    InputFault
        If it isn't a bundle, or something is wrong with its zip.
    """
    found = unpacked(path)
    if found.wrong:
        raise InputFault(
            found.wrong[0], place=Place(file=path), remedy="plantbal-desk audit says more"
        )
    return Manifest.read(found.files[MANIFEST])


def named_book(
    folder: str | None, session: bytes | None = None, source: str = ""
) -> dict[str, str]:
    """Return what a manifest says of the book in a folder; nothing without a folder.

    Parameters
    ----------
    folder : str or None
        The folder.
    session : bytes, optional
        The session that is to be of the book.
    source : str
        What the session is called.

    Raises
    ------
    Fault
        If there is no book, one of its files was changed, its journal has no digests yet, or the
        session isn't of the book.
    """
    if folder is None:
        return {}
    from plantbal.book.opening import read_book

    with read_book(folder) as book:
        head = book.head
        if session is not None and not rows_in(book.journal(), session):
            raise InputFault(
                f"this session isn't one of {folder}: it hasn't the rows of a year as they are there",
                place=Place(file=source),
                remedy="plantbal-desk book report PERIOD --session FILE writes the one that is",
            )
    return {"number": str(head.number), "head": head.digest}


def rows_in(lines: Iterable[JournalLine], session: bytes) -> str:
    """Return the file of a year whose rows a session has, and none but rows that ask for output.

    Parameters
    ----------
    lines : iterable of JournalLine
        The journal of the book, up to some action.
    session : bytes
        The session.

    Returns
    -------
    str
        The file; empty if the session is of no year of the book as it was after that action.
    """
    from plantbal.book.chain import state_of
    from plantbal.book.forms import is_year_file

    for name, kept in state_of(lines).items():
        if is_year_file(name) and kept.size is not None:
            begin, asked = session[: kept.size], session[kept.size :]
            if hashlib.sha256(begin).hexdigest() == kept.digest and only_asks(asked):
                return name
    return ""


def was_in(folder: str, session: bytes) -> bool:
    """Say whether a session has the rows of a year of a book as they are, or once were.

    Raises
    ------
    Fault
        If there is no book, or one of its files was changed.
    """
    from plantbal.book.forms import is_year_file
    from plantbal.book.opening import read_book

    with read_book(folder) as book:
        lines = book.journal()
    for name in {name for line in lines for name in line.files if is_year_file(name)}:
        so_far, at, last = hashlib.sha256(), 0, None
        for kept in filter(None, (line.files.get(name) for line in lines)):
            if kept.size is not None and at <= kept.size <= len(session):
                so_far.update(session[at : kept.size])
                at = kept.size
                last = at if so_far.hexdigest() == kept.digest else last
        if last is not None and only_asks(session[last:]):
            return True
    return False


def only_asks(rows: bytes) -> bool:
    """Say whether rows only ask for output."""
    return all(row.split(b",", 1)[0].strip() in _ASKING for row in rows.splitlines() if row)


def named_approvals(folder: str | None, period: str) -> dict[str, dict[str, str]]:
    """Return what a manifest has of the approvals of a period; nothing without a folder.

    Raises
    ------
    Fault
        If there is no book, or one of its files was changed.
    """
    if folder is None:
        return {}
    from plantbal.book.approval.carried import carried_approvals

    return carried_approvals(folder, period)


def named_bundle(path: str | None) -> dict[str, str]:
    """Return what a manifest says of the bundle before it; nothing without a bundle.

    Raises
    ------
    InputFault
        If it isn't a bundle, or something is wrong with its zip.
    """
    if path is None:
        return {}
    book = bundle_manifest(path).book
    return {
        "sha256": digest(read_bytes(path)[1]),
        "number": book.get("number", ""),
        "head": book.get("head", ""),
    }


# ---- what is held against them


@dataclass(frozen=True)
class Linked:
    """A bundle, with what it names beside itself.

    Attributes
    ----------
    path : str
        The bundle.
    manifest : Manifest
        Its manifest.
    session, output : bytes
        Its session, and the output for it.
    """

    path: str
    manifest: Manifest
    session: bytes
    output: bytes = b""

    def held(self, book: str | None, before: str | None) -> Iterator[tuple[SentenceKind, str]]:
        """Give whether what it names is there: ``good``, ``note`` or ``wrong``, and a sentence.

        Parameters
        ----------
        book : str or None
            The folder of the book, if it is to be compared.
        before : str or None
            The bundle before this one, if it is to be compared.
        """
        for named, given, what, compare, word in (
            (self.manifest.book, book, "head of a book", self._book, "--book FOLDER"),
            (self.manifest.before, before, "bundle before it", self._before, "--before BUNDLE"),
        ):
            if given is not None and not named:
                yield SentenceKind.WRONG, f"{self.path}: it names no {what}, and {given} is given"
            elif given is not None:
                yield from compare(given)
            elif named:
                digest_ = named.get("sha256") or f"of action {named['number']} {named['head']}"
                yield SentenceKind.NOTE, f"{self.path}: it names the {what} {digest_}: {word} compares it"

    def _book(self, folder: str) -> Iterator[tuple[SentenceKind, str]]:
        """Give whether a book has the head, and whether it had the session's rows by then."""
        from plantbal.book.opening import read_book
        from plantbal.book.verifying import missing_head

        named = self.manifest.book
        with read_book(folder) as book:
            wrong = missing_head(book, self.path, f"{named['number']} {named['head']}")
            lines = book.journal()[: int(named["number"])] if not wrong else []
        for each in wrong:
            yield SentenceKind.WRONG, each
        year = rows_in(lines, self.session)
        if year:
            what = f"{folder} has the head of action {named['number']} that it names"
            rest = f"its session has the rows of {year} as they were by then"
            yield SentenceKind.GOOD, f"{self.path}: {what}, and {rest}"
            yield from self._closed(book, lines)
            yield from self._approved(book)
        elif not wrong:
            what = f"its session doesn't have the rows, and no others, that a year of {folder} had"
            yield SentenceKind.WRONG, f"{self.path}: {what} by action {named['number']}"

    def _closed(self, book: Store, lines: list[JournalLine]) -> Iterator[tuple[SentenceKind, str]]:
        """Say if its period was closed by some lines, and its report isn't one of the book's."""
        from plantbal.book.journal import Act
        from plantbal.book.posting import kept_reports
        from plantbal.book.rounds import same_figures
        from plantbal.report.blocks import last_blocks
        from plantbal.report.output import parse_report

        period = self.manifest.period
        if not any(line.act is Act.CLOSE and line.of == period for line in lines):
            return
        with book.opened(reading=True):
            texts = [text for text in kept_reports(book, period) if text]
        try:
            found = parse_report(self.output.decode("utf-8"), self.path)
        except (InputFault, ValueError):  # the check says why
            return
        mine = last_blocks(found.blocks_in_order).get(period)
        for text in texts:
            kept = last_blocks(parse_report(text, period).blocks_in_order).get(period)
            if same_figures(mine, kept):
                return
        what = f"{period} is closed, and its output has other figures than each report of it that"
        yield SentenceKind.WRONG, f"{self.path}: {what} the book has"

    def _approved(self, book: Store) -> Iterator[tuple[SentenceKind, str]]:
        """Give who has submitted, approved and signed the close of its period, by the book."""
        from plantbal.book.approval.history import looked
        from plantbal.book.journal import Act

        with book.opened(reading=True):
            lines, found = book.journal(), list(looked(book))
        period = self.manifest.period
        of = {
            line.number
            for line in lines
            if line.of == period and line.act in (Act.CLOSE, Act.SUBMIT)
        }
        for each in found:
            if each.number in of:
                yield each.kind, f"{self.path}: {each.said}"

    def _before(self, path: str) -> Iterator[tuple[SentenceKind, str]]:
        """Give whether a bundle is the one before, with the head that is named of it."""
        there = named_bundle(path)
        if there == self.manifest.before:
            yield SentenceKind.GOOD, f"{self.path}: {path} is the bundle before it that it names"
            return
        stated = self.manifest.before
        what = f"it names the bundle {stated['sha256']} of action {stated['number'] or 'none'}"
        rest = f"{there['sha256']} of action {there['number'] or 'none'}"
        yield SentenceKind.WRONG, f"{self.path}: {what} as the one before it, and {path} is {rest}"
