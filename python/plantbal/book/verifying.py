"""Tests a whole book against its journal, gives the head of its chain, and takes files as they are.
"""

from __future__ import annotations

import re
from collections.abc import Iterator, Sequence
from pathlib import Path

from plantbal.audit.changed import digest
from plantbal.audit.linked import bundle_manifest
from plantbal.book.chain import state_of
from plantbal.book.forms import JOURNAL
from plantbal.book.remedies import BookRemedy
from plantbal.book.results import AcceptedFile, Verified
from plantbal.book.said import waiting_said
from plantbal.book.opening import read_book
from plantbal.book.store import Act, Action, Head, Store
from plantbal.faults import Fault, InputFault, read_bytes
from plantbal.sentence import Sentence

_DIGEST = re.compile(r"(?:([0-9]{1,9}) )?([0-9a-f]{64})")


def head_of(folder: str | Path) -> Head:
    """Return the head of a book's chain, after a test of its files.

    Parameters
    ----------
    folder : str or Path
        The book's folder.

    Raises
    ------
    Fault
        If there is no book, a file was changed, or the journal has no digests yet.
    """
    with read_book(folder) as book:
        return book.head


def verify(book: Store, bundles: Sequence[str] = (), heads: Sequence[str] = ()) -> Verified:
    """Test every file of the book; the parameters are those of `plantbal.Book.verify`."""
    with book.opened(reading=True, tested=False):
        waiting = waiting_said(book)
        head = book.head
        wrong = [f"{each.fault(book.folder)}" for each in book.chain().differences(whole=True)]
        notes = list(unknown(book))
        for text in heads:
            wrong += missing_head(book, "--head", text)
        for path in bundles:
            wrong += wrong_bundle(book, path)
        wrong += unlinked_bundles(bundles)
        files = len(state_of(book.journal()))
    return Verified(head, files, tuple(wrong), tuple(waiting), tuple(notes))


def unknown(book: Store) -> Iterator[str]:
    """Give what is to be said of files that no action has written, and of what came before."""
    for each in book.unknown(years=True):
        yield f"note: {each.fault(book.folder)}"
    begun = [line for line in book.journal() if line.act == Act.BEGIN]
    if begun:
        form = "note: {action}: what was changed before it can't be known"
        yield Sentence(form, action=begun[0].said())
    for line in book.journal():
        if line.act == Act.ACCEPT:
            form = "note: {action}: a file was taken as it was: {why}"
            yield Sentence(form, action=line.said(), why=line.why)


def unknown_in(folder: str | Path) -> list[InputFault]:
    """Return what is to be said of files of a book's forms that no action has written.

    That is nothing if there is no book, or its journal can't be read: then a command says that.
    """
    book = Store(folder)
    try:
        with book.opened(reading=True, tested=False):
            return [each.fault(book.folder) for each in book.unknown()]
    except Fault:
        return []


def missing_head(book: Store, source: str, text: str) -> list[str]:
    """Return what is wrong if a book doesn't have a head that stands elsewhere, in a line.

    Parameters
    ----------
    book : Store
        The book.
    source : str
        Where the head stands.
    text : str
        The head: its digest, or its number before it.

    Raises
    ------
    Fault
        If the text is no head.
    """
    found = _DIGEST.fullmatch(text.strip())
    if found is None:
        what = Sentence("{text!r} isn't a head of a book", text=text)
        raise Fault(what, text=text, remedy=BookRemedy.HEAD_HAS().sentence)
    lines = [line for line in book.journal() if line.digest == found[2]]
    if lines and found[1] in (None, str(lines[0].number)):
        return []
    form = (
        "{source}: this book doesn't have the head of action {number:,} {head}: it is an older copy, "
        "another book, or its journal was written anew"
        if found[1]
        else "{source}: this book doesn't have the head {head}: it is an older copy, another book, or "
        "its journal was written anew"
    )
    return [Sentence(form, source=source, number=int(found[1] or 0), head=found[2])]


def wrong_bundle(book: Store, path: str) -> list[str]:
    """Return what is wrong with what a bundle says of a book, in lines."""
    named = bundle_manifest(path).book
    if not named:
        return [BookRemedy.NAME_A_HEAD(path=path).sentence]
    return missing_head(book, path, f"{named['number']} {named['head']}")


def unlinked_bundles(paths: Sequence[str]) -> Iterator[str]:
    """Give the bundles that don't name the one before them, of bundles in their order."""
    for before, path in zip(paths, paths[1:]):
        named = bundle_manifest(path).before
        if named.get("sha256") != digest(read_bytes(before)[1]):
            form = "{path}: it doesn't name {before} as the bundle before it"
            yield Sentence(form, path=path, before=before)


def accept(book: Store, file: str, *, why: str, who: str = "") -> AcceptedFile:
    """Take a file as it is; the parameters are those of `plantbal.Book.accept`."""
    with book.opened(tested=False):
        name = file.removeprefix("./")
        every = [*book.chain().differences(), *book.unknown()]
        found = {each.file: each for each in every if each.acceptable}
        if name not in found:
            if name in state_of(book.journal()):
                return AcceptedFile(name, "")
            form = "these are: {names}" if found else "all files are as it says"
            known = Sentence(form, names=", ".join(found))
            form = "{name} isn't a file of this book that differs from its journal"
            what = Sentence(form, name=name)
            raise Fault(what, text=name, remedy=known)
        action = Action(Act.ACCEPT, name, found[name].said(), why, who)
        if name == JOURNAL:
            pass  # its line is the one that is written now
        elif book.path(name).is_file():
            action.seen = [name]
        else:
            action.gone = [name]
        book.do(action)
    return AcceptedFile(name, found[name].said())
