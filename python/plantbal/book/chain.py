"""Tests whether the files of a book are as its journal says that they were left.

A file that is only added to is compared up to each of its rows that the journal names, so that of a
change the action is known whose rows it is in. Which row it is follows from `.checks`, which has
eight digits for each line of each file: these prove nothing, and are looked at to find the line of
a change, and whether the journal lacks lines at its end. What stood there is known if a bundle beside the book has a session whose digest the
journal names.
"""

from __future__ import annotations

import hashlib
import re
import zipfile
import zlib
from collections.abc import Callable, Iterable, Mapping, Sequence
from dataclasses import dataclass
from enum import unique
from pathlib import Path

from plantbal.book.forms import (
    ACCOUNTS,
    APPROVALS,
    JOURNAL,
    MAPPING,
    MEASURES,
    METERS,
    PLANT,
    REPORTS,
    REVOKED,
    RULES,
    SIGNERS,
    is_own,
    is_year_file,
)
from plantbal.book.journal import Act, JournalLine, Kept
from plantbal.book.remedies import BookRemedy
from plantbal.causes import CausedFault, Causes
from plantbal.faults import InputFault, Place
from plantbal.sentence import Sentence, counted, phrase

_DIGITS = re.compile(r"(?:[0-9a-f]{8})+")  # of the lines of a file
_SHOWN = 200  # characters of a row
_MOST_BYTES = 1 << 26  # of a file in a bundle

Read = Callable[[str], bytes | None]  # the bytes of a file of the book, or None if it isn't there


@unique
class FileCause(Causes):
    """Why a file of a book is neither read nor written."""

    CHANGED_MEANWHILE = "it was changed by other means while this command was at work"
    NOT_WRITTEN_HERE = "no action of this book has written it, and it isn't overwritten"


def file_fault(cause: FileCause, path: Path, remedy: str) -> CausedFault:
    """Return the fault of a file of a book."""
    return CausedFault(cause(), place=Place(file=str(path)), remedy=remedy)


def state_of(lines: Iterable[JournalLine]) -> dict[str, Kept]:
    """Return how the last action that names it left each file."""
    found: dict[str, Kept] = {}
    for line in lines:
        for name, kept in line.files.items():
            if kept.digest or kept.is_gone:
                found[name] = kept
    return {name: kept for name, kept in found.items() if not kept.is_gone}


@dataclass(frozen=True)
class FileDifference:
    """A file that isn't as the journal says.

    Attributes
    ----------
    file : str
        The file, within the book.
    line : int or None
        The first line that differs, if that is known.
    what : str
        What is wrong.
    stood : str
        What stood there, if that is known.
    acceptable : bool
        Whether it may be taken as it is.
    is_unknown : bool
        Whether no action of the book has written it.
    """

    file: str
    line: int | None
    what: str
    stood: str = ""
    acceptable: bool = True
    is_unknown: bool = False

    def said(self) -> str:
        """Return where it differs and how."""
        if self.line is None:
            return self.what
        return Sentence("line {line:,}: {what}", line=self.line, what=phrase(self.what))

    def fault(self, folder: Path) -> InputFault:
        """Return it as a fault, with what to do about it."""
        back = "put the file back as it was, from a backup"
        remedy = Sentence("move it away" if self.is_unknown else back)
        if self.acceptable:
            remedy = BookRemedy.ACCEPT_FILE(remedy=remedy, file=self.file).sentence
        place = Place(file=str(folder / self.file), line=self.line)
        what = self.what
        if self.stood:
            what = Sentence("{what}; there stood {stood}", what=phrase(what), stood=self.stood)
        return InputFault(what, place=place, remedy=remedy)


# What a person may write into a book's folder, so that it may be taken as it is.
_WRITTEN = frozenset((PLANT, METERS, ACCOUNTS, MAPPING, MEASURES))
_RULING = frozenset((JOURNAL, RULES, SIGNERS, REVOKED))


def unknown_file(name: str, lines: Iterable[JournalLine]) -> FileDifference:
    """Return a file that no action of a book has written, as it is now.

    It may be taken as it is if a person may write such a file, or if it was the book's before.
    """
    rests = name in _RULING or name.startswith(f"{APPROVALS}/")
    before = any(name in line.files for line in lines)
    acceptable = name in _WRITTEN or (before and not rests)
    what = "no action of this book has written it, so it isn't used"
    return FileDifference(name, None, what, acceptable=acceptable, is_unknown=True)


def checks_of(data: bytes) -> str:
    """Return eight digits for each line of a file."""
    return "".join(f"{zlib.crc32(line):08x}" for line in data.split(b"\n"))


def read_checks(text: str) -> dict[str, str]:
    """Return the digits of each file, as far as they are of that form."""
    parts = (line.partition(" ") for line in text.split("\n"))
    return {name: digits for name, _, digits in parts if is_own(name) and _DIGITS.fullmatch(digits)}


def checks_text(checks: Mapping[str, str]) -> str:
    """Return the digits of files, a line each."""
    return "".join(f"{name} {digits}\n" for name, digits in sorted(checks.items()))


class Chain:
    """The journal's word on the files of a book.

    Parameters
    ----------
    lines : sequence of JournalLine
        The journal.
    read : callable
        Returns the bytes of a file of the book, or None.
    checks : callable
        Returns the text of `.checks`.
    folder : Path
        The book's folder.
    """

    def __init__(
        self, lines: Sequence[JournalLine], read: Read, checks: Callable[[], str], folder: Path
    ) -> None:
        self.lines = lines
        self._read = read
        self._checks = checks
        self.folder = folder

    def differences(self, whole: bool = False) -> Iterable[FileDifference]:
        """Give the files that aren't as the journal says.

        Parameters
        ----------
        whole : bool
            Whether files that are added to are compared up to each place that the journal names,
            and not only as a whole.
        """
        yield from self._cut()
        for name, kept in state_of(self.lines).items():
            data = self._read(name)
            if data is None:
                form = "it no longer exists; {last} wrote it last"
                yield FileDifference(name, None, Sentence(form, last=self._last(name).said()))
            elif len(data) != kept.size or hashlib.sha256(data).hexdigest() != kept.digest:
                yield self._difference(name, data)
            elif whole and is_year_file(name):
                at = self._first_wrong(name, data)
                if at is not None:
                    line, _, now = at
                    form = "{action} names other rows up to {rows}"
                    what = Sentence(form, action=line.said(), rows=now.lines)
                    yield FileDifference(name, now.lines, what)

    def _cut(self) -> Iterable[FileDifference]:
        """Say that the journal is cut, if `.checks` has the digits of more of its lines."""
        had = len(read_checks(self._checks()).get(JOURNAL, "")) // 8 - 1
        there = len(self.lines) + 1
        if had > there:
            what = counted(
                had - there,
                "it is cut here: a line is gone that the last command left",
                "it is cut here: {count:,} lines are gone that the last command left",
            )
            yield FileDifference(JOURNAL, there + 1, what)

    def _history(self, name: str) -> list[tuple[JournalLine, Kept]]:
        """Return how actions left a file, from the last on that wrote or accepted it as a whole."""
        found: list[tuple[JournalLine, Kept]] = []
        for line in self.lines:
            kept = line.files.get(name)
            if kept is None or not (kept.digest or kept.is_gone):
                continue
            if line.act in (Act.ACCEPT, Act.BEGIN) or not is_year_file(name) or kept.is_gone:
                found.clear()
            if not kept.is_gone:
                found.append((line, kept))
        return found

    def _last(self, name: str) -> JournalLine:
        return self._history(name)[-1][0]

    def _first_wrong(self, name: str, data: bytes) -> tuple[JournalLine, Kept, Kept] | None:
        """Return the first action up to which a file differs, and how it was before and then."""
        before, at, so_far = Kept(0, 0, ""), 0, hashlib.sha256()
        for line, kept in self._history(name):
            size = kept.size or 0
            so_far.update(data[at:size])
            at = max(at, size)
            if len(data) < size or so_far.hexdigest() != kept.digest:
                return line, before, kept
            before = kept
        return None

    def _difference(self, name: str, data: bytes) -> FileDifference:
        """Return where a file differs from what an action left."""
        wrong = self._first_wrong(name, data)
        if wrong is None:
            last, left_then = self._history(name)[-1]
            at = (left_then.lines or 0) + 1
            more = data.count(b"\n") + 1 - at
            what = counted(
                more,
                "there is 1 line after what {action} left: {shown}",
                "there are {count:,} lines after what {action} left: {shown}",
                action=last.said(),
                shown=_shown(data, at),
            )
            return FileDifference(name, at, what)
        line, before, kept = wrong
        first, last_line = (before.lines or 0) + 1, kept.lines or 0
        number = self._line_by_checks(name, data, first, last_line)
        if number is None:
            there = data.count(b"\n")
            form = (
                "it isn't what {action} left in its lines {first:,} to {last:,}"
                if last_line > first
                else "it isn't what {action} left"
            )
            what = Sentence(form, action=line.said(), first=first, last=last_line)
            if there < last_line:
                form = "{what}, and has {there:,} lines in place of {lines:,}"
                what = Sentence(form, what=what, there=there, lines=kept.lines)
            return FileDifference(name, first if first == last_line else None, what)
        stood = self._stood(name, kept, number)
        if number > data.count(b"\n"):
            what = counted(
                last_line - number + 1,
                "it is cut here: the last line is gone of what {action} left",
                "it is cut here: the last {count:,} lines are gone of what {action} left",
                action=line.said(),
            )
            return FileDifference(name, number, what, stood)
        form = "this isn't what {action} left: {shown}"
        what = Sentence(form, action=line.said(), shown=_shown(data, number))
        return FileDifference(name, number, what, stood)

    def _line_by_checks(self, name: str, data: bytes, first: int, last: int) -> int | None:
        """Return the first line of some that differs, by the digits of each."""
        was = read_checks(self._checks()).get(name, "")
        now = checks_of(data)
        if len(was) // 8 < last:
            return None
        for number in range(first, last + 1):
            place = slice(8 * number - 8, 8 * number)
            if was[place] != now[place]:
                return number
        return None

    def _stood(self, name: str, kept: Kept, number: int) -> str:
        """Return what stood in a line, by a bundle or a report that has it; else nothing."""
        inner = "session.csv" if is_year_file(name) else "output.csv"
        for path in sorted(self.folder.glob("*.zip")):
            data = _of_bundle(path, inner)[: kept.size]
            if hashlib.sha256(data).hexdigest() == kept.digest:
                return Sentence("{row} (by {name})", row=_shown(data, number), name=path.name)
        return self._edit(number) if is_year_file(name) else ""

    def _edit(self, number: int) -> str:
        """Return what a report says of an edit that stands in a row of a session, else nothing."""
        begin = f"edit,{number},".encode("ascii")
        for name, kept in state_of(self.lines).items():
            data = self._read(name) or b"" if name.startswith(f"{REPORTS}/") else b""
            if hashlib.sha256(data).hexdigest() != kept.digest:
                continue
            for at, line in enumerate(data.split(b"\n"), start=1):
                if line.startswith(begin):
                    return Sentence("what {name} calls {row}", name=name, row=_shown(data, at))
        return ""


def _of_bundle(path: Path, name: str) -> bytes:
    """Return a file of a bundle, or nothing if it isn't one."""
    try:
        with zipfile.ZipFile(path) as bundle, bundle.open(name) as file:
            return file.read(_MOST_BYTES)
    except (OSError, KeyError, ValueError, NotImplementedError, RuntimeError, EOFError):
        return b""
    except (zipfile.BadZipFile, zlib.error):
        return b""


def _shown(data: bytes, number: int) -> str:
    """Return a line of a file in printable characters, cut if it is long."""
    lines = data.split(b"\n")
    text = lines[number - 1].decode("utf-8", "backslashreplace") if number <= len(lines) else ""
    text = "".join(each if each.isprintable() else ascii(each)[1:-1] for each in text)
    return text if len(text) <= _SHOWN else f"{text[:_SHOWN]} .."
