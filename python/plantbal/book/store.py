"""The folder of a book: its files, and actions that are done as a whole or not at all.

An action may change several files: a year's session, that of the year after it, the journal. So all
of them are first written beside their places; then the action is written down as a whole in one
file, `.pending`, which comes by a rename; then each file takes its place by a rename, and in the
end `.pending` is removed. Whoever next writes to the book finishes what `.pending` says. So the
book is as before the action until `.pending` is there, and as after it from then on, at whatever
moment the process is stopped. Whoever only reads sees it as after, and changes nothing.

No file is appended to in place: an append that is cut may leave a row that is cut within its reason
or its last number, and the program accepts it as another row. A rename can't be cut. What it costs
is one more writing of the year's file, at most some 20 MB.
"""

from __future__ import annotations

import hashlib
from collections.abc import Iterator
from contextlib import contextmanager
from pathlib import Path

from plantbal import limits
from plantbal.book import expected as expecting
from plantbal.book.actions import Action, Head, Withheld
from plantbal.book.chain import (
    Chain,
    FileCause,
    FileDifference,
    checks_of,
    checks_text,
    file_fault,
    read_checks,
    state_of,
    unknown_file,
)
from plantbal.book.forms import (
    APPROVALS,
    CHECKS,
    EARLIER,
    JOURNAL,
    LOCK,
    METERS,
    PENDING,
    PLANT,
    POSTED,
    REPORTS,
    is_begun,
    is_year_file,
    there,
)
from plantbal.book.journal import (
    HEAD_TEXT,
    Act,
    JournalLine,
    Kept,
    following,
    now,
    printable_line,
    read_journal,
)
from plantbal.book.lock import locked
from plantbal.book.owners import check_folder, check_links, link_in, user_said
from plantbal.book.pending import PendingFile, left_said, pending_text, read_pending
from plantbal.book.remedies import BookRemedy
from plantbal.book.writing import Writing, sync
from plantbal.faults import decoded, Fault, FileFault, InputFault, Place, read_bytes
from plantbal.files import unwritten
from plantbal.sentence import Joined, Sentence, phrase

__all__ = ["METERS", "PLANT", "REPORTS", "Act", "Action", "Head", "JournalLine", "Store"]

_MOST_FILES = 500  # that one line of the journal names
_LOST = "its journal is lost: put back journal.csv, from a backup"


class Store:
    """The folder of a book.

    Parameters
    ----------
    folder : str or Path
        The folder.
    seconds : float
        The most seconds to wait for another command that is at work in it.
    expected : Version, optional
        How it was when somebody decided on an action; nothing is done if it is otherwise.
    key : str or Path, optional
        The key with which submissions and approvals are signed.
    given : tuple of str, optional
        A record that was signed elsewhere, and its signature.
    withheld : Withheld
        What becomes of an action that wants an approval.

    Attributes
    ----------
    waits : list of PendingFile
        What an action that was stopped has yet to do, while the book is only read.
    """

    def __init__(
        self,
        folder: str | Path,
        seconds: float = 10,
        expected: expecting.BookVersion | None = None,
        *,
        key: str | Path | None = None,
        given: tuple[str, str] | None = None,
        withheld: Withheld = Withheld.SUBMITTED,
    ) -> None:
        self.folder = Path(folder)
        self.seconds = seconds
        self.expected = expected
        self.key = key
        self.given = given
        self.withheld = withheld
        self.waits: list[PendingFile] = []
        self._journal: list[JournalLine] | None = None
        self._known: frozenset[str] = frozenset()
        self._seen: dict[str, bytes] = {}  # the digests of files as they were read first
        self._is_old = False

    # ---- opening

    @contextmanager
    def opened(
        self, *, new: bool = False, reading: bool = False, tested: bool = True
    ) -> Iterator[None]:
        """Keep other commands out of the book, and test its files against its journal.

        Parameters
        ----------
        new : bool
            Whether the book needn't be there yet.
        reading : bool
            Whether it is only read: then other readers needn't wait, no right to write is wanted,
            and what a stopped command has left is seen as if it were done.
        tested : bool
            Whether the files are to be as the journal says.

        Raises
        ------
        Fault
            If there is no book, another command is at work in it, or a file was changed.
        """
        if new:
            try:
                self.folder.mkdir(parents=True, exist_ok=True)
            except OSError as error:
                raise unwritten(self.folder, error) from error
        else:
            self._check_is_there()
        if not reading:
            check_folder(self.folder)
        with locked(self.folder / LOCK, self.seconds, shared=reading):
            self._forget()
            self.waits = read_pending(self.folder)
            if not reading:
                self._tidy()
                self._finish()
            if not new and self._bytes(JOURNAL) is None:
                what = "there is no journal.csv"
                raise InputFault(what, place=Place(file=str(self.folder)), remedy=_LOST)
            if tested:
                self.test(reading)
            if not reading:
                expecting.require_expected(self.journal(), self.expected)
            yield

    def _check_is_there(self) -> None:
        """Raise if there is no book.

        Raises
        ------
        Fault
            If it is so, or its journal is lost.
        """
        if any((self.folder / name).is_file() for name in (JOURNAL, PENDING)):
            return
        found = self.remains()
        if found:
            what = Sentence("{name} is of a book, and there is no journal.csv", name=found[0])
            raise InputFault(what, place=Place(file=str(self.folder)), remedy=_LOST)
        there = Sentence("there is no book in {folder}", folder=self.folder.resolve())
        raise FileFault(there, remedy=BookRemedy.GO_OR_MAKE().sentence)

    def remains(self) -> list[str]:
        """Return the names of what is there of a book: of its files, or of one that was lost."""
        names = [name for name in (JOURNAL, PENDING) if self.path(name).exists()]
        return names + [name for name in there(self.folder) if name not in names]

    def _tidy(self) -> None:
        """Remove files that were begun and never got their names."""
        for inner in ("", REPORTS, EARLIER, POSTED, APPROVALS):
            if inner and link_in(self.folder, inner) is not None:
                continue  # nothing is removed elsewhere
            for path in (self.folder / inner).glob(".*"):
                if is_begun(inner, path.name) and (path.is_file() or path.is_symlink()):
                    path.unlink(missing_ok=True)

    def test(self, reading: bool = False) -> None:
        """Raise at the first file that isn't as the journal says, or that isn't used if it writes.

        Raises
        ------
        InputFault
            If there is one; its place is where it differs.
        """
        if self._bytes(JOURNAL) is None:
            return
        unknown = () if reading else self.unknown()
        for difference in (*self.chain().differences(), *unknown):
            raise difference.fault(self.folder)

    def chain(self) -> Chain:
        """Return what the journal says of the book's files."""
        return Chain(self.journal(), self._bytes, self._checks, self.folder)

    def unknown(self, years: bool = False) -> Iterator[FileDifference]:
        """Give the files that no action has written; those called like a year may be workbooks."""
        lines = self.journal()
        for name in there(self.folder):
            if not self.knows(name) and (years or not is_year_file(name)):
                yield unknown_file(name, lines)

    def knows(self, name: str) -> bool:
        """Say whether an action has written a file, so that it is used.

        A book of an older version doesn't say which these are, and one that is begun has none yet.
        """
        return name == JOURNAL or not self.journal() or self._is_old or name in self._known

    def _checks(self) -> str:
        """Return the digits of the lines of files, or nothing if they can't be read."""
        checks = self.path(CHECKS)
        try:
            return read_bytes(checks)[1].decode("ascii", "replace") if checks.is_file() else ""
        except InputFault:
            return ""

    # ---- what is there

    @property
    def years(self) -> list[str]:
        """The names of the years, in order, as the journal says that they were begun."""
        return sorted(line.of for line in self.journal() if line.act in (Act.NEW, Act.NEXT))

    @property
    def head(self) -> Head:
        """The end of its chain.

        Raises
        ------
        Fault
            If it has none yet: it is of an older version.
        """
        lines = self.journal()
        if self._is_old:
            form = "the journal of {folder} is of an older version, without digests"
            remedy = "the next command that writes to the book begins them"
            raise Fault(Sentence(form, folder=self.folder.resolve()), remedy=remedy)
        return Head(lines[-1].number, lines[-1].digest)

    def path(self, name: str) -> Path:
        """Return a file of the book."""
        return self.folder / name

    def text(self, name: str) -> str:
        """Return the text of a file, which is empty if the book has none."""
        data = self.data(name)
        return decoded(str(self.path(name)), data) if data is not None else ""

    def has(self, name: str) -> bool:
        """Say whether the book has a file."""
        return self.data(name) is not None

    def data(self, name: str) -> bytes | None:
        """Return the bytes of a file; None if it isn't there, or no action has written it."""
        return self._bytes(name) if self.knows(name) else None

    def kept(self, name: str) -> Kept:
        """Return what is kept of a file: its lines, bytes and digest, whoever has written it."""
        return Kept.of(self._bytes(name))

    def journal(self) -> list[JournalLine]:
        """Return the lines of the journal.

        Raises
        ------
        InputFault
            If it isn't one, or its chain is broken.
        """
        if self._journal is None:
            data = self._bytes(JOURNAL)
            if data is None:
                return []
            try:
                text = data.decode("utf-8")
            except UnicodeDecodeError as error:
                place = Place(file=str(self.path(JOURNAL)))
                what = "this isn't UTF-8 text"
                raise InputFault(what, place=place, remedy="put it back, from a backup") from error
            self._journal, self._is_old = read_journal(str(self.path(JOURNAL)), text)
            self._known = frozenset(state_of(self._journal))
        return self._journal

    def _bytes(self, name: str) -> bytes | None:
        """Return the bytes of a file, as they are once what waits is done.

        Raises
        ------
        InputFault
            If they can't be read, or are other ones than when the book was opened.
        """
        path = self.folder / name
        most = limits.SESSION_BYTES if is_year_file(name) else limits.INPUT_BYTES
        data = read_bytes(path, most)[1] if path.is_file() else None
        digest = hashlib.sha256(data).digest() if data is not None else b""
        if self._seen.setdefault(name, digest) != digest:
            raise file_fault(FileCause.CHANGED_MEANWHILE, path, "find out by what")
        for entry in self.waits:
            if entry.file == name:
                data = entry.whole(data or b"", path)
        return data

    def _forget(self) -> None:
        """Read the files anew from here on, whatever they are."""
        self._journal = None
        self._seen.clear()

    # ---- actions

    def do(self, action: Action) -> None:
        """Do an action as a whole; it is done even if the process is stopped after this began.

        Parameters
        ----------
        action : Action
            The action. The journal gets a line about it.

        Raises
        ------
        Submitted
            If it needs an approval by the rules of the book, and waits for it now.
        Unsigned
            If the text that its submission signs was asked for.
        Fault
            If it can't be done. The fault says whether it is going to be.
        """
        if self.journal():
            from plantbal.book.approval.guard import pass_or_submit

            pass_or_submit(self, action)
        entries = self._entries_of(action)
        check_links(self.folder, [entry.file for entry in entries])
        self._check_known(entries)
        text = pending_text(entries)
        try:
            writing = self._writing(entries)
        except Fault as fault:
            raise _said(fault, "nothing was booked") from fault
        try:
            self._write_down(text)
        except Fault as fault:
            writing.drop()
            raise _said(fault, self._dropped()) from fault
        self._place(writing)

    def _write_down(self, text: bytes) -> None:
        """Write down what waits."""
        writing = Writing({self.folder / PENDING: text})
        try:
            writing.place()
        finally:
            writing.drop()

    def _entries_of(self, action: Action) -> list[PendingFile]:
        """Return what an action does to each file, with its line in the journal."""
        appended = {name: text.encode("utf-8") for name, text in action.appended.items()}
        written = {name: text.encode("utf-8") for name, text in action.written.items()}
        sizes = {name: len(self._bytes(name) or b"") for name in appended}
        entries = [PendingFile(name, sizes[name], data) for name, data in appended.items()]
        entries += [PendingFile(name, None, data) for name, data in written.items()]
        whole = {each.file: each.whole(self._bytes(each.file) or b"", Path()) for each in entries}
        files = {name: Kept.of(data) for name, data in whole.items()}
        files |= {name: Kept.of(self._bytes(name)) for name in action.seen if name not in files}
        files |= {name: Kept.of(None) for name in action.gone}
        lines = list(self.journal())
        is_new = not lines
        if self._is_old and not is_new:
            lines += self._beginning(lines)
        texts = (action.of, action.what, action.why, "; ".join(action.rows), action.program)
        of, what, why, rows, program = map(printable_line, texts)
        who = printable_line(action.who)
        last = JournalLine(
            0, now(), user_said(), who, action.act, of, what, why, rows, program, files
        )
        lines.append(following(lines, last))
        data = self._bytes(JOURNAL)
        if is_new or self._is_old or data is None:
            journal = HEAD_TEXT + "".join(line.text for line in lines)
            return [*entries, PendingFile(JOURNAL, None, journal.encode("utf-8"))]
        return [*entries, PendingFile(JOURNAL, len(data), lines[-1].text.encode("utf-8"))]

    def _beginning(self, before: list[JournalLine]) -> list[JournalLine]:
        """Return the lines with which the chain of an older version's book begins."""
        names = [name for name in there(self.folder) if name != JOURNAL]
        check_links(self.folder, names)
        lines = list(before)
        for at in range(0, len(names), _MOST_FILES):
            files = {name: Kept.of(self._bytes(name)) for name in names[at : at + _MOST_FILES]}
            what = (
                "the digests begin here: nothing before this was kept by them, "
                f"{len(before):,} actions of an older version"
            )
            line = JournalLine(0, now(), user_said(), "", Act.BEGIN, what=what, files=files)
            lines.append(following(lines, line))
        return lines[len(before) :]

    def _check_known(self, entries: list[PendingFile]) -> None:
        """Refuse to write over a file that the journal doesn't know.

        Raises
        ------
        InputFault
            If one is there.
        """
        for entry in entries:
            if not self.knows(entry.file) and self._bytes(entry.file) is not None:
                remedy = "move it away, and type this again"
                raise file_fault(FileCause.NOT_WRITTEN_HERE, self.path(entry.file), remedy)

    def _writing(self, entries: list[PendingFile]) -> Writing:
        """Write what files are to have beside them, with the digits of their lines."""
        contents: dict[Path, bytes] = {}
        digits = read_checks(self._checks())
        for entry in entries:
            path = self.folder / entry.file
            contents[path] = entry.whole(self._bytes(entry.file) or b"", path)
            digits[entry.file] = checks_of(contents[path])
        contents[self.path(CHECKS)] = checks_text(digits).encode("ascii")
        return Writing(contents)

    def _finish(self) -> None:
        """Do what a pending action says, whichever part of it was done before."""
        if not self.waits:
            return
        entries, self.waits = self.waits, []
        try:
            writing = self._writing(entries)
        except Fault as fault:
            raise _said(fault, self._waiting(started=True)) from fault
        self._place(writing)

    def _place(self, writing: Writing) -> None:
        """Have the files of an action take their places, and end it.

        Raises
        ------
        Fault
            If one can't; the fault says what becomes of the action.
        """
        self._forget()
        try:
            writing.place()
        except Fault as fault:
            writing.drop()
            if not writing.placed:
                raise _said(fault, self._dropped()) from fault
            raise _said(fault, self._waiting(started=True)) from fault
        try:
            (self.folder / PENDING).unlink()
            sync(self.folder)
        except (OSError, Fault):
            pass  # all is done; the next command finds it so, and removes what is left

    def _dropped(self) -> str:
        """Take back an action of which nothing is done yet, and return what is to be said."""
        try:
            (self.folder / PENDING).unlink(missing_ok=True)
            sync(self.folder)
        except (OSError, Fault):
            return self._waiting(started=False)
        return "nothing was booked"

    def _waiting(self, started: bool) -> str:
        """Return what is to be said of an action that waits."""
        return left_said(self.folder / PENDING, started)


def _said(fault: Fault, then: str) -> Fault:
    """Return a fault that says, too, what becomes of the action."""
    remedy = Joined("; ", (phrase(each) for each in (fault.remedy, then) if each))
    return InputFault(fault.what, place=fault.place, text=fault.text, remedy=remedy)
