"""The journal of a book: a line for each action, each bound to the one before it.

The lines are a chain. Each has its place, the digest of the line before it, and its own, which is
the SHA-256 of all that stands before it in the line. It names the files that its action left, each
with its lines, its bytes and its SHA-256: of a session these are its rows so far. So whoever knows
the last digest, the *head*, can tell whether anything was changed, in the journal or in the files.

Journals of older versions have no digests. The next action writes such a journal anew in this form,
and a line `begin` says that the chain begins there.
"""

from __future__ import annotations

import csv
import datetime
import hashlib
import io
import re
from collections.abc import Iterable, Iterator, Mapping, Sequence
from dataclasses import dataclass, field, replace
from enum import StrEnum
from itertools import pairwise

from plantbal.book.forms import is_year
from plantbal.faults import InputFault, Place
from plantbal.sentence import Sentence

HEADS = (
    "number",
    "when",
    "user",
    "who",
    "action",
    "of",
    "what",
    "why",
    "rows",
    "program",
    "files",
    "before",
    "digest",
)
_OLD_HEADS = ("when", "who", "what", "why", "rows")
_ADDED = re.compile(r"([^ ;]+): ([0-9]+)(?: to ([0-9]+))?")
_KEPT = re.compile(r"([0-9]{1,12}|-) ([0-9]{1,12}|-) ([0-9a-f]{64}|-)")
_NUMBER = re.compile(r"[0-9]{1,9}")
_SEEN = re.compile(r"([^ ;]+): up to ([0-9]+)")
_REMEDY = "no command writes that: put the journal back as it was, from a backup"
NOTHING = "-"  # a count or a digest that isn't known, or a file that is gone


class Act(StrEnum):
    """What an action is."""

    NEW = "new"
    ADD = "add"
    PULL = "pull"
    AMEND = "amend"
    STRIKE = "strike"
    ESTIMATE = "estimate"
    REPORT = "report"
    WINDOW = "window"
    CLOSE = "close"
    QUIET = "quiet"
    HEED = "heed"
    POSTED = "posted"
    NEXT = "next"
    ACCEPT = "accept"
    BEGIN = "begin"
    RULES = "rules"
    SUBMIT = "submit"
    APPROVE = "approve"
    REJECT = "reject"


_ACTS = {act.value: act for act in Act}


@dataclass(frozen=True)
class Kept:
    """A file as an action left it.

    Attributes
    ----------
    lines : int or None
        How many lines it has; None if the file is gone.
    size : int or None
        How many bytes; None if that isn't known.
    digest : str
        Its SHA-256; empty if that isn't known, or the file is gone.
    """

    lines: int | None
    size: int | None
    digest: str

    @classmethod
    def of(cls, data: bytes | None) -> Kept:
        """Return what is kept of a file's bytes, or of a file that isn't there."""
        if data is None:
            return cls(None, None, "")
        return cls(data.count(b"\n"), len(data), hashlib.sha256(data).hexdigest())

    @property
    def is_gone(self) -> bool:
        """Whether the file no longer exists."""
        return self.lines is None

    def __str__(self) -> str:
        counts = (NOTHING if each is None else str(each) for each in (self.lines, self.size))
        return " ".join((*counts, self.digest or NOTHING))

    @classmethod
    def read(cls, text: str) -> Kept | None:
        """Return what a text says is kept, or None if it is of another form."""
        found = _KEPT.fullmatch(text)
        if found is None:
            return None
        lines, size = (None if each == NOTHING else int(each) for each in found.groups()[:2])
        return cls(lines, size, found[3].removeprefix(NOTHING))


@dataclass(frozen=True)
class JournalLine:
    """A line of the journal.

    Attributes
    ----------
    number : int
        Its place, counted from 1.
    when : str
        When, in UTC.
    user : str
        Whose process it was: the user's name and number.
    who : str
        Who it was, as the command's words say it.
    act : Act
        What was done.
    of : str
        What it was done to: a year, a period, the two periods of a window, a fact, a file.
    what, why : str
        What else there is to say of it, and the reason.
    rows : str
        Which rows of which years it added.
    program : str
        The SHA-256 of the program that it ran, if it ran one.
    files : dict of str to Kept
        Files as the action left them.
    before : str
        The digest of the line before it, or that of the first line of all.
    digest : str
        The SHA-256 of its text up to this.
    """

    number: int
    when: str
    user: str
    who: str
    act: Act
    of: str = ""
    what: str = ""
    why: str = ""
    rows: str = ""
    program: str = ""
    files: Mapping[str, Kept] = field(default_factory=dict)
    before: str = ""
    digest: str = ""

    @property
    def cells(self) -> tuple[str, ...]:
        """Its cells but for the last, its digest."""
        kept = "; ".join(f"{name} {each}" for name, each in self.files.items())
        return (
            str(self.number),
            self.when,
            self.user,
            self.who,
            self.act.value,
            self.of,
            self.what,
            self.why,
            self.rows,
            self.program,
            kept,
            self.before,
        )

    @property
    def text(self) -> str:
        """It as it stands in the journal, with its line feed."""
        return journal_text([(*self.cells, self.digest)])

    @property
    def is_chained(self) -> bool:
        """Whether it says how its action left the files: lines of old journals don't."""
        return any(each.digest or each.is_gone for each in self.files.values())

    @property
    def added(self) -> dict[str, range]:
        """The rows that it added, by the names of the years."""
        return {
            year: range(int(first), int(last or first) + 1)
            for year, first, last in _ADDED.findall(self.rows)
        }

    def said(self) -> Sentence:
        """Return which action it is: `action 7 (amend FI-302_2024-04-18, 2024-05-02 …)`."""
        by = self.who or self.user
        return Sentence(
            "action {number:,} ({words}; {when}, {by})"
            if by
            else "action {number:,} ({words}; {when})",
            number=self.number,
            words=" ".join(filter(None, (self.act.value, self.of, self.what))),
            when=self.when,
            by=by,
        )


def journal_text(rows: Sequence[Sequence[str]]) -> str:
    """Return rows as CSV."""
    out = io.StringIO()
    csv.writer(out, lineterminator="\n").writerows(rows)
    return out.getvalue()


HEAD_TEXT = journal_text([HEADS])
_HEAD, _OLD_HEAD = HEAD_TEXT.rstrip("\n"), ",".join(_OLD_HEADS)
# What the first line of all stands in place of.
FIRST_BEFORE = hashlib.sha256(HEAD_TEXT.encode("utf-8")).hexdigest()


def now() -> str:
    """Return the time, in UTC and whole seconds."""
    return datetime.datetime.now(datetime.timezone.utc).strftime("%Y-%m-%dT%H:%M:%SZ")


def printable_line(text: str) -> str:
    """Return a text in one line of characters that can be written, and read on a terminal."""
    return "".join(each if each.isprintable() else ascii(each)[1:-1] for each in text)


# ---- reading


def read_journal(file: str, text: str) -> tuple[list[JournalLine], bool]:
    """Return the lines of a journal, and whether it is of an older version's form.

    Parameters
    ----------
    file : str
        The file, for what is said of it.
    text : str
        Its text.

    Raises
    ------
    InputFault
        If it isn't a journal, or its chain is broken.
    """
    head, _, rest = text.partition("\n")
    place = Place(file=file, line=1)
    if head not in (_HEAD, _OLD_HEAD):
        raise InputFault("this isn't the first line of a journal", place=place, remedy=_REMEDY)
    texts = _lines(file, rest)
    if head == _OLD_HEAD:
        old = chained(_old_lines(file, rest))
        _check_begin(file, old)
        return old, True
    lines = []
    for at, (line, row) in enumerate(zip(texts, _rows(file, texts)), start=2):
        lines.append(_line(file, at, row))
        if _digest(line.removesuffix(f",{row[-1]}")) != row[-1]:
            place = Place(file=file, line=at)
            what = "this line was changed: its digest is another one"
            raise InputFault(what, place=place, remedy=_REMEDY)
    _check_begin(file, lines)
    _check_chain(file, lines)
    return lines, False


def read_line(file: str, text: str) -> JournalLine:
    """Return a line of a journal that stands elsewhere than in its journal.

    Raises
    ------
    InputFault
        If it isn't one, or its digest is another.
    """
    rows = _rows(file, _lines(file, text))
    if len(rows) != 1:
        raise _no_line(file, 1)
    line = _line(file, 1, rows[0])
    if (
        line.text != text
        or _digest(text.rstrip("\n").removesuffix(f",{line.digest}")) != line.digest
    ):
        raise _no_line(file, 1)
    return line


def _lines(file: str, text: str) -> list[str]:
    """Return the lines of a journal.

    Raises
    ------
    InputFault
        If the last is cut.
    """
    lines = text.split("\n")
    if lines.pop():
        place = Place(file=file, line=len(lines) + 2)
        raise InputFault("its last line is cut", place=place, remedy=_REMEDY)
    return lines


def _rows(file: str, lines: Sequence[str]) -> list[list[str]]:
    """Return the cells of a journal's lines; no cell goes over the end of a line.

    Raises
    ------
    InputFault
        If a line is none.
    """
    limit = csv.field_size_limit(1 << 24)
    reader = csv.reader(lines, strict=True)
    rows: list[list[str]] = []
    try:
        for row in reader:
            rows.append(row)
            if reader.line_num != len(rows):
                raise _no_line(file, len(rows) + 1)
    except csv.Error:
        raise _no_line(file, len(rows) + 2) from None
    finally:
        csv.field_size_limit(limit)
    return rows


def _no_line(file: str, at: int) -> InputFault:
    """Return the fault of a line that no command writes."""
    place = Place(file=file, line=at)
    return InputFault("this isn't a line of a journal", place=place, remedy=_REMEDY)


def _line(file: str, at: int, row: Sequence[str]) -> JournalLine:
    """Return a line of the journal of its cells.

    Raises
    ------
    InputFault
        If its form isn't that of one.
    """
    if len(row) != len(HEADS) or row[4] not in _ACTS:
        raise _no_line(file, at)
    number, when, user, who, act, of, what, why, rows, program, kept, before, digest = row
    files = _files(kept)
    if not _NUMBER.fullmatch(number) or files is None:
        raise _no_line(file, at)
    if _ACTS[act] in (Act.NEW, Act.NEXT) and not is_year(of):
        raise _no_line(file, at)
    stated = (when, user, who, _ACTS[act], of, what, why, rows, program, files, before, digest)
    return JournalLine(int(number), *stated)


def _files(cell: str) -> dict[str, Kept] | None:
    """Return the files of a cell, or None if it isn't of that form."""
    files = {}
    for text in cell.split("; ") if cell else ():
        name, _, rest = text.partition(" ")
        kept = Kept.read(rest)
        if kept is None:
            return None
        files[name] = kept
    return files


def _check_begin(file: str, lines: list[JournalLine]) -> None:
    """Raise if a journal doesn't begin with the first year.

    Raises
    ------
    InputFault
        If it is so.
    """
    if not lines or lines[0].act != Act.NEW:
        what = "it doesn't begin with the action that made the book"
        raise InputFault(what, place=Place(file=file, line=2), remedy=_REMEDY)


def _check_chain(file: str, lines: list[JournalLine]) -> None:
    """Raise if a line isn't at its place, or doesn't follow the line before it.

    Raises
    ------
    InputFault
        If it is so; its place is that of the first such line.
    """
    if lines[0].number != 1 or lines[0].before != FIRST_BEFORE:
        place = Place(file=file, line=2)
        form = "this is action {number:,}, and the journal begins with action 1"
        first = Sentence(form, number=lines[0].number)
        raise InputFault(first, place=place, remedy=_REMEDY)
    if not any(line.is_chained for line in lines):
        what = "no line says which files its action left"
        raise InputFault(what, place=Place(file=file), remedy=_REMEDY)
    for at, (one, other) in enumerate(pairwise(lines), start=3):
        if other.number != one.number + 1 or other.before != one.digest:
            place = Place(file=file, line=at)
            form = (
                "action {number:,} doesn't follow action {before:,}, which is before it: a line "
                "was taken out, put in or changed"
            )
            broken = Sentence(form, number=other.number, before=one.number)
            raise InputFault(broken, place=place, remedy=_REMEDY)


# ---- journals of older versions


def _old_lines(file: str, text: str) -> Iterator[JournalLine]:
    """Give the lines of a journal that has sentences and no digests.

    Raises
    ------
    InputFault
        If one isn't of that form.
    """
    reader = csv.reader(io.StringIO(text, newline=""))
    for at, row in enumerate(reader, start=1):
        if len(row) != len(_OLD_HEADS):
            raise _no_line(file, at + 1)
        when, who, said, why, added = map(printable_line, row)
        word, _, rest = said.partition(" ")
        if word not in _ACTS:
            raise _no_line(file, at + 1)
        act = _ACTS[word]
        words = rest.split(" ", {Act.ADD: 0, Act.WINDOW: 2}.get(act, 1))
        of, what = " ".join(words[:-1]), words[-1]
        if act in (Act.REPORT, Act.CLOSE, Act.STRIKE, Act.WINDOW) or (act != Act.ADD and not of):
            of, what = rest, ""
        seen = _SEEN.search(added)
        files = {f"{seen[1]}.csv": Kept(int(seen[2]), None, "")} if seen else {}
        shown = "; ".join(each for each in added.split("; ") if not _SEEN.fullmatch(each))
        yield JournalLine(at, when, "", who, act, of, what, why, shown, "", files)


def chained(lines: Iterable[JournalLine]) -> list[JournalLine]:
    """Return lines with their places, each bound to the one before it."""
    found: list[JournalLine] = []
    for line in lines:
        found.append(following(found, line))
    return found


def following(lines: Sequence[JournalLine], line: JournalLine) -> JournalLine:
    """Return a line with its place after others, and bound to the last of them."""
    before = lines[-1].digest if lines else FIRST_BEFORE
    line = replace(line, number=len(lines) + 1, before=before)
    return replace(line, digest=_digest(journal_text([line.cells]).rstrip("\n")))


def _digest(text: str) -> str:
    return hashlib.sha256(text.encode("utf-8")).hexdigest()
