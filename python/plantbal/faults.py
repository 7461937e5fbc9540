"""What can be wrong: each fault says where, what was found, and what to do about it."""

from __future__ import annotations

import errno
import os
import stat
import sys
from collections.abc import Iterator, Sequence
from dataclasses import dataclass
from pathlib import Path
from typing import TYPE_CHECKING, Any, BinaryIO, ClassVar

from plantbal import limits
from plantbal.sentence import Language, Sentence, counted, phrase, said_in
from plantbal.statuses import ExitStatus

if TYPE_CHECKING:
    from plantbal.model.causes import Refused

# What to do about a file that can't be read, by the system's number of the fault.
_UNREAD = {
    errno.ENOENT: "check its name, or create it",
    errno.EISDIR: "name a file in this folder",
    errno.ENOTDIR: "check its name",
    errno.EACCES: "ask for the right to read it",
}
# How much of a file is read at once.
_PART = 1 << 20
# How an archive of SQLite begins.
_ARCHIVE = b"SQLite format 3\0"


@dataclass(frozen=True, kw_only=True)
class Place:
    """Where something stands.

    Attributes
    ----------
    file : str
        The file as it was named, or ``standard input``; empty if there is none.
    sheet : str
        The sheet of a workbook.
    line : int or None
        The line, counted from 1.
    column : int or None
        The column, counted from 1.
    head : str
        The head of the column.
    record : int or None
        The number of the record, counted from 1, if it isn't a line.
    row : str
        The label of the row of a table in memory.
    cell : str
        The cell of a sheet, such as ``B7``.
    """

    file: str = ""
    sheet: str = ""
    line: int | None = None
    column: int | None = None
    head: str = ""
    record: int | None = None
    row: str = ""
    cell: str = ""

    def __str__(self) -> str:
        return " ".join(f"{part}:" for part in (self._name, ", ".join(self._inner())) if part)

    @property
    def _name(self) -> str:
        """The file, the sheet and the cell."""
        return "!".join(filter(None, (self.file, self.sheet, self.cell)))

    def _inner(self) -> Iterator[Sentence]:
        """Give what there is within a file or a sheet."""
        if self.line is not None:
            yield Sentence("line {line}", line=self.line)
        if self.record is not None:
            yield Sentence("record {record}", record=self.record)
        if self.row:
            yield Sentence("row {row}", row=self.row)
            if self.head and self.column is None:
                yield Sentence("column {column}", column=self.head)
        if self.column is not None and self.head:
            yield Sentence("column {column} ({head})", column=self.column, head=self.head)
        elif self.column is not None:
            yield Sentence("column {column}", column=self.column)

    def said_in(self, language: Language) -> str:
        """Return it in a language."""
        inner = ", ".join(said_in(language, each) for each in self._inner())
        return " ".join(f"{part}:" for part in (self._name, inner) if part)


class Fault(Exception):
    """What is wrong, with its place, the text that stands there, and a remedy.

    Parameters
    ----------
    what : str
        What is wrong, as a sentence without its full stop.
    place : Place, optional
        Where it is.
    text : str, optional
        The text that is wrong, as it stands there.
    remedy : str, optional
        What to do about it.
    """

    # What `as_dict` has of a class beside what every fault has.
    _SAID: ClassVar[tuple[str, ...]] = ()
    # How a command ends that it stops.
    ends: ExitStatus = ExitStatus.LOOK

    def __init__(
        self, what: str, *, place: Place | None = None, text: str = "", remedy: str = ""
    ) -> None:
        super().__init__(what, place, text, remedy)
        self.what = what
        self.place = place or Place()
        self.text = text
        self.remedy = remedy

    def __str__(self) -> str:
        said = f"{self.place} {self.what}".strip()
        return f"{said}: {self.remedy}" if self.remedy else said

    @property
    def sentence(self) -> str:
        """All of it as a part of another sentence: where, what, and what to do about it."""
        what = phrase(self.what)
        if str(self.place):
            what = Sentence("{place} {what}", place=self.place, what=what)
        remedy = phrase(self.remedy)
        return Sentence("{what}: {remedy}", what=what, remedy=remedy) if remedy else what

    def __reduce__(self) -> tuple[Any, ...]:
        # an exception is otherwise made again of its args alone, which the words of __init__ aren't
        return _made_again, (type(self), self.args, dict(self.__dict__))

    def as_dict(self) -> dict[str, Any]:
        """Return it as values that JSON has: its class, what it says, where, and what to do.

        Returns
        -------
        dict
            `fault` is the name of the class, `what`, `text` and `remedy` are its texts, and `place`
            has what is known of file, sheet, line, column, head, record, row and cell. A
            `ProgramFault` has `status` and `name`, a `Refusal` `code`, `word`, `column` and `row`,
            a `ToolMissing` `tool` and `package` beside these.
        """
        place = {key: value for key, value in vars(self.place).items() if value not in ("", None)}
        found = {"fault": type(self).__name__, "what": self.what, "place": place}
        found |= {"text": self.text, "remedy": self.remedy}
        more = {name: getattr(self, name) for name in self._SAID}
        return found | {k: list(v) if isinstance(v, tuple) else v for k, v in more.items()}


def _made_again(kind: type[Fault], args: tuple[Any, ...], state: dict[str, Any]) -> Fault:
    """Return a fault of a class as it was before it was sent to another process."""
    fault = kind.__new__(kind, *args)
    fault.args = args
    fault.__dict__.update(state)
    return fault


class InputFault(Fault):
    """An input that can't be read: a file, a sheet, a report."""


class FileFault(InputFault):
    """A file that the system doesn't let be read or written, whatever stands in it."""

    ends = ExitStatus.FAILED


class WordsFault(Fault):
    """Words of a command that don't go together, or that none of them is for."""

    ends = ExitStatus.USAGE


class Hindered(Fault):
    """What keeps a command from its work is neither its input nor its words."""

    ends = ExitStatus.FAILED


class ModelFault(Hindered):
    """The proved core accepts a row that the rules of this package refuse: a fault of the package.

    Parameters
    ----------
    row : sequence of str
        The row.
    said : str
        What these rules do with it, such as ``refuse it with 7, duplicate``.
    place : Place, optional
        Where the row stands.
    """

    def __init__(self, row: Sequence[str], said: str, place: Place | None = None) -> None:
        text = ",".join(row)
        super().__init__(
            f"the proved core accepts the row {text[:80]}, and the rules of this package {said}",
            place=place,
            text=text,
            remedy="the core is right: `plantbal run` has its answers; report this row as a fault "
            "of plantbal",
        )


class Faults(Fault):
    """Several faults, each said by itself before what comes of them.

    Attributes
    ----------
    faults : tuple of Fault
        All of them.
    lines : tuple of str
        What is said of them; of many alike the first, and how many there are.
    """

    def __init__(self, faults: Sequence[Fault], lines: Sequence[str], then: str) -> None:
        one, many = "1 fault, and {then}", "{count:,} faults, and {then}"
        super().__init__(counted(len(faults), one, many, then=phrase(then)))
        self.faults = tuple(faults)
        self.lines = tuple(lines)
        if faults and all(fault.ends is faults[0].ends for fault in faults):
            self.ends = faults[0].ends


class ToolMissing(Fault):
    """A library or a program that isn't installed.

    Parameters
    ----------
    tool : str
        What is missing.
    package : str
        The package of Debian that has it.
    """

    _SAID = ("tool", "package")
    ends = ExitStatus.FAILED

    def __init__(self, tool: str, package: str) -> None:
        remedy = f"install {package}"
        if package.startswith("python3-") and not sys.executable.startswith("/usr/bin/"):
            remedy += f", which is for /usr/bin/python3: this is {sys.executable}"
        super().__init__(f"there is no {tool}", remedy=remedy)
        self.tool = tool
        self.package = package


class ProgramFault(Fault):
    """The program ended otherwise than with its work done.

    Attributes
    ----------
    status : int
        The status that it ended with.
    name : str
        The name of the status, such as ``TooLarge``.
    """

    _SAID = ("status", "name")
    ends = ExitStatus.FAILED

    def __init__(self, what: str, *, status: int, name: str, remedy: str = "") -> None:
        super().__init__(what, remedy=remedy)
        self.status = status
        self.name = name


class Refusal(Fault):
    """A row that the program would refuse.

    Attributes
    ----------
    code : int
        The code of the refusal, 1 to 13.
    word : str
        Its word, such as ``unknown``.
    column : str
        The column at fault, if it is one; empty otherwise.
    row : tuple of str
        The row as it would be written.
    head, said : str
        Which row it is, such as ``reading c2``, and what is wrong with it, each by itself.
    refused : Refused
        The answer of the model: which rule refuses it, and what that compared.
    says_form : bool
        Whether the remedy says what the field has to be, rather than what to write in its place.
    """

    _SAID = ("code", "word", "column", "row")

    def __init__(
        self,
        what: str,
        *,
        code: int,
        word: str,
        refused: Refused,
        column: str = "",
        row: tuple[str, ...] = (),
        head: str = "",
        said: str = "",
        place: Place | None = None,
        text: str = "",
        remedy: str = "",
        says_form: bool = False,
    ) -> None:
        super().__init__(what, place=place, text=text, remedy=remedy)
        self.refused = refused
        self.says_form = says_form
        self.code = code
        self.word = word
        self.column = column
        self.row = row
        self.head = head
        self.said = said or what


def read_bytes(path: str | Path, most: int = limits.INPUT_BYTES) -> tuple[str, bytes]:
    """Return how a file is called in what is said, and its bytes; ``-`` is standard input.

    Parameters
    ----------
    path : str or Path
        The file.
    most : int
        How many bytes it may have.

    Raises
    ------
    InputFault
        If it can't be read, is a folder, a pipe or a device, or has more bytes.
    """
    source, data = read_beginning(path, most + 1)
    if len(data) > most:
        raise too_large(source, most)
    return source, data


def read_beginning(path: str | Path, count: int) -> tuple[str, bytes]:
    """Return how a file is called in what is said, and as many of its bytes at most.

    Raises
    ------
    InputFault
        If it can't be read, or is a folder, a pipe or a device.
    """
    if str(path) == "-":
        return "standard input", _read_from(sys.stdin.buffer, count)
    try:
        # without O_NONBLOCK a pipe that nobody writes to is waited for
        with open(os.open(path, os.O_RDONLY | os.O_NONBLOCK | os.O_CLOEXEC), "rb") as file:
            found = os.fstat(file.fileno())
            if stat.S_ISDIR(found.st_mode):
                raise IsADirectoryError(errno.EISDIR, os.strerror(errno.EISDIR))
            if not stat.S_ISREG(found.st_mode):
                raise FileFault(
                    "it is a pipe or a device, not a file",
                    place=Place(file=str(path)),
                    remedy="name a file, or `-` for standard input",
                )
            data = file.read(min(found.st_size, count))
            if data.startswith(_ARCHIVE) and str(path).endswith(".sqlar"):
                remedy = f"name a file in it, such as {path}/PLANT/output.csv"
                what = "these are all outputs of a night"
                raise InputFault(what, place=Place(file=str(path)), remedy=remedy)
            return str(path), data + _read_from(file, count - len(data))
    except (FileNotFoundError, NotADirectoryError) as error:
        from plantbal.packed import read_inside

        packed = read_inside(path, count)
        if packed is None:
            raise unread(path, error) from error
        return str(path), packed
    except (OSError, ValueError) as error:  # a name with a NUL is a ValueError
        raise unread(path, error) from error


def _read_from(file: BinaryIO, count: int) -> bytes:
    """Return what is left of a file, and no more than a count of bytes."""
    parts = []
    while count > 0 and (part := file.read(min(count, _PART))):
        parts.append(part)
        count -= len(part)
    return b"".join(parts)


def too_large(source: str, most: int) -> InputFault:
    """Return the fault of a file with more bytes than are read."""
    return InputFault(
        f"it has more than {most:,} bytes", place=Place(file=source), remedy="split it"
    )


def unread(path: str | Path, error: OSError | ValueError) -> FileFault:
    """Return the fault of a file that can't be read."""
    if isinstance(error, ValueError):
        error = OSError(errno.ENOENT, "there is no file of this name")
    return FileFault(
        error.strerror or "it can't be read",
        place=Place(file=str(path)),
        remedy=_UNREAD.get(error.errno or 0, ""),
    )


def read_text(path: str | Path, most: int = limits.INPUT_BYTES) -> tuple[str, str]:
    """Return how a file is called, and its text in UTF-8 without a byte order mark.

    Raises
    ------
    InputFault
        If it can't be read, has more bytes, or is no UTF-8 text.
    """
    source, data = read_bytes(path, most)
    return source, decoded(source, data)


def decoded(source: str, data: bytes) -> str:
    """Return bytes as text: UTF-8 without a byte order mark.

    Raises
    ------
    InputFault
        If it is no UTF-8 text.
    """
    try:
        return data.decode("utf-8-sig")
    except UnicodeDecodeError as error:
        if data.startswith((b"\xff\xfe", b"\xfe\xff")):
            raise InputFault(
                "this is UTF-16", place=Place(file=source), remedy='save it as "CSV UTF-8"'
            ) from error
        raise InputFault(
            "this isn't UTF-8 text", place=Place(file=source), remedy='save it as "CSV UTF-8"'
        ) from error
