"""The text of a file with the places of its lines, records and fields, and a field with a mark under it."""

from __future__ import annotations

import re
import unicodedata
from array import array
from bisect import bisect_right
from collections.abc import Container, Iterator
from dataclasses import dataclass

from plantbal.model.forms import ASKS
from plantbal.records import Record, read_records, without_empty_end

WIDEST = 110
_LINE_END = re.compile(r"\r\n|\r|\n")


@dataclass(frozen=True, slots=True)
class Field:
    """A field of a record: where its text, with its quotes, begins and ends in the file's text."""

    begin: int
    end: int
    closed: bool = True


class Text:
    """The text of a file, with the places of its lines, records and fields.

    Parameters
    ----------
    source : str
        What the file is called.
    data : bytes
        Its bytes. Each is taken for the character of the same number, as `read_records` takes it.

    Attributes
    ----------
    refused : dict of int to Record
        The refused records, once all are read, as the other two.
    last : Record or None
        The last record; None if each is empty.
    is_asked : bool
        Whether some record asks for output.
    """

    def __init__(self, source: str, data: bytes) -> None:
        self.source = source
        self.data = data[3:] if data.startswith(b"\xef\xbb\xbf") else data
        self.text = self.data.decode("latin-1")
        self.starts = array("Q", [0])
        self.starts.extend(found.end() for found in _LINE_END.finditer(self.text))
        self.refused: dict[int, Record] = {}
        self.last: Record | None = None
        self.is_asked = False

    @property
    def records(self) -> Iterator[Record]:
        """The records, one at a time."""
        return read_records(self.data)

    def read(self, refused: Container[int]) -> None:
        """Read the records, and keep the refused ones."""
        last: Record | None = None
        is_empty = True
        for record in self.records:
            last = record
            is_empty = is_empty and not without_empty_end(record.fields)
            self.is_asked = self.is_asked or record.fields[0] in ASKS
            if record.number in refused:
                self.refused[record.number] = record
        self.last = None if is_empty else last

    def line_at(self, place: int) -> int:
        """Return the number of the line that a place is in, counted from 1."""
        return bisect_right(self.starts, place)

    def line(self, number: int) -> str:
        """Return a line without its end."""
        begin = self.starts[number - 1]
        end = self.starts[number] if number < len(self.starts) else len(self.text)
        return self.text[begin:end].rstrip("\r\n")

    def fields(self, record: Record) -> list[Field]:
        """Return where the fields of a record are."""
        place, text, found = self.starts[record.line - 1], self.text, list[Field]()
        while True:
            begin, closed = place, True
            if text[place : place + 1] == '"':
                place += 1
                while True:
                    quote = text.find('"', place)
                    if quote < 0:
                        return [*found, Field(begin, len(text), False)]
                    place = quote + 1
                    if text[place : place + 1] != '"':
                        break
                    place += 1
            while place < len(text) and text[place] not in ",\r\n":
                place += 1
            found.append(Field(begin, place, closed))
            if text[place : place + 1] != ",":
                return found
            place += 1


def shown_bytes(text: str) -> str:
    """Return a text of bytes as people read it: UTF-8, or else cp1252, without control
    characters."""
    data = text.encode("latin-1", "replace")
    try:
        said = data.decode("utf-8")
    except UnicodeDecodeError:
        said = data.decode("cp1252", "replace")
    return "".join(each if each.isprintable() else "\N{REPLACEMENT CHARACTER}" for each in said)


def cut(text: str) -> str:
    """Return a text, or the beginning of one that is too long for a sentence."""
    return text if len(text) <= 60 else text[:50] + "…"


def quoted(text: str) -> str:
    """Return a field's text between quotes, as people read it."""
    return f"'{cut(shown_bytes(text))}'"


def width(text: str) -> int:
    """Return how many columns of a terminal a text takes."""
    wide = sum(unicodedata.east_asian_width(each) in "WF" for each in text)
    return len(text) + wide - sum(unicodedata.combining(each) != 0 for each in text)


def marked_line(
    text: Text, first: Field, last: Field | None = None
) -> tuple[int, str, tuple[int, int]]:
    """Return the line of a field, the line's text, and where a mark under the field goes.

    Parameters
    ----------
    text : Text
        The file.
    first, last : Field
        The field, or the first and the last of several.
    """
    number = text.line_at(first.begin)
    line, begin = text.line(number), text.starts[number - 1]
    end = min((last or first).end - begin, len(line))
    front, middle = shown_bytes(line[: first.begin - begin]), shown_bytes(
        line[first.begin - begin : end]
    )
    rest = shown_bytes(line[end:])
    if width(front) + width(middle) + width(rest) > WIDEST:
        middle = middle if len(middle) <= 60 else middle[:59] + "…"
        front = front if len(front) <= 40 else "…" + front[-39:]
        left = max(8, WIDEST - width(front) - width(middle))
        rest = rest if len(rest) <= left else rest[: left - 1] + "…"
    return number, front + middle + rest, (width(front), width(middle))
