"""Records of a CSV text as the program reads them."""

from __future__ import annotations

import csv
import io
import sys
from collections.abc import Iterator
from dataclasses import dataclass


@dataclass(frozen=True, slots=True)
class Record:
    """A record of a text.

    Attributes
    ----------
    number : int
        Its number, counted from 1; empty lines aren't counted.
    line : int
        The line that it begins in, counted from 1.
    fields : tuple of str
        Its fields. A byte above 127 stands as the character of the same number (Latin-1).
    """

    number: int
    line: int
    fields: tuple[str, ...]


def read_records(data: bytes) -> Iterator[Record]:
    """Give the records of a text, by the rules of the program.

    A byte order mark in front is taken off; records end with CR, LF or both; an empty line is none;
    a field that begins with a double quote goes on to the next lone one.

    Parameters
    ----------
    data : bytes
        The text. It needn't be UTF-8: the program compares bytes.
    """
    if data.startswith(b"\xef\xbb\xbf"):
        data = data[3:]
    csv.field_size_limit(sys.maxsize)
    number, before = 0, 0
    # With newline="" lines end with CR, LF or both, as they stand.
    reader = csv.reader(io.StringIO(data.decode("latin-1"), newline=""))
    for fields in reader:
        line, before = before + 1, reader.line_num
        if fields:
            number += 1
            yield Record(number, line, tuple(fields))


def without_empty_end(fields: tuple[str, ...]) -> tuple[str, ...]:
    """Return a record without the empty fields at its end."""
    if fields and fields[-1]:
        return fields
    count = len(fields)
    while count and not fields[count - 1]:
        count -= 1
    return fields[:count]


def text_of(fields: tuple[str, ...]) -> str:
    """Return a record as a line of CSV, without its end."""
    out = io.StringIO()
    csv.writer(out, lineterminator="").writerow(fields)
    return out.getvalue()
