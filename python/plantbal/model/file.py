"""The rows of a session's file, with long runs of readings kept together.

A session of a year has mostly readings, one after the other. A run of them is taken as a whole; if
some of them are refused, or may be, only these are looked at one by one, as long as somebody asks
why they are refused. Once nobody does, the refused ones of a run are told by their codes alone.
"""

from __future__ import annotations

import csv
import io
import re
import sys
from collections.abc import Callable, Iterator, Sequence
from dataclasses import dataclass, replace
from itertools import compress, islice

from plantbal.model.causes import Cause, Reason, Refused
from plantbal.model.doubts import codes_of
from plantbal.model.effects import Effect
from plantbal.model.facts import At
from plantbal.model.quick import taken
from plantbal.model.readings import ReadingRows, ReadingRun
from plantbal.model.refusals import Coded
from plantbal.model.state import Accepted, Answer, State

# The longest run of readings that is taken as a whole, in characters and in rows, the same of other
# rows, and the longest run that is taken row by row without a look at its columns.
_MOST_TEXT = 1 << 18
_MOST_OTHERS = 1 << 14
_MOST_ROWS = 5_000
_FEW = 8
# The rows that are in memory at once: a file of two letters a line has millions.
_BATCH = 1 << 15
# Where a run of readings ends, and where one begins that is longer than those taken row by row.
_OTHER = re.compile(r"\n(?!reading,)")
_LONG = rf"reading,[^\n]*(?:\nreading,[^\n]*){{{_FEW}}}"
_BEGINS = re.compile(_LONG)
_NEXT = re.compile(rf"\n{_LONG}")


@dataclass(frozen=True, slots=True)
class Rows:
    """Some rows of a file, one after the other.

    Attributes
    ----------
    rows : sequence of sequence of str
        Their fields.
    record : int
        The number of the first one, counted from 1; empty lines aren't counted.
    lines : sequence of int
        The lines that they begin in.
    run : ReadingRun or None
        What they say, of readings that were accepted as a whole.
    """

    rows: Sequence[Sequence[str]]
    record: int
    lines: Sequence[int]
    run: ReadingRun | None = None

    def at(self, place: int) -> tuple[tuple[str, ...], At]:
        """Return the fields of the row at a place, and where it stands."""
        return tuple(self.rows[place]), At(self.record + place, self.lines[place])

    def between(self, begin: int, end: int) -> Iterator[Rows]:
        """Give the rows from a place up to another one, if there are any."""
        if begin < end:
            yield Rows(self.rows[begin:end], self.record + begin, self.lines[begin:end])

    def rest(self, begin: int) -> Rows:
        """Return the rows from a place on."""
        return Rows(self.rows[begin:], self.record + begin, self.lines[begin:])

    def apart(self, places: set[int]) -> Iterator[Rows]:
        """Give the rows at some places one by one, and the readings between them together."""
        begin = 0
        for place in (*sorted(places), len(self.rows)):
            if begin < place:
                rows = self.rows[begin:place]
                if not isinstance(rows, ReadingRows):
                    rows = ReadingRows.of_rows(rows)
                yield Rows(rows, self.record + begin, self.lines[begin:place])
            if place < len(self.rows):
                row = [self.rows[place]]
                yield Rows(row, self.record + place, self.lines[place : place + 1])
            begin = place + 1


@dataclass(frozen=True, slots=True)
class Step:
    """A row of a file, and what it was answered.

    Attributes
    ----------
    fields : tuple of str
        Its fields.
    at : At
        Where it stands.
    answer : Answer
        What it was answered.
    """

    fields: tuple[str, ...]
    at: At
    answer: Answer

    @property
    def effect(self) -> Effect | None:
        """What it does or asks for, if it is accepted."""
        return self.answer.effect if isinstance(self.answer, Accepted) else None


def _always() -> bool:
    return True


def steps(
    state: State, data: bytes, explained: Callable[[], bool] = _always, together: bool = False
) -> Iterator[Step | Rows | Coded]:
    """Fold the rows of a file into a state, and give each after it is judged.

    A run of readings that is accepted as a whole is given as one `Rows`.

    Parameters
    ----------
    state : State
        The state, which takes the rows.
    data : bytes
        The file.
    explained : callable
        Whether more is asked of a refused row than its code, when it comes. Once it isn't, the
        refused ones of a run of readings are given as one `Coded`.
    together : bool
        Whether rows that are stored may be given as one `Rows` too: nothing is asked of each.
    """
    for part in rows_of(data):
        yield from fold(state, part, explained, together)


def fold(
    state: State, part: Rows, explained: Callable[[], bool] = _always, together: bool = False
) -> Iterator[Step | Rows | Coded]:
    """Fold some rows into a state, as `steps` does."""
    if state.core is not None:
        yield from _answered(state, part, state.core.codes(part.rows), explained, together)
    else:
        yield from _judged(state, part, explained, together)


def _answered(
    state: State, part: Rows, codes: bytes, explained: Callable[[], bool], together: bool
) -> Iterator[Step | Rows | Coded]:
    """Fold rows that the core has answered: which ones are refused is known."""
    if not isinstance(part.rows, ReadingRows) or len(codes) <= 1:
        begin = 0
        for place, code in enumerate(codes):
            if together and not code and taken(state, *part.at(place)) is True:
                continue
            yield from part.between(begin, place)
            yield _coded(state, part, place, code, explained)
            begin = place + 1
        yield from part.between(begin, len(codes))
        return
    refused = {place for place, code in enumerate(codes) if code} if any(codes) else set()
    if not refused:
        yield _accepted(state, part)
        return
    odd = part.rows.odd
    for some in part.apart(refused | odd):
        begin = some.record - part.record
        if not explained() and odd <= refused:
            left = part.rest(begin)
            assert isinstance(left.rows, ReadingRows)
            run = ReadingRun(left.rows, left.lines)
            yield from _told_apart(left, run, codes[begin:], state.after_accepted)
            return
        if isinstance(some.rows, ReadingRows):
            yield _accepted(state, some)
        else:
            yield _coded(state, some, 0, codes[begin], explained)


def _accepted(state: State, part: Rows) -> Rows:
    """Take readings that the core has accepted."""
    assert isinstance(part.rows, ReadingRows)
    run = ReadingRun(part.rows, part.lines)
    state.after_accepted(run)
    return replace(part, run=run)


def _coded(state: State, part: Rows, place: int, code: int, explained: Callable[[], bool]) -> Step:
    """Take a row that the core has answered with a code."""
    fields, at = part.at(place)
    if code and not explained():
        return Step(fields, at, Refused(Reason.CORE_ALONE, core=Cause(code)))
    return Step(fields, at, state.after_core(code, fields, at))


def _told_apart(
    part: Rows, run: ReadingRun, codes: bytes, take: Callable[[ReadingRun], None]
) -> Iterator[Rows | Coded]:
    """Give the readings of a run that are accepted, taken together, and the codes of the others."""
    good = [not code for code in codes]
    if any(good):
        accepted = run.only(good)
        take(accepted)
        yield Rows(accepted.rows, part.record + good.index(True), accepted.lines, accepted)
    records = range(part.record, part.record + len(codes))
    yield Coded(list(compress(records, codes)), bytes(filter(None, codes)))


def _judged(
    state: State, part: Rows, explained: Callable[[], bool], together: bool
) -> Iterator[Step | Rows | Coded]:
    """Fold rows that the rules of this package answer."""
    rows = part.rows
    if not isinstance(rows, ReadingRows) or len(rows) <= _FEW:
        begin = 0
        for place in range(len(rows)):
            fields, at = part.at(place)
            found = taken(state, fields, at) if together else False
            if found is True:
                continue
            yield from part.between(begin, place)
            yield Step(fields, at, found or state.after(fields, at))
            begin = place + 1
        yield from part.between(begin, len(rows))
        return
    run = ReadingRun(rows, part.lines)
    if not rows.odd and state.takes_run(run):
        yield replace(part, run=run)
        return
    if not explained():
        yield from _told_apart(part, run, codes_of(state, run), state.after_readings)
        return
    for some in part.apart(rows.odd or state.apart(run)):
        if not explained():
            left = part.rest(some.record - part.record)
            assert isinstance(left.rows, ReadingRows)
            run = ReadingRun(left.rows, left.lines)
            yield from _told_apart(left, run, codes_of(state, run), state.after_readings)
            return
        if not isinstance(some.rows, ReadingRows) or rows.odd:
            yield from _judged(state, some, explained, together)
        else:
            run = ReadingRun(some.rows, some.lines)
            state.after_readings(run)
            yield replace(some, run=run)


def rows_of(data: bytes) -> Iterator[Rows]:
    """Give the rows of a text as `plantbal.records.read_records` reads them, readings in runs.

    Parameters
    ----------
    data : bytes
        The text.
    """
    text = data.removeprefix(b"\xef\xbb\xbf").decode("latin-1")
    return _quoted_rows(text) if '"' in text or "\r" in text else _plain_rows(text)


def _plain_rows(text: str) -> Iterator[Rows]:
    """Give the rows of a text without quotes whose lines end with LF."""
    at, line, record = 0, 1, 1
    while at < len(text):
        if _BEGINS.match(text, at):
            end = _end_of_run(text, at)
            count = text.count("\n", at, end - 1) + 1
            rows = ReadingRows(text=text[at:end], count=count)
            yield Rows(rows, record, range(line, line + count))
        else:
            run = _NEXT.search(text, at, at + _MOST_OTHERS)
            end = run.start() + 1 if run else text.find("\n", at + _MOST_OTHERS) + 1 or len(text)
            lines = text[at : end - text.endswith("\n", at, end)].split("\n")
            numbered = [
                (number, each.split(",")) for number, each in enumerate(lines, line) if each
            ]
            count = len(numbered)
            if numbered:
                yield Rows([row for _, row in numbered], record, [number for number, _ in numbered])
            line += len(lines) - count
        line, record, at = line + count, record + count, end


def _end_of_run(text: str, at: int) -> int:
    """Return where the run of readings ends that begins at a place, or the part that is taken."""
    least = text.rfind("\n", at, at + _MOST_TEXT) + 1 or text.find("\n", at) + 1 or len(text)
    other = _OTHER.search(text, at, least)
    return other.start() + 1 if other else least


def _quoted_rows(text: str) -> Iterator[Rows]:
    """Give the rows of any text."""
    record = 1
    for rows, lines in _batches(text):
        # 1 for a row that may be part of a run
        flags = bytes([len(row) == 6 and row[0] == "reading" for row in rows])
        at, count = 0, len(rows)
        while at < count:
            end = flags.find(1 - flags[at], at, at + _MOST_ROWS)
            end = min(at + _MOST_ROWS, count) if end < 0 else end
            some: Sequence[Sequence[str]] = rows[at:end]
            if flags[at]:
                some = ReadingRows(list(zip(*some)))
            yield Rows(some, record + at, lines[at:end])
            at = end
        record += count


def _batches(text: str) -> Iterator[tuple[list[list[str]], Sequence[int]]]:
    """Give the rows of a text, some at a time, and the lines that they begin in."""
    csv.field_size_limit(sys.maxsize)
    # With newline="" lines end with CR, LF or both, as they stand.
    reader = csv.reader(io.StringIO(text, newline=""))
    line = 0
    if '"' not in text:  # then each line is a row
        while rows := list(islice(reader, _BATCH)):
            lines = range(line + 1, line + len(rows) + 1)
            line += len(rows)
            if all(rows):
                yield rows, lines
            else:
                yield _apart([(at, row) for at, row in zip(lines, rows) if row])
        return
    numbered: list[tuple[int, list[str]]] = []
    for row in reader:
        if row:
            numbered.append((line + 1, row))
        line = reader.line_num
        if len(numbered) == _BATCH:
            yield _apart(numbered)
            numbered = []
    yield _apart(numbered)


def _apart(numbered: list[tuple[int, list[str]]]) -> tuple[list[list[str]], Sequence[int]]:
    """Return rows and their lines apart."""
    return [row for _, row in numbered], [line for line, _ in numbered]
