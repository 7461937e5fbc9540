"""The two sheets of `from-spreadsheet`: a table of tags, and a row of readings for each day."""

from __future__ import annotations

import datetime
import math
import re
from dataclasses import dataclass, field
from fractions import Fraction

from plantbal import limits
from plantbal.amounts import GRAMS_A_TONNE
from plantbal.faults import InputFault, Place, read_text
from plantbal.schema import schema
from plantbal.workbook.sheets import csv_rows

_NAME = re.compile(rf"[A-Za-z0-9_.-]{{1,{schema().limits['most_name']}}}")
_MOST_GRAMS = schema().limits["most_grams"]
_MOST_VARIANCE = schema().limits["most_row_variance"]
# A reading's id is its tag, an underscore and its day.
_MOST_TAG = schema().limits["most_name"] - len("_2024-04-01")
MARKS = {"point": ".", "comma": ","}
_THOUSANDS = re.compile("-?[0-9]{1,3}([.,'\u2019 \u00a0\u202f][0-9]{3})+([.,][0-9]+)?")


@dataclass(frozen=True, slots=True)
class Choices:
    """How the sheets are written.

    Attributes
    ----------
    mark : str
        The decimal mark.
    date : str
        How days are written, for `datetime.datetime.strptime`; empty for 2024-06-30.
    divisor : int
        What errors are divided by: 2 if they are limits that hold 95 times in 100.
    missing : tuple of str
        Texts that stand for a missing reading.
    skip : tuple of str
        Heads of columns that are left out.
    """

    mark: str = "."
    date: str = ""
    divisor: int = 1
    missing: tuple[str, ...] = ()
    skip: tuple[str, ...] = ()


class CsvTable:
    """A CSV file: its heads, and its rows with the numbers of their lines.

    Parameters
    ----------
    path : str
        The file.
    """

    def __init__(self, path: str) -> None:
        self.path = path
        _, text = read_text(path, limits.WORKBOOK_BYTES)
        first = text.split("\n", 1)[0]
        part = ";" if ";" in first else "\t" if "\t" in first else ","
        given = csv_rows(text, part, path)
        rows = [(row.last, [cell.strip() for cell in row.fields]) for row in given]
        rows = [(line, row) for line, row in rows if any(row)]
        if not rows:
            raise InputFault(
                "there is no row", place=Place(file=path), remedy="write heads and rows into it"
            )
        self.heads, self.rows = rows[0][1], rows[1:]
        while self.heads and not self.heads[-1]:
            self.heads.pop()

    def fault(self, line: int, column: int, what: str) -> InputFault:
        """Return a fault at a field; columns are counted from 0 here and from 1 in what is said."""
        head = self.heads[column] if column < len(self.heads) else ""
        return InputFault(
            what, place=Place(file=self.path, line=line, column=column + 1, head=head)
        )


def field_of(row: list[str], column: int) -> str:
    """Return a field of a row, or nothing if the row is shorter."""
    return row[column] if column < len(row) else ""


def read_decimal(text: str, mark: str) -> Fraction | None:
    """Return a decimal number with this mark, or None."""
    if len(text) > limits.DIGITS:
        return None
    if not re.fullmatch(rf"-?[0-9]+({re.escape(mark)}[0-9]+)?", text):
        return None
    return Fraction(text.replace(mark, "."))


def why_not(text: str, mark: str) -> str:
    """Return what to do about a field that is no number."""
    names = {value: key for key, value in MARKS.items()}
    other = {".": ",", ",": "."}[mark]
    is_other = read_decimal(text, other) is not None
    if _THOUSANDS.fullmatch(text):
        return (
            f"{text!r} has marks between thousands"
            + (f", or a decimal {names[other]}" if is_other else "")
            + ": take these marks out, or let plantbal-desk convert read the sheet"
            + (f"; if they are decimal, use --decimal {names[other]}" if is_other else "")
        )
    if is_other:
        return f"{text!r} has a decimal {names[other]}: use --decimal {names[other]}"
    return (
        f"{text!r} isn't a number: digits with at most one decimal {names[mark]}; "
        f"use --missing {text!r} if it means that there is no reading"
    )


@dataclass(frozen=True, slots=True)
class Tag:
    """A row of the table of tags: a stream, and the errors of its meter, if it has one.

    Attributes
    ----------
    line : int
        The line that it stands in.
    tag, stream : str
        The tag of the meter, or nothing; the stream.
    ends : tuple of str
        The nodes that it leads from and to.
    share, least : Fraction
        The standard deviation of a reading: this share of it, or this many grams, the greater of
        both.
    base : int
        The variance that the stream has in every period, in squared grams.
    """

    line: int
    tag: str
    stream: str
    ends: tuple[str, str]
    share: Fraction
    least: Fraction
    base: int

    def variance(self, grams: int) -> int:
        """Return the variance of a reading, rounded up to a whole one."""
        deviation = max(self.share * abs(grams), self.least)
        return math.ceil(deviation * deviation)


@dataclass
class TagSheet:
    """The table of tags, and where its columns are."""

    sheet: CsvTable
    choices: Choices
    places: dict[str, int] = field(init=False)

    def __post_init__(self) -> None:
        self.places = {head.lower(): place for place, head in enumerate(self.sheet.heads)}
        for head in ("tag", "stream", "from", "to", "error"):
            if head not in self.places:
                raise InputFault(
                    f"there is no column {head!r}",
                    place=Place(file=self.sheet.path, line=1),
                    remedy="give the table of tags first, with the heads tag,stream,from,to,error",
                )

    def tags(self) -> list[Tag]:
        """Return the rows, of which no two have one tag or one stream."""
        tags = [self.tag_of(line, row) for line, row in self.sheet.rows]
        for kind in ("tag", "stream"):
            seen: dict[str, int] = {}
            for tag in tags:
                name = getattr(tag, kind)
                if name and name in seen:
                    what = f"{name} is in line {seen[name]} too"
                    raise self.sheet.fault(tag.line, self.places[kind], what)
                seen[name] = tag.line
        return tags

    def tag_of(self, line: int, row: list[str]) -> Tag:
        """Return a row."""
        texts = {head: field_of(row, place) for head, place in self.places.items()}
        for head in ("stream", "from", "to"):
            if not _NAME.fullmatch(texts[head]):
                what = f"{texts[head]!r} isn't a name: 1 to 32 letters, digits, `_`, `-` or `.`"
                raise self.sheet.fault(line, self.places[head], what)
        tag = texts["tag"]
        if tag and not (_NAME.fullmatch(tag) and len(tag) <= _MOST_TAG):
            what = f"{tag!r} isn't a tag: 1 to {_MOST_TAG} letters, digits, `_`, `-` or `.`"
            raise self.sheet.fault(line, self.places["tag"], what)
        if bool(tag) != bool(texts["error"]):
            what = "a stream with a tag has an error, one without has none"
            raise self.sheet.fault(line, self.places["error"], what)
        share, least = self.errors(line, texts["error"])
        ends = texts["from"], texts["to"]
        base = self.base(line, texts.get("base", ""))
        return Tag(line, tag, texts["stream"], ends, share, least, base)

    def errors(self, line: int, text: str) -> tuple[Fraction, Fraction]:
        """Return the share and the grams of an error."""
        share = least = Fraction(0)
        mark, divisor = self.choices.mark, self.choices.divisor
        for part in re.split(r"\s+or\s+", text) if text else []:
            number = read_decimal(part[:-1].strip(), mark)
            if part[-1:] not in ("%", "t") or number is None or number <= 0:
                forms = f"`1{mark}5 %`, `0{mark}2 t`, or both with `or` between"
                what = f"{text!r} isn't an error: write {forms}"
                raise self.sheet.fault(line, self.places["error"], what)
            if part[-1] == "%":
                share = number / 100 / divisor
            else:
                least = number * GRAMS_A_TONNE / divisor
        return share, least

    def base(self, line: int, text: str) -> int:
        """Return the variance of a base."""
        base = Fraction(0)
        if text:
            number = read_decimal(text.rstrip("t").strip(), self.choices.mark)
            if number is None or number < 0:
                what = f"{text!r} isn't a standard deviation in tonnes"
                raise self.sheet.fault(line, self.places["base"], what)
            base = number * GRAMS_A_TONNE / self.choices.divisor
        variance = max(1, math.ceil(base * base))
        if variance > _MOST_VARIANCE:
            what = "the variance is above 10^19 squared grams"
            raise self.sheet.fault(line, self.places["base"], what)
        return variance


# Each day's reading of each tag as grams, or None if it is missing.
TagDays = dict[datetime.date, dict[str, int | None]]


@dataclass
class ReadingSheet:
    """The readings, and the column of each tag."""

    sheet: CsvTable
    tags: dict[str, Tag]
    choices: Choices
    columns: dict[str, int] = field(init=False)

    def __post_init__(self) -> None:
        self.columns = {}
        for column, head in enumerate(self.sheet.heads[1:], 1):
            if head in self.choices.skip:
                continue
            if head not in self.tags:
                remedy = f"use --skip {head!r} to leave the column out"
                what = f"the table of tags has no tag {head!r}; {remedy}"
                raise self.sheet.fault(1, column, what)
            if head in self.columns:
                what = f"column {self.columns[head] + 1} has this tag too"
                raise self.sheet.fault(1, column, what)
            self.columns[head] = column
        for tag in self.tags:
            if tag not in self.columns:
                raise InputFault(
                    f"there is no column for the tag {tag}",
                    place=Place(file=self.sheet.path, line=1),
                    remedy="give the daily readings second, with the tags as heads",
                )

    def days(self) -> TagDays:
        """Return the days in order."""
        days: TagDays = {}
        for line, row in self.sheet.rows:
            day = self.day_of(line, row[0])
            if day in days:
                raise self.sheet.fault(line, 0, f"{day} is already given above")
            for column in range(len(self.sheet.heads), len(row)):
                if row[column]:
                    raise self.sheet.fault(line, column, "this column has no head")
            days[day] = {
                tag: self.reading_of(line, column, tag, field_of(row, column))
                for tag, column in self.columns.items()
            }
        return dict(sorted(days.items()))

    def day_of(self, line: int, text: str) -> datetime.date:
        """Return a day."""
        try:
            if self.choices.date:
                return datetime.datetime.strptime(text, self.choices.date).date()
            return datetime.date.fromisoformat(text)
        except ValueError:
            what = f"{text!r} isn't a day written {self.choices.date or '2024-06-30'}"
            raise self.sheet.fault(line, 0, what) from None

    def reading_of(self, line: int, column: int, tag: str, text: str) -> int | None:
        """Return a reading in grams, or None if it is missing."""
        if not text or text in self.choices.missing:
            return None
        mark = self.choices.mark
        number = read_decimal(text, mark)
        if number is None:
            raise self.sheet.fault(line, column, why_not(text, mark))
        exact = number * GRAMS_A_TONNE
        if exact.denominator != 1:
            what = f"{text!r} is finer than a gram: at most six decimals"
            raise self.sheet.fault(line, column, what)
        grams = int(exact)
        if abs(grams) > _MOST_GRAMS:
            raise self.sheet.fault(line, column, f"{text!r} is above 10,000,000 t")
        if grams == 0 and self.tags[tag].least == 0:
            what = (
                "a reading of 0 has no error in percent: give the tag one in tonnes as well, "
                f"such as `1{mark}5 % or 0{mark}2 t`"
            )
            raise self.sheet.fault(line, column, what)
        if self.tags[tag].variance(grams) > _MOST_VARIANCE:
            what = "the variance is above 10^19 squared grams: the error is above 3,162 t"
            raise self.sheet.fault(line, column, what)
        return grams
