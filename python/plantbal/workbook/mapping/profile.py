"""What a sheet looks like: the row of its heads, and what is below each of them."""

from __future__ import annotations

import datetime
import enum
import re
from collections import Counter
from collections.abc import Sequence
from dataclasses import dataclass, field
from decimal import Decimal

from plantbal.sentence import Sentence
from plantbal.workbook.cells import MISSING
from plantbal.workbook.hourheads import HourHead, hour_head, hour_heads
from plantbal.workbook.mapping.known import tag_in
from plantbal.workbook.mapping.vocabulary import column_meanings, is_total, plain_word
from plantbal.workbook.sheets import NoValue, Sheet, Value, letters
from plantbal.workbook.units import LENGTHS, UNITS, VOLUMES, is_rate, unit_of

HEADS_WITHIN = 40
_MANY = 20  # steps by which figures rise that aren't called a counter's
_DAYS_OF_MONTH = 28  # and up to 31
_HOURS = 20  # heads that are numbers and may be hours of a day
_CLOCK_HOURS = 8  # heads that are hours and no mere numbers
_SAMPLE = 400  # rows below the heads that are looked at
_DATE = re.compile(
    r"[0-9]{1,4}\s?[./-]\s?[0-9]{1,2}\s?[./-]\s?[0-9]{1,4}\.?([ T].*)?"
    r"|[0-9]{1,2}\.?[ -][^\W\d]+\.?[ -][0-9]{4}(?:[ T]+[0-9].*)?"
)
_NUMBER = re.compile("[-+(\u2212]?[0-9][0-9.,' \u00a0\u2009\u202f\u2019]*(?:[eE][-+]?[0-9]+)?[)-]?")
_WITH_UNIT = re.compile(
    r"(?:[<>~]?\s*)(.*?[0-9])\s*(%|[^\W\d_][\w³/]*)(?:\s+(?:or|oder|ou|o)\s.*)?"
)
_BRACKETS = re.compile(r"(.*?)\s*[\[(]\s*([^\[\]()]+?)\s*[\])]\s*")
_TAIL = re.compile(r"(.*?)[\s,;:/_]+(?:in\s+|en\s+)?([^\s]+)")


@dataclass
class ColumnProfile:
    """A column: its head, its unit, and what is below it.

    Attributes
    ----------
    at : int
        Its place, counted from 0.
    head, name, unit : str
        The text of its head, that without the unit in it, and the unit that head or row have.
    unit_said : str
        Where the unit stands.
    days, numbers, texts, blanks, mixed : int
        How many cells are days, numbers, other texts, empty, and figures with a unit after them.
    values : list of Value
        What stands below.
    above : str
        What stands over its head, or over one to its left if its own cell is empty.
    is_again : bool
        Whether its head is that of another column too.
    """

    at: int
    head: str
    name: str = ""
    unit: str = ""
    unit_said: str = ""
    days: int = 0
    numbers: int = 0
    texts: int = 0
    blanks: int = 0
    mixed: int = 0
    times: int = 0
    values: list[Value] = field(default_factory=list)
    above: str = ""
    is_again: bool = False

    @property
    def title(self) -> str:
        """What is said of it: its head, or what stands over it if that is empty."""
        return self.head or self.name

    @property
    def key(self) -> str:
        """How a mapping calls it."""
        return self.head if self.head and not self.is_again else f"column {letters(self.at + 1)}"

    @property
    def there(self) -> int:
        """How many cells aren't empty."""
        return self.days + self.numbers + self.texts + self.mixed + self.times

    @property
    def has_days(self) -> bool:
        """Whether most are days."""
        return 2 * self.days > self.there

    @property
    def has_figures(self) -> bool:
        """Whether most are numbers, or numbers with a unit."""
        return 2 * (self.numbers + self.mixed) > self.there

    @property
    def has_texts(self) -> bool:
        """Whether most are texts."""
        return 2 * self.texts > self.there

    @property
    def written(self) -> list[str]:
        """Its figures and days that are texts."""
        texts = [value for value in self.values if isinstance(value, str)]
        return [text for text in texts if sort_of(text) in _WRITTEN]

    @property
    def decimals(self) -> list[Decimal]:
        """The numbers among its cells that are cells of numbers."""
        return [value for value in self.values if isinstance(value, Decimal)]

    def names(self) -> list[str]:
        """Return its texts, each once."""
        texts = [value for value in self.values if isinstance(value, str)]
        return list(dict.fromkeys(text for text in texts if text.casefold() not in MISSING))


@dataclass
class SheetProfile:
    """A sheet.

    Attributes
    ----------
    sheet : Sheet
        The sheet.
    at : int or None
        The place of the row of heads among its lines; None if it has none.
    columns : list of ColumnProfile
        Its columns.
    titles : list of str
        The texts above the heads.
    units_row : int or None
        The row of units below the heads.
    totals : list of str
        The texts with which rows of sums begin.
    hours : dict of int to HourHead
        The heads that are the hours of a day, by the places of their columns.
    """

    sheet: Sheet
    at: int | None = None
    columns: list[ColumnProfile] = field(default_factory=list)
    titles: list[str] = field(default_factory=list)
    units_row: int | None = None
    totals: list[str] = field(default_factory=list)
    hours: dict[int, HourHead] = field(default_factory=dict)

    @property
    def heads_line(self) -> int:
        """The number of the row of heads."""
        return self.sheet.lines[self.at][0] if self.at is not None else 0

    def column(self, head: str) -> ColumnProfile | None:
        """Return the column of a head."""
        return next((each for each in self.columns if each.key == head), None)


def profile_of(sheet: Sheet, known: Sequence[str] = ()) -> SheetProfile:
    """Return what a sheet looks like.

    Parameters
    ----------
    sheet : Sheet
        The sheet.
    known : sequence of str
        The tags, streams and tanks of the plant, which may be heads.
    """
    found = SheetProfile(sheet)
    found.at, found.hours = hours_across(sheet, known)
    if found.at is None:
        found.at = _head_row(sheet, {plain_word(name) for name in known})
    if found.at is None:
        return found
    found.titles = [
        value for _, values in sheet.lines[: found.at] for value in values if isinstance(value, str)
    ]
    heads = sheet.lines[found.at][1]
    body = sheet.lines[found.at + 1 :]
    units: list[Value] = []
    for line, values in body[:3]:
        if _is_unit_row(values):
            units, found.units_row = values, line
            body = [each for each in body if each[0] != line]
            break
    else:
        for line, values in reversed(sheet.lines[max(0, found.at - 2) : found.at]):
            if _is_unit_row(values):
                units, found.units_row = values, line
                break
    rows = [values for _, values in body[:_SAMPLE] if not _is_sum(values, found.totals)]
    over = sheet.lines[found.at - 1][1] if found.at else []
    if sum(isinstance(value, str) for value in over) < 2:
        over = []  # a title
    width = max(map(len, [heads, *rows]), default=0)
    for at in range(width):
        column = _column(at, heads, units, found.units_row)
        if not column.head and at < len(over) and isinstance(over[at], str):
            column.name, column.unit = split_unit(str(over[at]))
            column.unit_said = "the cell over it says so" if column.unit else ""
        for values in rows:
            _count(column, values[at] if at < len(values) else None)
        if column.head or column.there:
            found.columns.append(column)
    _take_above(found)
    return found


def _take_above(found: SheetProfile) -> None:
    """Give each column what stands over its head, and say which heads are there several times."""
    above = found.sheet.lines[found.at - 1][1] if found.at else []
    counts = Counter(column.head for column in found.columns)
    text = ""
    for column in found.columns:
        value = above[column.at] if column.at < len(above) else None
        text = value if isinstance(value, str) else text
        column.above = text
        column.is_again = counts[column.head] > 1


def _head_row(sheet: Sheet, known: set[str]) -> int | None:
    """Return the place of the row of heads: of texts, with known words first, above figures."""
    best, place = 0.0, None
    least = 1 if all(len(values) < 2 for _, values in sheet.lines) else 2
    for at, (_, values) in enumerate(sheet.lines[:HEADS_WITHIN]):
        values = _as_heads(values)
        texts = [value for value in values if isinstance(value, str)]
        others = [value for value in values if value is not None and not isinstance(value, str)]
        texts = [text for text in texts if not _DATE.fullmatch(text)]
        if (
            not texts
            or len(others) > len(texts)
            or _is_unit_row(values)
            or at + 1 == len(sheet.lines)
        ):
            continue
        plain = {plain_word(split_unit(text)[0]) for text in texts}
        words = sum(bool(column_meanings(split_unit(text)[0])) for text in texts)
        score = len(texts) + 2 * words + 2 * len(plain & known) - len(others)
        below = [each for _, row in sheet.lines[at + 1 : at + 5] for each in row]
        figures = sum(each is not None and not isinstance(each, str) for each in below)
        if (
            score > best
            and len(texts) >= least
            and (figures or 2 * words >= len(texts) or words >= least or plain & known)
        ):
            best, place = score, at
    while place is not None and 0 < _names_in(sheet, place, known):
        if _names_in(sheet, place + 1, known) < _names_in(sheet, place, known):
            break
        place += 1  # names in two rows, such as streams and their tags: the lower row tells
    return place


def hours_across(sheet: Sheet, known: Sequence[str]) -> tuple[int | None, dict[int, HourHead]]:
    """Return the place of a row that has the hours of a day, above figures and beside days."""
    for at, (_, values) in enumerate(sheet.lines[:HEADS_WITHIN]):
        if any(sort_of(value) is CellSort.DAY for value in values if hour_head(value) is None):
            continue
        run = _hours_in_a_row(values)
        is_plain = all(head.is_plain for head in run.values())
        after = values[max(run) + 1] if run and max(run) + 1 < len(values) else None
        if len(run) < (_HOURS if is_plain else _CLOCK_HOURS) or is_day_number(after):
            continue
        if any(str(values[column]) in known for column in run):
            continue
        below = [row for _, row in sheet.lines[at + 1 : at + 1 + _SAMPLE]]
        if any(_are_days(values, below, column) for column in range(min(run))):
            return at, run
    return None, {}


def _hours_in_a_row(values: Sequence[Value]) -> dict[int, HourHead]:
    """Return the most hours that follow each other in columns beside each other."""
    best: dict[int, HourHead] = {}
    run: dict[int, HourHead] = {}
    for column, head in hour_heads(values).items():
        before = run.get(column - 1)
        if before is not None:
            step = (head.number - before.number) % 24
            follows = step == (0 if head.is_again else 1)
        if before is None or not follows:
            run = {}
        run[column] = head
        best = run if len(run) > len(best) else best
    return best


def _are_days(heads: list[Value], rows: list[list[Value]], column: int) -> bool:
    """Say whether a column has days, or the days of a month by their numbers and a head for these."""
    there = [row[column] for row in rows if column < len(row) and row[column] is not None]
    head = heads[column] if column < len(heads) else None
    if isinstance(head, str) and any(each.of == "day" for each in column_meanings(head)):
        if there and all(map(is_day_number, there)):
            return True
    return 2 * sum(sort_of(value) is CellSort.DAY for value in there) > len(there)


def days_across(sheet: Sheet) -> int | None:
    """Return the place of a row that has the days of a month by their numbers, above others."""
    for at, (_, values) in enumerate(sheet.lines[:HEADS_WITHIN]):
        numbers = [int(str(value).rstrip(".")) for value in values if is_day_number(value)]
        is_whole = _DAYS_OF_MONTH <= len(numbers) <= 31
        if is_whole and numbers == list(range(1, len(numbers) + 1)) and at + 1 < len(sheet.lines):
            return at
    return None


def is_day_number(value: Value) -> bool:
    """Say whether a value is the number of a day of a month."""
    if isinstance(value, str):
        return re.fullmatch(r"(?:[12]?[0-9]|3[01])\.?", value) is not None
    return isinstance(value, Decimal) and value in range(1, 32)


def _names_in(sheet: Sheet, at: int, known: set[str]) -> int:
    """Return how many known names are in a row that has nothing but texts."""
    row = sheet.lines[at][1] if at < len(sheet.lines) else []
    values = [value for value in row if value is not None]
    if not all(isinstance(value, str) for value in values):
        return 0
    return len({plain_word(split_unit(str(value))[0]) for value in values} & known)


def _as_heads(values: list[Value]) -> list[Value]:
    """Return a row with the days that begin months, if there are several, as texts of months."""
    months = [value for value in values if _begins_month(value)]
    if len(months) < 2:
        return values
    return [f"{value:%Y-%m}" if _begins_month(value) else value for value in values]


def _begins_month(value: Value) -> bool:
    return isinstance(value, datetime.datetime) and value.day == 1 and value.hour == 0


def rises(numbers: Sequence[Decimal], *, noisy: bool) -> bool:
    """Say whether figures rise, as a counter's do, which begins again at most once.

    Parameters
    ----------
    numbers : sequence of Decimal
        The figures in the order of their rows.
    noisy : bool
        Whether there have to be many, and the steps between them differ.
    """
    steps = [after - before for before, after in zip(numbers, numbers[1:])]
    falls = [step for step in steps if step < 0]
    if len(steps) < (_MANY if noisy else 2) or len(falls) > 1 or not any(s > 0 for s in steps):
        return False
    return not noisy or len({step for step in steps if step > 0}) > 2


def _is_sum(values: list[Value], totals: list[str]) -> bool:
    """Say whether a row is a sum, and keep what it begins with."""
    first = next((value for value in values if value is not None), None)
    if isinstance(first, str) and is_total(first):
        if first not in totals:
            totals.append(first)
        return True
    return False


def _is_unit_row(values: list[Value]) -> bool:
    there = [value for value in values if value is not None]
    texts = [value for value in there if isinstance(value, str)]
    units = [value for value in texts if unit_of(value) in UNITS or is_rate(value)]
    return len(texts) == len(there) and bool(units) and len(units) >= len(there) - 2


def split_unit(head: str) -> tuple[str, str]:
    """Return a head without its unit, and the unit in brackets or at its end."""
    brackets = _BRACKETS.fullmatch(head)
    if brackets and _unit(brackets[2]):
        return brackets[1].strip(), _unit(brackets[2])
    tail = _TAIL.fullmatch(head.strip())
    if tail and _unit(tail[2]) and not (len(tail[2]) == 1 and tail[2] not in "tm%"):
        return tail[1].strip(), _unit(tail[2])
    return head.strip(), ""


def unit_of_title(title: str) -> str:
    """Return the unit that a title above a table says; one after a figure is that of this figure."""
    name, unit = split_unit(title)
    return unit if unit and not name[-1:].isdigit() else ""


def _unit(text: str) -> str:
    """Return a unit, or one of a rate; empty if a text is none."""
    plain = unit_of(text.strip().removeprefix("in ").strip())
    if plain in UNITS:
        return plain
    return text.strip() if is_rate(text.strip()) else ""


def _column(
    at: int, heads: list[Value], units: list[Value], units_row: int | None
) -> ColumnProfile:
    """Return a column with its head and its unit."""
    head = _as_heads(heads)[at] if at < len(heads) else None
    text = head if isinstance(head, str) else ""
    name, unit = split_unit(text)
    column = ColumnProfile(at, text, name, unit, "its head says so" if unit else "")
    below = units[at] if at < len(units) else None
    if isinstance(below, str) and _unit(below):
        column.unit, column.unit_said = _unit(below), Sentence("row {row} says so", row=units_row)
    return column


def _count(column: ColumnProfile, value: Value) -> None:
    """Count what stands in a cell."""
    sort = sort_of(value)
    if sort is not CellSort.BLANK:
        column.values.append(value)
    setattr(column, sort.value, getattr(column, sort.value) + 1)


class CellSort(enum.Enum):
    """What a cell with something in it is, by the name of its count in a column."""

    DAY = "days"
    TIME = "times"
    NUMBER = "numbers"
    MIXED = "mixed"
    TEXT = "texts"
    BLANK = "blanks"


FIGURES = (CellSort.NUMBER, CellSort.MIXED)
# The sorts of which a text says how figures and days are written.
_WRITTEN = (CellSort.DAY, CellSort.NUMBER, CellSort.MIXED)


def sort_of(value: Value) -> CellSort:
    """Return what a cell is."""
    if value is None or isinstance(value, NoValue):
        return CellSort.BLANK
    if isinstance(value, datetime.datetime):
        return CellSort.DAY
    if isinstance(value, datetime.time):
        return CellSort.TIME
    if isinstance(value, bool):
        return CellSort.TEXT
    if not isinstance(value, str):
        return CellSort.NUMBER
    return _sort_of_text(value)


def _sort_of_text(text: str) -> CellSort:
    if text.casefold() in MISSING:
        return CellSort.BLANK
    if _DATE.fullmatch(text):
        return CellSort.DAY
    if re.fullmatch(r"[0-9]{1,2}:[0-9]{2}(:[0-9]{2})?", text):
        return CellSort.TIME
    if _NUMBER.fullmatch(text):
        return CellSort.NUMBER
    match = _WITH_UNIT.fullmatch(text)
    return CellSort.MIXED if match and _unit(match[2]) else CellSort.TEXT


def tank_pairs(profile: SheetProfile, tanks: Sequence[str]) -> int:
    """Return how many tanks stand over pairs of columns, one of levels and one of volumes."""
    found: dict[str, Counter[str]] = {}
    for column in profile.columns:
        tank = "" if tag_in(column.head, tanks) else tag_in(column.above, tanks)
        if tank:
            meant = {meaning.of for meaning in column_meanings(column.name)}
            is_level = "level" in meant or column.unit in LENGTHS
            is_volume = "volume" in meant or column.unit in VOLUMES
            of = "level" if is_level > is_volume else "volume" if is_volume > is_level else "other"
            found.setdefault(tank, Counter())[of] += 1
    are_pairs = all(each == Counter(level=1, volume=1) for each in found.values())
    return len(found) if are_pairs else 0


def is_running(column: ColumnProfile) -> bool:
    """Say whether a column numbers its rows, 1, 2, 3, and so on."""
    numbers = column.decimals
    return len(numbers) == column.there > 2 and numbers == list(range(1, len(numbers) + 1))
