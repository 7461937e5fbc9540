"""Readings as a historian gives them: days down and tags across, in tonnes, as floats.

A float is taken as the shortest decimal number that it stands for, as Python prints it: 12.3 is 12.3
t. What is finer than a gram is rounded, halves to the even gram, and said. Variances are computed
from fractions, so that none is rounded but up to a whole squared gram, and none overflows.
"""

from __future__ import annotations

from collections.abc import Callable, Mapping
from decimal import ROUND_HALF_EVEN, Decimal
from typing import TYPE_CHECKING, Any

from plantbal.amounts import day_as_given, decimal_of
from plantbal.faults import Fault, InputFault, Place

if TYPE_CHECKING:
    import pandas

# What a table of readings has if each row is one.
_LONG = ("stream",)
_DAYS = ("day", "date")
_ERRORS = ("variance", "deviation_grams", "deviation_tonnes")


def taken_readings(
    frame: pandas.DataFrame,
    *,
    rounded: str = "",
    error: str | Mapping[str, str] = "",
    tags: Mapping[str, str] | None = None,
) -> tuple[pandas.DataFrame, list[str]]:
    """Return readings with a row each, in grams, and notes of what was rounded or is missing.

    Parameters
    ----------
    frame : DataFrame
        Readings with a row each, or wide ones: the days in the index, or in a column `day` or
        `date`, and a column for each stream, or tag, in tonnes.
    rounded : {'', 'gram'}
        Whether floats are taken, and what is finer than a gram is rounded.
    error : str or mapping of str
        The standard deviation of a reading, such as ``1 % or 0.2 t``; of each stream its own.
    tags : mapping of str
        The streams of tags.

    Raises
    ------
    InputFault
        If a column isn't as it has to be, or no error is given.
    """
    if rounded not in ("", "gram"):
        raise InputFault(
            f"round is {rounded!r}", text=str(rounded), remedy="use 'gram', or leave it out"
        )
    if not hasattr(frame, "columns"):
        return frame, []
    is_wide = not any(head in frame.columns for head in _LONG)
    if not is_wide and not rounded and not error:
        return frame, []
    rows = _Rows(rounded == "gram", _variances(error))
    long = _long(frame, tags or {}) if is_wide else frame
    return rows.taken(long, is_wide), rows.notes()


def _long(frame: pandas.DataFrame, tags: Mapping[str, str]) -> pandas.DataFrame:
    """Return a wide table with a row for each of its figures."""
    import pandas

    heads = [str(head) for head in frame.columns]
    twice = sorted({head for head in heads if heads.count(head) > 1})
    if twice:
        place = Place(file="readings")
        raise InputFault(f"there are two columns {twice[0]}", place=place, remedy="leave one out")
    days = [head for head in _DAYS if head in heads]
    if days:
        frame = frame.set_index(days[0])
    elif not isinstance(frame.index, pandas.DatetimeIndex) and not _has_days(frame.index):
        raise InputFault(
            "there is no column stream, and no days are in the index",
            place=Place(file="readings"),
            remedy="give a column stream and a row for each reading; or the days in the index, and "
            "a column for each stream",
        )
    parts = [
        pandas.DataFrame(
            {
                "stream": tags.get(str(head), str(head)),
                "day": frame.index,
                "tonnes": frame[head].astype(object).to_numpy(),
            },
            index=[f"{label}, column {head}" for label in map(_label, frame.index)],
        )
        for head in frame.columns
    ]
    if not parts:
        what = "there is no column of readings"
        raise InputFault(what, place=Place(file="readings"), remedy="give one for each stream")
    return pandas.concat(parts)


def _label(day: Any) -> str:
    """Return how a row of a day is called."""
    try:
        return day_as_given(day)
    except Fault:
        return str(day)


def _has_days(index: pandas.Index) -> bool:
    """Return whether an index has days rather than numbers."""
    import datetime

    return all(isinstance(label, (str, datetime.date)) for label in index)


def _variances(error: str | Mapping[str, str]) -> Callable[[str, int], int] | None:
    """Return what gives the variance of a reading of a stream; None without an error."""
    from plantbal.workbook.options import ReadingOptions
    from plantbal.workbook.sheets import Cell, Sheet

    if not error:
        return None
    reader, sheet = ReadingOptions().reader, Sheet("error", "error", [], is_csv=True)
    texts = {"": error} if isinstance(error, str) else dict(error)
    errors = {name: reader.error(Cell(sheet, 1, 1, text)) for name, text in texts.items()}

    def variance(stream: str, grams: int) -> int:
        own = errors.get("") or errors.get(stream)
        if own is None:
            raise InputFault(
                f"there is no error of {stream}", place=Place(file="error"), remedy="give one"
            )
        return own.variance(grams)

    return variance


class _Rows:
    """Takes readings one by one, and counts what is missing and what was rounded."""

    def __init__(self, is_rounded: bool, variance: Callable[[str, int], int] | None) -> None:
        self._is_rounded = is_rounded
        self._variance = variance
        self._missing: list[str] = []
        self._rounded: list[str] = []
        self._most = Decimal(0)

    def taken(self, long: pandas.DataFrame, is_wide: bool) -> pandas.DataFrame:
        """Return the readings in grams; missing ones are left out of a wide table."""
        import pandas

        head = "grams" if "grams" in long.columns and "tonnes" not in long.columns else "tonnes"
        if head not in long.columns:
            return long
        there = long[head].notna()
        if is_wide:
            self._missing = [str(label) for label in long.index[~there]]
            long = long[there]
        frame = long.drop(columns=[head]).assign(
            grams=pandas.Series(
                [
                    self._grams(value, str(label), head)
                    for label, value in zip(long.index, long[head].tolist())
                ],
                index=long.index,
                dtype=object,
            )
        )
        given = [column for column in _ERRORS if column in frame.columns]
        if self._variance is not None:
            if given:
                what = f"error is given, and a column {given[0]} too"
                raise InputFault(what, place=Place(file="readings"), remedy="leave one of them out")
            pairs = zip(frame["stream"], frame["grams"])
            frame["variance"] = [str(self._variance(stream, grams)) for stream, grams in pairs]
        elif is_wide:
            what = "nothing says how good the readings are"
            remedy = "use error='1 % or 0.2 t', or give a mapping of streams to such texts"
            raise InputFault(what, place=Place(file="readings"), remedy=remedy)
        return frame

    def _grams(self, value: Any, label: str, head: str) -> int:
        """Return a figure in grams."""
        place = Place(file="readings", row=label)
        if hasattr(value, "item"):
            value = value.item()
        try:
            if isinstance(value, float):
                if not self._is_rounded:
                    remedy = "use round='gram', or make Decimals of it"
                    what = f"{value!r} is a float, which isn't exact"
                    raise InputFault(what, text=repr(value), remedy=remedy)
                value = repr(value)
            exact = decimal_of(value, head)
        except Fault as fault:
            raise InputFault(
                fault.what, place=place, text=fault.text, remedy=fault.remedy
            ) from None
        if exact.adjusted() > 30:
            remedy = "at most 10,000,000 t"
            raise InputFault(f"{head} is {value}", place=place, text=str(value), remedy=remedy)
        grams = exact.scaleb(6 if head == "tonnes" else 0)
        whole = grams.to_integral_value(ROUND_HALF_EVEN)
        if whole != grams:
            if not self._is_rounded:
                what = f"{head} is {value}, which is finer than a gram"
                remedy = "use round='gram', or give at most six decimals of a tonne"
                raise InputFault(what, place=place, text=str(value), remedy=remedy)
            self._rounded.append(label)
            self._most = max(self._most, abs(whole - grams))
        return int(whole)

    def notes(self) -> list[str]:
        """Return what was rounded and what is missing, a sentence each."""
        said = []
        if self._rounded:
            count = len(self._rounded)
            figures = "figure was" if count == 1 else "figures were"
            said.append(
                f"readings: {count} {figures} rounded to whole grams, by at most "
                f"{self._most.normalize():f} g, the first in row {self._rounded[0]}"
            )
        if self._missing:
            count = len(self._missing)
            there = "1 figure is" if count == 1 else f"{count} figures are"
            said.append(f"readings: {there} missing, the first in row {self._missing[0]}")
        return said
