"""The rows of an output in order; the refused ones after the first hundred take few bytes each.

A session of millions of refused rows has an output of as many. All of them are there, and each is
made when it is asked for: only its number and its code are kept.
"""

from __future__ import annotations

from array import array
from bisect import bisect_right
from collections.abc import Iterator, Sequence
from itertools import accumulate
from typing import overload

from plantbal import limits
from plantbal.schema import schema

# A row by its columns; `row` has its kind. A stream of an older report has no least bounds.
Values = dict[str, str]
_MOST = (1 << 64) - 1


class _Refused(Sequence[Values]):
    """Refused rows by their numbers and codes."""

    def __init__(self) -> None:
        self.numbers, self.codes = array("Q"), array("B")

    def __len__(self) -> int:
        return len(self.codes)

    @overload
    def __getitem__(self, place: int) -> Values:
        ...

    @overload
    def __getitem__(self, place: slice) -> Sequence[Values]:
        ...

    def __getitem__(self, place: int | slice) -> Values | Sequence[Values]:
        if isinstance(place, slice):
            return [self[at] for at in range(*place.indices(len(self)))]
        code = self.codes[place]
        word = schema().refusals[code].word
        return {"row": "refused", "at": str(self.numbers[place]), "code": str(code), "word": word}


class OutputRows(Sequence[Values]):
    """Rows of an output.

    Attributes
    ----------
    refused : int
        How many of them are refused rows.
    """

    def __init__(self) -> None:
        self.refused = 0
        self._parts: list[list[Values] | _Refused] = [[]]
        self._ends: list[int] = []
        self._words = {
            (str(code), each.word): code for code, each in schema().refusals.items() if code < 256
        }

    def plain(self) -> list[Values]:
        """Return the list to whose end the next rows go that aren't refused ones."""
        last = self._parts[-1]
        if isinstance(last, _Refused):
            last = []
            self._parts.append(last)
        return last

    def take_refused(self, fields: Sequence[str]) -> bool:
        """Take a refused row by its fields, if its number and code say all of it."""
        self.refused += 1
        if self.refused <= limits.REFUSED_KEPT:
            return False
        _, at, number, word = fields
        code = self._words.get((number, word))
        if code is None or not (at.isascii() and at.isdigit() and len(at) <= 20):
            return False
        if (at[0] == "0" and at != "0") or int(at) > _MOST:
            return False
        last = self._parts[-1]
        if not isinstance(last, _Refused):
            last = _Refused()
            self._parts.append(last)
        last.numbers.append(int(at))
        last.codes.append(code)
        return True

    def whole(self) -> Sequence[Values]:
        """Return all rows, once all are taken."""
        first = self._parts[0]
        if len(self._parts) == 1:
            return first
        self._ends = list(accumulate(map(len, self._parts)))
        return self

    def __len__(self) -> int:
        return self._ends[-1]

    def __iter__(self) -> Iterator[Values]:
        for part in self._parts:
            yield from part

    @overload
    def __getitem__(self, place: int) -> Values:
        ...

    @overload
    def __getitem__(self, place: slice) -> Sequence[Values]:
        ...

    def __getitem__(self, place: int | slice) -> Values | Sequence[Values]:
        if isinstance(place, slice):
            return [self[at] for at in range(*place.indices(len(self)))]
        at = place if place >= 0 else len(self) + place
        if not 0 <= at < len(self):
            raise IndexError(place)
        part = bisect_right(self._ends, at)
        return self._parts[part][at - (self._ends[part - 1] if part else 0)]

    def __eq__(self, other: object) -> bool:
        if not isinstance(other, Sequence):
            return NotImplemented
        return len(self) == len(other) and all(one == two for one, two in zip(self, other))

    __hash__ = None  # type: ignore[assignment]


class Numbers:
    """The numbers of records, such as those of refused rows; each takes eight bytes.

    Parameters
    ----------
    rows : iterable of dict
        The rows of an output, of which the refused ones have them.
    """

    def __init__(self, rows: Sequence[Values]) -> None:
        found = (int(row["at"]) for row in rows if row["row"] == "refused")
        self._numbers = array("Q", (number for number in found if number <= _MOST))
        if any(one > two for one, two in zip(self._numbers, self._numbers[1:])):
            self._numbers = array("Q", sorted(self._numbers))

    def __contains__(self, number: object) -> bool:
        if not isinstance(number, int):
            return False
        place = bisect_right(self._numbers, number)
        return place > 0 and self._numbers[place - 1] == number

    def __iter__(self) -> Iterator[int]:
        return iter(self._numbers)

    def __len__(self) -> int:
        return len(self._numbers)
