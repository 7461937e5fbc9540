"""What is known of a plant while its workbook is looked at, and its names in heads."""

from __future__ import annotations

import re
from collections.abc import Collection, Iterable, Sequence
from dataclasses import dataclass

# What parts the words of a head.
_PARTS = re.compile(r"[\s,;:()\[\]/|]+")


@dataclass(frozen=True)
class KnownPlant:
    """What is known of the plant before its workbook is: from a book.

    Attributes
    ----------
    tags, streams, tanks : tuple of str
        Their names.
    units : tuple of (str, str)
        Tags and streams whose meters have a unit, and the unit.
    """

    tags: tuple[str, ...] = ()
    streams: tuple[str, ...] = ()
    tanks: tuple[str, ...] = ()
    units: tuple[tuple[str, str], ...] = ()

    def meter(self, head: str) -> str:
        """Return the tag in a head, or else the stream; empty if there is none, or several."""
        return tag_in(head, self.tags) or tag_in(head, self.streams)

    @property
    def meters(self) -> tuple[str, ...]:
        """The tags and streams."""
        return (*self.tags, *self.streams)

    def units_of(self, names: Collection[str]) -> list[str]:
        """Return the units of some tags and streams, each once; none if one of them has none."""
        units = dict(self.units)
        return sorted({units[name] for name in names}) if names and {*names} <= {*units} else []

    @property
    def names(self) -> tuple[str, ...]:
        """All of them."""
        return (*self.tags, *self.streams, *self.tanks)


def meter_units(meters: Iterable[tuple[str, str, str]]) -> tuple[tuple[str, str], ...]:
    """Return the units of meters by their streams and tags, as `KnownPlant` has them.

    Parameters
    ----------
    meters : iterable of (str, str, str)
        Stream, tag and unit of each.
    """
    told = [(name, unit) for *names, unit in meters if unit for name in names if name]
    return tuple(dict(told).items())


def tag_in(head: str, names: Sequence[str]) -> str:
    """Return the one name that is a head, or whole words in it; empty if there is none, or several.

    Of names that are parts of each other it is the longest. Capital and small letters are told
    apart only if that decides between names.
    """
    if not head:
        return ""
    if head in names:
        return head
    found = [name for name in names if name and _spaced(name) in _spaced(head)]
    if not found:
        small = _spaced(head.casefold())
        found = [name for name in names if name and _spaced(name.casefold()) in small]
    longest = max(found, key=len, default="")
    others = {_spaced(name.casefold()) for name in found if name != longest}
    within = _spaced(longest.casefold())
    return longest if all(each in within and each != within for each in others) else ""


def without_name(head: str, name: str) -> str:
    """Return what a head says beside a name in it."""
    return _spaced(head.casefold()).replace(_spaced(name.casefold()), " ", 1).strip()


def _spaced(text: str) -> str:
    """Return the words of a text, each between spaces."""
    return f" {' '.join(_PARTS.split(text.strip()))} "
