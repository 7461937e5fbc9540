"""The letter about a night: what of ``night.json`` a person has to know, in plain text.

The file may be a stranger's, and so may be the names in it. It has a limit, its form is tested, and
each text of it is shown in one line.
"""

from __future__ import annotations

import datetime
import json
from collections.abc import Iterator
from dataclasses import dataclass
from itertools import islice
from pathlib import Path
from typing import Any

from plantbal.faults import InputFault, Place, decoded, read_bytes
from plantbal.fleet.limits import LINE_TOLD, PLANTS_TOLD, REASONS_TOLD
from plantbal.limits import INPUT_BYTES
from plantbal.statuses import ExitStatus

_ENDED = {
    ExitStatus.GOOD: "nobody has to look",
    ExitStatus.LOOK: "somebody has to look",
    ExitStatus.USAGE: "its options are wrong: it wasn't run",
    ExitStatus.FAILED: "it couldn't be run, or its result couldn't be saved",
    ExitStatus.STOPPED: "it was stopped",
}


@dataclass(frozen=True, slots=True)
class NightFile:
    """A night as ``night.json`` has it.

    Attributes
    ----------
    night : str
        Its name.
    ended : datetime
        When it ended.
    status : int
        The status that it ended with.
    plants, wanting : int
        How many plants there are, and how many want a person.
    why : dict of str to list of str
        Of each plant that wants a person, why.
    """

    night: str
    ended: datetime.datetime
    status: int
    plants: int
    wanting: int
    why: dict[str, list[str]]

    @classmethod
    def read(cls, path: str | Path) -> NightFile:
        """Read a night.

        Raises
        ------
        InputFault
            If it can't be read, or is none.
        """
        source, data = read_bytes(path, INPUT_BYTES)
        try:
            found = json.loads(decoded(source, data))
            return cls._of(found)
        except (KeyError, TypeError, ValueError, RecursionError) as error:
            raise InputFault(
                "this isn't the night.json of a fleet",
                place=Place(file=source),
                remedy="name the folder of the nights, or its night.json",
            ) from error

    @classmethod
    def _of(cls, found: Any) -> NightFile:
        """Return the night of its JSON; what has the wrong form is a ValueError or a TypeError."""
        ended = datetime.datetime.fromisoformat(found["ended"])
        status, plants, wanting = (found[name] for name in ("status", "plants", "wanting"))
        if ended.tzinfo is None or {type(each) for each in (status, plants, wanting)} != {int}:
            raise ValueError("a time without a zone, or something that isn't a number")
        why = {}
        for site in found["sites"]:
            if site["look"]:
                why[_one_line(str(site["site"]))] = [_one_line(str(each)) for each in site["why"]]
        return cls(_one_line(str(found["night"])), ended, status, plants, wanting, why)


@dataclass(frozen=True, slots=True)
class Letter:
    """A letter: its subject and its text."""

    subject: str
    text: str


def _one_line(text: str) -> str:
    """Return a text as it can stand in a line."""
    shown = "".join(each if each.isprintable() else ascii(each)[1:-1] for each in text)
    return shown if len(shown) <= LINE_TOLD else f"{shown[:LINE_TOLD]}.."


def letter_of(
    told: NightFile | None, status: int | None, age: float | None, now: datetime.datetime
) -> Letter | None:
    """Return the letter about a night; None if nobody has to know of it.

    Parameters
    ----------
    told : NightFile or None
        The last night that is known.
    status : int or None
        The status that the night ended with just now, if that is known: it may have ended before
        its file was written, and then the file is of an earlier one.
    age : float or None
        How many seconds ago the last night may have ended; not asked without it.
    now : datetime
        The time, with its zone.
    """
    is_old = told is not None and age is not None and (now - told.ended).total_seconds() > age
    failed = status is not None and status not in (ExitStatus.GOOD, ExitStatus.LOOK)
    if told is None:
        return Letter("plantbal: no night is known", "".join(_lines(told, status, False, now)))
    wants = bool(told.wanting or told.status)
    if not (is_old or failed or wants or status):
        return None
    return Letter(_subject(told, status, is_old), "".join(_lines(told, status, is_old, now)))


def _subject(told: NightFile, status: int | None, is_old: bool) -> str:
    """Return the subject: what is wrong with all comes before what is wrong with some."""
    if status is not None and status not in (ExitStatus.GOOD, ExitStatus.LOOK):
        return f"plantbal: the night failed with status {status}"
    if is_old:
        return f"plantbal: no night since {told.ended:%Y-%m-%d %H:%M}"
    plants = "1 plant" if told.plants == 1 else f"{told.plants:,} plants"
    some = "1 needs" if told.wanting == 1 else f"{told.wanting:,} need"
    if told.wanting:
        return f"plantbal {told.night}: {some} a person of {plants}"
    return f"plantbal {told.night}: the night ended with status {told.status}"


def _ended_said(status: int) -> str:
    """Return a status in words."""
    known = {int(each): said for each, said in _ENDED.items()}
    return f"status {status}, {known.get(status, 'which it never ends with')}"


def _lines(
    told: NightFile | None, status: int | None, is_old: bool, now: datetime.datetime
) -> Iterator[str]:
    """Give the lines of a letter."""
    if status is not None:
        yield f"The night that has just ended has {_ended_said(status)}.\n"
        if status not in (ExitStatus.GOOD, ExitStatus.LOOK):
            yield "What it said is in its log: journalctl -u plantbal-fleet\n"
            yield "\n" if told is None else "\nThe last night before it that was kept:\n\n"
    if told is None:
        yield "No night is known: there is no night.json that can be read.\n"
        return
    if is_old:
        hours = (now - told.ended).total_seconds() / 3600
        yield f"No night has ended for {hours:,.0f} hours: is the timer on?\n\n"
    plants = "1 plant" if told.plants == 1 else f"{told.plants:,} plants"
    yield f"Night {told.night}, ended {told.ended:%Y-%m-%d %H:%M %z}: {plants}, of which "
    yield f"{told.wanting or 'none'} {'needs' if told.wanting in (0, 1) else 'need'} a person; "
    yield f"{_ended_said(told.status)}.\n"
    for site, why in islice(told.why.items(), PLANTS_TOLD):
        yield "\n"
        for said in why[:REASONS_TOLD]:
            yield f"{said}\n"
        if len(why) > REASONS_TOLD:
            yield f"{site}: and more reasons, which the page has\n"
    more = told.wanting - min(len(told.why), PLANTS_TOLD)
    if more > 0:
        yield f"\nand {more:,} more plants: the page has them all\n"
