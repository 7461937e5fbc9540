"""What ought to alarm although each plant ran: a session that stays as it is, and an untested month.

A night whose export from the historian failed runs the same sessions once more, and all is well with
each of them. So a plant may need a person because its session has had the same bytes for too long, or
because its last fact is too old. And a report that was not tested, since the session has no critical
value for it, isn't one that a test accepts: it needs a person, unless the night has a level of its
own.
"""

from __future__ import annotations

import datetime
import re
from argparse import ArgumentTypeError
from collections.abc import Iterator, Mapping, Sequence
from dataclasses import replace

from plantbal.fleet.night import Run
from plantbal.fleet.rows import FleetPlant, FleetRow

_UNITS = {"h": 3600, "d": 86400}
_AGE = re.compile(r"([1-9][0-9]{0,4})([hd])")
_HOURS_SAID = 48
# Where a row has the day of a fact, or the last one, counted from its first field.
_DAYS = {b"reading": 3, b"dip": 3, b"transfer": 4}
_FACT = re.compile(rb"^(?:late,)?(reading|dip|transfer),([^\r\n]*)", re.M)
_DAY = re.compile(r"[0-9]{4}-[0-9]{2}-[0-9]{2}")


def age_of(text: str) -> float:
    """Return an age such as ``26h`` or ``3d`` in seconds.

    Raises
    ------
    argparse.ArgumentTypeError
        If it is none.
    """
    found = _AGE.fullmatch(text)
    if found is None:
        raise ArgumentTypeError(f"{text!r} isn't an age: write 26h, or 3d")
    return int(found[1]) * float(_UNITS[found[2]])


def level_of(text: str) -> float:
    """Return a level between 0 and 1.

    Raises
    ------
    argparse.ArgumentTypeError
        If it is none.
    """
    try:
        level = float(text)
    except ValueError:
        level = 0.0
    if not 0 < level < 1:
        raise ArgumentTypeError(f"{text!r} isn't a level: write 0.01")
    return level


def last_day(session: bytes) -> str:
    """Return the last day that a reading, a dip or a transfer of a session has; empty if none has."""
    last = ""
    for found in _FACT.finditer(session):
        fields = found[2].split(b",")
        place = _DAYS[found[1]] - 1
        if len(fields) > place:
            day = fields[place].decode("latin-1")
            if day > last and _DAY.fullmatch(day):
                last = day
    return last


def add_probabilities(plants: Sequence[FleetPlant]) -> None:
    """Write into each row how probable its statistic is if there is no gross error."""
    tested = [row for plant in plants for row in plant.rows if row.statistic and row.dof]
    if not any(int(row.dof) for row in tested):
        return
    from scipy.special import gammaincc

    for plant in plants:
        plant.rows = [
            replace(row, p=f"{gammaincc(int(row.dof) / 2, float(row.statistic) / 2):.3g}")
            if row.statistic and row.dof and int(row.dof)
            else row
            for row in plant.rows
        ]


def alarm_untested(plants: Sequence[FleetPlant], level: float | None) -> None:
    """Say which reports weren't tested, or what the night's own level says of them.

    Parameters
    ----------
    plants : sequence of FleetPlant
        The plants with the probabilities of their statistics.
    level : float or None
        Below which probability a report that its session doesn't test needs a person.
    """
    for plant in plants:
        for row in plant.rows:
            if row.verdict == "nocritical":
                said = _untested(row, plant.has_critical, level)
                plant.why_of.setdefault(row.period, []).extend(said)


def _untested(row: FleetRow, has_critical: bool, level: float | None) -> Iterator[str]:
    """Give what is said of a report without a critical value."""
    if level is not None and row.p:
        if float(row.p) < level:
            yield (
                f"the statistic {row.statistic} at {row.dof} degrees of freedom has the "
                f"probability {row.p}, below the level {level:g}"
            )
        return
    if has_critical:
        yield (
            "the global test can't be made: there are critical values, but none for "
            f"{row.dof} degrees of freedom; a meter is missing, or there is one too many"
        )
    else:
        yield (
            f"nothing tests it: there is no critical value for {row.dof} degrees of freedom; "
            "plantbal-desk critical writes them, and --level 0.01 tests it at that level"
        )


def alarm_stale(
    plants: Sequence[FleetPlant], runs: Mapping[str, Run], limit: float, now: datetime.datetime
) -> None:
    """Say which plants' sessions are older than they may be.

    Parameters
    ----------
    plants : sequence of FleetPlant
        The plants.
    runs : mapping of str to Run
        The runs of those that have one, by their names.
    limit : float
        How many seconds a session may stay as it is, and how old its last fact may be.
    now : datetime
        The time, with its zone.
    """
    for plant in plants:
        if plant.site in runs:
            plant.why += _stale(plant, runs[plant.site], limit, now)


def _stale(plant: FleetPlant, run: Run, limit: float, now: datetime.datetime) -> Iterator[str]:
    """Give why a plant's session is stale."""
    since = datetime.datetime.fromtimestamp(run.session_begun or run.begun, now.tzinfo)
    if (now - since).total_seconds() > limit:
        when = since.isoformat(" ", "minutes")[:16]
        yield f"its session is stale: it is the same as on {when}, {_said(now - since)} ago"
    if plant.last_day:
        # A day's facts are there when the day has ended.
        day = datetime.date.fromisoformat(plant.last_day) + datetime.timedelta(days=1)
        end = datetime.datetime.combine(day, datetime.time(), now.tzinfo)
        if (now - end).total_seconds() > limit:
            yield f"its session is stale: its last fact is of {plant.last_day}"


def _said(age: datetime.timedelta) -> str:
    """Return an age in hours, or in days if it is long."""
    hours = age.total_seconds() / 3600
    return f"{hours:.0f} hours" if hours <= _HOURS_SAID else f"{hours / 24:.0f} days"
