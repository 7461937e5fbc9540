"""The sentences about what stops a close: what is there, and what to do.

They are made from a `Stop` alone. Nothing reads them: what decides looks at its gate and values.
"""

from __future__ import annotations

from collections.abc import Callable, Sequence

from plantbal.amounts import tonnes_text
from plantbal.gates.gate import Gate, Stop
from plantbal.gates.remedies import GateRemedy
from plantbal.model.forms import day_text
from plantbal.sentence import Day, Figure, Joined, Sentence, counted

# How many names or days are said one by one.
MOST = 4


def said_of_stop(stop: Stop) -> str:
    """Return what is there, as a sentence without its full stop."""
    return _SAID[stop.gate](stop)


def remedy_of_stop(stop: Stop) -> str:
    """Return what to do about it."""
    return _REMEDIES[stop.gate](stop)


def line_of_stop(stop: Stop) -> str:
    """Return a line on it: the period, what is there, what to do, and the gate."""
    return f"{stop.period}: {said_of_stop(stop)}: {remedy_of_stop(stop)} [{stop.gate}]"


def about(gate: Gate) -> str:
    """Return what a gate looks for, in a few words."""
    return _ABOUT[gate]


def named(names: Sequence[str]) -> str:
    """Return names with commas, of many the first."""
    if len(names) <= MOST:
        return Joined(", ", names)
    first, count = Joined(", ", names[: MOST - 1]), len(names) - MOST + 1
    return Sentence("{names} and {count} more", names=first, count=count)


def days_said(days: Sequence[int]) -> str:
    """Return days in words, those that follow each other from the first to the last."""
    spans: list[list[int]] = []
    for day in days:
        if spans and day == spans[-1][-1] + 1:
            spans[-1].append(day)
        else:
            spans.append([day])
    texts: list[str] = []
    for span in spans:
        if len(span) > 2:
            ends = {"first": _day(span[0]), "last": _day(span[-1])}
            texts.append(Sentence("{first} to {last}", **ends))
        else:
            texts += map(_day, span)
    return named(texts)


def _day(number: int) -> Day:
    return Day(day_text(number))


def _tonnes(grams: int) -> Figure:
    """Return grams in tonnes, or as they are if they are few."""
    few = 0 < abs(grams) < 1_000_000
    return Figure(f"{grams:,} g" if few else f"{tonnes_text(grams)} t")


# ---- what is there


def _untested(stop: Stop) -> str:
    if not stop.values:
        return Sentence("no test of {period} was made", period=stop.period)
    return counted(
        stop.values["dof"],
        "{period} has 1 degree of freedom, and there is no critical value for them",
        "{period} has {count:,} degrees of freedom, and there is no critical value for them",
        period=stop.period,
    )


def _missing(stop: Stop) -> str:
    what = "no dip of {names} on {days}" if stop.values["is_tank"] else ""
    what = what or "no reading of {names} on {days}"
    return Sentence(what, names=named(stop.names), days=days_said(stop.days))


def _negative_flow(stop: Stop) -> str:
    name, start, end = stop.names
    flow, error = (_tonnes(stop.values[each]) for each in ("grams", "error"))
    what = "{name} from {start} to {end} is booked as {flow} ± {error}: it would run backward"
    return Sentence(what, name=name, start=start, end=end, flow=flow, error=error)


def _tank_jump(stop: Stop) -> str:
    values = stop.values
    after = (
        "the dip of {tank} on {day} asks for a change of {change} after {beside}; booked flows and "
        "its other days give {given}"
    )
    upto = (
        "the dip of {tank} on {day} asks for a change of {change} up to {beside}; booked flows and "
        "its other days give {given}"
    )
    return Sentence(
        after if values["opens"] else upto,
        tank=stop.names[0],
        day=days_said(stop.days),
        change=_tonnes(values["change"]),
        beside=_day(values["beside"]),
        given=_tonnes(values["measured"] + values["expected"]),
    )


def _tank_range(stop: Stop) -> str:
    what = "{tank} has {mm:,} mm on {days}, and {low:,} to {high:,} mm in its {dips:,} other dips"
    values = {name: stop.values[name] for name in ("mm", "low", "high", "dips")}
    return Sentence(what, tank=stop.names[0], days=days_said(stop.days), **values)


def _zero(stop: Stop) -> str:
    is_each = len(stop.days) == stop.values["readings"]
    days = Sentence("each day") if is_each else days_said(stop.days)
    what = "{name} reads 0 on {days}, though the unit that it serves keeps running"
    return Sentence(what, name=stop.names[0], days=days)


def _frozen(stop: Stop) -> str:
    days = days_said(stop.days)
    if not stop.names:
        what = "{copied:,} of {meters:,} meters have on {days} the figures of the day before"
        values = {name: stop.values[name] for name in ("copied", "meters")}
        return Sentence(what, days=days, **values)
    what = "{name} has the same figure, {figure}, on {count} days, {days}"
    figure = _tonnes(stop.values["grams"])
    return Sentence(what, name=stop.names[0], figure=figure, count=len(stop.days), days=days)


def _by_days(stop: Stop, one: str, more: str, **values: object) -> str:
    """Return a sentence on days of a meter, by the form for one or that for more."""
    name, days = stop.names[0], days_said(stop.days)
    return counted(len(stop.days), one, more, name=name, days=days, **values)


def _negative(stop: Stop) -> str:
    return _by_days(
        stop,
        "{name} is below 0 on {days}, 1 reading of {readings:,}, at least {figure}",
        "{name} is below 0 on {days}, {count:,} readings of {readings:,}, at least {figure}",
        readings=stop.values["readings"],
        figure=_tonnes(stop.values["grams"]),
    )


def _copy(stop: Stop) -> str:
    two = "{names} have the same figures on each of {count} days"
    more = "{names} all have the same figures on each of {count} days"
    what = two if len(stop.names) == 2 else more
    return Sentence(what, names=named(stop.names), count=len(stop.days))


def _estimated(stop: Stop) -> str:
    return _by_days(
        stop,
        "{name} is estimated on {days}, 1 day: {amount} ± {error}",
        "{name} is estimated on {days}, {count:,} days: {amount} ± {error}",
        amount=_tonnes(stop.values["grams"]),
        error=_tonnes(stop.values["error"]),
    )


_SAID: dict[Gate, Callable[[Stop], str]] = {
    Gate.NO_REPORT: lambda stop: Sentence(
        "there is no report of {of}", of=stop.subject or stop.period
    ),
    Gate.UNCONVERGED: lambda stop: Sentence("{of} isn't converged", of=stop.subject),
    Gate.REJECTED: lambda stop: Sentence("{of} is rejected by the global test", of=stop.subject),
    Gate.UNDECIDED: lambda stop: Sentence("the global test of {of} is undecided", of=stop.subject),
    Gate.UNTESTED: _untested,
    Gate.MISSING: _missing,
    Gate.UNASSAYED: lambda stop: stop.subject,
    Gate.IMPOSSIBLE: lambda stop: stop.subject,
    Gate.NEGATIVE_FLOW: _negative_flow,
    Gate.TANK_JUMP: _tank_jump,
    Gate.TANK_RANGE: _tank_range,
    Gate.ZERO: _zero,
    Gate.FROZEN: _frozen,
    Gate.NEGATIVE: _negative,
    Gate.COPY: _copy,
    Gate.ESTIMATED: _estimated,
}


# ---- what to do


def _close_level(stop: Stop) -> str:
    """Return what to write for a level that is outside the range of the others.

    It is one in whole millimetres, so the decimals of metres are lost.
    """
    values = stop.values
    if values["mm"] and values["low"] <= values["mm"] * 1000 <= values["top"]:
        what = (
            "if it is in metres, write it in mm with all its decimals, such as {more} mm for exactly "
            "{mm} m; else look at its digits"
        )
        return Sentence(what, mm=values["mm"], more=values["mm"] * 1000)
    return "look at its digits and its unit"


def _turn(stop: Stop) -> str:
    words = dict(zip(("name", "start", "end"), stop.names))
    if stop.values["measured"]:
        what = "look at the sign of its readings, and at what is missing at {start} and {end}"
    else:
        what = (
            "exchange the ends of {name} if it runs from {end} to {start}; else a stream, a ticket "
            "or a meter is missing or wrong at {start} or {end}"
        )
    return Sentence(what, **words)


_REMEDIES: dict[Gate, Callable[[Stop], str]] = {
    Gate.NO_REPORT: lambda stop: "look for a digit too many in its facts",
    Gate.UNCONVERGED: lambda stop: GateRemedy.MORE_SWEEPS().sentence,
    Gate.REJECTED: lambda stop: "find what is wrong, and correct it",
    Gate.UNDECIDED: lambda stop: GateRemedy.SMALLER_GAP().sentence,
    Gate.UNTESTED: lambda stop: (
        GateRemedy.ONE_CRITICAL(dof=stop.values["dof"]).sentence
        if stop.values
        else GateRemedy.WITH_TESTS().sentence
    ),
    Gate.MISSING: lambda stop: "book what is missing, or an estimate with the error that it has",
    Gate.UNASSAYED: lambda stop: "enter it now: assays can't come after the close",
    Gate.IMPOSSIBLE: lambda stop: "look at the assays and meters around it",
    Gate.NEGATIVE_FLOW: _turn,
    Gate.TANK_JUMP: lambda stop: "look at the dip, and for a flow that isn't booked",
    Gate.TANK_RANGE: _close_level,
    Gate.ZERO: lambda stop: (
        "if the meter is dead, estimate these days; look at its transmitter and its export"
    ),
    Gate.FROZEN: lambda stop: (
        "if it stuck, estimate these days; look at its transmitter and its export"
        if stop.names
        else "was a row copied down? Enter the readings of that day"
    ),
    Gate.NEGATIVE: lambda stop: "look at its sign and its export",
    Gate.COPY: lambda stop: "look whether one column was copied: they can't check each other",
    Gate.ESTIMATED: lambda stop: "put in the true figures if they have turned up",
}

_ABOUT: dict[Gate, str] = {
    Gate.NO_REPORT: "there is no report",
    Gate.UNCONVERGED: "the arithmetic isn't converged",
    Gate.REJECTED: "the global test rejects",
    Gate.UNDECIDED: "the global test is undecided",
    Gate.UNTESTED: "no critical value for a report's degrees of freedom",
    Gate.MISSING: "a meter has no reading, or a tank no dip",
    Gate.UNASSAYED: "an assay that the period before has is missing",
    Gate.IMPOSSIBLE: "a stream carries more of a component than its whole mass",
    Gate.NEGATIVE_FLOW: "a flow is below 0 by more than two standard deviations",
    Gate.TANK_JUMP: "a dip at an end of a period doesn't follow from the booked flows",
    Gate.TANK_RANGE: "a level is ten times outside the range of the tank's other dips",
    Gate.ZERO: "a meter reads 0 while the unit that it serves keeps running",
    Gate.FROZEN: "a meter has the same figure for days, or all have those of the day before",
    Gate.NEGATIVE: "a meter is below 0 on a few days",
    Gate.COPY: "two meters have the same figures on all days",
    Gate.ESTIMATED: "estimates replace readings",
}
