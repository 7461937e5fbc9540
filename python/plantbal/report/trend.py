"""What reports say over time: the periods at their days, and a line for each stream."""

from __future__ import annotations

import calendar
import datetime
import re
from dataclasses import dataclass
from typing import Any

from plantbal.faults import Fault
from plantbal.records import read_records
from plantbal.report.blocks import Block, Values
from plantbal.report.output import Output
from plantbal.sentence import Joined, Sentence

# How many holes of a rejected period are said, and how many measurements of each.
_MOST_HOLES, _MOST_NAMES = 3, 6
Days = tuple[datetime.date, datetime.date]
_DAYS_OF_NAME = re.compile(r"(\d{4})(?:-(?:Q([1-4])|(\d\d)(?:-(\d\d))?))?")


@dataclass
class TrendLine:
    """A stream over the periods, in tonnes. What there is none of in a period is NaN.

    Attributes
    ----------
    name : str
        The stream.
    flow, sd : array
        The flow to book, and its standard deviation.
    value, meter : array
        What its meter says, and the standard deviation of that.
    away : array
        Flow less value before any meter was taken, in standard deviations of the value.
    sum : array
        The sum of flow less value, before any meter was taken, from the first period on.
    """

    name: str
    flow: Any
    sd: Any
    value: Any
    meter: Any
    away: Any
    sum: Any


@dataclass
class Trend:
    """Periods in order of time, and the streams in them.

    Attributes
    ----------
    names : list of str
        The periods.
    starts, ends : array
        Where each begins and ends: in days, as matplotlib counts them, or from -0.5 on.
    dated : bool
        Whether these are days.
    high, critical : array
        The greatest value that the statistic of the global test may have, and its critical value;
        NaN if there is none.
    rejected : array of bool
        Whether the global test rejects.
    holes : list of str
        What is missing in a period that is rejected, and where; empty of others.
    lines : dict of str to TrendLine
        The streams that have a flow to book in some period.
    """

    names: list[str]
    starts: Any
    ends: Any
    dated: bool
    high: Any
    critical: Any
    rejected: Any
    holes: list[str]
    lines: dict[str, TrendLine]

    @property
    def middles(self) -> Any:
        """The middles of the periods."""
        return (self.starts + self.ends) / 2

    def stairs(self, *series: Any) -> tuple[Any, ...]:
        """Return where a line over the periods goes, and its heights: one step a period.

        It breaks between periods that don't follow each other.
        """
        import numpy

        gaps = numpy.flatnonzero(self.starts[1:] > self.ends[:-1] + 1e-6)
        places = 2 * (gaps + 1)
        across = numpy.column_stack([self.starts, self.ends]).ravel()
        found = [numpy.insert(across, places, self.ends[gaps])]
        for heights in series:
            found.append(numpy.insert(numpy.repeat(heights, 2), places, numpy.nan))
        return tuple(found)

    def greatest(self, most: int) -> list[TrendLine]:
        """Return the meters with the greatest adjustments, in the order of the report."""
        import numpy

        size = {
            name: float(numpy.nanmax(abs(line.away)))
            for name, line in self.lines.items()
            if not numpy.isnan(line.away).all()
        }
        kept = set(sorted(size, key=lambda name: -size[name])[:most])
        return [line for name, line in self.lines.items() if name in kept]


@dataclass
class _Rounds:
    """The first and the last round of a period's last report."""

    first: Block
    last: Block


def trend_of(output: Output, session: bytes = b"", component: str = "") -> Trend:
    """Return the periods of an output in order of time.

    Parameters
    ----------
    output : Output
        The output.
    session : bytes
        The session, which has the days of the periods. Without it they are taken from their names,
        if all are called by their days.
    component : str
        The component of whose balances it is; without it, it is of the reports of mass.

    Raises
    ------
    Fault
        If there is no report.
    """
    import numpy

    rounds = _rounds_of(output, component)
    days = _days_of(list(rounds), session)
    if days:
        rounds = {name: rounds[name] for name in sorted(rounds, key=lambda name: days[name])}
        spans = [days[name] for name in rounds]
        starts = numpy.array([float((first - _EPOCH).days) for first, _ in spans])
        ends = numpy.array([float((last - _EPOCH).days + 1) for _, last in spans])
    else:
        starts = numpy.arange(len(rounds)) - 0.5
        ends = starts + 1
    firsts = [found.first for found in rounds.values()]
    return Trend(
        names=list(rounds),
        starts=starts,
        ends=ends,
        dated=bool(days),
        high=numpy.array([_statistic(block) for block in firsts]),
        critical=numpy.array([_critical(block) for block in firsts]),
        rejected=numpy.array([_verdict(block) == "reject" for block in firsts]),
        holes=[_hole_of(block) for block in firsts],
        lines=_lines_of(list(rounds.values())),
    )


# The first day of matplotlib's axes.
_EPOCH = datetime.date(1970, 1, 1)


def _rounds_of(output: Output, component: str = "") -> dict[str, _Rounds]:
    """Return the rounds of each period's last report; what is cut off is left out."""
    found: dict[str, _Rounds] = {}
    for block in output.blocks_in_order:
        if block.window or block.component != component:
            continue
        if not block.ended or not block.solved:
            continue
        if block.round == 0:
            found[block.period] = _Rounds(block, block)
        elif block.period in found:
            found[block.period].last = block
    if not found:
        what = f"balance of {component}" if component else "report"
        raise Fault(f"there is no {what} in what was read")
    return found


def _statistic(block: Block) -> float:
    """Return the greatest value of the statistic, or its least one if it has no greatest."""
    solved = block.solved or {}
    return int(solved["high"] or solved["low"]) / 1000


def _critical(block: Block) -> float:
    """Return the critical value of the global test, or NaN."""
    critical = (block.whole or {}).get("critical", "")
    return int(critical) / 1000 if critical else float("nan")


def _verdict(block: Block) -> str:
    """Return what the global test says."""
    return (block.whole or {}).get("verdict", "")


def _hole_of(block: Block) -> str:
    """Return how much is missing in a round that is rejected, and which measurements may be off."""
    from plantbal.diagnosis.diagnose import diagnosis_of
    from plantbal.diagnosis.rounds import one_of_said
    from plantbal.diagnosis.words import amount_said

    if _verdict(block) != "reject":
        return ""
    some = [
        Sentence(
            "{amount} at {names}",
            amount=amount_said(told.hole.size),
            names=one_of_said(told.names, block, _MOST_NAMES),
        )
        for told in diagnosis_of(block).holes[:_MOST_HOLES]
    ]
    form = "{subject}: {said}"
    return Sentence(form, subject=block.subject, said=Joined("; ", some)) if some else ""


def _lines_of(rounds: list[_Rounds]) -> dict[str, TrendLine]:
    """Return the lines of the streams in the order of the reports."""
    import numpy

    from plantbal.study.uncertainty import uncertainty_of

    table = uncertainty_of(found.last for found in rounds)
    sd = dict(zip(zip(table["block"], table["name"]), table["sd"]))
    lines: dict[str, TrendLine] = {}

    def line_of(name: str) -> TrendLine:
        """Return the line of a stream, an empty one the first time."""
        if name not in lines:
            lines[name] = TrendLine(name, *numpy.full((6, len(rounds)), numpy.nan))
        return lines[name]

    for place, found in enumerate(rounds):
        for stream in found.last.streams:
            if stream["class"] != "unobservable":
                line = line_of(stream["name"])
                line.flow[place] = int(stream["flow"]) / 1e6
                line.sd[place] = sd[found.last.number, stream["name"]] / 1e6
        for stream in found.first.streams:
            if stream["value"]:
                _adjust(line_of(stream["name"]), place, stream)
    for line in lines.values():
        if not numpy.isnan(line.sum).all():
            line.sum = numpy.nancumsum(line.sum)
    return lines


def _adjust(line: TrendLine, place: int, stream: Values) -> None:
    """Set what a meter says, and how far its flow is from that."""
    left = (int(stream["flow"]) - int(stream["value"])) / 1e6
    line.value[place] = int(stream["value"]) / 1e6
    line.meter[place] = int(stream["variance"]) ** 0.5 / 1e6
    line.away[place] = left / line.meter[place]
    line.sum[place] = left


def _days_of(names: list[str], session: bytes) -> dict[str, Days]:
    """Return the days of periods, or nothing if those of some aren't known."""
    told: dict[str, Days | None] = {name: days_of_name(name) for name in names}
    for record in read_records(session):
        if record.fields[0] == "period" and record.fields[1] in told:
            try:
                first, last = map(datetime.date.fromisoformat, record.fields[2:4])
            except ValueError:
                continue
            told[record.fields[1]] = first, last
    found = {name: days for name, days in told.items() if days}
    return found if len(found) == len(names) else {}


def days_of_name(name: str) -> Days | None:
    """Return the days that a period is called by: a year, a quarter, a month or a day.

    Examples
    --------
    >>> days_of_name("2024-02")
    (datetime.date(2024, 2, 1), datetime.date(2024, 2, 29))
    """
    match = _DAYS_OF_NAME.fullmatch(name)
    if not match:
        return None
    year, quarter, month, day = (int(part) if part else 0 for part in match.groups())
    first, last = (3 * quarter - 2, 3 * quarter) if quarter else (month or 1, month or 12)
    try:
        if day:
            return datetime.date(year, month, day), datetime.date(year, month, day)
        end = calendar.monthrange(year, last)[1]
        return datetime.date(year, first, 1), datetime.date(year, last, end)
    except (ValueError, calendar.IllegalMonthError):
        return None
