"""Rows that aren't there, or come too late: refused ones, readings, dips, periods, reports."""

from __future__ import annotations

import datetime
from collections import defaultdict
from collections.abc import Iterator, Sequence

from plantbal.faults import Refusal
from plantbal.lint.findings import Finding, called, of_facts, one_line, place_in, some_of, span_said
from plantbal.lint.remedies import LintRemedy
from plantbal.lint.studies import classes_in
from plantbal.model.facts import Fact
from plantbal.model.forms import day_text
from plantbal.model.ledger import Ledger
from plantbal.model.periods import Period
from plantbal.schema import schema
from plantbal.sentence import Day, Phrase, Sentence, counted


def refused_rows(ledger: Ledger, left_out: Sequence[Refusal]) -> Iterator[Finding]:
    """Yield that rows are refused, and which reports are made without them."""
    refused = [*left_out, *ledger.refused]
    if not refused:
        return
    count = len(left_out) + ledger.refused.total
    after = [each for each in ledger.reported.values() if each.refused or left_out]
    text = _refused_said(count, [each.period.name for each in after])
    first = refused[0]
    place = first.place if first.place.line else place_in(ledger, None)
    whole = _whole_file(ledger)
    if whole:
        said = Sentence("{text}: {first}", text=text, first=whole)
        yield Finding("refused", said, 'save it as "CSV UTF-8", with commas', place)
    else:
        form = "{text}: {first}" if count == 1 else "{text}; the first, {first}"
        said = Sentence(form, text=text, first=one_line(first.what))
        yield Finding("refused", said, first.remedy, place)


def _refused_said(count: int, reports: Sequence[str]) -> Sentence:
    """Return how many rows are refused, and which reports are made without them."""
    if not reports:
        return counted(count, "1 row is refused", "{count} rows are refused")
    if len(reports) == 1:
        one = "1 row is refused, and the report of {names} is made without it"
        many = "{count} rows are refused, and the report of {names} is made without them"
    else:
        one = "1 row is refused, and the reports of {names} are made without it"
        many = "{count} rows are refused, and the reports of {names} are made without them"
    return counted(count, one, many, names=some_of(reports))


def _whole_file(ledger: Ledger) -> str:
    """Return what is wrong with the file as a whole, or nothing."""
    if ledger.data.startswith((b"\xff\xfe", b"\xfe\xff")) or b"\0" in ledger.data[:100]:
        return Phrase("this is UTF-16")
    first = ledger.refused[0].row[:1] if ledger.refused else ()
    kinds = {row.kind for row in schema().session}
    for sign, name in ((";", Phrase("semicolons")), ("\t", Phrase("tabs"))):
        if first and sign in first[0] and first[0].split(sign)[0] in kinds:
            return Sentence("fields have {name} between them", name=name)
    return ""


def nothing_asked(ledger: Ledger) -> Iterator[Finding]:
    """Yield that a session asks for no output."""
    if ledger.asked - {"design", "advise"} or (ledger.asked and not ledger.state.facts):
        return
    if not ledger.rows:
        text = Sentence("there is no row")
    elif ledger.state.facts:
        text = counted(
            len(ledger.state.facts),
            "1 fact is there, and no report is asked for",
            "{count:,} facts are there, and no report is asked for",
        )
    else:
        text = Sentence("no report, window, balance, design, advice or history is asked for")
    remedy = Sentence("add a period, its facts and its report")
    for last in list(ledger.periods)[-1:]:
        remedy = Sentence("add `report,{name}`", name=last)
    yield Finding("nothing-asked", text, remedy, place_in(ledger, None))


_MEANS = {
    "observable": "its flow is what the other streams leave over",
    "unobservable": "nothing determines its flow",
}


def missing_readings(ledger: Ledger) -> Iterator[Finding]:
    """Yield the days on which a metered stream has no reading."""
    for reported in ledger.reported.values():
        if not reported.view.missing:
            continue
        classes = classes_in(ledger, reported)
        period = reported.period
        for name, days in reported.view.missing.items():
            count = len(ledger.streams[name].days_in(period))
            if count == 1:
                lacks = Sentence("no reading on {days}", days=span_said(days))
            elif len(days) == count:
                lacks = Sentence("no reading on any of its {count} days", count=count)
            else:
                form = "no reading on {days}, {lacking} of {count} days"
                words = {"days": span_said(days), "lacking": len(days), "count": count}
                lacks = Sentence(form, **words)
            text = Sentence(
                "{name} has no value in {period}: {lacks}; {means}",
                name=name,
                period=period.name,
                lacks=lacks,
                means=Sentence(_MEANS[classes[name]]),
            )
            remedy = "book the reading, or an estimate with a variance that says how good it is"
            yield Finding(
                "missing-reading", text, remedy, place_in(ledger, reported.line), name, period.name
            )


_SAME_DIP = "book the dip; a tank that stood still has the same dip on both days"


def missing_dips(ledger: Ledger) -> Iterator[Finding]:
    """Yield the tanks that have no value in a reported period, since a dip is missing."""
    for reported in ledger.reported.values():
        for name, days in reported.view.undipped.items():
            period = reported.period
            which = [_which_dip(ledger, name, period, day) for day in days]
            one = "tank {name} has no value in {period}: it has no dip {which}"
            two = "tank {name} has no value in {period}: it has no dip {which} and none {last}"
            words = {"name": name, "period": period.name, "which": which[0], "last": which[-1]}
            text = Sentence(one if len(which) == 1 else two, **words)
            remedy = _by_window(ledger, period, days) or _SAME_DIP
            yield Finding(
                "missing-dip", text, remedy, place_in(ledger, reported.line), name, period.name
            )


def _by_window(ledger: Ledger, period: Period, days: Sequence[int]) -> str:
    """Return what to do about a day without a dip, if a window has what the tank held then."""
    for other in ledger.state.periods.within(period.first - 1, period.last + 1):
        one, next_ = sorted((period, other), key=lambda each: each.first)
        if one is not next_ and one.last in days and (one.name, next_.name) not in ledger.windows:
            return LintRemedy.BY_WINDOW(one=one.name, after=next_.name).sentence
    return ""


def _which_dip(ledger: Ledger, tank: str, period: Period, day: int) -> str:
    """Return which dip is missing: of an end of the period, or of the days in service."""
    opens = day == ledger.streams[tank].ends_of(period)[0]
    words = {"period": period.name, "day": Day(day_text(day))}
    if day in (period.first - 1, period.last):
        opening, closing = (
            "of the day before {period}, {day}",
            "of the last day of {period}, {day}",
        )
    else:
        opening, closing = (
            "of the day before its first in service, {day}",
            "of its last day in service, {day}",
        )
    return Sentence(opening if opens else closing, **words)


def _in_none(ledger: Ledger) -> list[Fact]:
    """Return the facts that lie in no period: their days are asked once."""
    periods = ledger.state.periods
    none = {span for span in ledger.spans if periods.sharing(*span) is None}
    if not none and not ledger.dips:
        return []
    return [
        fact
        for fact in ledger.live
        if (
            not ledger.state.periods_of(fact)
            if fact.kind == "dip"
            else (fact.first, fact.last) in none
        )
    ]


def in_no_period(ledger: Ledger) -> Iterator[Finding]:
    """Yield the facts that lie in no period."""
    lost = _in_none(ledger)
    if lost and not ledger.periods:
        form = "no period is declared, and {count} facts count nowhere"
        text = Sentence(form, count=len(lost))
        line = min(fact.line for fact in lost)
        yield Finding("no-period", text, "add a period and its report", place_in(ledger, line))
        return
    unused = [
        fact
        for fact in lost
        if fact.kind == "dip" and ledger.state.periods.within(fact.first, fact.first + 1)
    ]
    inside = {fact.id for fact in unused}
    outside = [(fact, fact.first) for fact in lost if fact.id not in inside]

    def strayed(fact: Fact, day: int) -> tuple[str, str]:
        """Return what is said of a fact in no period."""
        words = {"fact": called(fact), "day": Day(day_text(day))}
        text = Sentence("{fact} is of {day}, which is in no period", **words)
        correct = "correct its date, or declare a period that includes it"
        return text, _other_year(ledger, fact) or correct

    def idle(fact: Fact, day: int) -> tuple[str, str]:
        """Return what is said of a dip that counts nowhere."""
        text = Sentence(
            "{fact} is of {day}, neither the last day of a period nor the day before one, so it "
            "counts nowhere",
            fact=called(fact),
            day=Day(day_text(day)),
        )
        return text, "it does no harm"

    yield from of_facts(ledger, "no-period", outside, strayed)
    yield from of_facts(ledger, "unused-dip", [(fact, fact.first) for fact in unused], idle)


def _other_year(ledger: Ledger, fact: Fact) -> str:
    """Return what to write for a fact of another year, or nothing."""
    day = datetime.date.fromordinal(fact.first)
    for period in ledger.periods.values():
        for near in (period.first, period.last):
            try:
                moved = day.replace(year=datetime.date.fromordinal(near).year)
            except ValueError:
                continue
            if period.first - 1 <= moved.toordinal() <= period.last:
                return Sentence("did you mean {near}?", near=moved)
    return ""


def after_report(ledger: Ledger) -> Iterator[Finding]:
    """Yield the facts that come after the last report of their period."""
    late: dict[str, list[Fact]] = defaultdict(list)
    if not ledger.reported:
        return
    first = min(each.line for each in ledger.reported.values())
    for fact in ledger.state.facts:
        if fact.changed <= first:
            continue
        if fact.kind == "dip":
            found = (ledger.reported.get(each.name) for each in ledger.state.periods_of(fact))
            seen = [each for each in found if each is not None]
        else:
            seen = ledger.reported_on((fact.first, fact.last))
        for each in seen:
            if fact.changed > each.line:
                late[each.period.name].append(fact)
    for name, facts in late.items():
        line = min(fact.changed for fact in facts)
        text = counted(
            len(facts),
            "1 row of a fact comes after the last report of {name}, which is made without it",
            "rows of {count} facts come after the last report of {name}, which is made without "
            "them",
            name=name,
        )
        one, many = "put `report,{name}` after it", "put `report,{name}` after them"
        remedy = counted(len(facts), one, many, name=name)
        yield Finding("after-report", text, remedy, place_in(ledger, line), period=name)


def no_transfers(ledger: Ledger) -> Iterator[Finding]:
    """Yield the batch streams without a transfer in a period."""
    of: dict[str, set[str]] = defaultdict(set)
    for stream, facts in ledger.amounts.items() if ledger.reported else ():
        if ledger.streams[stream].kind == "batch":
            for span in {(fact.first, fact.last) for fact in facts}:
                of[stream] |= {seen.period.name for seen in ledger.reported_on(span)}
    for reported in ledger.reported.values():
        name = reported.period.name
        for stream, declared in ledger.streams.items():
            served = declared.is_in(reported.period)
            if declared.kind == "batch" and served and name not in of[stream]:
                form = "{stream} has no transfer in {name}, and counts as 0 there"
                text = Sentence(form, stream=stream, name=name)
                yield Finding(
                    "no-transfer",
                    text,
                    "book its tickets, if there are any",
                    place_in(ledger, reported.line),
                    stream,
                    name,
                )


def not_looked_at(ledger: Ledger) -> Iterator[Finding]:
    """Yield that the last rows that ask for output weren't looked at, if that would take too long."""
    if ledger.unlooked:
        text = counted(
            ledger.unlooked,
            "this row asks for output, and isn't looked at: there are too many such rows",
            "{count:,} rows that ask for output, from here on, aren't looked at: there are too many",
        )
        remedy = "lint a session that asks for each report, window and balance once"
        yield Finding("not-looked-at", text, remedy, place_in(ledger, ledger.unlooked_from))


def not_reported(ledger: Ledger) -> Iterator[Finding]:
    """Yield the periods that have facts and no report."""
    if "report" not in ledger.asked:
        return
    within = {each.name for pair in ledger.windows for each in ledger.window_of(*pair)}
    count: dict[str, int]
    if not ledger.dips:
        count = ledger.state.periods.spread(ledger.spans)
    else:
        count = defaultdict(int)
        for fact in ledger.live:
            for period in ledger.state.periods_of(fact):
                count[period.name] += fact.kind != "dip" or fact.first == period.last
    for name, facts in count.items():
        if facts and name not in ledger.reported and name not in within:
            text = counted(
                facts,
                "{name} has 1 fact, and no report is asked for",
                "{name} has {count} facts, and no report is asked for",
                name=name,
            )
            remedy = Sentence("add `report,{name}`", name=name)
            yield Finding("not-reported", text, remedy, place_in(ledger, None), period=name)
