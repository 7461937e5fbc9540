"""What a report makes of a session: classes that get worse, critical values that aren't there."""

from __future__ import annotations

from collections import defaultdict
from collections.abc import Iterator, Sequence

from plantbal.kinds import StreamClass
from plantbal.lint.findings import Finding, place_in, some_of
from plantbal.lint.remedies import LintRemedy
from plantbal.model.forms import LIMITS
from plantbal.model.ledger import Ledger, Seen
from plantbal.model.periods import Period
from plantbal.model.topology import classes_of, degrees_of_freedom
from plantbal.sentence import Phrase, Sentence, counted


def classes_in(ledger: Ledger, reported: Seen | None = None) -> dict[str, StreamClass]:
    """Return the classes by design, or in a period."""
    if reported is None:
        return classes_of(ledger.nodes, ledger.arcs, ledger.measured())
    nodes, arcs = ledger.nodes_in(reported.period), ledger.arcs_in(reported.period)
    return classes_of(nodes, arcs, ledger.measured(reported))


def _classes_if_whole(ledger: Ledger, period: Period) -> dict[str, StreamClass]:
    """Return the classes of a period if nothing of its facts were missing."""
    return classes_of(ledger.nodes_in(period), ledger.arcs_in(period), ledger.measured())


_RANKS = {"redundant": 0, "observable": 1, "nonredundant": 1, "unobservable": 2}


def worse_classes(ledger: Ledger) -> Iterator[Finding]:
    """Yield the streams whose class in a period is worse than by design."""
    lacking = [each for each in ledger.reported.values() if each.view.lacking]
    if not lacking:
        return
    for reported in lacking:
        design = _classes_if_whole(ledger, reported.period)
        without = [*reported.view.missing, *reported.view.undipped]
        period = reported.period.name
        worse: dict[tuple[StreamClass, StreamClass], list[str]] = defaultdict(list)
        for name, kind in classes_in(ledger, reported).items():
            if name not in without and _RANKS[kind] > _RANKS[design[name]]:
                worse[kind, design[name]].append(name)
        for (kind, before), names in worse.items():
            text = counted(
                len(names),
                "in {period} {names} is {kind}, and {before} by design, since {since}",
                "in {period} {names} are {kind}, and {before} by design, since {since}",
                period=period,
                names=some_of(names),
                kind=Phrase(kind),
                before=Phrase(before),
                since=counted(
                    len(without),
                    "{names} has no value",
                    "{names} have no value",
                    names=some_of(without),
                ),
            )
            if kind == "nonredundant":
                remedy = counted(
                    len(names),
                    "nothing checks it: book what is missing",
                    "nothing checks them: book what is missing",
                )
            else:
                remedy = counted(
                    len(names),
                    "nothing determines it: book what is missing",
                    "nothing determines them: book what is missing",
                )
            yield Finding(
                "worse-class", text, remedy, place_in(ledger, reported.line), names[0], period
            )


def untested_reports(ledger: Ledger) -> Iterator[Finding]:
    """Yield the reports without a critical value for their tests."""
    if not ledger.reported:
        return
    line = min(each.line for each in ledger.reported.values())
    if not ledger.state.plant.critical:
        text = "no critical value is declared, so no test can accept or reject"
        yield Finding(
            "untested",
            text,
            LintRemedy.WRITE_CRITICAL().sentence,
            place_in(ledger, line),
        )
        return
    by_freedom: dict[int, list[Seen]] = defaultdict(list)
    for reported in ledger.reported.values():
        nodes, arcs = ledger.nodes_in(reported.period), ledger.arcs_in(reported.period)
        measured = ledger.measured(reported)
        by_freedom[degrees_of_freedom(nodes, arcs, measured)].append(reported)
    there = {dof for test, dof in ledger.state.plant.critical if test == "global"}
    for dof, some in by_freedom.items():
        if dof and dof not in there:
            names = some_of([each.period.name for each in some])
            text = counted(
                len(some),
                "{names} has {degrees}, and there is no critical value for them",
                "{names} have {degrees}, and there is no critical value for them",
                names=names,
                degrees=counted(dof, "1 degree of freedom", "{count} degrees of freedom"),
            )
            remedy = LintRemedy.WRITE_ONE_CRITICAL(dof=dof).sentence
            place = place_in(ledger, some[0].line)
            yield Finding("no-critical", text, remedy, place, period=some[0].period.name)
    most = max(by_freedom)
    least = max(1, most - LIMITS["most_round"])
    lacks = [str(dof) for dof in range(most - 1, least - 1, -1) if dof not in there]
    tests = [test for test in ("measure", "nodal") if (test, 0) not in ledger.state.plant.critical]
    if most and (lacks or tests):
        text = Sentence(
            "an elimination asks for critical values {parts}, which aren't there",
            parts=_with_and(_lacking_said(lacks, tests)),
        )
        numbers = sorted(map(int, lacks))
        if numbers and numbers[-1] - numbers[0] == len(numbers) - 1 > 0:
            lacks = [f"{numbers[0]}-{numbers[-1]}"]
        words = " ".join(["critical 0.05", *lacks])
        words += "".join(f" --{test} N" for test in tests)
        what = LintRemedy.WRITE_TESTS if tests else LintRemedy.WRITE_LACKING
        remedy = what(words=words).sentence
        yield Finding("no-elimination", text, remedy, place_in(ledger, line))


def _lacking_said(lacks: Sequence[str], tests: Sequence[str]) -> list[Sentence]:
    """Return for what critical values are missing, each by itself."""
    one, many = "for {names} degree of freedom", "for {names} degrees of freedom"
    form = one if list(lacks) == ["1"] else many
    said = [Sentence(form, names=some_of(lacks))] if lacks else []
    return said + [Sentence("for `{test}`", test=test) for test in tests]


def _with_and(parts: Sequence[Sentence]) -> Sentence:
    """Return parts with `and` between them."""
    said = parts[0]
    for part in parts[1:]:
        said = Sentence("{names} and {last}", names=said, last=part)
    return said


def costs(ledger: Ledger) -> Iterator[Finding]:
    """Give the plain streams whose meters have no cost, beside others that have one."""
    for line, names in ledger.uncosted.items():
        if names:
            text = counted(
                len(names),
                "{names} has no cost in this advise row, and counts as 1",
                "{names} have no cost in this advise row, and count as 1",
                names=some_of(names),
            )
            remedy = "add the costs, or name a cost of 1 if that is meant"
            yield Finding("no-cost", text, remedy, place_in(ledger, line), names[0])
