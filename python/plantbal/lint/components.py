"""What looks wrong with assays, and with the balances that rest on them."""

from __future__ import annotations

from collections import defaultdict
from collections.abc import Iterator
from math import isqrt
from statistics import median_low

from plantbal.lint.findings import Finding, place_in, some_of
from plantbal.lint.remedies import LintRemedy
from plantbal.lint.studies import classes_in
from plantbal.lint.values import GREAT_TIMES, SMALL_PART
from plantbal.model.booking import Assay
from plantbal.model.ledger import Ledger
from plantbal.model.sizes import FEWEST_OF_A_MEDIAN
from plantbal.sentence import Sentence, counted


def assays(ledger: Ledger) -> Iterator[Finding]:
    """Give what looks wrong with assays and with the balances that rest on them."""
    of: dict[tuple[str, str], list[str]] = defaultdict(list)
    for component, name, period in ledger.state.assays:
        of[component, period].append(name)
    for (component, period), names in of.items():
        lines = [ledger.state.assays[component, name, period].line for name in names]
        balanced = ledger.balanced.get((component, period))
        asked = balanced.line if balanced else None
        words = {"component": component, "period": period}
        if asked is None:
            text = counted(
                len(names),
                "1 assay of {component} in {period}, and no balance is asked for",
                "{count} assays of {component} in {period}, and no balance is asked for",
                **words,
            )
            remedy = Sentence("add `component,{component},{period}`", **words)
            # without its report either, the period isn't what this session is run for
            if period in ledger.reported or not ledger.reported:
                yield Finding(
                    "no-balance", text, remedy, place_in(ledger, min(lines)), period=period
                )
        elif max(lines) > asked:
            late = [name for name, line in zip(names, lines) if line > asked]
            text = counted(
                len(late),
                "{names} comes after the last balance of {component} in {period}",
                "{names} come after the last balance of {component} in {period}",
                names=some_of(late),
                **words,
            )
            remedy = Sentence(
                "put `component,{component},{period}` after the last of them", **words
            )
            yield Finding(
                "after-balance", text, remedy, place_in(ledger, max(lines)), period=period
            )
        elif len(names) == 1:
            form = "{name} alone has an assay of {component} in {period}: nothing checks it"
            text = Sentence(form, name=names[0], **words)
            alone = "enter those of feed, products and tailings"
            yield Finding(
                "unchecked-grade", text, alone, place_in(ledger, lines[0]), names[0], period
            )


def unused_assays(ledger: Ledger) -> Iterator[Finding]:
    """Give the assays that a balance leaves out, since nothing determines the flow."""
    for (component, period), balanced in ledger.balanced.items():
        there = ledger.state.grades.get((component, period), {})
        names = [name for name, assay in there.items() if assay.line < balanced.line]
        measured = ledger.measured(balanced)
        if measured.issuperset(names):
            continue
        classes = classes_in(ledger, balanced)
        for name in names:
            if classes[name] == "unobservable":
                form = (
                    "nothing determines the flow of {name} in {period}, so the balance of "
                    "{component} leaves its assay out"
                )
                text = Sentence(form, name=name, period=period, component=component)
                remedy = LintRemedy.BY_ASSAYS().sentence
                line = ledger.state.assays[component, name, period].line
                yield Finding("unused-assay", text, remedy, place_in(ledger, line), name, period)


def grades(ledger: Ledger) -> Iterator[Finding]:
    """Give the grades that are in another unit than those of the same stream, or have errors
    greater than themselves."""
    of: dict[tuple[str, str], list[tuple[str, Assay]]] = defaultdict(list)
    for (component, name, period), assay in ledger.state.assays.items():
        of[component, name].append((period, assay))
        if assay.variance > assay.ppm**2 > 0:
            deviation = isqrt(assay.variance)
            text = Sentence(
                "the assay of {component} in {name} in {period} has a standard deviation of "
                "{deviation:,} ppm, more than its grade, {ppm:,} ppm",
                component=component,
                name=name,
                period=period,
                deviation=deviation,
                ppm=assay.ppm,
            )
            remedy = "look for a digit too many in GRADEVAR, in squares of parts per million"
            place = place_in(ledger, assay.line)
            yield Finding("large-deviation", text, remedy, place, name, period)
    for (component, name), some in of.items():
        sizes = [assay.ppm for _, assay in some if assay.ppm]
        if len(sizes) < FEWEST_OF_A_MEDIAN:
            continue
        middle = median_low(sizes)
        for period, assay in some:
            is_great = assay.ppm >= GREAT_TIMES * middle
            if is_great or 0 < assay.ppm * SMALL_PART <= middle:
                form = (
                    "{name} has {ppm:,} ppm of {component} in {period}, "
                    "and {middle:,} ppm in the middle of its periods"
                )
                names = {"name": name, "component": component, "period": period}
                text = Sentence(form, ppm=assay.ppm, middle=middle, **names)
                remedy = "a percent is 10,000 ppm, a gram per tonne is 1 ppm: look at the unit"
                yield Finding("grade", text, remedy, place_in(ledger, assay.line), name, period)
