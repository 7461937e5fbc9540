"""What looks wrong with the plant: units with one side, services without a day, names that are alike."""

from __future__ import annotations

import difflib
import re
from bisect import bisect_right
from collections import defaultdict
from collections.abc import Iterator, Sequence
from itertools import islice

from plantbal.lint.findings import Finding, place_in, some_of
from plantbal.model.forms import LIMITS, day_text
from plantbal.model.ledger import Ledger
from plantbal.model.plant import ENV, most_streams
from plantbal.sentence import Day, Phrase, Sentence

# A letter is mistyped in a word of this many; shorter ones are marks, such as HP and LP.
LONG_WORD = 4
# Close names are looked for at this many units.
MOST_GUESSES = 20
# Pairs of names that are said of nodes, of streams and of components.
MOST_PAIRS = 100
FULL_PERCENT = 80


def one_sided(ledger: Ledger) -> Iterator[Finding]:
    """Yield the units that no stream leads to, or none leaves."""
    into: dict[str, list[str]] = defaultdict(list)
    out_of: dict[str, list[str]] = defaultdict(list)
    for stream in ledger.streams.values():
        out_of[stream.arc.from_].append(stream.arc.name)
        into[stream.arc.to].append(stream.arc.name)
    units = [unit for unit, kind in ledger.nodes.items() if kind == "unit"]
    lacking = [unit for unit in units if not (into[unit] and out_of[unit])]
    for number, unit in enumerate(lacking):
        if not into[unit] and not out_of[unit]:
            text = Sentence("no stream leads to unit {unit}, and none from it", unit=unit)
        else:
            form = (
                "nothing goes out of unit {unit}: {zero}"
                if into[unit]
                else "nothing comes in at unit {unit}: {zero}"
            )
            text = Sentence(form, unit=unit, zero=_zero(ledger, into[unit] or out_of[unit]))
        others = [node for node in ledger.nodes if node not in (unit, ENV)]
        if number >= MOST_GUESSES:
            others = []
        near = difflib.get_close_matches(unit, others, n=1, cutoff=0.8)
        remedy = "correct the end of a stream, or add one"
        if not into[unit] and not out_of[unit]:
            remedy = "correct the end of a stream, add one, or leave the unit out"
        if near:
            remedy = Sentence("did you mean {near}?", near=near[0])
        yield Finding(
            "one-sided", text, remedy, place_in(ledger, ledger.state.plant.lines.get(unit)), unit
        )


def never_served(ledger: Ledger) -> Iterator[Finding]:
    """Yield the tanks and streams that are in service in no period."""
    for name, stream in ledger.streams.items():
        if stream.service is None or not ledger.periods:
            continue
        if not any(stream.is_in(period) for period in ledger.periods.values()):
            since, until = (Day(day_text(day)) for day in stream.service)
            form = "{name} is in service from {since} to {until}, on no day of a period"
            text = Sentence(form, name=name, since=since, until=until)
            remedy = "correct its dates of service, or declare a period that has one of them"
            yield Finding("never-served", text, remedy, place_in(ledger, stream.line), name)


def _zero(ledger: Ledger, streams: list[str]) -> str:
    """Return what a unit with one side makes of its streams."""
    if len(streams) == 1:
        kind = ledger.streams[streams[0]].kind
        said = {
            "metered": "{name} is booked as 0, whatever its meter says",
            "batch": "{name} is booked as 0, whatever its tickets say",
        }
        return Sentence(said.get(kind, "{name} is booked as 0"), name=streams[0])
    form = "{names} are booked so that they add up to 0"
    return Sentence(form, names=some_of(streams))


_WORD = re.compile(r"[A-Za-z]+")


def one_letter_apart(one: str, other: str) -> bool:
    """Say whether two names are likely to be one of which a letter was mistyped.

    They differ in one letter of a word of four or more, in two that are exchanged, or in capitals
    and signs alone. Names that are distinguished by a digit, or by a letter at the end in the order
    of the alphabet, such as `PUMP_A` and `PUMP_B`, aren't meant.
    """
    if _plain(one) == _plain(other):
        return one != other
    if len(one) > len(other):
        one, other = other, one
    if len(other) - len(one) > 1:
        return False
    same = next((i for i, (a, b) in enumerate(zip(one, other)) if a != b), len(one))
    ends = one[same:], other[same:]
    if len(one) < len(other):
        return ends[0] == ends[1][1:] and _in_word(other, same)
    if ends[0][1:] == ends[1][1:]:
        a, b = one[same], other[same]
        is_series = len(ends[0]) == 1 and abs(ord(a) - ord(b)) == 1
        return a.isalpha() and b.isalpha() and not is_series and _in_word(one, same)
    exchanged = ends[0][:2] == ends[1][1::-1] and ends[0][2:] == ends[1][2:]
    return exchanged and ends[0][:2].isalpha() and _in_word(one, same)


def _plain(name: str) -> str:
    return re.sub("[-.]", "_", name.lower())


def _in_word(name: str, place: int) -> bool:
    """Say whether a place is in a run of four letters or more."""
    return any(
        word.start() <= place < word.end() and word.end() - word.start() >= LONG_WORD
        for word in _WORD.finditer(name)
    )


def near_pairs(names: Sequence[str]) -> Iterator[tuple[str, str]]:
    """Give the pairs of names that are one letter apart, in order."""
    # Two names that differ in one letter, or in two exchanged ones, share a name with one letter
    # less.
    shared: dict[str, list[int]] = defaultdict(list)
    keys: list[set[str]] = []
    for number, name in enumerate(names):
        plain = _plain(name)
        places = (
            place
            for word in _WORD.finditer(name)
            if word.end() - word.start() >= LONG_WORD
            for place in range(word.start(), word.end())
        )
        keys.append({plain, *(plain[:place] + plain[place + 1 :] for place in places)})
        for key in keys[-1]:
            shared[key].append(number)
    for one, name in enumerate(names):
        some = (shared[key] for key in keys[one])
        near = {other for numbers in some for other in numbers[bisect_right(numbers, one) :]}
        for other in sorted(near):
            if one_letter_apart(name, names[other]):
                yield name, names[other]


def near_names(ledger: Ledger) -> Iterator[Finding]:
    """Yield the names that differ by so little that they are easily mistaken."""
    streams = [name for name, stream in ledger.streams.items() if stream.kind != "tank"]
    nodes = [*ledger.state.plant.nodes, *ledger.state.plant.boundaries]
    graded: dict[str, int] = {}
    for (component, _, _), assay in ledger.state.assays.items():
        graded.setdefault(component, assay.line)
    for what, names, lines in (
        ("nodes", nodes, ledger.state.plant.lines),
        ("streams", streams, ledger.state.plant.lines),
        ("components", list(graded), graded),
    ):
        pairs = near_pairs(names)
        for one, other in islice(pairs, MOST_PAIRS):
            first, second = sorted((one, other), key=lambda name: lines[name])
            form = "the {what} {first} and {second} have nearly the same name"
            text = Sentence(form, what=Sentence(what), first=first, second=second)
            remedy = "correct one of them if they are the same; if not, choose names less alike"
            place = place_in(ledger, lines[second])
            yield Finding("near-names", text, remedy, place, second, names=(first, second))
        if next(pairs, None) is not None:
            form = (
                "more than {count} pairs of {what} have nearly the same name: these are the first"
            )
            text = Sentence(form, count=MOST_PAIRS, what=Sentence(what))
            remedy = "look through all names; the others are listed when these are corrected"
            yield Finding("near-names", text, remedy, place_in(ledger, None))


def nearly_full(ledger: Ledger) -> Iterator[Finding]:
    """Yield that a session is near one of its limits."""
    points = max((len(table) for table in ledger.state.plant.tables.values()), default=0)
    another, split = "begin another session, with the plant's rows again", "split the plant"
    for count, limit, what, remedy in (
        (
            len(ledger.state.facts),
            LIMITS["most_facts"],
            Phrase("readings, transfers and dips"),
            another,
        ),
        (len(ledger.state.assays), LIMITS["most_assays"], Phrase("assays"), another),
        (len(ledger.periods), LIMITS["most_periods"], Phrase("periods"), another),
        (len(ledger.nodes) - 1, LIMITS["most_units_and_tanks"], Phrase("units and tanks"), split),
        (
            len(ledger.streams),
            most_streams(ledger.state.version),
            Phrase("streams and tanks"),
            split,
        ),
        (
            len(ledger.state.plant.boundaries),
            LIMITS["most_boundaries"],
            Phrase("boundaries"),
            split,
        ),
        (
            points,
            LIMITS["most_points"],
            Phrase("points of a tank's table"),
            "leave some points out",
        ),
        (len(ledger.data), LIMITS["most_bytes"], Phrase("bytes"), another),
    ):
        if count * 100 >= limit * FULL_PERCENT:
            form = "{count:,} {what} are there, and at most {limit:,} may be"
            text = Sentence(form, count=count, what=what, limit=limit)
            yield Finding("nearly-full", text, remedy, place_in(ledger, None))
