"""Which readings of a run have to be judged by themselves: all others are accepted as they are.

The forms are those of the columns of a row, and the rules those of one fact (`FACT_RULES`): each is
asked once for each stream, each day, or each pair of them, so that a run costs little more than its
columns. A reading is in doubt if one of them refuses it, or if its id or its day is there twice.

If nobody asks why readings are refused, `codes_of` answers a run with its codes alone, by the same
rules in their order.
"""

from __future__ import annotations

from collections.abc import Callable, Sequence, Set
from dataclasses import dataclass
from itertools import compress, count, repeat
from typing import TYPE_CHECKING, TypeVar

from plantbal.model.booking import FACT_RULES, BooksFact, FactRule, LooksAt
from plantbal.model.causes import Cause, Refused
from plantbal.model.facts import Fact
from plantbal.model.forms import LIMITS, NAMES, all_match, are_within, fault_of, row_of
from plantbal.model.readings import ReadingRun
from plantbal.records import without_empty_end
from plantbal.schema import Column, schema

if TYPE_CHECKING:
    from plantbal.model.state import State

T = TypeVar("T", str, int)
_ROW = schema().row("reading")
# The turns of the rules about ids and days that are taken, one after the other.
_KEYS = [turn for turn, rule in enumerate(FACT_RULES) if rule.looks is LooksAt.KEYS]


def doubtful(state: State, run: ReadingRun) -> set[int]:
    """Return the places of readings that a form or a rule refuses, but for keys that are taken.

    Parameters
    ----------
    state : State
        The session before the run.
    run : ReadingRun
        The run.
    """
    if len(state.facts) + len(run) > LIMITS["most_facts"]:
        return set(range(len(run)))
    return unformed(run) | _by_rules(state, run).places(run)


def unformed(run: ReadingRun) -> set[int]:
    """Return the places of readings that have a field without the form of its column."""
    return set(_forms_refused(run))


def _forms_refused(run: ReadingRun) -> dict[int, int]:
    """Return the places of these readings, and the code of each."""
    found: dict[int, int] = {}
    kinds, *columns = run.rows.columns
    numbers = {"grams": run.grams, "variance": run.variances}
    for column, texts in zip(_ROW.columns, columns):
        if column.name in numbers:
            wholes = numbers[column.name]
            good = wholes is not None and are_within(wholes, column.low, column.high)
        else:
            good = _fit(column, run, texts)
        if not good:
            # each text once: streams and days are few
            reasons = {text: fault_of(column, text) for text in set(texts)}
            wrong = {text: int(each.cause) for text, each in reasons.items() if each is not None}
            for place in _places_of(texts, wrong.keys()):
                code = wrong[texts[place]]
                found[place] = min(code, found.get(place, code))
    return found


def _fit(column: Column, run: ReadingRun, texts: Sequence[str]) -> bool:
    """Say whether the names or the days of a run are all of the form of their column."""
    if column.type == "date":
        return -1 not in run.distinct_days
    return all_match(NAMES, texts if column.name == "id" else list(run.distinct_streams))


@dataclass(frozen=True, slots=True)
class _ByRules:
    """What the rules of one fact refuse of a run: each with the turn of the first rule that does,
    and its code."""

    of_stream: dict[str, tuple[int, int]]
    of_day: dict[int, tuple[int, int]]
    of_place: dict[int, tuple[int, int]]

    def places(self, run: ReadingRun) -> set[int]:
        """Return the places of what is refused."""
        days = self.of_day.keys() | {-1}
        return (
            _places_of(run.streams, self.of_stream.keys())
            | _places_of(run.days, days & run.distinct_days)
            | self.of_place.keys()
        )

    def codes(self, run: ReadingRun, turns: range) -> Sequence[int]:
        """Return for each reading the code of the first of some rules that refuses it, or 0."""
        of_stream = {name: each for name, each in self.of_stream.items() if each[0] in turns}
        if not self.of_day and not self.of_place:
            codes = {name: code for name, (_, code) in of_stream.items()}
            return list(map(codes.get, run.streams, repeat(0))) if codes else bytes(len(run))
        none = len(FACT_RULES), 0
        found = [of_stream.get(name, none) for name in run.streams]
        of_day = {day: each for day, each in self.of_day.items() if each[0] in turns}
        if of_day:
            found = [min(each, of_day.get(day, none)) for each, day in zip(found, run.days)]
        for place, each in self.of_place.items():
            if each[0] in turns:
                found[place] = min(each, found[place])
        return [code for _, code in found]


def _by_rules(state: State, run: ReadingRun, looks: Set[LooksAt] = frozenset(LooksAt)) -> _ByRules:
    """Ask the rules of one fact in their order, each of what no earlier one refuses."""
    found = _ByRules({}, {}, {})
    days = run.distinct_days - {-1} if LooksAt.DAY in looks else set()
    for turn, rule in enumerate(FACT_RULES):
        if rule.looks not in looks or not rule.some(state):
            continue
        if rule.looks is LooksAt.STREAM:
            names = run.distinct_streams - found.of_stream.keys()
            refused = _asked(rule, state, names, lambda of: _reading(of, 1))
            found.of_stream.update({name: (turn, code) for name, code in refused.items()})
        elif rule.looks is LooksAt.DAY:
            left = days - found.of_day.keys()
            refused_days = _asked(rule, state, left, lambda day: _reading("", day))
            found.of_day.update({day: (turn, code) for day, code in refused_days.items()})
        elif rule.looks is LooksAt.STREAM_AND_DAY:
            pairs = _of_pairs(rule, state, run, found)
            found.of_place.update({place: (turn, code) for place, code in pairs.items()})
    return found


def codes_of(state: State, run: ReadingRun) -> bytes:
    """Return the code that each reading of a run is refused with, 0 if it is accepted.

    Parameters
    ----------
    state : State
        The session before the run, which isn't changed.
    run : ReadingRun
        The run.
    """
    odd = run.rows.odd
    if not odd:
        return _codes(state, run)
    found = bytearray(len(run))
    for place in odd:
        answer = row_of(without_empty_end(tuple(run.rows[place])), state.version, state.stored)
        assert isinstance(answer, Refused), "no row of readings has as many fields"
        found[place] = answer.cause
    whole = [place not in odd for place in range(len(run))]
    if any(whole):
        rest = _codes(state, ReadingRun(run.rows.only(whole), list(compress(run.lines, whole))))
        for place, code in zip(compress(count(), whole), rest):
            found[place] = code
    return bytes(found)


def _codes(state: State, run: ReadingRun) -> bytes:
    """Return the codes of readings that all have six fields."""
    forms, rules = _forms_refused(run), _by_rules(state, run)
    first = bytearray(rules.codes(run, range(_KEYS[0])))
    for place, code in forms.items():
        first[place] = code
    later = rules.codes(run, range(_KEYS[-1], len(FACT_RULES)))
    left = LIMITS["most_facts"] - len(state.facts)
    good = [not code for code in first]
    if not any(later) and state.facts.has_room(run, good, left):
        return bytes(first)
    ids, slots, mine = state.facts.keys_taken(run)
    for place, (identity, slot) in enumerate(zip(run.ids, mine)):
        if first[place]:
            continue
        if identity in ids or slot in slots:
            first[place] = Cause.DUPLICATE
        elif later[place]:
            first[place] = later[place]
        elif left:
            ids.add(identity)
            slots.add(slot)
            left -= 1
        else:
            first[place] = Cause.FULL
    return bytes(first)


def unmetered(state: State, run: ReadingRun) -> set[int]:
    """Return the places of readings of what is no metered stream of a session."""
    return _places_of(run.streams, _by_rules(state, run, {LooksAt.STREAM}).of_stream.keys())


def _asked(
    rule: FactRule, state: State, values: Set[T], reading: Callable[[T], BooksFact]
) -> dict[T, int]:
    """Return the values for which a rule refuses a reading, with their codes: each is asked once."""
    asked = state.asked[rule]
    for value in values:
        if value not in asked:
            answer = rule.refused(reading(value), state)
            asked[value] = 0 if answer is None else int(answer.cause)
    return {value: code for value in values if (code := asked[value])}


def _of_pairs(rule: FactRule, state: State, run: ReadingRun, before: _ByRules) -> dict[int, int]:
    """Return the places of readings that a rule refuses for its stream and its day together."""
    never = state.asked[rule]
    streams = {name for name in run.distinct_streams if name not in never} - before.of_stream.keys()
    asked = {name for name in streams if rule.only is None or rule.only(state, name)}
    never.update(dict.fromkeys(streams - asked, 0))
    days = run.distinct_days - before.of_day.keys() - {-1}
    found: dict[int, int] = {}
    for place, (name, day) in enumerate(zip(run.streams, run.days)) if asked else ():
        if name in asked and day in days:
            answer = rule.refused(_reading(name, day), state)
            if answer is not None:
                found[place] = int(answer.cause)
    return found


def _places_of(values: Sequence[T], wrong: Set[T]) -> set[int]:
    """Return the places of some values among others."""
    return {place for place, value in enumerate(values) if value in wrong} if wrong else set()


def _reading(of: str, day: int) -> BooksFact:
    """Return a reading of a stream and a day, of which a rule looks at what it says it looks at."""
    return BooksFact(Fact("reading", "", of, day, day, 0, 0, 0, 0), False)
