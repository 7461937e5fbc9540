"""The facts of a session: readings, transfers and dips by their ids, and by their days.

A run of readings waits as it came in, and its facts are made when one of them is asked for.
"""

from __future__ import annotations

from collections import Counter
from collections.abc import Callable, Collection, Iterable, Iterator, Sequence
from itertools import compress
from operator import add
from typing import TYPE_CHECKING, NamedTuple, TypeVar

if TYPE_CHECKING:
    from plantbal.model.readings import ReadingRun

KINDS = ("reading", "transfer", "dip")
# The number of a day is below 2 to the power of this: that of 9999-12-31 is 3,652,059.
_DAY_BITS = 22
K = TypeVar("K", str, int)


class At(NamedTuple):
    """Where a row of a session stands: its record and its line, counted from 1; 0 if unknown."""

    record: int = 0
    line: int = 0


class Fact(NamedTuple):
    """A reading, a transfer or a dip, as it stands after the edits so far.

    Attributes
    ----------
    kind, id, of : str
        What it is, its id, and its stream or tank.
    first, last : int
        The numbers of its days; of a reading and of a dip both are its day.
    grams : int
        The amount of a reading or transfer.
    mm, density : int
        The level and the density of a dip.
    variance : int
        Its variance in squared grams.
    booked, line, changed : int
        The lines of the row that booked it, of the one that gave its values, and of the last one
        that touched it.
    struck : bool
        Whether it doesn't count any more.
    """

    kind: str
    id: str
    of: str
    first: int
    last: int
    grams: int
    mm: int
    density: int
    variance: int
    booked: int = 0
    line: int = 0
    changed: int = 0
    struck: bool = False


class Edit(NamedTuple):
    """A row that edits what is booked, or closes a period.

    Attributes
    ----------
    at : At
        Where it stands.
    word : str
        ``late``, ``amend``, ``strike`` or ``close``.
    before, after : Fact or None
        The fact before and after it; None if there was none, or there is none any more.
    reason : str
        Its reason.
    period : str
        The period that is closed.
    """

    at: At
    word: str
    before: Fact | None = None
    after: Fact | None = None
    reason: str = ""
    period: str = ""

    @property
    def fact(self) -> Fact | None:
        """The fact that is edited, if one is."""
        return self.after or self.before


class _Places(dict[str, int]):
    """A number for each stream and tank, so far from the others that days go between them."""

    def __missing__(self, name: str) -> int:
        number = self[name] = len(self) << _DAY_BITS
        return number


class TakenKeys(dict[K, int]):
    """The ids, or the slots, that facts have, and the numbers of these facts."""

    def take(self, keys: Sequence[K], first: int) -> bool:
        """Take the keys of facts that are numbered from a first one on; say whether they are taken.

        They aren't if one is there already, or is there twice.
        """
        if not self.keys().isdisjoint(keys):
            return False
        wanted = len(self) + len(keys)
        self.update(zip(keys, range(first, first + len(keys))))
        if len(self) == wanted:
            return True
        self.leave(keys)
        return False

    def leave(self, keys: Iterable[K]) -> None:
        """Forget keys of which none was there before they were taken."""
        for key in keys:
            self.pop(key, None)

    def are_free(self, keys: Sequence[K]) -> bool:
        """Say whether none of some keys is there already, or there twice."""
        return self.keys().isdisjoint(keys) and len(set(keys)) == len(keys)

    def taken_of(self, keys: Iterable[K]) -> set[K]:
        """Return those that are there already."""
        return self.keys() & set(keys)

    def places_taken(self, keys: Sequence[K]) -> set[int]:
        """Return the places of those that are there already, or there twice."""
        counts = Counter(keys)
        return {at for at, key in enumerate(keys) if counts[key] > 1 or key in self}


class Facts:
    """The facts of a session, also those that were struck.

    A slot is the number that a stream or tank and a day have together: there is at most one reading
    or dip in it.

    Parameters
    ----------
    verify : callable
        Looks at a run that was booked unseen, before its facts are made.

    Attributes
    ----------
    struck : int
        How many were struck.
    """

    def __init__(self, verify: Callable[[ReadingRun], None]) -> None:
        self._facts: list[Fact] = []
        self._ids: TakenKeys[str] = TakenKeys()
        self._slots: TakenKeys[int] = TakenKeys()
        self._of = _Places()
        self._transfers: dict[str, list[int]] = {}
        # runs whose facts aren't made yet; the keys of those that were booked unseen aren't taken yet
        self._runs: list[ReadingRun] = []
        self._unseen = False
        self._verify = verify
        self._count = 0
        self.struck = 0

    def __len__(self) -> int:
        return self._count

    def __contains__(self, identity: str) -> bool:
        return identity in self._seen(self._ids)

    def __iter__(self) -> Iterator[Fact]:
        return iter(self._made())

    def ids(self) -> list[str]:
        """Return the ids of all facts, in the order of their rows."""
        self._made()
        return list(self._ids)

    def live(self) -> list[Fact]:
        """Return the facts that aren't struck."""
        facts = self._made()
        return [fact for fact in facts if not fact.struck] if self.struck else list(facts)

    def live_of(self, places: Collection[str]) -> list[Fact]:
        """Return the facts of some streams and tanks that aren't struck."""
        return [fact for fact in self._made() if fact.of in places and not fact.struck]

    def find(self, identity: str) -> Fact | None:
        """Return the fact of an id, struck or not, or None."""
        facts, number = self._made(), self._ids.get(identity)
        return None if number is None else facts[number]

    def has(self, of: str, day: int) -> bool:
        """Say whether a stream has a reading of a day, or a tank a dip."""
        return self._slot(of, day) in self._seen(self._slots)

    def days_without(self, of: str, days: Iterable[int]) -> list[int]:
        """Return those of some days on which a stream has no reading, or a tank no dip."""
        slots, first = self._seen(self._slots), self._of[of]
        return [day for day in days if first + day not in slots]

    def on(self, of: str, day: int) -> Fact | None:
        """Return the reading or the dip of a day, or None."""
        facts, number = self._made(), self._slots.get(self._slot(of, day))
        return None if number is None else facts[number]

    def on_days(self, of: str, days: Iterable[int]) -> list[Fact]:
        """Return the readings of a stream on some days."""
        facts, on, first = self._made(), self._slots, self._of[of]
        numbers = (on.get(first + day) for day in days)
        return [facts[number] for number in numbers if number is not None]

    def transfers(self, of: str) -> list[Fact]:
        """Return the transfers of a stream that aren't struck, in the order of their rows."""
        facts = self._made()
        found = (facts[number] for number in self._transfers.get(of, ()))
        return [fact for fact in found if not fact.struck]

    # ---- what rows do

    def book(self, fact: Fact) -> None:
        """Book a fact."""
        facts = self._made()
        number = self._ids[fact.id] = len(facts)
        facts.append(fact)
        self._count += 1
        if fact.kind == "transfer":
            self._transfers.setdefault(fact.of, []).append(number)
        else:
            self._slots[self._slot(fact.of, fact.first)] = number

    def book_run(self, run: ReadingRun) -> bool:
        """Book a run of readings, if no id and no day of it is taken; say whether it is booked."""
        ids, slots = self._seen(self._ids), self._slots_of(run)
        if not ids.take(run.ids, self._count):
            return False
        if not self._slots.take(slots, self._count):
            ids.leave(run.ids)
            return False
        self._wait(run)
        return True

    def book_unseen(self, run: ReadingRun) -> None:
        """Book a run of readings of which it is known that no id and no day is taken."""
        self._unseen = True
        self._wait(run)

    def _wait(self, run: ReadingRun) -> None:
        self._runs.append(run)
        self._count += len(run)

    def taken(self, run: ReadingRun) -> set[int]:
        """Return the places of the readings whose id or day is taken, or there twice."""
        ids, slots = self._seen(self._ids), self._slots_of(run)
        return ids.places_taken(run.ids) | self._slots.places_taken(slots)

    def keys_taken(self, run: ReadingRun) -> tuple[set[str], set[int], list[int]]:
        """Return which ids and slots of a run are taken before it, and the slots of the run."""
        ids, slots = self._seen(self._ids), self._slots_of(run)
        return ids.taken_of(run.ids), self._slots.taken_of(slots), slots

    def has_room(self, run: ReadingRun, wanted: Sequence[bool], most: int) -> bool:
        """Say whether some readings of a run are at most so many, and none has a key that is taken."""
        ids = list(compress(run.ids, wanted))
        slots = list(compress(self._slots_of(run), wanted))
        return (
            len(ids) <= most and self._seen(self._ids).are_free(ids) and self._slots.are_free(slots)
        )

    def _slots_of(self, run: ReadingRun) -> list[int]:
        return list(map(add, map(self._of.__getitem__, run.streams), run.days))

    def _slot(self, of: str, day: int) -> int:
        return self._of[of] + day

    def change(self, fact: Fact) -> None:
        """Put a fact in place of the one of its id, of the same kind, place and days."""
        facts = self._made()
        facts[self._ids[fact.id]] = fact
        if fact.struck:
            self.struck += 1
            if fact.kind != "transfer":
                del self._slots[self._slot(fact.of, fact.first)]

    # ---- runs that wait

    def _seen(self, keys: TakenKeys[K]) -> TakenKeys[K]:
        """Return keys, after those of runs that were booked unseen are among them."""
        if self._unseen:
            self._made()
        return keys

    def _clash(self, run: ReadingRun, slots: list[int]) -> int:
        """Return the place of the first reading of a run whose id or day is taken."""
        ids = {fact.id for fact in self._facts}
        there = [each for each in self._facts if each.kind != "transfer" and not each.struck]
        on = {self._slot(each.of, each.first) for each in there}
        for place, (identity, slot) in enumerate(zip(run.ids, slots)):
            if identity in ids or slot in on:
                return place
            ids.add(identity)
            on.add(slot)
        return 0

    def _made(self) -> list[Fact]:
        """Return all facts; those of runs are made now."""
        facts, runs = self._facts, self._runs
        if runs:
            for run in runs:
                if self._unseen:
                    self._take(run)
                facts.extend(run.facts())
            runs.clear()
            self._unseen = False
        return facts

    def _take(self, run: ReadingRun) -> None:
        """Take the keys of a run that was booked unseen, when the facts before it are made."""
        self._verify(run)
        slots, first = self._slots_of(run), len(self._facts)
        if not (self._ids.take(run.ids, first) and self._slots.take(slots, first)):
            raise run.disagreement(self._clash(run, slots))
