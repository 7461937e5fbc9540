"""What is diagnosed, in sentences: tonnes, percent, millimetres and days."""

from __future__ import annotations

from collections.abc import Callable, Iterator, Mapping, Sequence
from typing import TYPE_CHECKING

from plantbal.amounts import tonnes_text
from plantbal.diagnosis.balances import Balance
from plantbal.diagnosis.candidates import Candidate, ErrorKind
from plantbal.diagnosis.diagnose import DiagnosedHole, Diagnosis
from plantbal.diagnosis.findings import AS_GOOD, HoleFinding, Pattern
from plantbal.diagnosis.gross import Hole
from plantbal.diagnosis.unseen import Unchecked
from plantbal.model.facts import Fact
from plantbal.model.forms import day_text
from plantbal.sentence import Day, Figure, Joined, Sentence, counted

if TYPE_CHECKING:
    from plantbal.accounts.sheet import SalesUnit

# What stands in place of a code of a window.
Shown = Callable[[str], str]
# How many streams of a balance, nodes of a set, candidates and tickets are named.
MOST_THROUGH, MOST_NODES, MOST_CANDIDATES, MOST_ALIKE = 6, 6, 4, 3
# A candidate of a greater cost isn't said: nobody would look there first.
MOST_COST = 6.0
NONE_SOLD: Mapping[str, SalesUnit] = {}


def same(name: str) -> str:
    """Return a name as it stands."""
    return name


def amount_said(grams: float) -> str:
    """Return an amount without its sign as tonnes, with as many decimals as say something."""
    size = abs(grams) / 1e6
    places = 0 if size >= 1000 else 1 if size >= 10 else 3
    return Figure(f"{tonnes_text(round(abs(grams)), places)} t")


def choice_said(names: Sequence[str]) -> str:
    """Return names as a choice, such as ``A, B or C``."""
    if len(names) < 2:
        return "".join(names)
    return Sentence("{names} or {last}", names=Joined(", ", names[:-1]), last=names[-1])


def set_said(names: Sequence[str], shown: Shown = same) -> str:
    """Return a set of equals: one name, or that no readings can tell which."""
    text = choice_said([shown(name) for name in names])
    if len(names) < 2:
        return text
    return Sentence("{names}: these readings can't tell which", names=text)


def nodes_said(nodes: Sequence[str], shown: Shown = same) -> str:
    """Return a node, or nodes that unmeasured streams join; no node is the outside."""
    if not nodes:
        return Sentence("outside")
    if len(nodes) == 1:
        return shown(nodes[0])
    names = ", ".join(shown(name) for name in nodes[:MOST_NODES])
    if len(nodes) <= MOST_NODES:
        return Sentence("{names} together", names=names)
    count = len(nodes) - MOST_NODES
    return Sentence("{names} and {count} more together", names=names, count=count)


# ---- balances and holes


def balance_said(balance: Balance, shown: Shown = same) -> str:
    """Return what doesn't close at a node or a joined set of nodes."""
    percents = sorted(balance.percents().items(), key=lambda each: each[1])
    some = [
        Sentence("{percent} of {name}", percent=percent_text(part), name=shown(name))
        for name, part in percents[:MOST_THROUGH]
    ]
    parts: str = Joined(", ", some)
    if len(percents) > len(some):
        count = len(percents) - len(some)
        parts = Sentence("{parts} and {count} more", parts=parts, count=count)
    into = "{nodes}: {tonnes} more in than out, {sure:,.1f} standard deviations"
    out_of = "{nodes}: {tonnes} more out than in, {sure:,.1f} standard deviations"
    said = Sentence(
        into if balance.grams > 0 else out_of,
        nodes=nodes_said(balance.nodes, shown),
        tonnes=amount_said(balance.grams),
        sure=abs(balance.deviations),
    )
    return Joined("; ", (said, parts)) if some else said


def percent_text(percent: float) -> str:
    """Return a percentage of two or three digits."""
    places = 0 if percent >= 100 else 1 if percent >= 1 else 2
    return Figure(f"{percent:,.{places}f} %")


def hole_said(hole: Hole, shown: Shown = same, units: Mapping[str, SalesUnit] = NONE_SOLD) -> str:
    """Return how great a hole is, and between which nodes it is.

    If all that may have it, and are sold in a unit of their own, are sold in the same one, it is
    said in that one too.
    """
    sold = {units[name]: name for name in hole.names if name in units}
    name = next(iter(sold.values())) if len(sold) == 1 else ""
    one, other = sorted(hole.ends, key=len, reverse=True)
    return Sentence(
        "{size} ± {deviation} ({sure:,.1f} standard deviations) between {one} and {other}",
        size=sold_said(units, name, hole.size),
        deviation=amount_said(hole.deviation),
        sure=hole.deviations,
        one=nodes_said(one, shown),
        other=nodes_said(other, shown),
    )


# ---- candidates


def way(error: float) -> str:
    """Return whether an error is too high or too low."""
    return Sentence("too much" if error > 0 else "too little")


def ticket_said(fact: Fact) -> str:
    """Return a ticket with its amount and its days."""
    words = {"id": fact.id, "of": fact.of, "tonnes": amount_said(fact.grams)}
    return Sentence("{id} of {of}, {tonnes}, {days}", days=_span(fact.first, fact.last), **words)


def _span(first: int, last: int) -> str:
    """Return a day, or the first and the last of several."""
    ends = Day(day_text(first)), Day(day_text(last))
    return ends[0] if first == last else Sentence("{first} to {last}", first=ends[0], last=ends[1])


def sold_said(units: Mapping[str, SalesUnit], name: str, grams: float) -> str:
    """Return an amount in tonnes, and in the unit in which a stream is sold if it has another."""
    unit = units.get(name)
    if unit is None:
        return amount_said(grams)
    amount = unit.amount(round(abs(grams)))
    places = 0 if amount >= 100 else 1
    return Joined(", ", (amount_said(grams), Figure(f"{float(amount):,.{places}f} {unit.label}")))


def candidate_said(
    candidate: Candidate,
    shown: Shown = same,
    dated: bool = True,
    units: Mapping[str, SalesUnit] = NONE_SOLD,
) -> str:
    """Return what an error may be, with its size.

    Parameters
    ----------
    candidate : Candidate
        The candidate.
    shown : callable
        What shows a name.
    dated : bool
        Whether the day of a reading is said.
    units : mapping of str to SalesUnit
        In what streams and tanks are sold, of those that aren't sold by the tonne.
    """
    size = sold_said(units, candidate.name, candidate.error)
    kind, fact = candidate.kind, candidate.fact
    words: dict[str, object] = {"name": shown(candidate.name), "size": size}
    words["way"] = way(candidate.error)
    if kind is ErrorKind.METER:
        words["percent"] = percent_text(abs(candidate.percent or 0.0))
        return Sentence("{name} reads {percent} {way} ({size})", **words)
    if kind is ErrorKind.READING and fact and dated:
        words["day"] = Day(day_text(fact.first))
        return _in_unit(candidate, Sentence("{name} reads {size} {way} on {day}", **words))
    if kind is ErrorKind.READING:
        return _in_unit(candidate, Sentence("{name} reads {size} {way}", **words))
    if kind is ErrorKind.FROZEN:
        return Sentence("{name} repeats one reading: {size} {way}", **words)
    if kind is ErrorKind.REVERSED:
        return Sentence("{name} flows the other way", **words)
    if kind is ErrorKind.UNIT:
        return _in_unit(candidate, Sentence("{name} is {size} {way}", **words))
    if kind is ErrorKind.FORGOTTEN:
        return Sentence("a stream of {size} that the plant doesn't have", **words)
    if kind in (ErrorKind.MISSING, ErrorKind.TWICE, ErrorKind.TICKET):
        return _ticket_said(candidate, words)
    return _dip_said(candidate, words)


def _in_unit(candidate: Candidate, said: Sentence) -> str:
    """Return what is said of a candidate, and which unit may have been taken for which."""
    if candidate.unit is None:
        return said
    return Sentence("{said}: {mistake}?", said=said, mistake=candidate.unit.words)


def _ticket_said(candidate: Candidate, words: dict[str, object]) -> str:
    words["alike"] = Joined("; ", map(ticket_said, candidate.alike[:MOST_ALIKE]))
    if candidate.kind is ErrorKind.MISSING and candidate.alike:
        form = "a ticket of {name} of {size} is missing (of nearly this amount: {alike})"
        return Sentence(form, **words)
    if candidate.kind is ErrorKind.MISSING:
        return Sentence("a ticket of {name} of {size} is missing", **words)
    if candidate.kind is ErrorKind.TWICE:
        form = "a ticket of {name} of {size} appears twice, or belongs elsewhere ({alike})"
        return Sentence(form, **words)
    if candidate.fact is None:
        return _in_unit(candidate, Sentence("{name} is {size} {way}", **words))
    words["id"] = candidate.fact.id
    return _in_unit(candidate, Sentence("the ticket {id} of {name} is {size} {way}", **words))


def _dip_said(candidate: Candidate, words: dict[str, object]) -> str:
    fact = candidate.fact
    if fact is None:
        return Sentence("the table of {name} may be wrong", **words)
    words["day"] = Day(day_text(fact.first))
    mm = candidate.mm or 0
    if candidate.kind is ErrorKind.DIGITS:
        form = "the dip of {name} on {day} says {mm:,} mm: {fits:,} mm would fit"
        return Sentence(form, mm=fact.mm, fits=mm, **words)
    if candidate.kind is ErrorKind.DENSITY:
        return Sentence(
            "the dip of {name} on {day}: the density of {product}'s product would fit, "
            "{density:,.0f} kg/m³",
            product=candidate.product,
            density=(candidate.density or 0) / 1000,
            **words,
        )
    level = f"{abs(mm):,} mm" if abs(mm) < 1000 else f"{abs(mm) / 1000:,.3f} m"
    high = "the dip of {name} on {day} is {level} too high ({size})"
    low = "the dip of {name} on {day} is {level} too low ({size})"
    return Sentence(high if mm > 0 else low, level=Figure(level), **words)


# ---- days


def finding_days(finding: HoleFinding) -> str:
    """Return the days of a finding."""
    if finding.pattern in (Pattern.ONE_DAY, Pattern.SOME_DAYS):
        return _span(finding.first, finding.last)
    if finding.pattern is Pattern.FROM_A_DAY_ON:
        return Sentence("from {first} on", first=Day(day_text(finding.first)))
    return Sentence("all days")


def finding_said(
    finding: HoleFinding, shown: Shown = same, units: Mapping[str, SalesUnit] = NONE_SOLD
) -> str:
    """Return what fits the days, such as ``2024-03-03: a ticket of DIES_SHIP ..``."""
    said = candidate_said(finding.candidate, shown, False, units)
    return Sentence("{days}: {said}", days=finding_days(finding), said=said)


def as_good(told: DiagnosedHole) -> list[HoleFinding]:
    """Return the findings that fit the days nearly as well as the best one, the best first."""
    best = told.best
    if best is None:
        return []
    return [each for each in told.findings if best.score - each.score < AS_GOOD]


def likely(told: DiagnosedHole) -> list[Candidate]:
    """Return what an error may be by the month alone, of those that anybody would look at."""
    some = [each for each in told.candidates if each.cost <= MOST_COST and each.name]
    return some[:MOST_CANDIDATES]


def told_said(told: DiagnosedHole, shown: Shown = same) -> Iterator[str]:
    """Give what is told of a hole: the set, its size, the days, and what it may be."""
    hole = hole_said(told.hole, shown, told.units)
    yield Sentence("{names}. {hole}.", names=set_said(told.names, shown), hole=hole)
    if told.findings:
        for finding in as_good(told):
            yield Sentence("{said}.", said=finding_said(finding, shown, told.units))
        if told.since is not None:
            first = Day(day_text(told.since.first))
            yield Sentence("The first day whose own test rejects is {day}.", day=first)
    else:
        for candidate in likely(told):
            said = candidate_said(candidate, shown, units=told.units)
            yield Sentence("Perhaps {said}.", said=said)
    for over in told.overruns:
        above = "By {day} {tank} would hold more than its table has."
        below = "By {day} {tank} would hold less than its table begins with."
        form, day = above if over.is_above else below, Day(day_text(over.day))
        yield Sentence(form, day=day, tank=shown(over.tank))
    if told.hole.rivals:
        others = [choice_said([shown(n) for n in each.names]) for each in told.hole.rivals]
        yield Sentence("Nearly as likely: {others}.", others=Joined("; ", others))


# ---- what isn't seen


def unchecked_said(each: Unchecked, shown: Shown = same) -> str:
    """Return what a measurement could hide that nothing checks."""
    parts = [
        _limit_said(each.name, each.most, each.above, shown, _TOO_MUCH),
        _limit_said(each.name, each.least, each.below, shown, _TOO_LITTLE),
    ]
    what = Sentence("{much} or {little}", much=parts[0], little=parts[1])
    said = Sentence("{name}: {what}", name=shown(each.name), what=what)
    if not each.carries:
        return said
    names = ", ".join(shown(name) for name in each.carries)
    one, many = "{names} rests on it alone", "{names} rest on it alone"
    return Joined("; ", (said, counted(len(each.carries), one, many, names=names)))


# What is said of a limit that is none, of all of a measurement, and of another one.
_TOO_MUCH = (
    "any amount too much",
    "all of it too much",
    "{tonnes} too much ({stream} would flow backwards)",
)
_TOO_LITTLE = (
    "any amount too little",
    "all of it too little",
    "{tonnes} too little ({stream} would flow backwards)",
)


def _limit_said(
    name: str, limit: float | None, stream: str, shown: Shown, forms: tuple[str, str, str]
) -> Sentence:
    """Return how much a measurement could hide on one side."""
    if limit is None:
        return Sentence(forms[0])
    if stream == name:
        return Sentence(forms[1])
    return Sentence(forms[2], tonnes=amount_said(limit), stream=shown(stream))


def lines_said(diagnosis: Diagnosis, shown: Shown = same) -> Iterator[str]:
    """Give what is said of the holes of a round, a line each, for a terminal."""
    for number, told in enumerate(diagnosis.holes, 1):
        for place, line in enumerate(told_said(told, shown)):
            form = "{number}. {line}" if not place else "   {line}"
            yield Sentence(form, number=number, line=line)
