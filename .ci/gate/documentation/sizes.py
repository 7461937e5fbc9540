"""Up to which size each call that may be out of memory was seen to answer: by the sessions of `.ci/ample`, by the studies of the
library's test, and for calls that neither makes, by tests and programs of cases."""

from __future__ import annotations

import re

from gate.trials.ample import KINDS

from .answers import reached
from .sources import Sources

SIZES = ".ci/gate/documentation/sizes.txt"
# The library's studies, each of so many units with so many streams from one to the next.
STUDY, STUDIES = "study", "libplantbal/tests/long_study.c"
# A crate of tests or cases, with the length of the longest list there.
_TESTED = re.compile(r"([a-z_]+_(?:tests|cases)):([1-9][0-9]*)")


def kinds(sources: Sources) -> dict[str, list[str]]:
    """Return where each call is seen."""
    lines = [line.split() for line in sources.text(SIZES).splitlines()]
    return {line[0]: line[1:] for line in lines if line and line[0] != "#"}


def greatest(sources: Sources, where: str) -> int | None:
    """Return the greatest size that is seen there, or None if there is no such place."""
    if where in KINDS:
        return KINDS[where][1][-1]
    if where == STUDY:
        listed = re.findall(r"\{(\d+), (\d+)\}", sources.text(STUDIES).split("sizes[][2]")[1])
        return max(int(units) * int(beside) for units, beside in listed)
    named = _TESTED.fullmatch(where)
    known = named is not None and named[1] in sources.crates
    return int(named[2]) if named is not None and known else None


def column(sources: Sources) -> dict[str, str]:
    """Return the sizes of each call as a reader sees them."""
    return {
        call: ", ".join(f"`{where.split(':')[0]}` {greatest(sources, where):,}" for where in named)
        for call, named in kinds(sources).items()
    }


def complaints(sources: Sources) -> list[str]:
    """Return the calls that have no size, and the sizes of what is no such call or of no such place."""
    given, calls = kinds(sources), [call.shown for call in reached(sources)]
    found = [f"{SIZES}: {call} has no line" for call in calls if call not in given]
    for call, named in given.items():
        if call not in calls:
            found.append(f"{SIZES}: {call} is no public call that may be out of memory")
        unknown = [where for where in named if greatest(sources, where) is None]
        if unknown or not named:
            found.append(f"{SIZES}: {call}: no size is known of: {' '.join(unknown)}")
    return found
