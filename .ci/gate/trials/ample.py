"""Whether calls find memory at each size up to the limits, where memory is ample, and give the same answer as by another way.

    .ci/ample PROGRAM            tries each kind of session at each of its sizes
    .ci/ample PROGRAM KIND..     tries these kinds

No contract can refuse a body that answers out of memory where there is memory, be it only above some size. So each list that a session
can make long is tried at 1, at 2, between, and at its greatest length. Each session is such that its answer follows in another way: a
line whose meters agree books what was measured, a report after edits is that of the final values, a boundary is `env` by another name.
Each report is checked too. An allocator that is put before the C library's counts what it refuses: a run must end as it should, and must
not be refused anything.
"""

from __future__ import annotations

import json
import subprocess
import sys
import tempfile
from collections.abc import Callable, Iterator
from dataclasses import dataclass
from datetime import date, timedelta
from pathlib import Path

from gate.running import run

# Counts the allocations that fail, and writes their number to the file of the name AMPLE at the end.
COUNTER = r"""
#define _GNU_SOURCE
#include <dlfcn.h>
#include <stdio.h>
#include <stdlib.h>
static unsigned long asked, refused;
static void *counted(void *found) { asked++; refused += found == NULL; return found; }
void *malloc(size_t size) {
    static void *(*next)(size_t);
    if (!next) next = (void *(*)(size_t))dlsym(RTLD_NEXT, "malloc");
    return counted(next(size));
}
void *realloc(void *old, size_t size) {
    static void *(*next)(void *, size_t);
    if (!next) next = (void *(*)(void *, size_t))dlsym(RTLD_NEXT, "realloc");
    return counted(next(old, size));
}
__attribute__((destructor)) static void tell(void) {
    const char *name = getenv("AMPLE");
    FILE *file = name ? fopen(name, "w") : NULL;
    if (file) { fprintf(file, "%lu %lu\n", asked, refused); fclose(file); }
}
"""
FIRST = date(2024, 1, 1)
FLOW = 1_000_000


@dataclass(frozen=True)
class Try:
    """A session, the words of its run, and what its output must be.

    Attributes
    ----------
    rows : list of str
        The session.
    holds : callable
        Says what is wrong with the rows of the output, or nothing.
    words : tuple of str
        The words after the program.
    status : int
        The status that the run ends with.
    """

    rows: list[str]
    holds: Callable[[list[str]], str]
    words: tuple[str, ...] = ("run",)
    status: int = 0


def day(number: int) -> str:
    """Return a day by its number, the first of which is 0."""
    return (FIRST + timedelta(days=number)).isoformat()


def line(streams: int, last: str = "metered,1") -> list[str]:
    """Return a line of at most 1,000 units, in which each stream is metered; the last may be of another kind.

    As many streams as are needed lead from a unit to the next one, the same number from each.
    """
    beside = -(-streams // 1001)
    steps = streams // beside
    units = [f"unit,u{at}" for at in range(1, steps)]
    ends = ["env", *(f"u{at}" for at in range(1, steps)), "env"]
    kinds = ["metered,1"] * (streams - 1) + [last]
    return units + [
        f"stream,s{at},{ends[at // beside]},{ends[at // beside + 1]},{kind}"
        for at, kind in enumerate(kinds)
    ]


def readings(streams: int, number: int = 0, amount: int = FLOW) -> list[str]:
    """Return a reading of each stream of a line on a day."""
    return [f"reading,r{number}-{at},s{at},{day(number)},{amount},100" for at in range(streams)]


def of_kind(output: list[str], kind: str) -> list[list[str]]:
    """Return the fields of the rows of a kind."""
    return [row.split(",") for row in output if row.startswith(f"{kind},")]


def books(count: int, amount: int) -> Callable[[list[str]], str]:
    """Return what says whether that many streams are booked with one amount."""

    def holds(output: list[str]) -> str:
        flows = [row[7] for row in of_kind(output, "stream")]
        if len(flows) != count:
            return f"{len(flows)} streams and not {count}"
        return next((f"{flow} and not {amount}" for flow in flows if flow != str(amount)), "")

    return holds


def counts(wanted: dict[str, int]) -> Callable[[list[str]], str]:
    """Return what says whether there are so many rows of each kind."""

    def holds(output: list[str]) -> str:
        found = {kind: len(of_kind(output, kind)) for kind in wanted}
        return "" if found == wanted else f"{found} and not {wanted}"

    return holds


def streams_of_version_1(size: int) -> Try:
    """The same in a session of version 1."""
    return Try(streams(size).rows[1:], books(size, FLOW))


def streams(size: int) -> Try:
    """A line of that many streams that agree."""
    rows = ["version,2", *line(size), f"period,p,{day(0)},{day(0)}", *readings(size), "report,p"]
    return Try(rows, books(size, FLOW))


def json_lines(size: int) -> Try:
    """The same as objects, a row a line."""

    def holds(output: list[str]) -> str:
        rows = [json.loads(row) for row in output]
        found = sum(row["row"] == "stream" and row["flow"] == str(FLOW) for row in rows)
        return "" if found == size else f"{found} flows and not {size}"

    return Try(streams(size).rows, holds, ("run", "--format", "json"))


def design(size: int) -> Try:
    """The classes of that many metered streams in a line, each of which others test."""
    return Try(["version,2", *line(size), "design"], counts({"class": size}))


def made(size: int) -> Try:
    """A made session of that many streams."""
    return Try([], counts({"stream": size, "report": 1}), ("make", "--streams", str(size)))


def summary(size: int) -> Try:
    """A made session of that many streams, run at once: each stream is of one of four classes."""

    def holds(output: list[str]) -> str:
        rows = [list(map(int, row[1:8])) for row in of_kind(output, "summary")]
        said = [(streams, sum(classes)) for _, streams, _, *classes in rows]
        return "" if said == [(size, size)] else f"{output[:1]} and not {size} streams"

    return Try([], holds, ("make", "--streams", str(size), "--summary"))


def edits(size: int) -> Try:
    """That many amendments of one reading, the last of which makes both meters agree."""
    changes = [f"amend,r0-0,{FLOW + (size - at)},100,no {at}" for at in range(1, size + 1)]
    rows = [*line(2), f"period,p,{day(0)},{day(0)}", *readings(2, amount=FLOW), *changes]

    def holds(output: list[str]) -> str:
        wrong = books(2, FLOW)(output) or counts({"edit": size})(output)
        told = [row[4] for row in of_kind(output, "edit")]
        return wrong or (
            "" if told == [f"no {at}" for at in range(1, size + 1)] else "other reasons"
        )

    return Try([*rows, "report,p", "history,p"], holds)


def window(size: int) -> Try:
    """A tank that fills over that many days, with dips that agree with its meters."""
    rows = ["unit,u", "tank,T,1", "strap,T,0,0", f"strap,T,100000,{100_000 * FLOW}"]
    rows += ["stream,in,env,T,metered,1", "stream,out,T,u,metered,1", "stream,end,u,env,metered,1"]
    rows += [f"period,p{at},{day(at)},{day(at)}" for at in range(size)]
    rows += [f"dip,d{at},T,{day(at - 1)},{at},1000000,100" for at in range(size + 1)]
    for at in range(size):
        amounts = {"in": 3 * FLOW, "out": 2 * FLOW, "end": 2 * FLOW}
        rows += [f"reading,{it}{at},{it},{day(at)},{amounts[it]},100" for it in amounts]

    def holds(output: list[str]) -> str:
        found = of_kind(output, "stream")
        wrong = [row for row in found if row[4] and row[4] != row[7]]
        if wrong:
            return f"{','.join(wrong[0])}: another flow than measured"
        flows = sum(row[7] in (str(2 * FLOW), str(3 * FLOW)) for row in found)
        return "" if flows >= 3 * size else f"{flows} flows and not {3 * size}"

    return Try([*rows, f"window,p0,p{size - 1}"], holds)


def component(size: int) -> Try:
    """The balance of a component in a line of that many streams, with one grade."""
    rows = [*line(size), f"period,p,{day(0)},{day(0)}", *readings(size)]
    rows += [f"assay,cu,s{at},p,500000,0" for at in range(size)]
    return Try([*rows, "component,cu,p"], books(size, FLOW // 2))


def component_after_elimination(size: int) -> Try:
    """A component after an elimination that took a meter out."""
    rows = [*line(size), f"period,p,{day(0)},{day(0)}", *readings(size)]
    rows += [f"critical,global,{freedom},0" for freedom in range(1, size + 1)]
    rows += ["critical,measure,0", f"amend,r0-0,{2 * FLOW},100,biased"]
    rows += [f"assay,cu,s{at},p,500000,0" for at in range(size)]
    wanted = books(size, FLOW // 2)
    return Try([*rows, "component,cu,p"], wanted, ("run", "--eliminate", "1"))


def assays(size: int) -> Try:
    """That many assays, over components, the last of which is asked for."""
    rows = [*line(20), *(f"period,p{at},{day(at)},{day(at)}" for at in range(10))]
    rows += [row for at in range(10) for row in readings(20, at)]
    rows += [f"assay,c{at // 200},s{at % 20},p{at // 20 % 10},500000,0" for at in range(size)]
    last = size - 1
    asked = f"component,c{last // 200},p{last // 20 % 10}"
    return Try([*rows, asked], books(20, FLOW // 2))


def costs(size: int) -> Try:
    """Streams beside one another: all need a meter but the dearest, which is the one named first."""
    rows = ["version,2", "unit,u", *(f"stream,s{at},env,u,plain,0" for at in range(size + 1))]
    named = "".join(f",s{at},{1000 - at if at else 1_000_000}" for at in range(min(size, 1000)))
    many = "".join(f",s{at},5" for at in range(1000, size))

    def holds(output: list[str]) -> str:
        metered = {row[1] for row in of_kind(output, "meter")}
        others = {f"s{at}" for at in range(1, size + 1)}
        return ", ".join(sorted(metered ^ others)[:3])

    return Try([*rows, f"advise{named}{many}"], holds)


def periods(size: int) -> Try:
    """That many periods of a day, each closed and reported."""
    rows = [*line(2), *(f"period,p{at},{day(at)},{day(at)}" for at in range(size))]
    rows += [row for at in range(size) for row in readings(2, at)]
    rows += [f"{asked},p{at}" for at in range(size) for asked in ("close", "report")]
    return Try(rows, books(2 * size, FLOW))


def points(size: int) -> Try:
    """A table of that many points on one line, between whose last two the level lies."""
    rows = ["tank,T,1", *(f"strap,T,{2 * at},{2 * at * FLOW}" for at in range(size))]
    rows += ["stream,in,env,T,metered,1", f"period,p,{day(0)},{day(0)}"]
    top = 2 * size - 3
    rows += [f"dip,a,T,{day(-1)},0,1000000,1", f"dip,b,T,{day(0)},{top},1000000,1"]
    rows += [f"reading,r,in,{day(0)},{top * FLOW},1", "report,p"]

    def holds(output: list[str]) -> str:
        flow = {row[1]: row[7] for row in of_kind(output, "stream")}.get("in")
        return "" if flow == str(top * FLOW) else f"{flow} and not {top * FLOW}"

    return Try(rows, holds)


def boundaries(size: int) -> Try:
    """That many boundaries with a stream each, which one stream to `env` carries away."""
    rows = ["version,2", *(f"boundary,b{at}" for at in range(size)), "unit,u"]
    rows += [f"stream,s{at},b{at},u,metered,1" for at in range(size)]
    rows += ["stream,out,u,env,metered,1", f"period,p,{day(0)},{day(0)}", *readings(size)]
    rows += [f"reading,out,out,{day(0)},{size * FLOW},100", "report,p"]

    def holds(output: list[str]) -> str:
        found = of_kind(output, "stream")
        wrong = [row for row in found if row[4] != row[7]]
        return f"{','.join(wrong[0])}" if wrong else counts({"stream": size + 1})(output)

    return Try(rows, holds)


def refused(size: int) -> Try:
    """That many rows that are refused."""
    rows = [f"refused,{at},1,kind" for at in range(1, size + 1)]
    return Try(["x"] * size, lambda output: "" if output == rows else "other rows", status=1)


def rounds(size: int) -> Try:
    """Meters of which one after the other is taken out."""
    count = 2 * size + 2
    rows = [*line(count), f"period,p,{day(0)},{day(0)}"]
    rows += [f"reading,r{at},s{at},{day(0)},{FLOW * (1 + at % 2 * at)},100" for at in range(count)]
    rows += [f"critical,global,{freedom},0" for freedom in range(1, count + 1)]
    rows += ["critical,measure,0", "report,p"]
    return Try(rows, counts({"taken": size}), ("run", "--eliminate", str(size)))


def transfers(stream: str, number: int, first: int = 0) -> list[str]:
    """Return transfers of a day of the greatest amount: 100 are all that a value may be."""
    amounts = f"{day(first)},{day(first)},10000000000000,1"
    return [f"transfer,t{stream}-{at},{stream},{amounts}" for at in range(number)]


def is_only(row: str) -> Callable[[list[str]], str]:
    """Return what says whether a row is all of the output."""
    return lambda output: "" if output == [row] else f"{output[:1]} and not {row}"


def over(size: int) -> Try:
    """A report of that many streams, the last of which has more than a value may be."""
    name = f"s{size - 1}"
    rows = [*line(size, "batch,1"), f"period,p,{day(0)},{day(0)}", *readings(size)[:-1]]
    return Try([*rows, *transfers(name, 101), "report,p"], is_only(f"over,p,{name}"))


def component_over(size: int) -> Try:
    """A component of so many streams, the last of which is reconciled to more than a value may be."""
    rows = [*line(size), "unit,v", "stream,a,env,v,batch,1", "stream,b,env,v,batch,1"]
    rows += ["stream,out,v,env,plain,0", f"period,p,{day(0)},{day(0)}", *readings(size)]
    rows += [*transfers("a", 100), *transfers("b", 1), "assay,cu,out,p,500000,0"]
    return Try([*rows, "component,cu,p"], is_only("over,p,out"))


def window_over(size: int) -> Try:
    """A window of that many periods, in whose last a stream has more than a value may be."""
    rows = ["unit,u", "stream,in,env,u,metered,1", "stream,out,u,env,batch,1"]
    rows += [f"period,p{at},{day(at)},{day(at)}" for at in range(size)]
    rows += [f"reading,r{at},in,{day(at)},{FLOW},100" for at in range(size)]
    rows += [*transfers("out", 101, size - 1), f"window,p0,p{size - 1}"]
    return Try(rows, is_only(f"over,p0,s{size}.1"))


def window_too_great(_: int) -> Try:
    """A window with more nodes than a graph may have."""
    rows = [f"unit,u{at}" for at in range(40)]
    rows += [f"stream,s{at},env,u{at},metered,1" for at in range(40)]
    rows += [f"period,p{at},{day(at)},{day(at)}" for at in range(31)]
    return Try([*rows, "window,p0,p30"], is_only("refused,112,13,full"), status=1)


def blocks(size: int) -> Try:
    """A report that many times, judged."""
    block = [
        "report,p,0,1,0,10,5000",
        "node,env,0",
        "solved,0,converged,0,0,0,0,0",
        "end,p,0",
    ]
    return Try(block * size, counts({"yes": size}), ("check",))


# Each kind of session, with the sizes at which it is tried: the last is the greatest that is accepted.
KINDS: dict[str, tuple[Callable[[int], Try], list[int]]] = {
    "streams": (streams, [2, 3, 51, 300, 1001, 4000]),
    "streams_of_version_1": (streams_of_version_1, [2, 2000]),
    "json_lines": (json_lines, [2, 51, 4000]),
    "design": (design, [2, 51, 4000]),
    "made": (made, [3, 300, 2000]),
    "summary": (summary, [3, 300, 2000]),
    "edits": (edits, [1, 2, 7, 101, 1000, 20_000]),
    "window": (window, [1, 2, 5, 12, 13, 30, 31]),
    "component": (component, [2, 9, 51, 300, 1001, 2000]),
    "component_after_elimination": (component_after_elimination, [4, 9, 60]),
    "assays": (assays, [1, 2, 399, 20_000]),
    "costs": (costs, [1, 2, 101, 1000, 1001, 2000, 3999]),
    "periods": (periods, [1, 2, 100, 1000]),
    "points": (points, [2, 3, 100, 2000]),
    "boundaries": (boundaries, [1, 2, 50, 100]),
    "refused": (refused, [1, 2, 1000, 100_000]),
    "rounds": (rounds, [1, 2, 19, 20]),
    "over": (over, [2, 51, 300, 2000]),
    "component_over": (component_over, [2, 51, 300, 999]),
    "window_over": (window_over, [1, 2, 12, 31]),
    "window_too_great": (window_too_great, [1]),
    "blocks": (blocks, [1, 2, 1000, 100_000]),
}


def counter(folder: Path) -> Path:
    """Return the allocator that counts, built."""
    source, made = folder / "counter.c", folder / "counter.so"
    source.write_text(COUNTER, encoding="ascii")
    subprocess.run(["cc", "-O1", "-shared", "-fPIC", "-o", made, source, "-ldl"], check=True)
    return made


def tries(kinds: list[str]) -> Iterator[tuple[str, int, Try]]:
    """Yield the sessions of these kinds."""
    for kind in kinds:
        make, sizes = KINDS[kind]
        for size in sizes:
            yield kind, size, make(size)


def ran_wrong(program: str, one: Try, preload: Path, counted: Path) -> tuple[str, list[str]]:
    """Return what is wrong with a run, or nothing, and its output."""
    environment = {"LD_PRELOAD": str(preload), "AMPLE": str(counted)}
    given = "".join(f"{row}\n" for row in one.rows).encode()
    ran = run(program, one.words, given, env=environment)
    asked, denied = map(int, counted.read_text(encoding="ascii").split())
    if denied or not asked:
        return f"{denied} of {asked} allocations were refused", []
    if ran.status != one.status:
        said = f"{ran.lines[:1]} {ran.error.decode()}"
        return f"status {ran.status} and not {one.status}: {said}", []
    return one.holds(ran.lines), ran.lines


def wrong(program: str, one: Try, preload: Path, counted: Path) -> str:
    """Return what is wrong with a run, or with the check of its reports, or nothing."""
    said, output = ran_wrong(program, one, preload, counted)
    reports = len(of_kind(output, "report"))
    if said or not reports or one.words[0] != "run":
        return said
    check = Try(output, counts({"yes": reports, "no": 0, "unreadable": 0}), ("check",))
    said = ran_wrong(program, check, preload, counted)[0]
    return f"check: {said}" if said else ""


def main(words: list[str]) -> int:
    """Try the kinds, and return 1 if one of them is wrong."""
    if not words:
        sys.exit(__doc__)
    program, *kinds = words
    unknown = [kind for kind in kinds if kind not in KINDS]
    if unknown:
        sys.exit(
            f"ample: there are no sessions of the kinds {', '.join(unknown)}: {', '.join(KINDS)}"
        )
    bad = 0
    with tempfile.TemporaryDirectory(prefix="ample-") as name:
        folder = Path(name)
        preload = counter(folder)
        for kind, size, one in tries(kinds or list(KINDS)):
            said = wrong(program, one, preload, folder / "counted")
            if said:
                bad += 1
                print(f"ample: {kind} of {size}: {said}")
    print(f"ample: {sum(len(KINDS[it][1]) for it in kinds or KINDS)} sessions, {bad} of them wrong")
    return int(bad > 0)
