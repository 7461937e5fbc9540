"""The numbers of docs/ASSURANCE.md, counted in the sources, and the times of docs/times.txt."""

from __future__ import annotations

import re
import textwrap

from gate.checkout import numbers_in

from .guide import between
from .sources import Sources

ASSURANCE = "docs/ASSURANCE.md"
ARCHITECTURE = "docs/ARCHITECTURE.md"
NUMBERS = "<!-- numbers: made by .ci/documents write -->"
TIMES = "<!-- times: made by .ci/documents write from docs/times.txt -->"
COLUMNS = (
    "crate",
    "functions",
    "clauses",
    "definitions",
    "lemmas",
    "edits in must-fail/",
    "edits in planted/",
    "tests",
    "lines of code and definitions",
    "lines of proof",
)
FUNCTION = r"^ *(?:pub(?:\([a-z]+\))? )?(?:const )?fn "
DEFINITION = r"^(?:abbrev |unfoldable )?pub (?:record |data )?[A-Za-z_]|^abbrev pub "


def count(pattern: str, *texts: str) -> int:
    """Return how often a pattern comes in texts."""
    return sum(len(re.findall(pattern, text, re.M)) for text in texts)


def row_of(sources: Sources, crate: str) -> list[int]:
    """Return the numbers of a crate."""

    def texts(part: str, ending: str) -> list[str]:
        paths = sources.files(rf"crates/{crate}/{part}/.*\.{ending}")
        return [sources.text(path) for path in paths]

    paths = sources.files(rf"crates/{crate}/src/.*\.rt")
    code = [sources.text(path) for path in paths if not sources.is_of_tests(path)]
    tests = [sources.text(path) for path in paths if sources.is_of_tests(path)]
    specs, proofs = texts("specs", "antt"), texts("proofs", "antt")
    return [
        count(FUNCTION, *code),
        count(r"^ *ensures\b", *code),
        count(DEFINITION, *specs) - count(r"^pub (?:mod|use) ", *specs),
        count(r"^(?:pub )?[A-Za-z_◌][^ ]* : ", *proofs),
        len(sources.files(rf"crates/{crate}/must-fail/[^/]*\.edit")),
        len(sources.files(rf"crates/{crate}/planted/[^/]*\.edit")),
        count(r"^ *#\[test\]", *tests),
        count("\n", *code, *specs),
        count("\n", *proofs),
    ]


def table(sources: Sources) -> list[str]:
    """Return the table of the numbers, crate by crate and in all."""
    rows = {f"`{crate}`": row_of(sources, crate) for crate in sources.crates}
    rows["all"] = [sum(numbers) for numbers in zip(*rows.values())]
    lines = [f"| {' | '.join(COLUMNS)} |", "|---" + "|--:" * (len(COLUMNS) - 1) + "|"]
    lines += [f"| {name} | {' | '.join(f'{n:,}' for n in row)} |" for name, row in rows.items()]
    return [*lines, "", tried(sources)]


def tried(sources: Sources) -> str:
    """Return how many planted edits stand refused."""
    refused = len(sources.text(".ci/planted.txt").splitlines())
    return (
        f"By `.ci/planted.txt` all {refused:,} edits in `planted/` were refused on these sources."
    )


def numbers(sources: Sources) -> dict[str, int]:
    """Return the times by their names."""
    return numbers_in(sources.text("docs/times.txt"))


def front(t: dict[str, int]) -> list[str]:
    """Return the table of times of docs/ARCHITECTURE.md."""
    return [
        "| what | command | time |",
        "|---|---|---|",
        "| an answer before any proof | `./plantbal run < examples/refinery_day.csv` |"
        f" {t['first_answer_seconds']} seconds |",
        f"| the proofs and the program | `./build` | {t['build_minutes_on_four']} minutes on four"
        " processors |",
        "| the same, the tests and the wrong bodies that must be refused | `rt ci` | some"
        f" {t['gate_minutes_on_four']} minutes on four processors,"
        f" {t['gate_minutes_on_two']} on two (estimated) |",
        "| all this, the planted edits, examples, scripts and documents | `.ci/run` |"
        f" {t['checks_minutes']} minutes more |",
        *planted(t),
    ]


def planted(t: dict[str, int]) -> list[str]:
    """Return the row of the table for all planted edits, once their time was measured."""
    if "planted_minutes_on_four" not in t:
        return []
    minutes = t["planted_minutes_on_four"]
    return [f"| all planted edits | `.ci/planted anew` | {minutes} minutes on four processors |"]


def paragraphs(t: dict[str, int]) -> list[str]:
    """Return the section on times of docs/ARCHITECTURE.md."""
    limit, more = t["limit_processor_minutes"], t["limit_more_minutes"]
    found = (
        f"`rt ci` takes about {t['gate_minutes_on_four']} minutes on four processors and"
        f" {t['gate_minutes_on_two']} on two. That is some {t['gate_processor_minutes']}"
        f" processor minutes: {t['proofs_processor_minutes']} for the proofs,"
        f" {t['tests_processor_minutes']}"
        f" for the tests, and {t['edits_processor_minutes']} for the edits, more than a third of"
        " them for the proof that comes before a crate's first edit. What `.ci/run` does after"
        f" that takes {t['checks_minutes']} minutes, `./build` {t['build_minutes_on_four']} on four"
        f" processors, and an answer before the build {t['first_answer_seconds']} seconds. The"
        " number for two processors is estimated from the run on four; docs/times.txt says how.",
        "All of these times are from scratch. Some releases of the kit keep what earlier runs of"
        " `rt ci` proved; then a run takes only the time for what changed and for the crates above"
        " it. With other releases each run starts from scratch. `rt check` and `rt lib` keep their"
        " work in `out/` with all releases.",
        f"**The budget is an hour on four processors and a hundred minutes on two**: about"
        f" {t['budget_processor_minutes']} minutes of a quiet processor, or a third more with four"
        " busy ones. `.ci/run` ends with a list of how long everything took, by kind, task and"
        f" crate, and fails if `rt ci` took more than {limit} minutes divided by its"
        f" lanes, plus {more}: {limit // 4 + more} minutes in four lanes, {limit // 2 + more} in"
        " two. It runs as many tasks side by side as there are processors, as long as there are"
        " 3.5 GB of free memory for each (`RT_JOBS`).",
    )
    wide = textwrap.TextWrapper(135, break_long_words=False, break_on_hyphens=False)
    return "\n\n".join(map(wide.fill, found)).split("\n")


def times(sources: Sources) -> dict[str, str]:
    """Return the documents that say how long things take."""
    t = numbers(sources)
    made = [*front(t), "", *paragraphs(t)]
    return {ARCHITECTURE: between(sources.text(ARCHITECTURE), TIMES, made, ARCHITECTURE)}
