"""Where each answer of a call that may be out of memory is reached with ample memory.

A contract leaves *out of memory* free: a body that gives up in place of an answer meets it, and
only a run refuses it. For each public call whose answer may say that memory lacks, each other
answer is looked for by these signs:

- a test, with the helpers that it calls, makes the call and goes on only after its success (`?`),
  which shows an undivided `Ok`;
- a test makes the call, and it or a helper of it that asserts names the answer: `Some` or `None`,
  `true` or `false`, or a variant, which may also stand in the helper that makes the call;
- a program of cases makes the call and has an arm that turns the answer into a word, with which an
  expected answer of it begins;
- a row of an expected output has the word of the answer;
- an expected output has a row that the program writes only after that answer of the call.
"""

from __future__ import annotations

import re
from collections.abc import Iterator, Mapping
from dataclasses import dataclass, field
from functools import cache, cached_property

from gate.trials import cases

from .expressions import Values
from .rust import Function, Texts, Types, of_libraries, split
from .sources import Sources

ANSWERS = "<!-- answers: made by .ci/documents write -->"
# Answers that the program writes as a word: by their enum, the kind of the row, the list of words
# in the order of the variants, and the place of the word in the row.
WRITTEN = {
    "Refused": ("refused", "cause_words", 3),
    "Test": ("no", "test_words", 4),
    "RowFault": ("unreadable", "unread_words", 3),
}
# Answers after which alone the program writes a row of some form: by the call and the name of the
# answer. A check says yes to a block that is read; a stream of a window has a name of its own; a
# report as objects is no row of a block that is checked, and a made session begins with its units.
# The answers to the cases of a book have the word of the refusal in front.
REPORT = r'\{.*"row":"report"'
WRITTEN_AFTER = {
    ("pb_facts::Assays::grades", "Ok"): r"component,",
    ("pb_facts::Assays::push", "Ok"): r"component,",
    ("pb_blocks::Known::add", "Ok"): r"yes,",
    ("pb_blocks::Known::list", "Ok"): r"yes,",
    ("pb_blocks::result_beside", "Ok"): r"yes,",
    ("pb_blocks::result_of", "Ok"): r"yes,",
    ("pb_blocks::said_stream", "Ok"): r"yes,",
    ("pb_book::Book::accept", "Component"): r"component,",
    ("pb_book::Book::accept", "Window"): r"window,",
    ("pb_book::Book::costs", "Ok"): r"advise,",
    ("pb_book::Book::grades", "Ok"): r"component,",
    ("pb_book::Book::periods_between", "Ok"): r"window,",
    ("pb_book::Book::window", "Ok"): r"window,",
    ("pb_form::output_json", "Ok"): REPORT,
    ("pb_form::output_record", "Ok"): REPORT,
    ("pb_form::session_record", "Ok"): r"unit,u1$",
    ("pb_form::write", "Ok"): REPORT,
    ("pb_form::write_json", "Ok"): REPORT,
    ("pb_graph::forward_then", "Ok"): r"meter,",
    ("pb_make::make", "Ok"): r"unit,u1$",
    ("pb_period::assemble", "Ok"): REPORT,
    ("pb_period::assemble", "Over"): r"over,d1,A$",
    ("pb_period::assemble_window", "Ok"): r"window,",
    ("pb_period::assemble_window", "Over"): r"over,[^,]*,s\d+\.\d+$",
    ("pb_period::names", "Ok"): REPORT,
    ("pb_period::names_of_periods", "Ok"): r"place,",
    ("pb_periods::Periods::close", "Ok"): r"edit,\d+,close,",
    ("pb_periods::Periods::push", "Ok"): REPORT,
    ("pb_periods::judge_window", "Gap"): r"mismatch window,",
    ("pb_periods::judge_window", "None"): r"window,",
    ("pb_periods::judge_window", "Order"): r"order window,",
    ("pb_periods::judge_window", "TooGreat"): r"full window,",
    ("pb_periods::judge_window", "TooLong"): r"range window,",
    ("pb_periods::places_between", "None"): r"mismatch window,",
    ("pb_periods::places_between", "Some"): r"window,",
    ("pb_periods::window_over", "Ok"): r"window,",
    ("pb_periods::window_over", "TooGreat"): r"full window,",
    ("pb_report::write_component", "Ok"): r"component,",
    ("pb_report::write_row", "Ok"): r"report,",
    ("pb_report::write_window", "Ok"): r"window,",
    ("pb_site::OnDays::of", "Ok"): REPORT,
    ("pb_site::Site::names", "Ok"): r"class,",
    ("pb_site::names_on", "Ok"): REPORT,
    ("pb_plan::window_places", "Ok"): r"place,",
    ("pb_window::window", "Ok"): r"window,",
    ("pb_window::window", "Over"): r"over,[^,]*,s\d+\.\d+$",
    ("pb_window::places", "Ok"): r"place,",
    ("pb_window::code_of", "Ok"): r"over,[^,]*,s\d+\.\d+$",
    ("pb_assay::component", "Ok"): r"component,",
    ("pb_assay::component", "Over"): r"over,d1,O$",
    ("pb_session::Session::row", "None"): r"report,",
}
# How a test names an answer that isn't a variant of an enum of the libraries.
SIGNS = {
    "Some": r"\bSome\(|\.is_some\(|\.ok_or\(",
    "None": r"\bNone\b|\.is_none\(",
    "true": r"\btrue\b",
    "false": r"\bfalse\b",
}


@dataclass(frozen=True)
class Answer:
    """An answer of a call.

    Attributes
    ----------
    shown : str
        The answer as a reader sees it, such as `Err(Refused(Kind))`.
    enum, name : str
        What tells it from others: a variant of an enum, or `Ok` of none if it is undivided.
    """

    shown: str
    enum: str = ""
    name: str = "Ok"

    def is_named(self, text: str) -> bool:
        """Return whether a text names it."""
        pattern = SIGNS.get(self.name, rf"\b{self.enum}::{self.name}\b")
        return re.search(pattern, text) is not None


@dataclass
class Call:
    """A public call with its answers, each with where it is reached."""

    function: Function
    answers: dict[Answer, list[str]] = field(default_factory=dict)

    @property
    def shown(self) -> str:
        """What it is called, its crate in front."""
        return f"{self.function.crate}::{self.function.called}"


class Answers:
    """The answers of types, but that memory lacks."""

    def __init__(self, types: Types) -> None:
        self.types = types

    @cached_property
    def free(self) -> set[str]:
        """The types that may say that memory lacks."""
        enums = self.types.enums
        return {"AllocError", *(name for name in enums if "NoMemory" in enums[name])}

    def of(self, kind: str, own: str) -> Iterator[Answer]:
        """Return the answers of a type; the type whose method the call is isn't divided."""
        inside = split(kind.partition("<")[2].rpartition(">")[0])
        if kind.startswith("Result<"):
            yield from map(self.ok, self.of(inside[0], own))
            for fault in self.of(inside[1], own) if inside[1] != "AllocError" else ():
                yield Answer(f"Err({fault.shown})", fault.enum, fault.name)
        elif kind.startswith("Option<"):
            yield from map(self.some, self.of(inside[0], own))
            yield Answer("None", "Option", "None")
        elif kind == "bool":
            yield from (Answer(name, "bool", name) for name in ("true", "false"))
        elif kind in self.types.enums and kind != own:
            for variant, holds in self.types.enums[kind].items():
                yield from self.variant(kind, variant, holds)
        else:
            yield Answer("Ok")

    @staticmethod
    def ok(answer: Answer) -> Answer:
        """Return an answer after success."""
        return Answer(f"Ok({answer.shown})", answer.enum, answer.name) if answer.enum else answer

    @staticmethod
    def some(answer: Answer) -> Answer:
        """Return an answer that is there."""
        if answer.enum:
            return Answer(f"Some({answer.shown})", answer.enum, answer.name)
        return Answer("Some", "Option", "Some")

    def variant(self, kind: str, variant: str, holds: str) -> Iterator[Answer]:
        """Return the answers of a variant: those of the faults that it holds, or itself."""
        faults = [one for one in re.findall(r"\w+", holds) if one in WRITTEN]
        if faults:
            for name in self.types.enums[faults[0]]:
                yield Answer(f"{variant}({name})", faults[0], name)
        elif variant != "NoMemory":
            yield Answer(variant, kind, variant)

    def calls(self, sources: Sources) -> list[Call]:
        """Return the public calls of the libraries that may be out of memory."""
        found = []
        for function in of_libraries(sources):
            named = set(re.findall(r"\w+", function.gives))
            if self.types.is_public(function) and named & self.free:
                given = self.of(re.sub(r"'\w+ ?|&|mut ", "", function.gives), function.owner)
                # of an enum that is the whole answer, those that the contract speaks of
                said = set(re.findall(r"\w+", function.contract))
                answers = [it for it in given if it.enum != function.gives or it.name in said]
                # A call with none of them answers by an equation, and asks for no memory.
                if answers:
                    found.append(Call(function, {answer: [] for answer in answers}))
        return found


def shows(answer: Answer, sites: list[str], asserted: str, made: str) -> bool:
    """Return whether a test that makes a call shows an answer of it.

    Parameters
    ----------
    sites : list of str
        What stands after each call.
    asserted, made : str, str
        The test with the helpers that assert, and the other helpers that make the call.
    """
    if not answer.enum:
        goes_on = any(site.startswith("?") for site in sites)
        return goes_on or re.search(r"\bOk\(|\.is_ok\(", asserted + made) is not None
    return answer.is_named(asserted if answer.name in SIGNS else asserted + made)


def by_tests(texts: Texts, call: Call) -> None:
    """Note which tests of a crate reach a call's answers, first those that have one as shown."""
    found: dict[Answer, list[tuple[bool, str]]] = {answer: [] for answer in call.answers}
    for test, helpers in texts.tests.items():
        sites = {one: texts.sites(one, call.function) for one in helpers}
        if not any(sites.values()):
            continue
        asserting = [one for one in helpers if one is test or one.name.startswith("assert")]
        making = [one for one in helpers if sites[one] and one not in asserting]
        asserted, made = ("".join(one.body or "" for one in some) for some in (asserting, making))
        for answer, places in found.items():
            if shows(answer, sum(sites.values(), []), asserted, made):
                literal = bool(answer.enum) and answer.shown.rstrip(")") in asserted
                places.append((not literal, f"{texts.crate}::{test.name}"))
    for answer, places in found.items():
        call.answers[answer] += [place for _, place in sorted(places, key=lambda it: it[0])]


def by_cases(texts: Texts, call: Call, expected: str) -> None:
    """Note which answers of a call a program of cases shows in what is expected of it."""
    sites = [site for one in texts.functions for site in texts.sites(one, call.function)]
    if not sites:
        return
    for answer, reached in call.answers.items():
        if answer.enum:
            arm = rf"\b{answer.enum}::{answer.name}\b[^=\n]*=> b?\"(\w+)\""
            words = re.findall(arm, texts.whole)
            shown = any(re.search(rf"^{word}\b", expected, re.M) for word in words)
        else:
            shown = any(site.startswith("?") for site in sites)
        if shown:
            reached.append(texts.crate)


def outputs(sources: Sources) -> Iterator[tuple[str, str]]:
    """Return each expected row of the program, with the file in which it stands."""
    for path in sources.files(r"examples/.*\.out(?:\.csv)?|crates/[^/]+/stdout"):
        for line in sources.text(path).splitlines():
            yield path, line
    for path in sources.files(rf"{cases.FOLDER}/.*\.cases"):
        for case in cases.cases(sources.text(path)):
            for line in case.wanted.splitlines():
                yield path, line


def by_outputs(sources: Sources, types: Types, calls: list[Call]) -> None:
    """Note which answers stand as a word in an expected output of the program, or before a row."""
    given = list(outputs(sources))
    for call in calls:
        for answer, reached in call.answers.items():
            if form := WRITTEN_AFTER.get((call.shown, answer.name)):
                reached += [path for path, line in given if re.match(form, line)][:1]
    rows = [(path, line.split(",")) for path, line in given]
    for enum, (kind, words, place) in WRITTEN.items():
        listed = Values(sources).of(sources.spec("pb_form.specs.Words"), words)
        for name, word in zip(types.enums.get(enum, {}), listed):
            wanted = [kind, word]
            paths = [path for path, row in rows if [row[0], *row[place : place + 1]] == wanted]
            for call in calls if paths else ():
                for answer, reached in call.answers.items():
                    if (answer.enum, answer.name) == (enum, name):
                        reached.append(paths[0])


@cache
def reached(sources: Sources) -> list[Call]:
    """Return the calls with where their answers are reached."""
    types = Types(sources)
    found = Answers(types).calls(sources)
    for crate in sources.crates:
        expected = f"crates/{crate}/stdout"
        of_tests = crate in sources.crates_of_tests
        if of_tests or crate.endswith("_cases") and sources.has(expected):
            texts = Texts(sources, crate, types)
            for call in found:
                if of_tests:
                    by_tests(texts, call)
                else:
                    by_cases(texts, call, sources.text(expected))
    by_outputs(sources, types, found)
    return found


def unreached(sources: Sources) -> list[str]:
    """Return the answers that nothing reaches."""
    return [
        f"{call.shown}: {answer.shown}"
        for call in reached(sources)
        for answer, where in call.answers.items()
        if not where
    ]


def together(shown: list[str]) -> str:
    """Return answers as a list, those in one bracket together."""
    found: dict[tuple[str, str], list[str]] = {}
    for one in shown:
        front, bracket, name = one.rpartition("(")
        bare = name.rstrip(")")
        found.setdefault((front + bracket, name[len(bare) :]), []).append(bare)
    return ", ".join(f"`{front}{', '.join(names)}{ends}`" for (front, ends), names in found.items())


def table(sources: Sources, sizes: Mapping[str, str]) -> list[str]:
    """Return the table of calls, their answers, where each is reached first, and up to which size."""
    lines = ["| call | its answers, and where each is reached | up to |", "|---|---|---|"]
    for call in reached(sources):
        places: dict[str, list[str]] = {}
        for answer, where in call.answers.items():
            place = f"`{where[0]}`" if where else "nowhere"
            places.setdefault(place, []).append(answer.shown)
        said = "; ".join(f"{together(shown)}: {place}" for place, shown in places.items())
        lines.append(f"| `{call.shown}` | {said} | {sizes.get(call.shown, '')} |")
    return lines
