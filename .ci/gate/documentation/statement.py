"""docs/STATEMENT.md and docs/statement/: what must be believed, the core first.

The chapters follow from their roots (`chapters.py`). The page of the first two ends with the heart
of the rest and the contract of the call that `main` makes; the others have a page each.
"""

from __future__ import annotations

import re
from collections.abc import Iterator
from dataclasses import dataclass
from functools import cache

from . import second, toolchain
from .chapters import OPENINGS, Chapter, chapters
from .guide import anchor_of
from .markdown import code_block, made_by, paragraph
from .reach import Part, Reach, Reached, part_of, words_in
from .rust import Function, functions_in, item_of, of_libraries
from .sources import Sources, Spec, Unknown, imports

STATEMENT = "docs/STATEMENT.md"
# The call that `main` makes.
TOP_CALL = "run_program"
# What it makes of the arguments, of which its contract speaks.
MADE_OF_ARGUMENTS = ("Words",)
# The clauses of the contract of the call in words, which stand in front.
IN_WORDS = ".ci/gate/documentation/clauses.md"
# How the signs of the contract and of the definitions are read.
SIGNS = ".ci/gate/documentation/signs.md"
# The definitions that carry most of what is claimed beside the core, each with its file.
HEART = (
    ("pb_session/Session", "IsSessionText"),
    ("pb_book/Answer", "answer_of"),
    ("pb_session/Session", "IsReport"),
)
# Where the mathematics stands in words.
IN_FULL = "docs/DEFINITIONS.md"
HEART_TITLE = "The heart of the rest"
TOOLCHAIN_TITLE = "Words of the toolchain"
# The calls of which the page speaks beside it, for bytes in memory.
IN_MEMORY = ("pb_cli::answer", "pb_cli::judge")
# What README.md and the page promise beside the contract of the call: laws over the same words.
LAWS = (
    "pb_words::one_command_law",
    "pb_cli::run_text_law",
    "pb_cli::check_text_law",
    "pb_cli::own_reports_law",
    "pb_check::sound_law",
    "pb_check::right_law",
    "pb_session::edited_file_law",
    "pb_session::agreeing_report_law",
    "pb_session::left_out_law",
    "pb_session::version_one_text_law",
    "pb_period::closed_graphs_law",
    "pb_period::agreeing_law",
    "pb_elim::decided_law",
    "pb_least::some_least_law",
    "pb_least::one_least_law",
    "pb_laws::own_bounds_law",
    "pb_laws::own_least_bounds_law",
    "pb_laws::nested_bounds_law",
    "pb_laws::statistic_order_law",
    "pb_laws::bounds_meet_law",
    "pb_laws::flows_meet_law",
    "pb_laws::drop_order_law",
    "pb_laws::first_round_law",
    "pb_laws::untested_law",
    "pb_laws::more_meters_law",
    "pb_laws::metered_law",
    "pb_laws::window_parts_law",
    "pb_laws::contents_law",
    "pb_laws::between_law",
    "pb_laws::nodal_order_law",
    "pb_laws::closed_law",
    "pb_laws::some_plain_text_law",
    "pb_make::accepted_law",
)
# A function with a body in a block, with its comment.
BODY = re.compile(r"\n(?:    //[^\n]*\n)*    (?:pub )?fn [^\n]*\{\n.*?\n    \}", re.S)


def short(path: str) -> str:
    """Return a path from the crates on."""
    return path.removeprefix("crates/")


def contract(sources: Sources) -> tuple[Function, Part]:
    """Return the call that `main` makes, with its contract as a part of the page."""
    for path in sources.files(r"crates/pb_cli/src/[^/]*\.rt"):
        text = sources.text(path)
        for function in functions_in(path, text):
            if function.called == TOP_CALL and function.public:
                shown = f"{function.head}\n{function.contract}".rstrip()
                return function, Part(path, shown, imports(text))
    raise Unknown(f"pb_cli has no call `{TOP_CALL}`")


def block_of(text: str, head: str) -> str | None:
    """Return a block of code by the pattern of its head, without imports and functions."""
    found = re.search(rf"^{head}\b.*?^}}", text, re.M | re.S)
    if not found:
        return None
    block = BODY.sub("", re.sub(r"\n    ghost use [^\n]*(?=\n)", "", found[0]))
    return re.sub(r"\n{2,}\}$", "\n}", block).replace("{\n\n", "{\n", 1)


def ends(sources: Sources, run: Function) -> Iterator[Part]:
    """Return what a contract sees of what the call takes.

    The traits of its types, how what `main` hands over has them, and the views of other types.
    """
    traits = list(dict.fromkeys(re.findall(r"\b[A-Z]\w*: ([A-Z]\w+)", run.head.partition("(")[0])))
    main = sources.text("crates/plantbal/src/main.rt")
    code = {path: sources.text(path) for path in sources.code}
    for trait in traits:
        for path, text in code.items():
            if shown := item_of(text, "trait", trait):
                yield Part(path, shown, imports(text))
    for trait in traits:
        for path, text in code.items():
            for kind in re.findall(rf"^impl<.*> {trait} for (\w+)", text, re.M):
                if f"{kind}::" in main:
                    heads = (rf"impl<[^\n]*> {it} for {kind}" for it in ("Model", trait))
                    blocks = filter(None, (block_of(text, head) for head in heads))
                    yield Part(path, "\n\n".join(blocks), imports(text))
    taken = [kind.lstrip("&").removeprefix("mut ") for _, kind in run.parameters]
    for name in [*taken, *MADE_OF_ARGUMENTS]:
        for path, text in code.items():
            block = block_of(text, f"impl Model for {re.escape(name)}")
            if block and item_of(text, "struct", name):
                yield Part(path, block, imports(text))


def contracts(sources: Sources, names: tuple[str, ...]) -> Iterator[Part]:
    """Return public functions of libraries, each by its crate and its name, with their contracts."""
    public = [one for one in of_libraries(sources) if one.public]
    for name in names:
        found = [one for one in public if f"{one.crate}::{one.called}" == name]
        if len(found) != 1:
            raise Unknown(f"{len(found)} functions have the name {name}")
        text = sources.text(found[0].path)
        above = text.splitlines()[: found[0].line - 1]
        begin = len(above)
        while above[begin - 1].startswith("///"):
            begin -= 1
        shown = [*above[begin:], found[0].head, found[0].contract]
        yield Part(found[0].path, "\n".join(shown), imports(text))


@dataclass
class Page:
    """What the page shows.

    Attributes
    ----------
    run, ends, in_memory, laws : Part, list of Part, list of Part, list of Part
        The contract of the call, what it takes, the calls for bytes in memory, and the laws.
    reach : Reach
        What these reach.
    files : list
        The files of definitions that are reached.
    chapters : list of Chapter
        The chapters, which have all of these definitions.
    repeated : dict
        The names that several files of statements define, with the files.
    """

    run: Part
    ends: list[Part]
    in_memory: list[Part]
    laws: list[Part]
    reach: Reach
    files: list[Reached]
    chapters: list[Chapter]
    repeated: dict[str, list[str]]

    @property
    def in_front(self) -> list[Part]:
        """What stands before the definitions."""
        return [self.run, *self.ends, *self.in_memory, *self.laws]

    def renamed(self) -> dict[str, list[str]]:
        """Return the names of the page that are defined nowhere on it, with where they come."""
        found: dict[str, list[str]] = {name: [at] for name, at in self.reach.unknown.items()}
        for part in [*self.in_front, *map(part_of, self.files)]:
            for word in dict.fromkeys(it.partition(".")[0] for it in words_in(part.text)):
                module, name = part.imports.names.get(word, ("", word))
                if name != word and ".pb_" in module:
                    found.setdefault(word, []).append(part.path)
        return found

    def meant(self, part: Part) -> list[str]:
        """Return what the words of a part mean that have other names, or several meanings."""
        found: dict[str, str] = {}
        for word in words_in(part.text):
            front, dot, _ = word.partition(".")
            whole = part.imports.modules.get(front, "")
            module, name = part.imports.names.get(front, ("", ""))
            if dot and ".pb_" in whole:
                found[f"{front}."] = f"`{front}.` comes before {place_of(whole)}"
            elif ".pb_" in module and name != front:
                found[front] = f"`{front}` is {named_in(module, name)}"
            elif ".pb_" in module and front in self.repeated:
                found[front] = f"`{front}` is that of {place_of(module)}"
        return list(found.values())

    def here(self, part: Part) -> list[str]:
        """Return a paragraph on the words of a part, if it takes one."""
        said = self.meant(part)
        return [f"Here {'; '.join(said)}.", ""] if said else []


@cache
def page_of(sources: Sources) -> Page:
    """Return the page."""
    function, run = contract(sources)
    taken = list(ends(sources, function))
    in_memory, beside = (list(contracts(sources, names)) for names in (IN_MEMORY, LAWS))
    reach = Reach(sources)
    parts = [run, *taken, *in_memory, *beside]
    for part in parts:
        reach.words(part.text, part.imports)
    split = chapters(sources, parts, reach)
    return Page(run, taken, in_memory, beside, reach, reach.files(), split, repeated(sources))


@cache
def repeated(sources: Sources) -> dict[str, list[str]]:
    """Return the names that two or more files of statements define, each with the files."""
    found: dict[str, list[str]] = {}
    for spec in sources.specs.values():
        for name in spec.names if spec.kind == "Statement" else ():
            found.setdefault(name, []).append(spec.path)
    return {name: paths for name, paths in sorted(found.items()) if len(paths) > 1}


def named_in(module: str, name: str) -> str:
    """Return how a reader finds a name of a module."""
    *front, last = module.split(".")
    return f"`{front[-1]}::{name}`" if last == "TheVariants" else f"`{name}` of {place_of(module)}"


def place_of(module: str) -> str:
    """Return how a reader finds a module: by its file, or the type whose variants it has."""
    *front, last = module.split(".")
    _, crate, part, *place = module.split(".")
    if last == "TheVariants":
        return f"the variants of `{front[-1]}`"
    if place[0] == "declared":
        return f"the code of `{crate}`"
    return f"`{crate}/{part}/{'/'.join(place)}.antt`"


def in_crate(spec: Spec) -> str:
    """Return a file of definitions as the chapters name it: its crate, and its place there."""
    return f"{spec.crate}/{spec.path.partition('/specs/')[2].removesuffix('.antt')}"


def in_words(sources: Sources, crates: set[str], up: str) -> list[str]:
    """Return a line on where docs/DEFINITIONS.md has more of crates in words."""
    headings = re.findall(r"^## (.*)$", sources.text(IN_FULL), re.M)
    links = [
        f"[{re.sub(r' [(]`.*?`[)]', '', heading)}]({up}DEFINITIONS.md{anchor_of(heading)})"
        for heading in headings
        if crates & set(re.findall(r"`(\w+)`", heading))
    ]
    return ["", *paragraph(f"More in words: {', '.join(links)}.")] if links else []


def heart(sources: Sources, page: Page) -> list[str]:
    """Return the definitions of the heart, each with its file."""
    lines = []
    for place, name in HEART:
        found = [reached for reached in page.files if in_crate(reached[0]) == place]
        if not found or name not in found[0][0].names:
            raise Unknown(f"the page has no definition {name} of {place}")
        spec = found[0][0]
        lines += ["", f"In `{short(spec.path)}`:", "", *code_block("antt", spec.names[name].text)]
        if beside := second.beside(sources, place, {name}):
            lines += ["", *paragraph(beside)]
    return lines


def file_of(sources: Sources, page: Page, reached: Reached, heading: str) -> list[str]:
    """Return what a chapter shows of a file: its head, and what of it isn't in the heart."""
    spec, definitions = reached
    head = re.sub(r"^-- (?:Statement\. |Inside\. )?", "", spec.head)
    apart = [
        name
        for place, name in HEART
        if place == in_crate(spec) and name in {it.name for it in definitions}
    ]
    lines = ["", heading, "", *([head, ""] if head else [])]
    if apart:
        names = ", ".join(f"`{name}`" for name in apart)
        lines += [f"In [{HEART_TITLE}](../STATEMENT.md{anchor_of(HEART_TITLE)}): {names}.", ""]
    lines += page.here(part_of(reached))
    if beside := second.beside(sources, in_crate(spec), {it.name for it in definitions}):
        lines += [*paragraph(beside), ""]
    shown = [it.text for it in definitions if it.name not in apart]
    return lines + code_block("antt", "\n\n".join(shown)) if shown else lines[:-1]


def shown(page: Page, parts: list[Part]) -> list[str]:
    """Return parts of code, each with its file."""
    lines = []
    for part in parts:
        lines += ["", f"In `{short(part.path)}`:", "", *page.here(part)]
        lines += code_block("rust", part.text)
    return lines


def chapter_of(sources: Sources, page: Page, chapter: Chapter, seen: set[str]) -> list[str]:
    """Return a chapter below its heading: its opening, its files and the types that they name.

    A file that an earlier chapter of the same page has, too, is told apart by its heading.
    """
    deep = "###" if chapter.path == STATEMENT else "##"
    up = "" if chapter.path == STATEMENT else "../"
    files = chapter.files()
    lines = ["", *sources.text(f"{OPENINGS}/{chapter.opening}.md").rstrip().split("\n")]
    lines += in_words(sources, {spec.crate for spec, _ in files}, up)
    for reached in files:
        path = short(reached[0].path)
        again = ", more of it" if path in seen else ""
        seen.add(path)
        lines += file_of(sources, page, reached, f"{deep} `{path}`{again}")
    if chapter.types:
        lines += ["", f"{deep} The types that chapter {number_of(page, chapter)} names"]
        for path, text in chapter.types:
            lines += ["", f"In `{short(path)}`:", "", *code_block("rust", text)]
    return lines


def number_of(page: Page, chapter: Chapter) -> int:
    """Return the number of a chapter."""
    return page.chapters.index(chapter) + 1


def titled(page: Page, chapter: Chapter) -> str:
    """Return the title of a chapter with its number."""
    return f"{number_of(page, chapter)}. {chapter.title}"


def words_of(named: list[tuple[str, str]], deep: str) -> list[str]:
    """Return the table of the toolchain's words that a page is the first to use."""
    if not named:
        return []
    said = paragraph(
        "These are the toolchain's words that this page is the first to use, as the kit's own files explain and define them. The words"
        " that their definitions use in turn are in the same files."
    )
    return ["", f"{deep} {TOOLCHAIN_TITLE}", "", *said, "", *toolchain.table(dict.fromkeys(named))]


def overview(page: Page) -> list[str]:
    """Return the table of the chapters, with how much there is to read in each."""
    lines = ["| chapter | definitions | their lines | types |", "|---|--:|--:|--:|"]
    for chapter in page.chapters:
        path = "" if chapter.path == STATEMENT else chapter.path.removeprefix("docs/")
        link = f"{path}{anchor_of(titled(page, chapter))}" if not path else path
        count = len(chapter.definitions)
        lines.append(
            f"| [{titled(page, chapter)}]({link}) | {count} | {chapter.lines()} | {len(chapter.types)} |"
        )
    return lines


def core_page(sources: Sources, page: Page) -> list[str]:
    """Return docs/STATEMENT.md: the chapters of the core, then the heart of the rest and the contract."""
    core = [chapter for chapter in page.chapters if chapter.path == STATEMENT]
    count = sum(len(definitions) for _, definitions in page.files)
    lines = ["# What must be believed", "", *made_by(), ""]
    lines += paragraph(
        f"The program is proved to meet the contract of `pb_cli::{TOP_CALL}`, and a few laws are proved as well. To accept these claims, a"
        " reader must believe that these definitions say what they should. These pages have all of these words:"
        f" {count} definitions in {len(page.files)} files, and the {len(page.reach.types)} types and constants of the code to which they"
        " refer. Nothing else in the repository has to be read to know what is claimed: bodies, invariants, lemmas and the other contracts"
        " only serve to prove it."
    )
    lines += [
        "",
        *paragraph(
            "The chapters are in the order in which a reader can stop. Each has the definitions on which its subject rests, except those that an"
            f" earlier chapter has. Chapters 1 and {len(core)} are below: they say what a certified report means. An afternoon is enough for them."
            " Some files name the definitions of `coq/` that say the same. They belong to a second proof, and these pages don't rest on them."
        ),
        "",
        *overview(page),
        "",
    ]
    lines += [*sources.text(SIGNS).rstrip().split("\n")]
    seen: set[str] = set()
    for chapter in core:
        lines += ["", f"## {titled(page, chapter)}", *chapter_of(sources, page, chapter, seen)]
    lines += [
        "",
        "## You may stop here",
        "",
        *paragraph(
            "You may stop here if you only ask what a `yes` means, or what a printed report promises. The rest says how the program chooses its"
            " numbers, how the graph of a period is made, which rows are refused, and which bytes are written."
        ),
        "",
        *sources.text(IN_WORDS).rstrip().split("\n"),
        "",
        f"## {HEART_TITLE}",
        "",
    ]
    lines += paragraph(
        "With `IsCertifiedStage`, which is in chapter 1, three definitions carry most of what is claimed: the text of a session, the answer"
        " to a record, and the report of a period. The other chapters say what their words mean."
    )
    lines += [*heart(sources, page), "", f"## The contract of `{TOP_CALL}`", ""]
    lines += [
        f"In `{short(page.run.path)}`:",
        "",
        *page.here(page.run),
        *code_block("rust", page.run.text),
    ]
    lines += [
        "",
        *paragraph(
            f"What it takes, the calls for bytes in memory and the laws beside it are in [chapter {len(page.chapters)}]"
            f"({page.chapters[-1].path.removeprefix('docs/')})."
        ),
    ]
    return lines + words_of([word for chapter in core for word in chapter.toolchain], "##")


def beside_the_contract(page: Page) -> list[str]:
    """Return what the last chapter shows in front: what the call takes, calls in memory, and laws."""
    lines = ["", "## What the call takes", ""]
    lines += paragraph(
        "The contract refers to what the source and the sink have been seen to do, and to the value"
        " of the words. The traits say what every source and every sink guarantees. The blocks"
        " after them say what a contract sees of those that `main` hands over, and of words."
    )
    lines += shown(page, page.ends)
    lines += ["", "## For bytes in memory", ""]
    lines += paragraph(
        "`run_program` reads the source to its end and then makes one of these calls, so they say of"
        " these very bytes what the contract can't say of streams that don't show theirs."
    )
    lines += shown(page, page.in_memory)
    lines += ["", "## Laws beside it", ""]
    lines += paragraph(
        "These functions do nothing; what matters is their contracts, which are proved of the words"
        " of all chapters. They say that words give one command, that each input has exactly one"
        " text, that the program's own reports pass a check, that a block passes exactly when it is"
        " right, and that a report after edits is that of the edited file. A session of version 1"
        " writes what the same program writes without version 2. In version 2 a declaration changes"
        " no closed period, and a period's graph depends on what touches the period. The decided tests"
        " of measurements are right. There are least vectors, which differ only on unobservable"
        " streams. Printed flows, bounds and statistics are in order, and those of two stages of one"
        " graph meet. Options add rows and change none, meters never set a stream free, and a window"
        " has the parts of its periods. The remaining laws say what follows for nodal tests, closed"
        " periods, plain rows and made sessions."
    )
    return lines + shown(page, page.laws)


def other_page(sources: Sources, page: Page, chapter: Chapter) -> list[str]:
    """Return the page of a chapter behind the core."""
    at = page.chapters.index(chapter)
    near = [
        f"[{titled(page, one)}]({link_from(one)})"
        for one in page.chapters[max(0, at - 1) : at + 2]
        if one is not chapter
    ]
    lines = [f"# {titled(page, chapter)}", "", *made_by(), ""]
    lines += paragraph(
        f"A chapter of [What must be believed](../STATEMENT.md). Beside it: {', '.join(near)}."
    )
    if chapter is not page.chapters[-1]:
        return [
            *lines,
            *chapter_of(sources, page, chapter, set()),
            *words_of(chapter.toolchain, "##"),
        ]
    below = chapter_of(sources, page, chapter, set())
    first = next(at for at, line in enumerate(below) if line.startswith("## "))
    lines += [*below[: first - 1], *beside_the_contract(page), *below[first - 1 :]]
    return lines + words_of(chapter.toolchain, "##")


def link_from(chapter: Chapter) -> str:
    """Return the link to a chapter's page from another page of a chapter."""
    return "../STATEMENT.md" if chapter.path == STATEMENT else chapter.path.rpartition("/")[2]


def documents(sources: Sources) -> dict[str, str]:
    """Return the text of each page."""
    page = page_of(sources)
    found = {STATEMENT: core_page(sources, page)}
    for chapter in page.chapters:
        if chapter.path != STATEMENT:
            found[chapter.path] = other_page(sources, page, chapter)
    return {path: "\n".join(lines) + "\n" for path, lines in found.items()}
