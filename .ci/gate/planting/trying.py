"""The wrong bodies that the gate doesn't try each time: crates/NAME/planted/*.edit, in the form of must-fail edits.

    .ci/planted stale            names the edits that weren't refused by these sources yet
    .ci/planted check            the same, and ends with 1 if there is one
    .ci/planted try [CRATE..]    tries them, or those that are in these crates, and records each that is refused
    .ci/planted anew [CRATE..]   the same with all edits, or all of these crates

.ci/planted.txt holds a line CRATE/EDIT SUM for each edit: it was refused by the sources of that sum. `rests.py` says what the sum is of:
the edit with the function that it changes, and what these read of contracts, types, definitions and lemmas. So the record stands if other
functions change, or if code moves to another file or crate; after a change of a clause, the edits that may rest on it are tried again.

Edits of different functions are tried together, in one check: contracts are modular, so what becomes of a function's own goals does not
depend on the bodies of those that it calls. A function with an open goal of its own is refused by its own edit: the check says `not
proved` of it, or which of its goals the search did not prove, and `no proof: it calls ..` of one whose goals all hold. An edit whose
function has another answer is tried again alone.
The edits of a crate are tried in parts, RT_JOBS of them side by side, if it is set, else one for each processor.
"""

from __future__ import annotations

import importlib.machinery
import importlib.util
import os
import re
import shutil
import subprocess
import sys
import tempfile
import time
from concurrent.futures import ThreadPoolExecutor
from dataclasses import dataclass, field
from pathlib import Path
from types import ModuleType
from typing import Any

from gate.checkout import TOP
from gate.planting.code import QUALIFIERS, without_body
from gate.planting.rests import Replaced, Sums
from gate.planting.tree import Tree

TREE = Tree(TOP)
RECORD = os.path.join(TOP, ".ci", "planted.txt")
# The most edits of one check: more would only be harder to read.
MOST = 48
# What the kit says of an edit that is refused only since a proof file names what it took away, and the lines by which it knows that.
FOR_A_NAME = "only because a proof file names"
NAMES = re.compile(r"has no field|is not in scope|has no `|was not admitted")
# The most edits of a part, which one worker tries.
PART = 32
FUNCTION = re.compile(rf"^\s*{QUALIFIERS}fn ([A-Za-z_0-9]+)", re.M)
ITEM = re.compile(r"(?:pub )?(?:const|static|enum|struct|use|type|trait)\b")


def edits_of(crate: str) -> list[str]:
    return [str(path) for path in TREE.files(crate, "planted/*.edit")]


def name_of(path: str) -> str:
    """CRATE/EDIT, as the record calls it."""
    return f'{os.path.basename(os.path.dirname(os.path.dirname(path)))}/{os.path.basename(path)[:-len(".edit")]}'


def recorded() -> set[str]:
    """The sums of the sources that refused an edit."""
    if not os.path.exists(RECORD):
        return set()
    with open(RECORD, encoding="utf-8") as file:
        return {line.split()[1] for line in file if line.strip()}


def record(refused: list[str], sums: dict[str, str]) -> None:
    """Writes a line for each edit that stands refused, by name: those that did, and these."""
    known = recorded()
    with open(f"{RECORD}.new", "w", encoding="utf-8") as file:
        for path, sum_ in sorted(sums.items(), key=lambda pair: name_of(pair[0])):
            if sum_ in known or path in refused:
                file.write(f"{name_of(path)} {sum_}\n")
    os.replace(f"{RECORD}.new", RECORD)


def kit_module() -> ModuleType:
    """The kit's command rt, whose calls apply an edit, check a crate with it and read what the check says."""
    found = shutil.which("rt")
    if not found:
        sys.exit("planted: there is no rt on the path")
    command = os.path.realpath(found)
    sys.path.insert(0, os.path.dirname(command))
    sys.dont_write_bytecode = True
    loader = importlib.machinery.SourceFileLoader("rt_command", command)
    spec = importlib.util.spec_from_loader("rt_command", loader)
    assert spec is not None
    made = importlib.util.module_from_spec(spec)
    loader.exec_module(made)
    return made


def is_within(module: str, outer: str) -> bool:
    """Whether a module is another one or within it; the crate's root is the empty name."""
    return not outer or module == outer or module.startswith(f"{outer}::")


@dataclass(frozen=True)
class Function:
    """A function of a source file."""

    file: str
    name: str

    @property
    def module(self) -> str:
        """What its file is called in the check's answers; nothing for the crate's root."""
        return (
            ""
            if self.file in ("src/lib.rt", "src/main.rt")
            else self.file[len("src/") : -len(".rt")].replace("/", "::")
        )

    def is_in(self, path: str) -> bool:
        """Whether a path of the check's answers, as `pb_rows::name::Name::read`, is this function's."""
        parts = path.split("::")
        return parts[-1] == self.name and is_within("::".join(parts[1:-1]), self.module)

    def is_proved_in(self, line: str) -> bool:
        """Whether a line of a check is about a file of this function's own proof."""
        return (
            re.match(
                rf'(?:note: )?(?:\./)?proofs/(?:{re.escape(self.file[len("src/"):-len(".rt")])}/)?(?:\w+/)*{re.escape(self.name)}/',
                line,
            )
            is not None
        )

    def may_be(self, other: Function) -> bool:
        """Whether an answer about one of two functions could be taken for one about the other."""
        return self.name == other.name and (
            is_within(self.module, other.module) or is_within(other.module, self.module)
        )


@dataclass
class Edit:
    """An edit with the functions that it changes. One that changes anything but bodies, such as a contract, is tried alone: what it comes
    to may be seen in other functions."""

    path: str
    pairs: list[tuple[str, str, str]] = field(default_factory=list)
    functions: set[Function] = field(default_factory=set)
    alone: bool = False

    @property
    def name(self) -> str:
        return os.path.basename(self.path)[: -len(".edit")]


def pairs_of(path: str) -> list[tuple[str, str, str]]:
    """The replacements of an edit, in order: file, old text, new text."""
    file, old, pairs = "", "", []
    for line in TREE.read(Path(path)).split("\n"):
        if line.startswith("file: "):
            file = line[len("file: ") :].strip()
        elif line.startswith("old: "):
            old = line[len("old: ") :]
        elif line.startswith("new:"):
            pairs.append((file, old, line[len("new:") :].removeprefix(" ")))
    return pairs


class Sources:
    """The source files of a crate, and which function a place belongs to."""

    def __init__(self, folder: str) -> None:
        self.folder = folder
        self.texts: dict[str, str] = {}

    def text(self, file: str) -> str:
        if file not in self.texts:
            self.texts[file] = TREE.read(Path(self.folder, file))
        return self.texts[file]

    def function_at(self, file: str, text: str, place: int) -> Function | None:
        """The function that a place in a file's text is in the body of, or None where it is elsewhere."""
        start = text.rfind("\n", 0, place) + 1
        if not file.startswith("src/") or ITEM.match(text, start):
            return None
        above = [
            it for it in FUNCTION.finditer(text) if it.start(1) <= place or it.start() <= start
        ]
        if not above:
            return None
        head = above[-1][0].lstrip("\n")
        read = without_body(text[above[-1].end() - len(head) :], len(head) - len(head.lstrip()))
        return (
            Function(file, above[-1][1])
            if place >= above[-1].end() - len(head) + len(read)
            else None
        )

    def edit(self, path: str) -> Edit:
        made = Edit(path, pairs_of(path))
        texts = {file: self.text(file) for file, _, _ in made.pairs}
        for file, old, new in made.pairs:
            place = texts[file].find(old)
            function = self.function_at(file, texts[file], max(place, 0))
            if function:
                made.functions.add(function)
            else:
                made.alone = True
            texts[file] = texts[file].replace(old, new)
        return made

    def touch(self, one: Edit, other: Edit) -> bool:
        """Whether the edits change functions that can't be told apart, or one of them has to be tried alone."""
        return (
            one.alone
            or other.alone
            or any(it.may_be(its) for it in one.functions for its in other.functions)
        )

    def together(self, edits: list[Edit]) -> dict[str, str] | None:
        """The texts with all these edits, or None if an old text isn't there once."""
        texts: dict[str, str] = {}
        for edit in edits:
            for file, old, new in edit.pairs:
                text = texts.get(file, self.text(file))
                if text.count(old) != 1:
                    return None
                texts[file] = text.replace(old, new)
        return texts


class Trial:
    """The planted edits of one crate, tried over a copy of what its own checks kept."""

    def __init__(self, rt: ModuleType, crate: Any) -> None:
        self.rt, self.crate = rt, crate
        self.sources = Sources(crate.folder)
        self.refused: list[str] = []

    def say(self, text: str) -> None:
        print(f"planted: {self.crate.name}: {text}", flush=True)

    def run(self, edits: list[str]) -> list[str]:
        """Tries these; gives those that are refused."""
        left = []
        for path in edits:
            why = self.rt.read_edit(path, self.crate.folder)[1]
            if why:
                self.let(os.path.basename(path), f"can't be applied: {why}")
            else:
                left.append(self.sources.edit(path))
        begin = time.monotonic()
        with tempfile.TemporaryDirectory(prefix="planted-") as kept:
            own = f"{self.crate.folder}/out/incremental"
            if os.path.isdir(own):
                shutil.copytree(own, kept, dirs_exist_ok=True)
            while left:
                batch = self.batch(left)
                left = [it for it in left if it not in batch] + self.tried(batch, kept)
            # what was kept on the way proves the crate as it stands, so a refusal isn't an accident of it
            if self.checked({}, kept)[0]:
                self.let("the crate without an edit", "isn't proved")
                self.refused = []
        self.say(
            f"{len(self.refused)} of {len(edits)} edits refused, in {time.monotonic() - begin:.0f} seconds"
        )
        return self.refused

    def let(self, name: str, why: str) -> None:
        self.say(f"{name}: NOT REFUSED: {why}")

    def batch(self, left: list[Edit]) -> list[Edit]:
        """The next edits to be tried together: in order, each that touches none before it."""
        batch: list[Edit] = []
        for edit in left:
            if (
                len(batch) < MOST
                and not any(self.sources.touch(edit, it) for it in batch)
                and self.sources.together([*batch, edit])
            ):
                batch.append(edit)
        return batch or left[:1]

    def checked(self, texts: dict[str, str], kept: str) -> tuple[int, list[str]]:
        ran = self.rt.checked(self.crate, texts, ["--jobs", "1"], kept)
        return ran.returncode, ran.stdout.rstrip("\n").split("\n")

    def tried(self, batch: list[Edit], kept: str) -> list[Edit]:
        """Tries edits in one check; gives back those that have to be tried again."""
        if len(batch) == 1:
            return self.tried_alone(batch[0], kept)
        texts = self.sources.together(batch) or {}
        status, lines = self.checked(texts, kept)
        if (
            status == 0
            or not lines[-1].startswith("logic=not-proved")
            or any(self.rt.unread(it, texts) for it in lines)
        ):
            half = len(batch) // 2
            return self.tried(batch[:half], kept) + self.tried(batch[half:], kept)
        again = []
        for edit in batch:
            # one that may be refused for a name alone is tried alone, where the kit says which it is
            if self.is_open(edit, lines) and not self.is_for_a_name(edit, lines):
                self.refused.append(edit.path)
            else:
                edit.alone = True
                again.append(edit)
        return again

    @staticmethod
    def is_open(edit: Edit, lines: list[str]) -> bool:
        """Whether each function of the edit is unproved by a goal or an answer of its own, and not because of what it calls."""
        said = [
            found.groups() for found in (re.match(r"fn (\S+): (.*)", it) for it in lines) if found
        ]
        for function in edit.functions:
            answers = [answer for path, answer in said if function.is_in(path)]
            if not any(
                answer.startswith("not proved") or "`search` did not prove `" in answer
                for answer in answers
            ):
                return False
        return True

    @staticmethod
    def is_for_a_name(edit: Edit, lines: list[str]) -> bool:
        """Whether all that is said of a function of the edit is that its proof names what the edit took away."""
        for function in edit.functions:
            said = [it for it in lines if function.is_proved_in(it)]
            if said and all(NAMES.search(it) for it in said):
                return True
        return False

    def tried_alone(self, edit: Edit, kept: str) -> list[Edit]:
        came_to, text = self.rt.must_fail(self.crate, edit.path, ["--jobs", "1"], kept)
        if came_to in (False, "unsure"):
            # nothing is known of it: once more, from nothing
            came_to, text = self.rt.must_fail(self.crate, edit.path, ["--jobs", "1"])
        if FOR_A_NAME in text:
            # it shows nothing of the contract: the edit is to be written so that the names stay
            self.let(edit.name, text)
        # some releases of the kit say whether it is refused, the others what it came to
        elif came_to is True or came_to in ("refused", "limit"):
            self.refused.append(edit.path)
            if came_to == "limit":
                self.say(f"{edit.name}: {text}")
        else:
            self.let(edit.name, text)
        return []


def parts_of(folder: str, edits: list[str]) -> list[list[str]]:
    """A crate's edits in parts of much the same size; those of one function, which can't share a check, go to different parts."""
    sources = Sources(folder)
    edits = sorted(edits, key=lambda path: sorted(it.name for it in sources.edit(path).functions))
    count = -(-len(edits) // PART)
    return [edits[first::count] for first in range(count)]


def try_all(edits: dict[str, list[str]], sums: dict[str, str]) -> int:
    """Tries edits of crates, and records each that is refused."""
    rt = kit_module()
    os.chdir(TOP)
    rt.rtlib.guarded()
    made = {it.name: it for it in rt.rtlib.crates_below(os.getcwd())}
    for name in edits:
        if any(it.build_rlib(["--jobs", "1"], anew=False) for it in made[name].below()):
            sys.exit(f"planted: a library below {name} is not proved")
    jobs = os.environ.get("RT_JOBS", "")

    def is_proved(name: str) -> bool:
        """Whether a crate is proved as it stands; all its parts begin with what this check keeps."""
        own = f"{made[name].folder}/out/incremental"
        os.makedirs(own, exist_ok=True)
        return Trial(rt, made[name]).checked({}, own)[0] == 0

    def refused_of(part: tuple[str, list[str]]) -> list[str]:
        return Trial(rt, made[part[0]]).run(part[1])

    most_first = sorted(edits, key=lambda it: -len(edits[it]))
    with ThreadPoolExecutor(
        int(jobs) if jobs.isdigit() and jobs != "0" else os.cpu_count() or 1
    ) as pool:
        unproved = [
            name for name, proved in zip(most_first, pool.map(is_proved, most_first)) if not proved
        ]
        if unproved:
            sys.exit(f'planted: not proved as they stand: {", ".join(unproved)}')
        parts = [
            (name, part) for name in most_first for part in parts_of(made[name].folder, edits[name])
        ]
        left = sum(len(part) for _, part in parts)
        for refused in pool.map(refused_of, parts):
            left -= len(refused)
            record(refused, sums)
    return int(left > 0)


def main(words: list[str]) -> int:
    if (
        not words
        or words[0] not in ("stale", "check", "try", "anew")
        or words[0] in ("stale", "check")
        and len(words) > 1
    ):
        sys.exit(__doc__)
    version = subprocess.run(
        ["rt", "version"], capture_output=True, text=True, check=True
    ).stdout.strip()
    # releases of the kit may have one logic, and a refusal rests on that
    logic = version[max(version.find("logic "), 0) :]
    edits = {it: edits_of(it) for it in TREE.crates() if edits_of(it)}
    unknown = [it for it in words[1:] if it not in edits]
    if unknown:
        sys.exit(f'planted: these have no planted edits: {", ".join(unknown)}')
    sums = {}
    resting = Sums(TOP, logic)
    for crate, paths in edits.items():
        sources = Sources(os.path.join(TOP, "crates", crate))
        for path in paths:
            edit = sources.edit(path)
            own = [] if edit.alone else sorted((it.file, it.name) for it in edit.functions)
            sums[path] = resting.sum_of(crate, [Replaced(*it) for it in edit.pairs], own)
    known = recorded()
    stale = {crate: [it for it in paths if sums[it] not in known] for crate, paths in edits.items()}
    if words[0] in ("try", "anew"):
        wanted = edits if words[0] == "anew" else stale
        return try_all(
            {
                crate: paths
                for crate, paths in wanted.items()
                if paths and (crate in words[1:] or not words[1:])
            },
            sums,
        )
    for paths in stale.values():
        for path in paths:
            print(f"planted: {name_of(path)} wasn't refused by these sources yet")
    count = sum(map(len, stale.values()))
    if count:
        print(f"planted: {count} of {len(sums)} edits are to be tried: run .ci/planted try")
    else:
        print(f"planted: {len(sums)} edits of {len(edits)} crates were refused by these sources")
    return int(count > 0) if words[0] == "check" else 0
