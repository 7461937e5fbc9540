"""The functions and types of the code, in the layout of `rt fmt`."""

from __future__ import annotations

import re
from collections.abc import Iterator
from dataclasses import dataclass
from functools import cache, cached_property

from .sources import Sources

FUNCTION = re.compile(r"( *)(pub(?:\([a-z]+\))? )?(?:const )?fn (\w+)")
BLOCK = re.compile(r"(?:pub )?(?:impl|trait)\b(?:<[^>]*>)? *(?:(\w+)(?:<.*>)? for )?(\w+)")
STRINGS = re.compile(r'"(?:\\.|[^"\\])*"|b?\'(?:\\.|[^\'\\])\'')
CLAUSE = re.compile(r" *(//|requires|ensures)")
USED = re.compile(r"^use (\w+)::(?:(\w+)|\{([^}]*)\}|(\*));", re.M)
EXPORTED = re.compile(r"^pub use (\w+)(?:::\w+)*::(?:\{([^}]*)\}|(\w+));", re.M)
ENUM = re.compile(r"^pub enum (\w+)[^{]*\{\n(.*?)^\}", re.M | re.S)
# A variant, and what it holds in round or curly brackets, on its line or on lines of their own.
VARIANT = re.compile(
    r"^    ([A-Z]\w*)(?:\(([^()]*)\)| \{ ([^{}\n]*) \}| \{\n((?:        .*\n)*))?", re.M
)
FIELD = re.compile(r"^ +(?:pub(?:\([a-z]+\))? )?(\w+): (.*?),?$", re.M)
LET = re.compile(r"let (?:mut )?(\w+)(?:: [^=;]+)? = ([^;]*);")
# A call by a name alone, or of a method.
CALLED = re.compile(r"(?<![:\w])([a-z_]\w*)\(")


@dataclass(frozen=True)
class Function:
    """A function of the code.

    Attributes
    ----------
    path, line : str, int
        Where it begins.
    name, owner, trait : str
        Its name; the type or the trait whose method it is; the trait that it is written for.
    public : bool
        Whether it has `pub`.
    head, contract, body : str
        Its signature; its clauses; what it does, without comments and strings.
    """

    path: str
    line: int
    name: str
    owner: str
    trait: str
    public: bool
    head: str
    contract: str
    body: str | None

    @property
    def crate(self) -> str:
        """Its crate."""
        return self.path.split("/")[1]

    @property
    def called(self) -> str:
        """What it is called: `Type::name` or `name`."""
        return f"{self.owner}::{self.name}" if self.owner else self.name

    @property
    def parameters(self) -> list[tuple[str, str]]:
        """Its parameters with their types, without `self`."""
        inside = within(self.head[self.head.index("fn ") :])
        pairs = [one.partition(":") for one in split(inside)]
        return [(name.strip(), kind.strip()) for name, colon, kind in pairs if colon]

    @property
    def takes_self(self) -> bool:
        """Whether it is called on a value."""
        return re.search(r"\((?:&(?:'\w+ )?)?(?:mut )?self\b", self.head) is not None

    @property
    def gives(self) -> str:
        """The type of its answer, empty if it has none."""
        found = re.search(r"\) *-> *(.*?)(?:\s+where\b.*)?$", self.head, re.S)
        return re.sub(r"\s+", " ", found[1]).strip() if found else ""


def within(text: str) -> str:
    """Return what stands in the first round brackets of a text."""
    begin, depth = text.index("("), 0
    for at in range(begin, len(text)):
        depth += {"(": 1, ")": -1}.get(text[at], 0)
        if depth == 0:
            return text[begin + 1 : at]
    return text[begin + 1 :]


def split(text: str) -> list[str]:
    """Return the parts of a text between its outermost commas."""
    parts, depth = [""], 0
    for at, letter in enumerate(text):
        arrow = letter == ">" and text[at - 1 : at] in ("-", "=")
        depth += 0 if arrow else {"(": 1, "<": 1, "[": 1, ")": -1, ">": -1, "]": -1}.get(letter, 0)
        if letter == "," and depth == 0:
            parts.append("")
        else:
            parts[-1] += letter
    return [part.strip() for part in parts if part.strip()]


def bare(lines: list[str]) -> str:
    """Return lines of code without comments and without what strings hold."""
    text = "\n".join(STRINGS.sub('""', line) for line in lines)
    return re.sub(r"//.*", "", text)


def ends_of(lines: list[str], at: int, indent: str) -> tuple[int, int | None, int]:
    """Return where a signature ends, where its body begins if it has one, and where that ends."""
    head = at
    while True:
        line = lines[head]
        own = head == at or line.startswith(indent) and line[len(indent) :][:1] not in ("", " ")
        alone = line in (indent + "{", indent + "{}")
        if alone or own and line.endswith(("{", "{}")):
            over = head + (not alone)
            if line.endswith("{}"):
                return over, head, head
            end = next(i for i in range(head, len(lines)) if lines[i] == indent + "}")
            return over, head + 1, end
        following = lines[head + 1] if head + 1 < len(lines) else ""
        if line.endswith(";") and not following.startswith(indent + "    "):
            return head + 1, None, head + 1
        head += 1


def functions_in(path: str, text: str) -> Iterator[Function]:
    """Return the functions of a source file in their order."""
    lines = text.splitlines()
    owner = trait = ""
    for at, line in enumerate(lines):
        block = BLOCK.match(line)
        if line == "}":
            owner = trait = ""
        elif block and line.endswith("{"):
            trait, owner = block[1] or "", block[2]
        found = FUNCTION.match(line)
        if not found:
            continue
        over, begin, end = ends_of(lines, at, found[1])
        signature = lines[at:over]
        first = next((i for i, one in enumerate(signature) if CLAUSE.match(one)), len(signature))
        head = re.sub(r" *(\{\}|\{|;)$", "", "\n".join(signature[:first]))
        yield Function(
            path=path,
            line=at + 1,
            name=found[3],
            owner=owner,
            trait=trait,
            public=found[2] == "pub ",
            head=head,
            contract="\n".join(signature[first:]),
            body=None if begin is None else bare(lines[begin:end]),
        )


def functions(sources: Sources, paths: list[str]) -> list[Function]:
    """Return the functions of source files."""
    return [one for path in paths for one in functions_in(path, sources.text(path))]


@cache
def of_libraries(sources: Sources) -> list[Function]:
    """Return the functions of the crates, but for those of tests."""
    return functions(sources, sources.code)


def item_of(text: str, form: str, name: str) -> str | None:
    """Return a type, a trait or a constant with the lines of comment before it."""
    lines = text.splitlines()
    for at, line in enumerate(lines):
        if not re.match(rf"(?:pub )?(?:{form}) {re.escape(name)}\b", line):
            continue
        end = at
        while lines[end][:1] == " " or not re.search(r"^\}|;$", lines[end]):
            end += 1
        begin = at
        while begin > 0 and re.match(r"///|#\[", lines[begin - 1]):
            begin -= 1
        return "\n".join(one for one in lines[begin : end + 1] if not one.startswith("#["))
    return None


class Types:
    """The enums of the libraries, and what each library gives away."""

    def __init__(self, sources: Sources) -> None:
        self.sources = sources

    @cached_property
    def enums(self) -> dict[str, dict[str, str]]:
        """The variants of each enum, with the types that each holds."""
        found: dict[str, dict[str, str]] = {}
        for path in self.sources.code:
            for name, body in ENUM.findall(self.sources.text(path)):
                for variant, *holds in VARIANT.findall(body):
                    found.setdefault(name, {})[variant] = " ".join(holds)
        return found

    @cached_property
    def exported(self) -> dict[tuple[str, str], str]:
        """Each name that a library gives away, with where it has it from."""
        found = {}
        for path in self.sources.files(r"crates/[^/]+/src/lib\.rt"):
            for place, many, one in EXPORTED.findall(self.sources.text(path)):
                for name in (many or one).split(","):
                    found[path.split("/")[1], name.strip()] = place
        return found

    def is_public(self, function: Function) -> bool:
        """Return whether a library gives a function, or the type whose method it is, away."""
        name = function.owner or function.name
        return function.public and (function.crate, name) in self.exported

    def givers(self, crate: str, name: str) -> set[str]:
        """Return a library with those that give a name of it away once more."""
        wanted = (crate, name)
        again = {one for (one, given), place in self.exported.items() if (place, given) == wanted}
        return {crate, *again}

    @cached_property
    def gives(self) -> dict[str, set[str]]:
        """The types that the public functions of each name give."""
        found: dict[str, set[str]] = {}
        for one in of_libraries(self.sources):
            if one.public:
                names = re.findall(r"\w+", one.gives.replace("Self", one.owner))
                found.setdefault(one.name, set()).update(names)
        return found


class Texts:
    """The code of a crate of tests or of a program of cases."""

    def __init__(self, sources: Sources, crate: str, types: Types) -> None:
        paths = sources.files(rf"crates/{crate}/src/.*\.rt")
        self.crate, self.types = crate, types
        self.functions = functions(sources, paths)
        self.raw = {path: sources.text(path) for path in paths}

    @cached_property
    def whole(self) -> str:
        """All of it."""
        return "\n".join(self.raw.values())

    @cached_property
    def fields(self) -> dict[str, str]:
        """The fields of its types."""
        return dict(FIELD.findall(self.whole))

    @cached_property
    def by_name(self) -> dict[str, list[Function]]:
        """The functions of each name."""
        found: dict[str, list[Function]] = {}
        for one in self.functions:
            found.setdefault(one.name, []).append(one)
        return found

    @cached_property
    def tests(self) -> dict[Function, list[Function]]:
        """The tests, each with itself and all helpers that it calls."""
        lines = {path: text.splitlines() for path, text in self.raw.items()}
        return {
            one: self.reached(one)
            for one in self.functions
            if any("#[test]" in line for line in lines[one.path][max(0, one.line - 3) : one.line])
        }

    @cached_property
    def used(self) -> dict[str, set[str]]:
        """What each file takes from libraries, as `LIBRARY::NAME`; `*` for all names of one."""
        found: dict[str, set[str]] = {}
        for path, text in self.raw.items():
            for library, one, many, star in USED.findall(text):
                names = (one or many or star).split(",")
                found.setdefault(path, set()).update(f"{library}::{name.strip()}" for name in names)
        return found

    def reached(self, function: Function) -> list[Function]:
        """Return a function with all helpers that it calls, of its own file if it has them."""
        found, todo = [function], [function]
        while todo:
            one = todo.pop()
            for name in set(CALLED.findall(one.body or "")):
                helpers = self.by_name.get(name, [])
                for other in [it for it in helpers if it.path == one.path] or helpers:
                    if other not in found:
                        found.append(other)
                        todo.append(other)
        return found

    def give(self, text: str, owner: str) -> bool:
        """Return whether a text names a type, or makes a call that gives one."""
        called = CALLED.findall(text)
        helpers = [one for name in called for one in self.by_name.get(name, [])]
        return (
            re.search(rf"\b{owner}\b", text) is not None
            or any(owner in self.types.gives.get(name, ()) for name in called)
            or any(re.search(rf"\b{owner}\b", one.gives) for one in helpers)
        )

    def values_of(self, function: Function, owner: str) -> set[str]:
        """Return the names in a function that are values of a type."""
        typed = re.compile(rf"\b{owner}\b")
        pairs = [*function.parameters, *self.fields.items()]
        found = {name.removeprefix("mut ") for name, kind in pairs if typed.search(kind)}
        lets = LET.findall(function.body or "")
        return found | {name for name, right in lets if self.give(right, owner)}

    def uses(self, path: str, call: Function) -> bool:
        """Return whether a file takes a call from a library."""
        libraries = self.types.givers(call.crate, call.name)
        taken = {f"{library}::{name}" for library in libraries for name in (call.name, "*")}
        named = any(f"{library}::{call.name}(" in self.raw[path] for library in libraries)
        return named or not taken.isdisjoint(self.used.get(path, set()))

    def sites(self, function: Function, call: Function) -> list[str]:
        """Return what stands after each place where a function makes a call."""
        body = function.body or ""
        if f"{call.name}(" not in body or not call.owner and not self.uses(function.path, call):
            return []
        if call.takes_self:
            values = self.values_of(function, call.owner)
            found = [
                site
                for site in re.finditer(rf"(\w+)?(\))?\??\s*\.{call.name}\(", body)
                if site[1] in values
                or site[2]
                and self.give(re.split(r"[;{}]", body[: site.end(2)])[-1], call.owner)
            ]
        elif call.owner:
            found = list(re.finditer(rf"\b{call.owner}(?:::<[^>]*>)?::{call.name}\(", body))
        else:
            found = list(re.finditer(rf"(?<![\w.]){call.name}\(", body))
        ends = [site.end() + len(within(body[site.end() - 1 :])) + 1 for site in found]
        return [body[end:].lstrip()[:20] for end in ends]
