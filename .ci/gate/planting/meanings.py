"""What a definition says: its text, in which the digest of what it says stands for each name.

So a sum over such texts changes if a definition below does, wherever it stands, and stays if a
definition moves, or it or an argument of it has another name. A definition that names itself, or
one that is being read, keeps that name. Types and constants of the code keep theirs, and are given
beside the text: `rests.py` reads them as things of the code.
"""

from __future__ import annotations

import hashlib
import re
from dataclasses import dataclass
from functools import cache
from pathlib import Path

from gate.planting.code import IMPORT
from gate.planting.tokens import tokens_of
from gate.planting.tree import Tree

# A definition or lemma that an attribute of the code cites by its path.
_CITED = re.compile(r"\b(\w+)::((?:specs|proofs)(?:::\w+)*)::(\w+)")
# A definition's first line, its head if it has no patterns, an argument, and the constructors.
_STATED = re.compile(r"(?:(?:abbrev|unfoldable|pub|record|data) )*([^\s(){}\[\]:;,]+)")
_EQUATION = re.compile(r"[^\s(){}\[\]:;,]+((?:(?:\n)? +[^\W\dA-Z]\w*)+)(?:\n)? +=\s")
_ARGUMENT = re.compile(r"(?<![\w.-])[^\W\d]\w*(?![\w-])")
_DATA = re.compile(r"(?:pub )?data ")
_CONSTRUCTOR = re.compile(r"(?m)^ +(?:pub )?([^\s(){}\[\]:;,.]+) :")
# A token that may be a name, with what follows after a dot.
_TOKEN = re.compile(
    r"(?<![^\s(){}\[\]:;,])[^\W\d][^\s(){}\[\]:;,.]*(?:\.[^\W\d][^\s(){}\[\]:;,.]*)?"
)
# What says where a thing stands and who can see it.
_PLACE = re.compile(r"\bpub(?:\([a-z]+\))? |\b(?:crate|super|pb_\w+)::|(?<=\bRattle\.)pb_\w+\.")


@dataclass(frozen=True)
class Meaning:
    """What stands for a text.

    Attributes
    ----------
    text : str
        The text, with digests for the names of definitions.
    declared : frozenset of str
        The types and constants of the code that it names, and those that its definitions do.
    """

    text: str
    declared: frozenset[str] = frozenset()


def digest_of(text: str, is_code: bool) -> str:
    """Return the digest of the tokens of a text of code or of definitions, wherever it stands."""
    return hashlib.sha256(tokens_of(text, is_code, _PLACE).encode()).hexdigest()[:32]


class Meanings:
    """What the definitions and lemmas of a checkout say.

    Parameters
    ----------
    tree : Tree
        The checkout.
    """

    def __init__(self, tree: Tree) -> None:
        self.tree = tree
        self._reading: list[tuple[Path, str]] = []

    def meaning_in(self, path: Path, text: str) -> Meaning:
        """Return what a text of a file says.

        In the code, what is called or follows a path is a thing of the code, whatever definition of
        that name the file imports.
        """
        is_code = path.suffix == ".rt"
        scope = dict(self.scope_of(path))
        if "use Rattle." in text:
            scope |= _imported_in(text)
        declared: set[str] = set()
        text = IMPORT.sub("", text)
        if is_code:
            text = _CITED.sub(lambda cited: self._cited(path, cited, declared), text)

        def read_as(token: re.Match[str]) -> str:
            around = text[token.start() - 1 : token.start()], text[token.end() : token.end() + 1]
            if is_code and (around[0] == ":" or around[1] in ("(", ":")):
                return token[0]
            return self._read_as(path, scope, token[0], declared)

        return Meaning(_TOKEN.sub(read_as, text), frozenset(declared))

    def _cited(self, path: Path, cited: re.Match[str], declared: set[str]) -> str:
        crate = self.tree.crate_of(path) if cited[1] == "crate" else cited[1]
        meaning = self._named(f"Rattle.{crate}.{cited[2].replace('::', '.')}", cited[3])
        declared.update(meaning.declared)
        return meaning.text

    def _read_as(
        self, path: Path, scope: dict[str, tuple[str, str]], token: str, declared: set[str]
    ) -> str:
        """Return what stands for a token of a file, and add what it names of the code."""
        first, dot, rest = token.partition(".")
        is_code = path.suffix == ".rt"
        if dot and first + dot in scope:
            name, after = rest, ""
            meaning = self._named(scope[first + dot][0], name)
        elif first in scope:
            name, after = scope[first][1], dot + rest
            meaning = self._named(*scope[first])
        else:
            inner = None if is_code else self._within(path, first)
            if inner is None:
                return token
            name, meaning, after = first, inner, dot + rest
        declared.update(meaning.declared)
        is_kits = not meaning.text.startswith("#") and not meaning.declared
        return (name if is_code and is_kits else meaning.text) + after

    @cache
    def _named(self, module: str, name: str) -> Meaning:
        """Return what a name of a module stands for.

        A module without a file is the kit's, or the prover makes it from the code.
        """
        path, of_type = self._file_of(module)
        if path is None:
            parts = module.split(".")
            if parts[1] not in self.tree.crates() or "declared" not in parts:
                return Meaning(_PLACE.sub("", f"{module}.{name}"))
            # a type, a constant, or a variant after its type
            said = [*parts[parts.index("declared") + 2 :], name]
            said = [each for each in said if each not in ("TheVariants", "TheConstants")]
            said = list(dict.fromkeys(said))
            return Meaning(".".join(said), frozenset(said[:1]))
        found = self._within(path, name)
        whole = f"#{digest_of(self.tree.plain(path), is_code=False)}.{of_type}.{name}"
        return found or Meaning(whole)

    def _file_of(self, module: str) -> tuple[Path | None, str]:
        """Return the file that a path of an import names, and the type of it that the path ends with."""
        parts = module.split(".")
        for length in range(len(parts), 3, -1):
            inside = "/".join(parts[2:length])
            path = self.tree.crate(parts[1]) / f"{inside}.antt"
            if path.is_file():
                return path, ".".join(parts[length:])
        return None, ""

    def _within(self, path: Path, name: str) -> Meaning | None:
        """Return what a name of a file stands for; None if the file lacks it, or is reading it."""
        outer, after = self._constructors_in(path).get(name, (name, ""))
        if outer not in self._stated_in(path) and name in self.scope_of(path):
            return self._named(*self.scope_of(path)[name])
        if outer not in self._stated_in(path) or (path, outer) in self._reading:
            return Meaning(f"it{after}") if after else None
        found = self._meaning_of(path, outer)
        return Meaning(found.text + after, found.declared)

    @cache
    def _meaning_of(self, path: Path, name: str) -> Meaning:
        """Return what a definition says; the text is its digest."""
        self._reading.append((path, name))
        equations = re.split(r"(?m)^(?=\S)", self._stated_in(path)[name])
        made = self.meaning_in(path, "".join(self._without_arguments(path, it) for it in equations))
        self._reading.pop()
        nameless = re.sub(rf"(?<![\w.#-]){re.escape(name)}(?![\w-])", "it", made.text)
        return Meaning(f"#{digest_of(nameless, is_code=False)}", made.declared)

    def _without_arguments(self, path: Path, equation: str) -> str:
        """Return an equation with numbers for the names of its arguments, if it has no patterns."""
        head = _EQUATION.match(equation)
        names = head[1].split() if head else []
        known = self.scope_of(path).keys() | self._constructors_in(path).keys()
        numbered = {each: f"${place}" for place, each in enumerate(names)}
        places = {} if known & set(names) else numbered
        return _ARGUMENT.sub(lambda found: places.get(found[0], found[0]), equation)

    @cache
    def _stated_in(self, path: Path) -> dict[str, str]:
        """Return the definitions or lemmas of a file, by their names."""
        found: dict[str, list[str]] = {}
        name, before = "", ""
        for line in self.tree.plain(path).split("\n"):
            if not line or IMPORT.match(line):
                continue
            if line.startswith("unfolding "):
                before = f"{line}\n"
            elif line[0] in " )]}" and name:
                found[name].append(line)
            else:
                head = _STATED.match(line)
                name = head[1] if head else line
                found.setdefault(name, []).append(before + line)
                before = ""
        return {name: "\n".join(lines) for name, lines in found.items()}

    @cache
    def _constructors_in(self, path: Path) -> dict[str, tuple[str, str]]:
        """Return the constructors of a file's types, each with its type and what stands for it."""
        stated = self._stated_in(path).items()
        types = {name: _CONSTRUCTOR.findall(text) for name, text in stated if _DATA.match(text)}
        return {
            each: (name, f".{place}")
            for name, every in types.items()
            for place, each in enumerate(every)
        }

    @cache
    def scope_of(self, path: Path) -> dict[str, tuple[str, str]]:
        """Return the names that a file imports, each with its module and its name there.

        A module's own name ends with a dot, and has no name there.
        """
        lines = self.tree.plain(path).splitlines(keepends=True)
        return _imported_in("".join(line for line in lines if not line.startswith(" ")))


def _imported_in(text: str) -> dict[str, tuple[str, str]]:
    found = {}
    for module, names, other in IMPORT.findall(text):
        for each in names.split(", ") if names else ():
            name, _, new = each.partition(" as ")
            found[new or name] = (module, name)
        if not names:
            found[f"{other or module.split('.')[-1]}."] = (module, "")
    return found
