"""Values of definitions: lists, records, texts, numbers, and calls of definitions that give them.

Tables of rows are written in these forms. Any other form ends with a sentence that names it.
"""

from __future__ import annotations

import re
from collections.abc import Callable, Sequence
from dataclasses import dataclass
from functools import cache
from typing import Any

from .sources import Definition, Sources, Spec, Unknown

TOKEN = re.compile(r'\s+|"[^"]*"|[^\W\d][\w\'◌]*(?:\.[^\W\d][\w\']*)*|\d+|\[\]|\+\+|.', re.S)
# Operators, loosest first; those of the first and the last level join to the right.
LEVELS: list[dict[str, Callable[[Any, Any], Any]]] = [
    {"∷": lambda one, rest: [one, *rest], "++": lambda front, rest: [*front, *rest]},
    {"+": lambda one, other: one + other, "-": lambda one, other: one - other},
    {"*": lambda one, other: one * other},
    {"^": lambda base, power: base**power},
]
# What the library calls texts and signed numbers.
LIBRARY: dict[str, Callable[[Any], Any]] = {
    "codes": lambda text: text,
    "pos": lambda number: number,
    "neg_ℤ": lambda number: -number,
}
# An expression: its form, and what belongs to it.
Expression = tuple[Any, ...]
# A number, a text, a list, the fields of a record, a constructor, or a definition that lacks
# arguments.
Value = Any


@dataclass(frozen=True)
class Made:
    """A constructor with its arguments."""

    name: str
    parts: tuple[Value, ...] = ()


@dataclass(frozen=True)
class Lacking:
    """A definition that lacks arguments, with those that it has."""

    spec: Spec
    definition: Definition
    parts: tuple[Value, ...]


class Parser:
    """Expressions and patterns in the words of a definition."""

    def __init__(self, words: list[str], where: str) -> None:
        self.words, self.at, self.where = words, 0, where

    def unknown(self) -> Unknown:
        """Return the fault of a form that isn't known."""
        rest = " ".join(self.words[self.at : self.at + 6])
        return Unknown(f"{self.where}: what is this? {rest or 'nothing'}")

    def peek(self) -> str:
        """Return the next word, empty at the end."""
        return self.words[self.at] if self.at < len(self.words) else ""

    def expect(self, *wanted: str) -> None:
        """Take words that have to stand here."""
        for word in wanted:
            if self.peek() != word:
                raise self.unknown()
            self.at += 1

    def whole(self) -> Expression:
        """Take an expression that goes to the end."""
        found = self.expression()
        if self.peek():
            raise self.unknown()
        return found

    def expression(self, level: int = 0) -> Expression:
        """Take an expression of operators of a level, or of tighter ones."""
        if level == len(LEVELS):
            return self.application()
        left = self.expression(level + 1)
        while self.peek() in LEVELS[level]:
            operator = LEVELS[level][self.peek()]
            self.at += 1
            right_first = level in (0, len(LEVELS) - 1)
            left = ("operator", operator, left, self.expression(level + (not right_first)))
        return left

    def application(self) -> Expression:
        """Take a word with its arguments."""
        if self.peek() == "record":
            return self.record()
        first, *parts = self.atoms()
        return ("call", first, parts) if parts else first

    def atoms(self) -> list[Expression]:
        """Take one item or more."""
        found = [self.atom()]
        while self.is_atom():
            found.append(self.atom())
        return found

    def is_atom(self) -> bool:
        """Return whether an item stands here."""
        word = self.peek()
        return word in ("(", "[]") or bool(re.match(r'["\w]', word)) and word != "λ"

    def atom(self) -> Expression:
        """Take one item: a number, a text, a word, the empty list, or an expression in brackets."""
        word = self.peek()
        if not self.is_atom() or word in ("if", "then", "else", "let", "in", "record"):
            raise self.unknown()
        self.at += 1
        if word == "(":
            inside = self.expression()
            self.expect(")")
            return inside
        if word == "[]":
            return ("value", [])
        if word[0] == '"':
            return ("value", word[1:-1])
        return ("value", int(word)) if word.isdigit() else ("word", word)

    def record(self) -> Expression:
        """Take a record."""
        self.expect("record", "{")
        fields = {}
        while self.peek() != "}":
            name = self.peek()
            self.at += 1
            self.expect("=")
            fields[name] = self.expression()
            if self.peek() != "}":
                self.expect(";")
        self.expect("}")
        return ("record", fields)


def words_of(text: str) -> list[str]:
    """Return the words of a text without its comments and blanks."""
    return [word for word in TOKEN.findall(re.sub(r"--.*", "", text)) if not word.isspace()]


@cache
def equations(spec: Spec, definition: Definition) -> list[tuple[list[Expression], Expression]]:
    """Return the equations of a definition: the patterns and the right side of each."""
    found = []
    for chunk in re.split(r"\n(?=\S)", definition.code):
        words = words_of(chunk)
        if "=" not in words or words[0] != definition.name:
            continue
        where, middle = f"{spec.path}: {definition.name}", words.index("=")
        left = Parser(words[1:middle], where)
        patterns = left.atoms() if middle > 1 else []
        found.append((patterns, Parser(words[middle + 1 :], where).whole()))
    return found


class Values:
    """What expressions of the repository's definitions are."""

    def __init__(self, sources: Sources) -> None:
        self.sources = sources

    def of(self, spec: Spec, name: str, *parts: Value) -> Value:
        """Return the value of a definition of a file, of these arguments."""
        if name not in spec.names:
            raise Unknown(f"{spec.path} has no {name}")
        return self.called(spec, spec.names[name], parts)

    def called(self, spec: Spec, definition: Definition, parts: Sequence[Value]) -> Value:
        """Return the value of a definition of these arguments."""
        for patterns, right in equations(spec, definition):
            if len(patterns) > len(parts):
                return Lacking(spec, definition, tuple(parts))
            names: dict[str, Value] = {}
            if all(self.fits(one, part, spec, names) for one, part in zip(patterns, parts)):
                value = self.value(right, spec, names)
                more = list(parts[len(patterns) :])
                return self.applied(value, more, spec) if more else value
        raise Unknown(f"{spec.path}: {definition.name} has no equation for {list(parts)}")

    def value(self, expression: Expression, spec: Spec, names: dict[str, Value]) -> Value:
        """Return the value of an expression of a file, in which these names are bound."""
        form, *inside = expression
        if form == "value":
            return inside[0]
        if form == "word":
            return names[inside[0]] if inside[0] in names else self.named(inside[0], spec)
        if form == "record":
            return {name: self.value(part, spec, names) for name, part in inside[0].items()}
        if form == "operator":
            operator, left, right = inside
            return operator(self.value(left, spec, names), self.value(right, spec, names))
        first, parts = inside
        arguments = [self.value(part, spec, names) for part in parts]
        if first[0] == "word" and first[1] not in names:
            if first[1] in LIBRARY and len(arguments) == 1:
                return LIBRARY[first[1]](arguments[0])
            if first[1] == "map" and len(arguments) == 2:
                return [self.applied(arguments[0], [item], spec) for item in arguments[1]]
        return self.applied(self.value(first, spec, names), arguments, spec)

    def applied(self, function: Value, parts: list[Value], spec: Spec) -> Value:
        """Return the value of a function of arguments."""
        if isinstance(function, Made):
            return Made(function.name, (*function.parts, *parts))
        if isinstance(function, Lacking):
            return self.called(function.spec, function.definition, [*function.parts, *parts])
        raise Unknown(f"{spec.path}: {function} is no function")

    def named(self, word: str, spec: Spec) -> Value:
        """Return what a word means in a file: a definition, or a constructor."""
        if word in ("true", "false"):
            return word == "true"
        if word in spec.names and spec.names[word].form is None:
            return self.called(spec, spec.names[word], [])
        module, name = spec.imports.home(word) or (spec.module, word)
        there = self.sources.specs.get(module)
        if there and name in there.names and there.names[name].form is None:
            return self.called(there, there.names[name], [])
        if there and name in there.homes or module.endswith(".TheVariants"):
            return Made(name)
        raise Unknown(f"{spec.path}: what is {word}?")

    def fits(self, pattern: Expression, part: Value, spec: Spec, names: dict[str, Value]) -> bool:
        """Return whether an argument is of a pattern, and bind the pattern's names."""
        if pattern[0] == "value":
            return bool(pattern[1] == part)
        if pattern[0] == "word" and re.match(r"[a-z_][^.]*$", pattern[1]):
            names[pattern[1]] = part
            return True
        if pattern[0] == "operator" and pattern[1] is LEVELS[0]["∷"]:
            if not isinstance(part, list) or not part:
                return False
            first, rest = part[0], part[1:]
            return self.fits(pattern[2], first, spec, names) and self.fits(
                pattern[3], rest, spec, names
            )
        word, parts = (pattern[1], []) if pattern[0] == "word" else (pattern[1][1], pattern[2])
        made = self.named(word, spec)
        if not isinstance(made, Made) or not isinstance(part, Made):
            raise Unknown(f"{spec.path}: what is the pattern {word} of {part}?")
        return (
            made.name == part.name
            and len(parts) == len(part.parts)
            and all(self.fits(one, inner, spec, names) for one, inner in zip(parts, part.parts))
        )
