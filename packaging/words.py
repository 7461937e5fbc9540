"""The words of plantbal and of plantbal-desk as data.

Those of plantbal are read from its manual page, those of plantbal-desk from its parser.
"""

from __future__ import annotations

import argparse
import re
import shlex
import sys
from dataclasses import dataclass, field
from pathlib import Path

TOP = Path(__file__).resolve().parent.parent
sys.path.insert(0, str(TOP / "python"))
PAGE = TOP / "docs" / "plantbal.1"
MODES = {
    "run": "read a session and write its reports",
    "check": "judge reports by their own numbers",
    "make": "make a session from a number",
}
FOLDERS = {"FOLDER", "OUT"}
FILES = set(
    "BUNDLE|REPORT COSTS FILE OUTPUT PATH READINGS REPORT ROWS SESSION TAGS WORKBOOK".split()
)


@dataclass(frozen=True)
class Value:
    """What stands after an option, or as a word of its own."""

    name: str
    choices: tuple[str, ...] = ()

    @property
    def kind(self) -> str:
        """`words`, `folder`, `typed` or `file`."""
        if self.choices:
            return "words"
        if self.name in FOLDERS:
            return "folder"
        return "file" if self.name in FILES else "typed"


@dataclass(frozen=True)
class Option:
    """An option: its names, its value if it takes one, and a line about it."""

    names: tuple[str, ...]
    value: Value | None
    about: str


@dataclass(frozen=True)
class Command:
    """A command, a mode or a subcommand."""

    word: str
    about: str
    options: tuple[Option, ...] = ()
    values: tuple[Value, ...] = ()
    inner: tuple[Command, ...] = field(default=())


def plain(text: str) -> str:
    """Return a text of a manual page without its escapes."""
    return text.replace("\\-", "-").replace("\\&", "").replace("\\(aq", "'").replace('\\"', '"')


def sections(page: str) -> dict[str, list[str]]:
    """Return the lines of each section of a manual page."""
    found: dict[str, list[str]] = {}
    lines: list[str] = []
    for line in page.splitlines():
        if line.startswith(".SH "):
            lines = found.setdefault(line[4:].strip().strip('"'), [])
        else:
            lines.append(line)
    return found


def modes_of(lines: list[str]) -> dict[str, list[tuple[str, bool]]]:
    """Return the options of each mode in a synopsis, and whether each takes a value."""
    modes: dict[str, list[tuple[str, bool]]] = {}
    mode = ""
    for line in lines:
        words = shlex.split(plain(line))
        if words[:1] == [".B"]:
            mode = words[2]
            modes[mode] = []
        elif words[:2] == [".RB", "["]:
            modes[mode].append((words[2], False))
        elif words[:1] == [".IR"]:
            modes[mode][-1] = (modes[mode][-1][0], True)
    return modes


def about_options(lines: list[str]) -> dict[str, tuple[str, str, tuple[str, ...]]]:
    """Return of each option its value's name, a sentence about it, and the value's words."""
    found: dict[str, tuple[str, str, tuple[str, ...]]] = {}
    name = value = ""
    text: list[str] = []
    bold: list[str] = []

    def close() -> None:
        if name:
            said = re.split(r"[;.]", " ".join(text), maxsplit=1)[0]
            found[name] = value, said.replace(" ,", ",").strip(), tuple(dict.fromkeys(bold))

    heads = False
    for line in lines:
        words = shlex.split(plain(line)) if line.startswith(".") else []
        if words == [".TP"]:
            close()
            name, value, text, bold = "", "", [], []
            heads = True
        elif heads:
            name, value = words[1], words[2].strip() if len(words) > 2 else ""
            heads = False
        elif words and words[0] in (".B", ".BR"):
            text.append(words[1] + ("," if words[2:] == [","] else ""))
            bold.append(words[1])
        elif line.startswith("Mode"):
            # The words after this are modes, not those of the value.
            close()
            name = ""
        else:
            text.append(plain(line))
    close()
    return found


def plantbal() -> Command:
    """Return the words of plantbal, as its manual page has them."""
    page = sections(PAGE.read_text(encoding="utf-8"))
    abouts = about_options(page["OPTIONS"])
    inner = []
    for mode, options in modes_of(page["SYNOPSIS"]).items():
        own = []
        for name, takes in options:
            value, about, choices = abouts[name]
            if takes != bool(value):
                raise SystemExit(f"{PAGE}: {name} takes a value in one place and none in another")
            own.append(Option((name,), Value(value, choices) if takes else None, about))
        inner.append(Command(mode, MODES[mode], tuple(own)))
    return Command("plantbal", "", inner=tuple(inner))


def value_of(action: argparse.Action) -> Value:
    """Return what stands after an option of a parser, or as a word of its own."""
    metavar = action.metavar or action.dest.upper()
    name = metavar if isinstance(metavar, str) else " ".join(metavar)
    return Value(name, tuple(str(word) for word in action.choices or ()))


def option_of(action: argparse.Action) -> Option:
    """Return an option of a parser."""
    about = " ".join((action.help or "").replace("%%", "%").split())
    names = tuple(action.option_strings)
    if action.nargs == 0:
        return Option(names, None, about)
    return Option(names, value_of(action), about)


def command_of(word: str, about: str, parser: argparse.ArgumentParser) -> Command:
    """Return the words of a parser."""
    options: list[Option] = []
    values: list[Value] = []
    inner: list[Command] = []
    for action in parser._actions:
        if isinstance(action, argparse._SubParsersAction):
            abouts = {choice.dest: choice.help or "" for choice in action._choices_actions}
            inner = [
                command_of(name, abouts.get(name, ""), below)
                for name, below in action.choices.items()
            ]
        elif action.option_strings:
            options.append(option_of(action))
        else:
            values.append(value_of(action))
    return Command(word, about, tuple(options), tuple(values), tuple(inner))


def desk_parser() -> argparse.ArgumentParser:
    """Return the parser of plantbal-desk of this tree."""
    from plantbal.desk import desk_parser as made

    return made()


def desk() -> Command:
    """Return the words of plantbal-desk, as its parser has them."""
    return command_of("plantbal-desk", "", desk_parser())


def flat(command: Command) -> Command:
    """Return a command whose subcommands have no inner words: these are offered as values of theirs."""
    inner = []
    for word in command.inner:
        if word.inner:
            options = {option.names: option for each in word.inner for option in each.options}
            values = [value for each in word.inner for value in each.values]
            kinds = {value.kind: value for value in values if value.kind in ("file", "folder")}
            first = Value("COMMAND", tuple(each.word for each in word.inner))
            word = Command(word.word, word.about, tuple(options.values()), (first, *kinds.values()))
        inner.append(word)
    return Command(command.word, command.about, command.options, command.values, tuple(inner))
