"""The commands that pages show are commands: their subcommands, options, targets and scripts are there.

What they write is compared where pages are typed again (test_pages.py, packaging/shown).
"""

from __future__ import annotations

import argparse
import re
import shlex
from collections.abc import Iterator
from functools import cache

import pytest
from conftest import TOP, text_of

from plantbal import desk

PAGES = [
    path.relative_to(TOP).as_posix()
    for path in [
        *(TOP / name for name in ("README.md", "CONTRIBUTING.md", "coq/README.md")),
        *sorted((TOP / "docs").glob("*.md")),
        *sorted((TOP / "docs").glob("*.[0-9]")),
    ]
    if path.stem not in ("STATEMENT", "MESSAGES", "CHANGELOG")
]
COMMAND = re.compile(r"(?:\./)?(?:plantbal-desk|plantbal)|make|\.ci/\w+|packaging/(?!out\b)\w+")
MODES = {"run", "check", "make"}
# What a page has in place of a word: it isn't looked up.
OPEN = re.compile(r"[A-Z_]+|\.\.+|<.*|\[.*|.*\.\.")


def commands(text: str) -> Iterator[list[str]]:
    """The commands of a page: those of lines of code, and those between backticks."""
    text = re.sub(r"\\\n\s*", " ", text)
    lines = [line[4:].removeprefix("$ ") for line in text.splitlines() if line.startswith("    ")]
    spans = [span.replace("\n", " ") for span in re.findall(r"(?<!`)`([^`]+)`(?!`)", text)]
    for line in [*lines, *spans]:
        for part in re.split(r"\s*(?:\||&&|;|\$\(|(?<!\d)>)\s*", line):
            try:
                words = shlex.split(part, comments=True)
            except ValueError:
                continue
            while words and (words[0] in ("sudo", "exec", "time") or re.match(r"\w+=", words[0])):
                words.pop(0)
            if words and COMMAND.fullmatch(words[0]):
                yield words


@cache
def parser_of(word: str) -> argparse.ArgumentParser:
    """The parser of a subcommand."""
    command = next(each for each in desk.COMMANDS if each.word == word)
    return desk.parser_of(command, word)


def inner(parser: argparse.ArgumentParser) -> dict[str, argparse.ArgumentParser]:
    """The parsers of a command's own subcommands."""
    for action in parser._actions:
        if isinstance(action, argparse._SubParsersAction):
            return dict(action.choices)
    return {}


def wrong_desk(words: list[str]) -> str:
    """What is wrong with words of plantbal-desk, or nothing."""
    if not words or words[0].startswith("-") or OPEN.fullmatch(words[0]):
        return ""
    if words[0] not in {command.word for command in desk.COMMANDS}:
        return f"no subcommand {words[0]}"
    parser = parser_of(words[0])
    known = set(parser._option_string_actions)
    rest = words[1 : words.index("--") if "--" in words else None]
    for word, found in inner(parser).items():
        if word in rest[:3]:
            known |= set(found._option_string_actions)
            break
    else:
        if inner(parser) and rest and re.fullmatch(r"[a-z]+", rest[0]):
            return f"no subcommand {words[0]} {rest[0]}"
    places = [each for each in parser._actions if not each.option_strings]
    if places and places[0].choices and rest and re.fullmatch(r"[a-z][^:]*", rest[0]):
        if rest[0] not in places[0].choices:
            return f"{words[0]} has no {rest[0]}"
    options = [word.partition("=")[0] for word in rest if re.match(r"--[a-z]", word)]
    return next((f"{words[0]}: no option {each}" for each in options if each not in known), "")


def wrong(words: list[str]) -> str:
    """What is wrong with a command, or nothing."""
    first, rest = words[0].removeprefix("./"), words[1:]
    if first == "plantbal-desk":
        return "" if rest and rest[0].endswith(":") else wrong_desk(rest)
    if first == "make":
        text = text_of(TOP / "Makefile") + "\n" + text_of(TOP / "coq/Makefile")
        targets = set(re.findall(r"^([a-z][a-z-]*)[^:=\n]*:", text, re.M))
        named = [word for word in rest[:1] if re.fullmatch(r"[a-z][a-z-]+", word)]
        return next((f"no target {word}" for word in named if word not in targets), "")
    if first == "plantbal":
        options = set(re.findall(r"--[a-z]+", text_of(TOP / "docs/plantbal.1").replace("\\-", "-")))
        mode = [word for word in rest[:1] if re.fullmatch(r"[a-z]+", word) and word not in MODES]
        said = [word for word in rest if re.match(r"--[a-z]", word)]
        bad = [word for word in said if word.partition("=")[0] not in options]
        return f"plantbal has no {(mode + bad)[0]}" if mode or bad else ""
    return "" if (TOP / first).exists() else f"no script {first}"


def shown(page: str) -> str:
    """The text of a page; of a manual page its examples, as lines of code."""
    text = text_of(TOP / page)
    if page.endswith(".md"):
        return text
    blocks = re.findall(r"^\.EX\n(.*?)^\.EE$", text.replace("\\-", "-"), re.M | re.S)
    return re.sub(r"(?m)^", "    ", "".join(blocks))


@pytest.mark.parametrize("page", PAGES)
def test_commands_are_there(page: str) -> None:
    said = [
        f"{' '.join(words)}: {what}" for words in commands(shown(page)) if (what := wrong(words))
    ]
    assert not said, said


def test_what_is_no_command_is_said() -> None:
    text = (
        "    plantbal-desk nothing x\n    plantbal-desk page --nothing x\n    make nothing\n"
        "    plantbal run --nothing\n    plantbal-desk book nothing\n`.ci/nothing`\n"
        "    plantbal-desk template plant.xlsx\n"
    )
    assert [bool(wrong(words)) for words in commands(text)] == [True] * 7
    assert not any(
        map(wrong, commands("    plantbal-desk book add april.xlsx --why TEXT | head\n"))
    )
