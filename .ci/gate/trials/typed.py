"""Types the commands of a page again and prints the page with what they write.

    .ci/typed PAGE FOLDER PROGRAM [OTHER..]

A command is a line that begins with four spaces, a dollar sign and a space; what it writes is below it, after four spaces. The
commands are typed in a copy of the folder, with copies of the other folders in it under their names, with the program as `plantbal`, and this checkout's `plantbal-desk`,
on the path. What a reader does in an editor stands in a line of its own, which the page doesn't show:

    <!-- by hand: FILE, OLD becomes NEW, saved as OTHER -->

OLD is once in FILE. The digest of a book's head, which has the time in it, is shown as two points, and so is a time.
"""

from __future__ import annotations

import os
import re
import shutil
import subprocess
import sys
import tempfile
from collections.abc import Callable

from gate.checkout import TOP

PROMPT = "    $ "
HEAD = re.compile(r"^(head [0-9]+) [0-9a-f]{64}$", re.MULTILINE)
TIME = re.compile(r"\b20[0-9]{2}-[0-9]{2}-[0-9]{2}T[0-9:]{8}Z")
BY_HAND = re.compile(r"<!-- by hand: (\S+), (\S+) becomes (\S+), saved as (\S+) -->")
DESK = """#!/bin/sh
PYTHONPATH='{top}/python' PYTHONDONTWRITEBYTECODE=1 exec /usr/bin/python3 -m plantbal "$@"
"""


def edit(work: str, file: str, old: str, new: str, other: str) -> None:
    """Do what a reader does in an editor."""
    with open(os.path.join(work, file), encoding="utf-8") as read:
        text = read.read()
    if text.count(old) != 1:
        sys.exit(f"typed: {old} is {text.count(old)} times in {file}, not once")
    with open(os.path.join(work, other), "w", encoding="utf-8") as write:
        write.write(text.replace(old, new))


def typed(
    page: list[str], run: Callable[[str], list[str]], by_hand: Callable[..., None]
) -> list[str]:
    """The lines of the page, with what each command writes in place of what is below it."""
    lines: list[str] = []
    blank: list[str] = []
    skip = False
    for line in page:
        hand = BY_HAND.fullmatch(line)
        if hand:
            by_hand(*hand.groups())
        if line.startswith(PROMPT):
            lines += [*blank, line]
            lines += ["    " + text if text else "" for text in run(line[len(PROMPT) :])]
            skip, blank = True, []
        elif skip and not line:
            blank.append(line)  # within what is written, if more of it follows
        elif skip and line.startswith("    "):
            blank = []
        else:
            lines += [*blank, line]
            skip, blank = False, []
    lines += blank
    return lines


def main(given: list[str]) -> int:
    """Type the commands of a page, and print it."""
    if len(given) < 3:
        sys.exit(__doc__)
    page, folder, program, *others = given
    with tempfile.TemporaryDirectory() as room:
        work, words = os.path.join(room, "work"), os.path.join(room, "words")
        shutil.copytree(folder, work)
        for other in others:
            shutil.copytree(other, os.path.join(work, os.path.basename(other)))
        os.mkdir(words)
        os.symlink(os.path.abspath(program), os.path.join(words, "plantbal"))
        desk = os.path.join(words, "plantbal-desk")
        with open(desk, "w", encoding="utf-8") as file:
            file.write(DESK.format(top=TOP))
        os.chmod(desk, 0o755)
        path = os.pathsep.join([words, os.environ["PATH"]])
        env = dict(os.environ, PATH=path, PLANTBAL=os.path.join(words, "plantbal"))

        def run(command: str) -> list[str]:
            done = subprocess.run(
                ["bash", "-c", command],
                cwd=work,
                env=env,
                stdin=subprocess.DEVNULL,
                stdout=subprocess.PIPE,
                stderr=subprocess.STDOUT,
            )
            return TIME.sub("..", HEAD.sub(r"\1 ..", done.stdout.decode())).splitlines()

        with open(page, encoding="utf-8") as file:
            lines = typed(file.read().splitlines(), run, lambda *words: edit(work, *words))
    sys.stdout.write("\n".join(lines) + "\n")
    return 0
