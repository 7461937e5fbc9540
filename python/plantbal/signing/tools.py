"""Calls of the programs that sign and verify: each with a time limit, and in UTC."""

from __future__ import annotations

import os
import shutil
import subprocess
from collections.abc import Sequence
from pathlib import Path

from plantbal.faults import ProgramFault, ToolMissing
from plantbal.sentence import Sentence

_SECONDS = 60.0


def call_tool(
    package: str, words: Sequence[str | Path], data: bytes = b"", *, asks: bool = False
) -> subprocess.CompletedProcess[bytes]:
    """Call a program, and return how it ended.

    Parameters
    ----------
    package : str
        The Debian package that has it.
    words : sequence of str or Path
        Its name, and its words.
    data : bytes
        What it reads.
    asks : bool
        Whether it may ask its user for a passphrase, for as long as that takes.

    Raises
    ------
    ToolMissing
        If it isn't there.
    ProgramFault
        If it doesn't end in time.
    """
    found = shutil.which(str(words[0]))
    if found is None:
        raise ToolMissing(f"program {words[0]}", package)
    settings = os.environ | {"TZ": "UTC", "LC_ALL": "C"}
    command = [found, *map(str, words[1:])]
    if asks:
        # What it asks goes to the terminal; its standard output has nothing else.
        return subprocess.run(command, stdout=2, stderr=subprocess.PIPE, env=settings, check=False)
    try:
        return subprocess.run(
            command, input=data, capture_output=True, env=settings, timeout=_SECONDS, check=False
        )
    except subprocess.TimeoutExpired as error:
        form = "{program} didn't finish within {seconds:g} s"
        what = Sentence(form, program=words[0], seconds=_SECONDS)
        raise ProgramFault(what, status=-1, name="Timeout") from error


def said_last(done: subprocess.CompletedProcess[bytes]) -> str:
    """Return the last line that a program said, in printable characters."""
    lines = (done.stderr + (done.stdout or b"")).decode("utf-8", "replace").split("\n")
    last = next((line.strip() for line in reversed(lines) if line.strip()), "it doesn't say why")
    return "".join(each if each.isprintable() else "?" for each in last)[:300]
