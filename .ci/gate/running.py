"""The built program, run once: its words, what it is given, and how it ended."""

from __future__ import annotations

import os
import subprocess
from collections.abc import Mapping
from dataclasses import dataclass
from enum import IntEnum
from pathlib import Path
from typing import Any

# No run of the program takes longer.
SECONDS = 600


class Status(IntEnum):
    """The statuses that the program ends with."""

    DONE = 0
    DONE_REFUSED = 1
    USAGE = 2
    READ_FAULT = 3
    WRITE_FAULT = 4
    TOO_LARGE = 5
    NO_MEMORY = 6

    @property
    def told(self) -> bytes:
        """What is on standard error: the name of the status, if the run was no success."""
        if self <= Status.DONE_REFUSED:
            return b""
        return self.name.title().replace("_", "").encode() + b"\n"


@dataclass(frozen=True)
class Ended:
    """How a run ended: its status, its output, and what is on standard error."""

    status: int
    output: bytes
    error: bytes

    @property
    def lines(self) -> list[str]:
        """The rows of the output."""
        return self.output.decode(errors="replace").splitlines()


def run(
    program: str | Path,
    words: list[str] | tuple[str, ...],
    given: bytes | None = b"",
    *,
    env: Mapping[str, str] | None = None,
    stdin: int | None = None,
    stdout: int = subprocess.PIPE,
    seconds: float | None = SECONDS,
) -> Ended:
    """Run a program over these bytes, or over these ends, with these variables beside the others."""
    ends: dict[str, Any] = {"input": given} if stdin is None else {"stdin": stdin}
    done = subprocess.run(
        [program, *words],
        stdout=stdout,
        stderr=subprocess.PIPE,
        env=None if env is None else {**os.environ, **env},
        timeout=seconds,
        check=False,
        **ends,
    )
    return Ended(done.returncode, done.stdout or b"", done.stderr)
