"""A hostile trial: the program, what was wrong, and scenes, which are runs that are known in peace."""

from __future__ import annotations

import concurrent.futures
import os
from collections.abc import Callable, Iterable
from dataclasses import dataclass
from pathlib import Path
from typing import Any

from gate import running
from gate.running import Ended, Status

# How many faults of a kind are printed.
SHOWN = 5


def ended(status: Status, output: bytes = b"") -> Ended:
    """Return how a run has to end: with this status, its name on standard error, and this output."""
    return Ended(status, output, status.told)


def difference(name: str, found: Ended, wanted: Ended) -> str | None:
    """Return what is otherwise than it should be, if anything is."""
    if found == wanted:
        return None
    return (
        f"{name}: status {found.status:d} with {len(found.output)} bytes, {found.error!r}; "
        f"wanted status {wanted.status:d} with {len(wanted.output)} bytes"
    )


def many(calls: Callable[..., str | None], jobs: Iterable[tuple[Any, ...]]) -> list[str | None]:
    """Make calls side by side."""
    with concurrent.futures.ThreadPoolExecutor(os.cpu_count()) as pool:
        return list(pool.map(lambda job: calls(*job), jobs))


@dataclass
class Trial:
    """What is tried, with which program, in which folder, and how often it went wrong."""

    program: Path
    room: Path
    wrong: int = 0

    def run(
        self, words: list[str], given: bytes = b"", env: dict[str, str] | None = None, **ends: Any
    ) -> Ended:
        """Run the program over these bytes or these ends."""
        return running.run(self.program, words, given, env=env, seconds=None, **ends)

    def report(self, what: str, faults: Iterable[str | None]) -> None:
        """Print what was tried, and the faults that were found, the first few."""
        found = [fault for fault in faults if fault]
        many_times = f": WRONG, {len(found)} times" if found else ""
        print(f"hostile: {what}{many_times}", flush=True)
        for fault in found[:SHOWN]:
            print(f"    {fault}")
        self.wrong += bool(found)


class Scene:
    """Words and an input, with what comes of them in peace.

    Attributes
    ----------
    status, output : int, bytes
        The status and the whole output.
    places : set of int
        The places up to which the output may be there if the run is out of memory: after whole
        texts of records; of what is made, before its first byte.
    """

    def __init__(self, trial: Trial, name: str, words: list[str], text: bytes = b"") -> None:
        self.trial, self.name, self.words, self.text = trial, name, words, text
        found = self.run()
        self.status, self.output = Status(found.status), found.output
        if self.status > Status.DONE_REFUSED:
            trial.report(f"{name} ends with {self.status:d}", ["it has to end with 0 or 1"])
        if "run" in words:
            lines = text.splitlines(keepends=True)
            parts = (b"".join(lines[:count]) for count in range(len(lines) + 1))
            self.places = {len(trial.run(words, part).output) for part in parts}
        elif "check" in words:
            lines = self.output.splitlines(keepends=True)
            self.places = {len(b"".join(lines[:count])) for count in range(len(lines) + 1)}
        else:
            self.places = {0}

    def run(self, **env: str) -> Ended:
        """Run it, with some variables."""
        return self.trial.run(self.words, self.text, env=env or None)

    def in_peace(self) -> Ended:
        """Return how the run ends if nothing fails."""
        return ended(self.status, self.output)
