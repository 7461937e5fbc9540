"""Failing ends, refused memory and cut input, on the built program: `.ci/hostile PROGRAM`.

A session of every row kind, of version 1 and of version 2, is run as CSV, as JSON lines and with elimination; its report is checked;
sessions and their summary are made. In each of these every allocation fails in turn, alone and with all behind it, each read and each write fails in turn, and bytes
come and go one at a time. The device is full, the pipe is closed, the input is a folder. The session and its report are cut at every
byte. A session has as many readings as a book holds, and one of version 2 as many streams as it may have.

Memory, reads and writes fail by a library that is compiled here and loaded before the program; without a compiler that part is left out,
and is said to be.
"""

from __future__ import annotations

import sys
import tempfile
from pathlib import Path

from gate.trials.hostile import most
from gate.trials.hostile.cuts import cuts, report_cuts
from gate.trials.hostile.ends import ends
from gate.trials.hostile.failing import compiled, failing
from gate.trials.hostile.scene import Scene, Trial
from gate.trials.hostile.sessions import SESSION, SESSION_2


def tried(trial: Trial) -> None:
    """Try everything."""
    words = ["run", "--eliminate", "3"]
    run = Scene(trial, "run", words, SESSION)
    json = Scene(trial, "run as JSON lines", [*words, "--format", "json"], SESSION)
    second = Scene(trial, "run in version 2", words, SESSION_2)
    check = Scene(trial, "check", ["check"], run.output)
    make = Scene(trial, "make", ["make", "--streams", "3"])
    summary = Scene(trial, "make a summary", ["make", "--streams", "3", "--summary"])
    scenes = [run, json, second, check, make, summary]
    for scene in scenes:
        ends(scene)
    cuts(run)
    cuts(second)
    report_cuts(check)
    most.facts(trial)
    most.streams(trial)
    library = compiled(trial)
    if library:
        for scene in scenes:
            failing(scene, library)


def main(words: list[str]) -> int:
    """Try everything, and return 1 if something was wrong."""
    if len(words) != 1:
        sys.exit(__doc__)
    with tempfile.TemporaryDirectory() as room:
        trial = Trial(Path(words[0]).resolve(), Path(room))
        tried(trial)
    return int(trial.wrong > 0)
