"""Ends that the system gives: a full device, a closed pipe, a folder as input, bytes one by one."""

from __future__ import annotations

import os
import subprocess

from gate.running import Ended, Status
from gate.trials.hostile.scene import Scene, difference, ended


def ends(scene: Scene) -> None:
    """Try ends that the system gives."""
    trial, faults = scene.trial, []
    with open("/dev/full", "wb") as full:
        found = trial.run(scene.words, scene.text, stdout=full.fileno())
        faults.append(difference("a full device", found, ended(Status.WRITE_FAULT)))
    read, write = os.pipe()
    os.close(read)
    found = trial.run(scene.words, scene.text, stdout=write)
    os.close(write)
    faults.append(difference("a closed pipe", found, ended(Status.WRITE_FAULT)))
    if "make" not in scene.words:
        folder = os.open(trial.room, os.O_RDONLY)
        found = trial.run(scene.words, stdin=folder)
        os.close(folder)
        faults.append(difference("a folder as input", found, ended(Status.READ_FAULT)))
    faults.append(difference("bytes one by one", byte_by_byte(scene), scene.in_peace()))
    trial.report(
        f"{scene.name}: a full device, a closed pipe, a folder as input, a pipe that gives one byte "
        "at a time",
        faults,
    )


def byte_by_byte(scene: Scene) -> Ended:
    """Run it over a pipe into which the bytes are put one at a time."""
    process = subprocess.Popen(
        [scene.trial.program, *scene.words],
        stdin=subprocess.PIPE,
        stdout=subprocess.PIPE,
        stderr=subprocess.PIPE,
        bufsize=0,
    )
    if "make" not in scene.words:
        for place in range(len(scene.text)):
            assert process.stdin
            process.stdin.write(scene.text[place : place + 1])
    output, error = process.communicate()
    return Ended(process.returncode, output, error)
