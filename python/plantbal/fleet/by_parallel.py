"""Runs jobs on this machine by GNU parallel."""

from __future__ import annotations

import csv
import os
import shlex
import subprocess
import sys
import tempfile
import time
from collections.abc import Generator, Iterator, Sequence
from concurrent.futures import ThreadPoolExecutor
from contextlib import suppress
from pathlib import Path
from typing import IO

from plantbal.faults import Hindered, ToolMissing
from plantbal.fleet.engines import Begin, Came, Ended, EngineChoice, Job
from plantbal.fleet.job import JOB, SAID, ended, limits, times
from plantbal.fleet.limits import JOB_MEMORY, OUTPUT_BYTES

HEADS = "Seq Host Starttime JobRuntime Send Receive Exitval Signal Command".split()
_PAUSES = 0.01, 0.2  # seconds after which the log is looked at again, the fewest and the most
_TROUBLE = 255  # parallel's own; up to 101 it is how many jobs failed
# Sessions that one job of parallel may run one after another, and their bytes: without tests, half
# a second of work at most.
_MOST_SHARING, _MOST_BYTES = 12, 1 << 22
_LIMITS = limits(JOB_MEMORY, OUTPUT_BYTES)
_LONG = ("--tests", "--eliminate")  # words with which a session may take minutes


def run(
    asked: EngineChoice, jobs: Sequence[Job], begin: Begin, done: Sequence[Job] = ()
) -> Generator[Ended, None, None]:
    """Run jobs, and give each as it ends, by the rows of the log of jobs.

    The log has the finished ones first, under their numbers of now, and `--resume-failed` passes
    these over. It goes by numbers alone, and a session may have come, gone or changed since the log
    was written: so it is made anew from what is done.

    Parameters
    ----------
    asked : EngineChoice
        How they are run.
    jobs : sequence of Job
        What is to be run.
    begin : callable
        Makes a job ready: the first ones run while the next ones are made so.
    done : sequence of Job
        What has its output already.

    Raises
    ------
    ToolMissing
        If there is no parallel.
    Fault
        If it has trouble of its own.
    """
    if not jobs:
        return
    handed = [[job] for job in done]  # by their numbers
    _write_log(asked.log, len(handed))
    logged = set[int]()
    with (
        tempfile.TemporaryFile() as said,
        ThreadPoolExecutor(1, "hand-out") as other,
        _started(asked, said.fileno()) as process,
    ):
        # What hands the jobs out closes the pipe: if parallel is stopped, that may fail.
        given, process.stdin = process.stdin, None
        assert given is not None
        handing = other.submit(_hand_out, given, asked, handed, jobs, begin)
        try:
            for row in _rows_as_they_come(asked.log, process):
                number = int(row["Seq"])
                if number > len(done):
                    logged.add(number)
                    yield from _ended(asked, handed[number - 1], row)
            handing.result()
        except BaseException:
            _stop(process)
            raise
        if process.wait() == _TROUBLE:
            said.seek(0)
            text = said.read().decode("utf-8", "replace").strip()
            raise Hindered(
                f"parallel ended with the status {_TROUBLE}: {text or 'it says no more'}"
            )
    for number, some in enumerate(handed[len(done) :], len(done) + 1):
        if number not in logged:
            for job in some:
                yield Ended(job.site, came=Came(None, 0.0, 0.0))


def _shared(asked: EngineChoice, jobs: Sequence[Job]) -> Iterator[list[Job]]:
    """Give jobs in lists, each of which becomes one job of parallel.

    To start a job takes parallel about as long as a small session takes the program. So small
    sessions share one, unless each has to be stopped or tried again by itself. The fewer are left,
    the fewer share one, so that all processors are busy to the end.
    """
    alone = asked.timeout is not None or asked.retries > 1
    alone = alone or any(word.startswith(_LONG) for word in asked.command)
    at_once = asked.jobs or len(os.sched_getaffinity(0))
    left, some, size = sum(job.size for job in jobs), list[Job](), 0
    for job in jobs:
        most = min(_MOST_BYTES, left // (2 * at_once))
        if some and (alone or size + job.size > most or len(some) == _MOST_SHARING):
            yield some
            left, some, size = left - size, [], 0
        some.append(job)
        size += job.size
    if some:
        yield some


def _ended(asked: EngineChoice, some: Sequence[Job], row: dict[str, str]) -> Iterator[Ended]:
    """Give how each of the sessions ended that shared a job, by its row of the log of jobs."""
    if len(some) == 1:
        yield _ended_alone(asked, some[0], row)
    else:
        for job in some:
            yield Ended(job.site)


def _ended_alone(asked: EngineChoice, job: Job, row: dict[str, str]) -> Ended:
    """Return how a session ended that had a job by itself."""
    begun, seconds, signal = float(row["Starttime"]), float(row["JobRuntime"]), int(row["Signal"])
    if signal and asked.timeout is not None and seconds >= asked.timeout:
        return Ended(job.site, "timeout")
    status, end = 128 + signal if signal else int(row["Exitval"]), begun + seconds
    with suppress(OSError, ValueError, IndexError):
        if asked.retries > 1 and not signal:  # the log may have 0 for 1
            status, begun, end = ended(str(job.part))
        elif status in (0, 1):  # parallel may look at it late
            begun, end = times(str(job.part))
    return Ended(job.site, came=Came(status, round(begun, 3), round(end - begun, 3)))


def _hand_out(
    given: IO[bytes],
    asked: EngineChoice,
    handed: list[list[Job]],
    jobs: Sequence[Job],
    begin: Begin,
) -> None:
    """Hand jobs to parallel: those that are done first, then each other one once it is ready."""
    with suppress(BrokenPipeError), given:
        for some in handed:
            given.write(_command(asked, some))
        for some in _shared(asked, jobs):
            if ready := [job for job in some if begin(job)]:
                handed.append(ready)
                given.write(_command(asked, ready))
                given.flush()


def _command(asked: EngineChoice, some: Sequence[Job]) -> bytes:
    """Return the command of sessions that share a job, for the shell.

    Parallel gets whole commands: words that it has to quote take more time. The command of a
    session by itself becomes the program, without a shell that waits for it. Only if a job that
    fails is tried again the shell stays, to say that a program with refused rows, which ends with
    1, hasn't failed.
    """
    if len(some) > 1 or asked.retries > 1:
        each = (f"set -- {_quoted(job.session)} {_quoted(job.output)}" for job in some)
        said = "; ".join(f'{files}; eval "$PLANTBAL_JOB"' for files in each)
    else:
        err, session, output = map(_quoted, (some[0].part / SAID, some[0].session, some[0].output))
        said = f"exec 2>{err}; {_LIMITS}; exec {shlex.join(asked.command)} <{session} >{output}"
    return said.encode("utf-8", "surrogateescape") + b"\0"


def _quoted(path: Path) -> str:
    return shlex.quote(str(path))


def _started(asked: EngineChoice, said: int) -> subprocess.Popen[bytes]:
    """Start parallel.

    Jobs write nothing, so their lines needn't be grouped: parallel then keeps no files for them,
    which takes it less time.
    """
    command = ["parallel", "--plain", "--will-cite", "--null", "--ungroup"]
    command += ["--joblog", str(asked.log), "--resume-failed"]
    if asked.retries > 1:
        command += ["--retries", str(asked.retries)]
    if asked.jobs:
        command += ["--jobs", str(asked.jobs)]
    if asked.timeout is not None:
        command += ["--timeout", str(asked.timeout)]
    shows = sys.stderr.isatty()
    if shows:
        command.append("--bar")
    script = f'set -- "$1" "$2" {shlex.join(asked.command)}\n{JOB.strip()}'
    try:
        return subprocess.Popen(
            command,
            stdin=subprocess.PIPE,
            stdout=subprocess.DEVNULL,
            stderr=None if shows else said,
            env={
                **os.environ,
                "PARALLEL_SHELL": "/bin/sh",
                "PLANTBAL_JOB": script,
                "PLANTBAL_LIMITS": _LIMITS,
            },
            pass_fds=() if asked.lock is None else (asked.lock,),
        )
    except FileNotFoundError as error:
        raise ToolMissing("`parallel`", "GNU parallel (parallel)") from error


def _rows_as_they_come(log: Path, process: subprocess.Popen[bytes]) -> Iterator[dict[str, str]]:
    """Give the rows of the log of jobs until parallel has ended."""
    rest, over, pause = b"", False, _PAUSES[0]
    with log.open("rb", buffering=0) as file:
        while not over:
            over = process.poll() is not None  # before the last look
            *lines, rest = (rest + file.read()).split(b"\n")
            for line in lines:
                row = line.decode("utf-8", "replace").split("\t", len(HEADS) - 1)
                if len(row) == len(HEADS) and row[0].isdigit():
                    yield dict(zip(HEADS, row))
            pause = _PAUSES[0] if lines else min(1.5 * pause, _PAUSES[1])
            if not (over or lines):
                time.sleep(pause)


def _stop(process: subprocess.Popen[bytes]) -> None:
    """Stop parallel: at the first signal it starts no more jobs, at the second it stops them."""
    for _ in range(2):
        process.terminate()
        try:
            process.wait(0.5)
        except subprocess.TimeoutExpired:
            continue
        return
    try:
        process.wait(10)
    except subprocess.TimeoutExpired:
        process.kill()


def _write_log(log: Path, count: int) -> None:
    """Write a log in which the first jobs are done."""
    log.parent.mkdir(parents=True, exist_ok=True)
    with log.open("w", encoding="utf-8", newline="") as file:
        rows = csv.writer(file, delimiter="\t", lineterminator="\n", quoting=csv.QUOTE_NONE)
        rows.writerow(HEADS)
        for number in range(1, count + 1):
            rows.writerow([number, ":", "0.000", "0.000", 0, 0, 0, 0, "done before"])
