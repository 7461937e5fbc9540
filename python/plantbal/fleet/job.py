"""One session's run, here or on another machine.

Nothing of the package is imported here: a machine of a cluster gets these calls as they are.
"""

from __future__ import annotations

import hashlib
import os
import shutil
import signal
import subprocess
import tempfile
from contextlib import suppress
from pathlib import Path

SAID, STATUS = "stderr.txt", "run.json"
# `sh -c JOB job SESSION OUTPUT PROGRAM WORD..` runs a session. In the folder of OUTPUT, which has to
# be there and empty, it leaves that file, SAID and STATUS. STATUS has the program's status, and
# later becomes the record of the run. It is made first and written at the end, and OUTPUT is made
# last: so the folder is as old as the program's start, and STATUS as its end. The job ends with a
# fault if the program wasn't done. The program has the limits that PLANTBAL_LIMITS sets.
JOB = f"""
session=$1 output=$2 part=${{2%/*}}
shift 2
: >"$part/{STATUS}"
(eval "$PLANTBAL_LIMITS"; exec "$@" <"$session" >"$output") 2>"$part/{SAID}"
status=$?
echo "$status" >"$part/{STATUS}"
[ "$status" -le 1 ]
"""


def limits(memory: int, size: int) -> str:
    """Return what sets a shell's limits, and those of the program that it becomes.

    A file that gets too large is a fault of writing then, and no signal.

    Parameters
    ----------
    memory : int
        The most bytes of memory.
    size : int
        The most bytes of a file.
    """
    lines = f"ulimit -v {memory >> 10}", f"ulimit -f {size >> 9}", "ulimit -c 0"
    return f"trap '' XFSZ; {'; '.join(lines)}"


# The digests of programs, by their files as they were when they were read.
_DIGESTS: dict[tuple[str, int, int, int], str] = {}


def digest_of(program: str) -> str:
    """Return the SHA-256 of a program where this runs; a text that is none if it can't be read."""
    try:
        path = os.path.realpath(shutil.which(program) or program)
        found = os.stat(path)
        key = path, found.st_ino, found.st_size, found.st_mtime_ns
        if key not in _DIGESTS:
            with open(path, "rb") as file:
                _DIGESTS[key] = hashlib.file_digest(file, "sha256").hexdigest()
        return _DIGESTS[key]
    except OSError as error:
        return f"unread: {error.strerror}"


# The jobs that run in this process, and whether more may begin.
_RUNNING: set[subprocess.Popen[bytes]] = set()
_STOPPED: set[str] = set()


def run_here(
    command: list[str], session: str, output: str, timeout: float | None, limited: str
) -> str:
    """Run a session into a folder that this machine sees, and return the digest of the program.

    It is empty if the session didn't end in time.

    Parameters
    ----------
    command : list of str
        The program and its words.
    session, output : str
        The files of the session and of its output.
    timeout : float or None
        The most seconds that it may take.
    limited : str
        What sets its limits, as `limits` returns it.
    """
    digest = digest_of(command[0])
    job = subprocess.Popen(
        ["sh", "-c", JOB, "job", session, output, *command],
        stdin=subprocess.DEVNULL,
        env={**os.environ, "PLANTBAL_LIMITS": limited},
        start_new_session=True,
    )
    _RUNNING.add(job)
    try:
        if not _STOPPED:
            job.wait(timeout)
        return "" if _STOPPED else digest
    except subprocess.TimeoutExpired:
        return ""
    finally:
        _kill(job)
        _RUNNING.discard(job)


def _kill(job: subprocess.Popen[bytes]) -> None:
    """Stop a job and all that it started."""
    if job.poll() is None:
        with suppress(ProcessLookupError):
            os.killpg(job.pid, signal.SIGKILL)
        job.wait()


def stop_all() -> None:
    """Stop the jobs that run in this process, and let no other begin."""
    _STOPPED.add("all")
    for job in list(_RUNNING):
        _kill(job)


def go_on() -> None:
    """Let jobs begin in this process."""
    _STOPPED.clear()


def own_room() -> str | None:
    """Return the folder of this worker of dask, or None if this is no worker.

    What a killed worker has left there goes when the next one starts.
    """
    try:
        from distributed import get_worker

        return str(get_worker().local_directory)
    except (ImportError, ValueError):
        return None


def run_sent(
    command: list[str], session: bytes, name: str, timeout: float | None, limited: str
) -> tuple[str, dict[str, bytes]] | None:
    """Run the bytes of a session, and return the program's digest and the files that it leaves.

    It is None if it took too long.

    Parameters
    ----------
    command : list of str
        The program and its words.
    session : bytes
        The session.
    name : str
        What the file of its output is called.
    timeout : float or None
        The most seconds that it may take.
    limited : str
        What sets its limits, as `limits` returns it.
    """
    with tempfile.TemporaryDirectory(prefix="plantbal-", dir=own_room()) as folder:
        given = Path(folder, "session")
        given.write_bytes(session)
        part = Path(folder, "part")
        part.mkdir()
        digest = run_here(command, str(given), str(part / name), timeout, limited)
        if not digest:
            return None
        found = {path.name: path.read_bytes() for path in part.iterdir()}
        found[STATUS] = " ".join(map(str, ended(str(part)))).encode("ascii")
        return digest, found


def ended(part: str) -> tuple[int, float, float]:
    """Return how a job ended by what it left: the status, when it began, and when it ended.

    Raises
    ------
    OSError, ValueError
        If it left no status.
    """
    with open(f"{part}/{STATUS}", "rb", buffering=0) as file:
        said, end = file.read().split(), os.fstat(file.fileno()).st_mtime
    if len(said) > 1:  # it was sent, and its files are newer
        return int(said[0]), float(said[1]), float(said[2])
    return int(said[0]), os.stat(part).st_mtime, end


def times(part: str) -> tuple[float, float]:
    """Return when a job began whose files were made right then, and when it wrote the last time.

    Raises
    ------
    OSError, ValueError
        If its folder has gone, or is empty.
    """
    return os.stat(part).st_mtime, max(each.stat().st_mtime for each in os.scandir(part))


def is_undone(part: str) -> bool:
    """Say whether the program wasn't done, by the files that a job left."""
    try:
        return ended(part)[0] > 1
    except (OSError, ValueError, IndexError):
        return True
