"""Takes in what came of plants, in other processes: one plant's fault is that plant's row.

What a plant's session and output ask for in memory and in time is a stranger's choice. So the fleet
itself reads neither. It hands each plant to a server, a process without threads, which has a reader:
a process that has limits of memory, of file size and of time. A large plant has a reader of its own.
Small ones share one, since to start one takes longer than to read a small plant. A reader that fails
is that plant's fault; the server says how it failed, and the next plant gets another reader::

    fleet  -- Task -->  server  -- Task -->  reader
           <- Answer -          <- Answer -
"""

from __future__ import annotations

import gc
import os
import pickle
import resource
import signal
import socket
import subprocess
import sys
from collections import deque
from collections.abc import Callable
from contextlib import suppress
from dataclasses import dataclass
from enum import Enum
from multiprocessing.connection import Connection
from pathlib import Path
from threading import Condition, Lock, Thread
from typing import Any

from plantbal.faults import Fault, Hindered
from plantbal.fleet.given import Given
from plantbal.fleet.limits import (
    BOOK_BYTES,
    MIB,
    SHARING_BYTES,
    SHARING_PLANTS,
    TAKING_MEMORY,
    TAKING_SECONDS,
    TOLD_BYTES,
)
from plantbal.fleet.night import KeptPlant, Night
from plantbal.fleet.rows import FleetPlant, failed_plant
from plantbal.fleet.sites import Site

_NO_MEMORY = 6
_MANY = 4  # plants that wait for a server when another one begins
_WAITS = 5.0  # seconds for what is being taken in when a fleet is stopped
_MAIN = f"from {__name__} import main; main()"


class End(Enum):
    """How the taking in of a plant ended."""

    DONE = "done"
    MEMORY = "NoMemory"
    TIME = "timeout"
    FAULT = "unreadable"
    SIGNAL = "ended"


@dataclass(frozen=True, slots=True)
class TakingTask:
    """What is to be taken in: what came of a plant, or else what its book or its session says.

    Attributes
    ----------
    site : Site
        The plant.
    night : Night or None
        The night.
    kept : KeptPlant or None
        What is kept of the plant.
    given : Given or None
        Its session before the run.
    is_book : bool
        Whether the sessions are wanted that ask for the open periods of its book; without any of
        these what lint finds in its session is.
    """

    site: Site
    night: Night | None = None
    kept: KeptPlant | None = None
    given: Given | None = None
    is_book: bool = False

    @property
    def is_large(self) -> bool:
        """Whether it gets a reader of its own."""
        if self.is_book:
            return True
        size = self.kept.size if self.kept else 0
        with suppress(OSError):
            size += self.site.path.stat().st_size
        return size > SHARING_BYTES

    def done(self) -> Any:
        """Return what comes of it; this is called in a reader."""
        if self.is_book:
            from plantbal.book.reporting import sessions_asking
            from plantbal.book.store import Store

            return sessions_asking(Store(self.site.path))
        if self.night is None or self.kept is None or self.given is None:
            from plantbal.lint import brief, lint_session

            try:
                return brief(lint_session(self.site.path))
            except Fault:
                return ""  # the plant's row says so
        from plantbal.fleet.gather import gather

        return gather(self.night, self.site, self.kept, self.given)


@dataclass(frozen=True, slots=True)
class TaskResult:
    """What came of a task.

    Attributes
    ----------
    end : End
        How it ended.
    found : Any
        What it found, or what is said of a fault.
    """

    end: End
    found: Any = None


class _Line:
    """A server, and the answers that are waited for.

    Parameters
    ----------
    memory : int
        The most bytes of memory of a reader.
    seconds : float
        The most seconds that it may take for a plant.
    changed : Condition
        What is told of each answer.
    """

    def __init__(self, memory: int, seconds: float, changed: Condition) -> None:
        self._changed, self._handing = changed, Lock()
        self.waiting: deque[Callable[[TaskResult], None]] = deque()
        self.is_lost = False
        here, there = socket.socketpair()
        path = [str(Path(__file__).parents[2]), *filter(None, [os.environ.get("PYTHONPATH")])]
        with there:
            self._server = subprocess.Popen(
                [sys.executable, "-c", _MAIN, str(there.fileno()), str(memory), str(seconds)],
                stdin=subprocess.DEVNULL,
                pass_fds=[there.fileno()],
                env={**os.environ, "PYTHONPATH": os.pathsep.join(path)},
                start_new_session=True,
            )
        self._to = Connection(here.detach())
        self._listener = Thread(target=self._listen, name="taking", daemon=True)
        self._listener.start()

    def hand_in(self, task: TakingTask, answered: Callable[[TaskResult], None]) -> None:
        """Hand in a task, and remember what becomes of its answer: answers come in this order."""
        with self._handing:
            self.waiting.append(answered)
            with suppress(OSError):  # the listener says that it has ended
                self._to.send(task)

    def _listen(self) -> None:
        """Give each answer to whoever waits for it."""
        with suppress(EOFError, OSError):
            while True:
                answer: TaskResult = self._to.recv()
                self.waiting[0](answer)
                with self._changed:
                    self.waiting.popleft()
                    self._changed.notify_all()
        with self._changed:
            self.is_lost = True
            self._changed.notify_all()

    def stop(self) -> None:
        """Stop the server and its reader."""
        with suppress(ProcessLookupError):
            os.killpg(self._server.pid, signal.SIGKILL)
        self._server.wait()
        self._listener.join()  # it has read the end of what the server said
        self._to.close()


class Taker:
    """Servers that take in plants: the first one begins with the block, and all end with it.

    Plants are handed in and come back while others are run; another server begins if many wait.

    Parameters
    ----------
    memory : int
        The most bytes of memory of a reader.
    seconds : float
        The most seconds that it may take for a plant.
    count : int, optional
        The most servers; without it, as many as there are processors.
    """

    def __init__(
        self,
        memory: int = TAKING_MEMORY,
        seconds: float = TAKING_SECONDS,
        count: int | None = None,
    ) -> None:
        self._memory, self._seconds = memory, seconds
        self._count = count or len(os.sched_getaffinity(0))
        self._changed = Condition()
        self._lines: list[_Line] = []

    def __enter__(self) -> Taker:
        self._begin()
        return self

    def __exit__(self, *_: object) -> None:
        for line in self._lines:
            line.stop()
        self._lines.clear()

    def plant(
        self,
        night: Night,
        site: Site,
        kept: KeptPlant,
        given: Given,
        taken: Callable[[FleetPlant], None],
    ) -> None:
        """Hand in what came of a plant, and give its rows to `taken` once they are there."""

        def answered(answer: TaskResult) -> None:
            if answer.end is End.DONE:
                taken(answer.found)
            else:
                said = self._said(answer, "its output")
                taken(failed_plant(site, answer.end.value, said, kept.run))

        self._hand_in(TakingTask(site, night, kept, given), answered)

    def book(
        self, site: Site, found: Callable[[dict[str, str]], None], wrong: Callable[[str], None]
    ) -> None:
        """Hand in a book; give the sessions that ask for its open periods, or why there are none."""

        def answered(answer: TaskResult) -> None:
            if answer.end is End.DONE:
                found(answer.found)
            elif answer.end is End.FAULT:
                wrong(answer.found)
            else:
                wrong(self._said(answer, "its book"))

        self._hand_in(TakingTask(site, is_book=True), answered)

    def lint(self, site: Site, found: Callable[[str], None]) -> None:
        """Hand in a session, and give what lint finds in it to `found`, in one line."""

        def answered(answer: TaskResult) -> None:
            if answer.end is End.DONE:
                found(answer.found)
            else:
                found(f"lint says nothing: {self._said(answer, 'its session')}")

        self._hand_in(TakingTask(site), answered)

    def finish(self, seconds: float | None = None) -> None:
        """Wait until all that was handed in has come back, or for some seconds.

        Raises
        ------
        Fault
            If a server has ended before that.
        """
        with self._changed:
            self._changed.wait_for(lambda: self._lost() or not self._waits(), seconds)
            if self._lost():
                what = "the process that takes in what came of the plants has ended"
                raise Hindered(what, remedy="run the fleet again: no session runs twice")

    def stop(self) -> None:
        """Wait for a moment, since the fleet is stopped."""
        with suppress(Fault):
            self.finish(_WAITS)

    def _lost(self) -> bool:
        return any(line.is_lost and line.waiting for line in self._lines)

    def _waits(self) -> bool:
        return any(line.waiting for line in self._lines)

    def _begin(self) -> _Line:
        """Begin another server."""
        self._lines.append(_Line(self._memory, self._seconds, self._changed))
        return self._lines[-1]

    def _hand_in(self, task: TakingTask, answered: Callable[[TaskResult], None]) -> None:
        """Hand in a task where the fewest wait."""
        with self._changed:
            line = min(self._lines, key=lambda line: len(line.waiting))
            if len(line.waiting) >= _MANY and len(self._lines) < self._count:
                line = self._begin()
        line.hand_in(task, answered)  # this may wait for the server, and so holds nobody else up

    def _said(self, answer: TaskResult, what: str) -> str:
        """Return why something couldn't be taken in."""
        if answer.end is End.MEMORY:
            return f"{what} takes more than {self._memory:,} bytes of memory to read"
        if answer.end is End.TIME:
            return f"{what} takes more than {self._seconds:g} s to read"
        return f"{what} can't be read: {answer.found}"


# ---- the server


class Server:
    """Answers tasks by readers.

    Parameters
    ----------
    memory : int
        The most bytes of memory of a reader.
    seconds : float
        The most seconds that it may take for a plant.
    """

    def __init__(self, memory: int, seconds: float) -> None:
        self._memory, self._seconds = memory, seconds
        self._reader = 0
        self._to: Connection | None = None
        self._count = 0

    def serve(self, fleet: Connection) -> None:
        """Answer tasks until the fleet has closed its end."""
        with suppress(EOFError, OSError):
            while True:
                fleet.send_bytes(self.answer(fleet.recv()))

    def answer(self, task: TakingTask) -> bytes:
        """Return the answer to a task, as it is sent."""
        if task.is_large or self._count == SHARING_PLANTS:
            self.stop()
        reader = self._begun()
        try:
            reader.send(task)
            if not reader.poll(self._seconds):
                return self._failed(TaskResult(End.TIME))
            most = BOOK_BYTES if task.is_book else TOLD_BYTES
            said = reader.recv_bytes(most)
        except (EOFError, ConnectionError):
            return self._failed(None)
        except OSError:
            what = f"what was found in it has more than {most:,} bytes"
            return self._failed(TaskResult(End.FAULT, what))
        self._count += 1
        if task.is_large:
            self.stop()
        return said

    def _begun(self) -> Connection:
        """Return the end of a reader; one is made if there is none."""
        if self._to is None:
            here, there = socket.socketpair()
            self._reader = os.fork()
            if not self._reader:
                here.close()
                _read(Connection(there.detach()), self._memory)
            there.close()
            self._to, self._count = Connection(here.detach()), 0
        return self._to

    def _failed(self, answer: TaskResult | None) -> bytes:
        """Return why a reader failed, which is stopped; without a reason it is in its status."""
        status = self.stop()
        if answer is None and status == _NO_MEMORY:
            answer = TaskResult(End.MEMORY)
        return pickle.dumps(answer or TaskResult(End.SIGNAL, f"its process ended with {status}"))

    def stop(self) -> int:
        """Stop the reader, and return the status that it ended with."""
        if self._to is None:
            return 0
        self._to.close()
        self._to = None
        with suppress(ProcessLookupError):
            if not os.waitid(os.P_PID, self._reader, os.WEXITED | os.WNOHANG | os.WNOWAIT):
                os.kill(self._reader, signal.SIGKILL)
        return os.waitstatus_to_exitcode(os.waitpid(self._reader, 0)[1])


def _read(server: Connection, memory: int) -> None:
    """Be a reader: take in plants until the server has closed its end, and end the process."""
    for which, most in (
        (resource.RLIMIT_AS, memory),
        (resource.RLIMIT_FSIZE, MIB),
        (resource.RLIMIT_CORE, 0),
    ):
        _, hard = resource.getrlimit(which)
        most = most if hard == resource.RLIM_INFINITY else min(most, hard)
        resource.setrlimit(which, (most, most))
    try:
        while True:
            server.send(_answer(server.recv()))
    except MemoryError:
        os._exit(_NO_MEMORY)
    except (EOFError, OSError):
        os._exit(0)


def _answer(task: TakingTask) -> TaskResult:
    """Return what comes of a task: a fault too, of whatever kind, is one of its plant."""
    try:
        return TaskResult(End.DONE, task.done())
    except MemoryError:
        raise
    except Fault as fault:
        said = str(fault)
    except Exception as error:
        said = f"{type(error).__name__}: {error}"
    return TaskResult(End.FAULT, "".join(c if c.isprintable() else ascii(c)[1:-1] for c in said))


def main() -> None:
    """Be the server, by the words of this process: the socket and the limits."""
    from plantbal import explain  # noqa: F401
    from plantbal.fleet import gather  # noqa: F401
    from plantbal.schema import schema

    schema()
    gc.freeze()  # all this stays, and no reader's garbage collector need go through it
    signal.signal(signal.SIGINT, signal.SIG_IGN)  # the fleet stops it
    fleet, memory, seconds = sys.argv[1:]
    Server(int(memory), float(seconds)).serve(Connection(int(fleet)))
