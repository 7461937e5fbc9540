"""What an engine gets, and what it gives back as sessions end."""

from __future__ import annotations

from collections.abc import Callable, Generator, Sequence
from dataclasses import dataclass
from pathlib import Path
from typing import Protocol


@dataclass(frozen=True, slots=True)
class Job:
    """A session to run.

    Attributes
    ----------
    site : str
        The plant.
    session : Path
        The file of its session.
    output : Path
        The file of its output, in a folder of its own, which is there once the job is ready.
    size : int
        How many bytes the session has.
    """

    site: str
    session: Path
    output: Path
    size: int = 0

    @property
    def part(self) -> Path:
        """The folder that its files go to."""
        return self.output.parent


@dataclass(frozen=True, slots=True)
class EngineChoice:
    """How jobs are run.

    Attributes
    ----------
    command : list of str
        The program and its words.
    log : Path
        Where GNU parallel keeps its log of jobs.
    jobs : int or None
        How many run at once; None is as many as there are processors.
    timeout : float or None
        The most seconds that one may take.
    retries : int
        How often one that failed is tried in all.
    scheduler : str or None
        The scheduler of a cluster of dask.
    send : bool
        Whether bytes go to the cluster's machines, which see no folder of this one.
    lock : int or None
        An open file that says, as long as a process has it, that this fleet runs.
    """

    command: list[str]
    log: Path
    jobs: int | None = None
    timeout: float | None = None
    retries: int = 1
    scheduler: str | None = None
    send: bool = False
    lock: int | None = None


@dataclass(frozen=True, slots=True)
class Came:
    """How the program ended.

    Attributes
    ----------
    status : int or None
        Its status; None if it didn't run.
    begun : float
        When it began, in seconds since 1970.
    seconds : float
        How long it took.
    """

    status: int | None
    begun: float
    seconds: float


@dataclass(frozen=True, slots=True)
class Ended:
    """A job that ended, and why it has no status, if it has none.

    Attributes
    ----------
    site : str
        The plant.
    why : str
        Why the program didn't end by itself, such as ``timeout``; empty if it did.
    came : Came or None
        How it ended by itself; None if the files that it left say so.
    program_sha256 : str
        The digest of the program that ran it, if another machine did.
    """

    site: str
    why: str = ""
    came: Came | None = None
    program_sha256: str = ""


# What the words of `Ended.why` mean.
WHY = {
    "timeout": "it was stopped by the time limit; --timeout gives it more seconds",
    "lost": "the machine that ran it has gone, or doesn't see its folder; --send sends the bytes",
    "stopped": "it was stopped before it had ended",
    "nosession": "its session has gone",
}

# Makes a job ready right before it is handed out, and says whether it can be run.
Begin = Callable[[Job], bool]


class Engine(Protocol):
    """What runs jobs, and gives each as it ends.

    The jobs of `done` have their outputs, and aren't run: a progress bar counts them, too.
    """

    def __call__(
        self, asked: EngineChoice, jobs: Sequence[Job], begin: Begin, done: Sequence[Job] = ()
    ) -> Generator[Ended, None, None]:
        """Run the jobs."""
