"""Runs jobs by dask.distributed: on this machine, or on the machines of a cluster."""

from __future__ import annotations

import logging
import os
import sys
import warnings
from collections import Counter, deque
from collections.abc import Callable, Generator, Iterator, Sequence
from contextlib import ExitStack, nullcontext, suppress
from typing import Any

from plantbal.faults import Hindered, InputFault, read_bytes, ToolMissing
from plantbal.fleet import job as calls
from plantbal.fleet.engines import Begin, Ended, EngineChoice, Job
from plantbal.fleet.limits import JOB_MEMORY, OUTPUT_BYTES, SENT_BYTES
from plantbal.limits import SESSION_BYTES

_ANSWERS = 20  # seconds that a scheduler has to answer in


def run(
    asked: EngineChoice, jobs: Sequence[Job], begin: Begin, done: Sequence[Job] = ()
) -> Generator[Ended, None, None]:
    """Run jobs, and give each as it ends: another one is handed in as a place gets free.

    Parameters
    ----------
    asked : EngineChoice
        How they are run. Without a scheduler they run on this machine, by threads of this process.
    jobs : sequence of Job
        What is to be run.
    begin : callable
        Makes a job ready, before it is handed in.
    done : sequence of Job
        What has its output already.

    Raises
    ------
    ToolMissing
        If there is no dask.distributed.
    Fault
        If the scheduler doesn't answer, or has no machine.
    """
    if not jobs:
        return
    dask = _dask()
    calls.go_on()
    with ExitStack() as open_things:
        client = open_things.enter_context(_client(dask, asked, open_things))
        bar = open_things.enter_context(_bar(len(jobs) + len(done), len(done)))
        try:
            for ended in _Cluster(client, dask.as_completed(), asked, jobs, begin).ended():
                bar.update()
                yield ended
        except BaseException:
            calls.stop_all()
            raise


def _dask() -> Any:
    """Return dask.distributed, which isn't typed.

    Raises
    ------
    ToolMissing
        If it isn't there.
    """
    try:
        import cloudpickle

        with warnings.catch_warnings():  # that versions differ a little is in each night's mail
            warnings.simplefilter("ignore")
            import distributed
    except ImportError as error:
        raise ToolMissing("dask.distributed", "python3-distributed") from error
    warnings.filterwarnings("ignore", category=distributed.versions.VersionMismatchWarning)
    # The machines of a cluster needn't have this package: the calls go there as they are.
    cloudpickle.register_pickle_by_value(calls)
    for name in ("distributed", "asyncio"):  # what goes wrong is in the rows of the plants
        logging.getLogger(name).setLevel(logging.CRITICAL)
    return distributed


def programs_of(scheduler: str, program: str) -> Counter[str]:
    """Return the digests of a program on the machines of a cluster, and how many have each.

    Raises
    ------
    Fault
        If the scheduler doesn't answer, or has no machine.
    """
    with _client_of(_dask(), scheduler) as client:
        return Counter(client.run(calls.digest_of, program).values())


def _client(dask: Any, asked: EngineChoice, open_things: ExitStack) -> Any:
    """Return a client of the cluster that is asked for, or of threads of this process."""
    if asked.scheduler is None:
        count = asked.jobs or len(os.sched_getaffinity(0))
        here = dask.LocalCluster(
            n_workers=1, threads_per_worker=count, processes=False, dashboard_address=":0"
        )
        return dask.Client(open_things.enter_context(here))
    return _client_of(dask, asked.scheduler)


def _client_of(dask: Any, scheduler: str) -> Any:
    """Return a client of a cluster.

    Raises
    ------
    Hindered
        If the scheduler doesn't answer, has no machine, or isn't spoken to as it wants.
    """
    said = f"the scheduler {scheduler}"
    try:
        client = dask.Client(scheduler, timeout=_ANSWERS)
    except (TypeError, RuntimeError) as error:  # of tls:// without certificates, mostly
        remedy = "set its certificates, DASK_DISTRIBUTED__COMM__TLS__CA_FILE and the others"
        raise Hindered(f"{said} can't be reached: {error}", remedy=remedy) from error
    except (OSError, ValueError) as error:
        raise Hindered(f"{said} doesn't answer", remedy="start `dask-scheduler` there") from error
    try:
        client.wait_for_workers(1, timeout=_ANSWERS)
    except Exception as error:
        client.close()
        raise Hindered(f"{said} has no machine", remedy="start `dask-worker` on some") from error
    return client


def _in_this_process(name: str, *given: Any) -> Any:
    """Make a call of the module itself, and not of a copy: so that it can be stopped."""
    return getattr(calls, name)(*given)


class _NoBar:
    """A progress bar that shows nothing."""

    def update(self) -> None:
        """Count one more."""


def _bar(count: int, done: int) -> Any:
    """Return a progress bar if there is a terminal, and tqdm."""
    if sys.stderr.isatty():
        with suppress(ImportError):
            from tqdm import tqdm

            return tqdm(total=count, initial=done, unit="plant")
    return nullcontext(_NoBar())


class _Cluster:
    """Jobs that wait, and those that are handed in.

    Parameters
    ----------
    client, running : Any
        The client of the cluster, and what gives its futures as they end.
    asked : EngineChoice
        How jobs are run.
    jobs : sequence of Job
        The jobs.
    begin : callable
        Makes a job ready.
    """

    def __init__(
        self, client: Any, running: Any, asked: EngineChoice, jobs: Sequence[Job], begin: Begin
    ) -> None:
        self._client, self._asked, self._begin = client, asked, begin
        self._waiting, self._tries = deque(jobs), Counter[str]()
        self._job_of: dict[str, Job] = {}
        self._running = running
        # Two a place, so that none is idle until the next one comes.
        self._most = 2 * sum(client.nthreads().values())

    def ended(self) -> Iterator[Ended]:
        """Give each job as it ends, and hand in another one for it."""
        yield from self._hand_in()
        for future in self._running:
            job = self._job_of.pop(future.key)
            ended = self._came(future, job)
            future.release()
            failed = bool(ended.why) or calls.is_undone(str(job.part))
            if failed and self._tries[job.site] < self._asked.retries:
                self._waiting.append(job)
            else:
                yield ended
            yield from self._hand_in()

    def _hand_in(self) -> Iterator[Ended]:
        """Hand in jobs while there are places; give those whose session has gone."""
        while self._waiting and len(self._job_of) < self._most:
            job = self._waiting.popleft()
            if not self._tries[job.site] and not self._begin(job):
                continue
            self._tries[job.site] += 1
            try:
                future = self._submit(job)
            except (OSError, InputFault):
                yield Ended(job.site, "nosession")
                continue
            self._job_of[future.key] = job
            self._running.add(future)

    def _submit(self, job: Job) -> Any:
        """Hand in a job by its paths, or with its bytes, and return its future."""
        command, timeout = self._asked.command, self._asked.timeout
        call: Callable[..., Any] = calls.run_here
        limited = calls.limits(JOB_MEMORY, SENT_BYTES if self._asked.send else OUTPUT_BYTES)
        given: list[object] = [command, str(job.session), str(job.output), timeout, limited]
        if self._asked.send:
            call = calls.run_sent
            given = [
                command,
                read_bytes(job.session, SESSION_BYTES)[1],
                job.output.name,
                timeout,
                limited,
            ]
        if self._asked.scheduler is None:
            call, given = _in_this_process, [call.__name__, *given]
        with warnings.catch_warnings():
            warnings.simplefilter("ignore")  # of large bytes: there are few at a time
            return self._client.submit(call, *given, pure=False)

    def _came(self, future: Any, job: Job) -> Ended:
        """Return how a job ended; files that come back are written."""
        try:
            found = future.result()
        except Exception:  # the machine has gone, or sees no such folder
            return Ended(job.site, "lost")
        if not found:
            return Ended(job.site, "timeout")
        digest, files = found if self._asked.send else (found, {})
        for name, data in files.items():
            (job.part / name).write_bytes(data)
        why = "" if (job.part / calls.STATUS).exists() else "lost"
        return Ended(job.site, why, program_sha256=digest)
