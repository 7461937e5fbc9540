"""As much as a book and a session hold, and one more."""

from __future__ import annotations

import collections
import datetime

from gate.running import Ended, Status
from gate.trials.hostile.scene import Trial, difference, ended


def days_from(count: int) -> list[str]:
    """Return that many days, from the first of 2024 on."""
    first = datetime.date(2024, 1, 1)
    return [(first + datetime.timedelta(day)).isoformat() for day in range(count)]


def kinds_differ(found: Ended, status: Status, wanted: dict[bytes, int]) -> list[str | None]:
    """Say whether a run ended otherwise, or its output has other numbers of rows of each kind."""
    kinds = collections.Counter(row.split(b",", 1)[0] for row in found.output.splitlines())
    if (found.status, kinds, found.error) == (status, wanted, b""):
        return []
    return [f"the report: status {found.status:d}, {dict(kinds)!r}, {found.error!r}"]


def facts(trial: Trial) -> None:
    """Try 200,000 readings of 2,000 streams between the environment and 1,000 units, and one more.

    Each is of the greatest amount, with variances of 1 and of 10^19 in turn.
    """
    days = days_from(100)
    streams = [(kind + str(unit), unit) for unit in range(1, 1001) for kind in "ab"]
    rows = [f"unit,u{unit}" for unit in range(1, 1001)]
    rows += [
        f"stream,{stream},env,u{unit},metered,1"
        if stream[0] == "a"
        else f"stream,{stream},u{unit},env,metered,10000000000000000000"
        for stream, unit in streams
    ]
    rows.append(f"period,p,{days[0]},{days[-1]}")
    rows += [
        f"reading,{stream}.{number},{stream},{day},10000000000000,0"
        for stream, _ in streams
        for number, day in enumerate(days)
    ]
    words = ["run", "--sweeps", "50"]
    found = trial.run(words, "\n".join([*rows, "report,p", ""]).encode())
    wanted = {b"report": 1, b"node": 1001, b"stream": 2000, b"solved": 1, b"end": 1}
    faults = kinds_differ(found, Status.DONE, wanted)
    check = trial.run(["check"], found.output)
    faults.append(difference("its check", check, ended(Status.DONE, b"yes,p,0\n")))
    one_more = trial.run(["run"], "\n".join([*rows, "reading,r,a1,2024-06-01,1,0", ""]).encode())
    refused = f"refused,{len(rows) + 1},13,full\n".encode()
    faults.append(difference("one reading more", one_more, ended(Status.DONE_REFUSED, refused)))
    trial.report(
        "200,000 readings, the most that a book holds, their report and its check, and one reading "
        "more",
        faults,
    )


def streams(trial: Trial) -> None:
    """Try 4,000 metered streams of version 2 with 50 readings each; and one more, before these."""
    days = days_from(50)
    named = [(kind + str(unit), unit) for unit in range(1, 1001) for kind in "abcd"]
    plant = ["version,2", "boundary,p", *(f"unit,u{unit}" for unit in range(1, 1001))]
    plant += [
        f"stream,{stream},{f'p,u{unit}' if stream[0] in 'ac' else f'u{unit},p'},metered,1"
        for stream, unit in named
    ]
    rows = [*plant, "stream,e,p,u1,plain,0", f"period,q,{days[0]},{days[-1]}"]
    rows += [
        f"reading,{stream}.{at},{stream},{day},{(at * 7 + place) % 997 * 1000},1000000"
        for place, (stream, _) in enumerate(named)
        for at, day in enumerate(days)
    ]
    words = ["run", "--sweeps", "20"]
    found = trial.run(words, "\n".join([*rows, "report,q", ""]).encode())
    wanted = {b"refused": 1, b"report": 1, b"node": 1001, b"stream": 4000, b"solved": 1, b"end": 1}
    faults = kinds_differ(found, Status.DONE_REFUSED, wanted)
    if not found.output.startswith(f"refused,{len(plant) + 1},13,full\n".encode()):
        faults.append(f"one stream more: {found.output[:40]!r}")
    check = trial.run(["check"], found.output)
    faults.append(difference("its check", check, ended(Status.DONE, b"yes,q,0\n")))
    trial.report(
        "4,000 streams, the most that a session has, their report and its check, and one stream more",
        faults,
    )
