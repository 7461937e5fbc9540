"""Measures the gate, and says how many of its tasks the machine can run side by side.

    .ci/times lanes                 prints that number: the processors, but no more than free memory holds
    .ci/times watch FILE            until it is ended, writes to FILE what the processes of the script that started it take;
                                    from a signal USR1 on, these are the repository's own checks
    .ci/times table FILE            prints what FILE holds as tables
    .ci/times limit SECONDS LANES   ends with 1 if `rt ci` took longer than it may in that many lanes

The limit stands in docs/times.txt. What the kit starts is told apart by the command lines of its processes `rattle`; what isn't
known by them counts as other.
"""

from __future__ import annotations

import json
import os
import pathlib
import re
import signal
import sys
import time
from typing import Any

from gate.checkout import TOP, numbers_in

BYTES_A_LANE = 3_500_000_000
TICKS = os.sysconf("SC_CLK_TCK")
KINDS = ("proofs", "tests", "edits", "other", "scripts")


def number_in(path: str, pattern: str) -> int | None:
    """The first number of the pattern in a file, or None."""
    try:
        found = re.search(pattern, pathlib.Path(path).read_text())
    except (OSError, UnicodeDecodeError):
        return None
    return int(found[1]) if found else None


def lanes() -> int:
    """The processors that this process may use, but no more than free memory holds, and at least 1."""
    processors = len(os.sched_getaffinity(0))
    quotas = (
        ("/sys/fs/cgroup/cpu.max", "/sys/fs/cgroup/cpu.max", r"\d+ (\d+)"),
        ("/sys/fs/cgroup/cpu/cpu.cfs_quota_us", "/sys/fs/cgroup/cpu/cpu.cfs_period_us", r"^(\d+)"),
    )
    for quota_file, period_file, pattern in quotas:
        quota, period = number_in(quota_file, r"^(\d+)"), number_in(period_file, pattern)
        if quota and period:
            processors = min(processors, quota // period)
    free = [1024 * (number_in("/proc/meminfo", r"MemAvailable: +(\d+)") or 0)]
    groups = (
        ("/sys/fs/cgroup/memory.max", "/sys/fs/cgroup/memory.stat", r"(?m)^anon (\d+)"),
        (
            "/sys/fs/cgroup/memory/memory.limit_in_bytes",
            "/sys/fs/cgroup/memory/memory.stat",
            r"(?m)^total_rss (\d+)",
        ),
    )
    for limit_file, held_file, pattern in groups:
        limit, held = number_in(limit_file, r"^(\d+)"), number_in(held_file, pattern)
        if limit is not None and held is not None:
            free.append(limit - held)
    return max(1, min(processors, min(free) // BYTES_A_LANE))


class Process:
    """One process as /proc shows it: its parent, its start, and the processor time of itself and of its ended children."""

    def __init__(self, pid: int) -> None:
        text = pathlib.Path(f"/proc/{pid}/stat").read_text(errors="replace")
        fields = text[text.rindex(")") + 2 :].split()
        self.pid, self.parent, self.start = pid, int(fields[1]), int(fields[19])
        self.ended_children = int(fields[13]) + int(fields[14])
        self.taken = int(fields[11]) + int(fields[12]) + self.ended_children

    def task(self) -> tuple[str, str] | None:
        """The crate and the kind of what a process `rattle` does; None for any other process."""
        try:
            words = (
                pathlib.Path(f"/proc/{self.pid}/cmdline")
                .read_bytes()
                .decode(errors="replace")
                .split("\0")
            )
        except OSError:
            return None
        if os.path.basename(words[0]) != "rattle":
            return None
        crate = words[words.index("--crate-name") + 1] if "--crate-name" in words[:-1] else "?"
        if crate == "?" or "--crate-checked" in words or words[1] not in ("build", "check"):
            return crate, "other"
        if "--test" in words:
            return crate, "tests"
        try:
            is_edit = os.path.basename(os.readlink(f"/proc/{self.pid}/cwd")).startswith("rt-edit-")
        except OSError:
            return None
        return crate, "edits" if is_edit else "proofs"


def processes() -> dict[int, list[Process]]:
    """All processes, by their parents."""
    found: dict[int, list[Process]] = {}
    for name in os.listdir("/proc"):
        if name.isdigit():
            try:
                process = Process(int(name))
            except (OSError, ValueError, IndexError):
                continue
            found.setdefault(process.parent, []).append(process)
    return found


class Watch:
    """What the processes below a script took, task by task."""

    def __init__(self, parent: int) -> None:
        self.parent, self.is_scripts, self.last = parent, False, time.monotonic()
        self.tasks: dict[tuple[int, int], tuple[str, str]] = {}
        self.taken: dict[tuple[int, int], int] = {}
        self.seen: dict[tuple[str, str], list[float]] = {}
        self.wall = dict.fromkeys(KINDS, 0.0)
        self.total = {"rt ci": 0, "scripts": 0}
        self.walls = {"rt ci": 0.0, "scripts": 0.0}

    def subtree(self, below: dict[int, list[Process]], process: Process) -> int:
        return process.taken + sum(self.subtree(below, it) for it in below.get(process.pid, []))

    def visit(
        self, below: dict[int, list[Process]], process: Process, live: set[tuple[str, str]]
    ) -> None:
        """Books the topmost processes `rattle` at and below this one."""
        key = process.pid, process.start
        task = self.tasks.get(key) or process.task()
        if task is None:
            for it in below.get(process.pid, []):
                self.visit(below, it, live)
            return
        self.tasks[key] = task
        self.taken[key] = max(self.taken.get(key, 0), self.subtree(below, process))
        live.add(task)

    def look(self) -> None:
        """Takes one sample."""
        below, now = processes(), time.monotonic()
        passed, self.last = now - self.last, now
        script = Process(self.parent)
        others = [it for it in below.get(self.parent, []) if it.pid != os.getpid()]
        whole = script.ended_children + sum(self.subtree(below, it) for it in others)
        live: set[tuple[str, str]] = set()
        if self.is_scripts:
            self.total["scripts"] = max(self.total["scripts"], whole - self.total["rt ci"])
            self.walls["scripts"] += passed
            self.wall["scripts"] += passed
            return
        self.total["rt ci"] = max(self.total["rt ci"], whole)
        self.walls["rt ci"] += passed
        for it in others:
            self.visit(below, it, live)
        for task in live:
            self.seen.setdefault(task, [now - passed, now])[1] = now
        for kind in {kind for _, kind in live} or {"other"}:
            self.wall[kind] += passed

    def state(self) -> dict[str, Any]:
        """All of it, in seconds."""
        tasks: dict[tuple[str, str], float] = {}
        for key, task in self.tasks.items():
            tasks[task] = tasks.get(task, 0.0) + self.taken[key] / TICKS
        rows = [
            [crate, kind, taken, self.seen[crate, kind][1] - self.seen[crate, kind][0]]
            for (crate, kind), taken in tasks.items()
            if (crate, kind) in self.seen
        ]
        return {
            "tasks": rows,
            "wall": self.wall,
            "walls": self.walls,
            "total": {name: ticks / TICKS for name, ticks in self.total.items()},
        }


def watch(path: str) -> None:
    """Samples the processes of the parent until it ends or a signal comes."""
    ending: list[int] = []
    seen = Watch(os.getppid())

    def turn(*_: object) -> None:
        seen.is_scripts = True

    signal.signal(signal.SIGUSR1, turn)
    signal.signal(signal.SIGTERM, lambda *_: ending.append(1))
    while os.getppid() == seen.parent:
        is_last = bool(ending)
        try:
            seen.look()
            part = f"{path}.part"
            pathlib.Path(part).write_text(json.dumps(seen.state()))
            os.replace(part, path)
        except (OSError, ValueError, KeyError, RecursionError):
            pass
        if is_last:
            return
        for _ in range(10):
            if not ending:
                time.sleep(0.1)


def row(name: str, *seconds: float) -> str:
    return f"  {name:<28}" + "".join(f"{it / 60:>12.1f}" for it in seconds)


def table(path: str) -> None:
    """Prints what a watch wrote."""
    try:
        state = json.loads(pathlib.Path(path).read_text())
    except (OSError, ValueError):
        print("times: not measured here")
        return
    tasks, wall, total = state["tasks"], state["wall"], state["total"]
    taken = {kind: sum(it[2] for it in tasks if it[1] == kind) for kind in KINDS}
    taken["other"] = max(total["rt ci"] - sum(taken[kind] for kind in KINDS[:3]), taken["other"])
    taken["scripts"] = total["scripts"]
    print("times, in minutes" + f'{"processor":>25}{"wall":>12}')
    names = {"other": "other of rt ci", "scripts": "the repository's own checks"}
    for kind in KINDS:
        print(row(names.get(kind, kind), taken[kind], wall[kind]))
    print(row("all", sum(taken.values()), sum(state["walls"].values())))
    print("the longest tasks")
    for crate, kind, seconds, passed in sorted(tasks, key=lambda it: float(-it[3]))[:10]:
        print(row(f"{crate}, {kind}", seconds, passed))
    print("by crate" + f'{"proofs":>34}{"tests":>12}{"edits":>12}{"all":>12}')
    crates: dict[str, dict[str, float]] = {}
    for crate, kind, seconds, _ in tasks:
        crates.setdefault(crate, dict.fromkeys(KINDS, 0.0))[kind] += seconds
    for crate, parts in sorted(crates.items(), key=lambda it: -sum(it[1].values())):
        print(row(crate, parts["proofs"], parts["tests"], parts["edits"], sum(parts.values())))


def limit(seconds: float, used: int) -> int:
    """Says how long `rt ci` took beside what it may take, and returns the exit status."""
    limits = numbers_in((TOP / "docs/times.txt").read_text())
    most = limits["limit_processor_minutes"] / used + limits["limit_more_minutes"]
    is_over = seconds > 60 * most
    print(
        f'gate: rt ci took {seconds / 60:.1f} minutes in {used} lane{"s" if used > 1 else ""}, and may take {most:.0f}{": TOO LONG" if is_over else ""}'
    )
    return 1 if is_over else 0


def main(words: list[str]) -> int:
    """Do what the words ask for, and return the status."""
    if words == ["lanes"]:
        print(lanes())
    elif len(words) == 2 and words[0] == "watch":
        watch(words[1])
    elif len(words) == 2 and words[0] == "table":
        table(words[1])
    elif len(words) == 3 and words[0] == "limit":
        return limit(
            float(words[1]), int(words[2]) if words[2].isdigit() and int(words[2]) else lanes()
        )
    else:
        sys.exit(__doc__)
    return 0
