"""The statuses with which every subcommand of plantbal-desk ends; nothing else is one."""

from __future__ import annotations

from enum import IntEnum


class ExitStatus(IntEnum):
    """How a command ended, for a shell, a timer or a monitor.

    LOOK is for the one who signs: the work was done and found something, or what stands in an input
    keeps it from being done. FAILED is for the one who keeps the machine: a file that can't be read
    or written, a program or a library that is missing or didn't end as it should, no room, no
    memory, no answer. USAGE is for the one who typed the words.
    """

    about: str

    def __new__(cls, value: int, about: str) -> ExitStatus:
        made = int.__new__(cls, value)
        made._value_ = value
        made.about = about
        return made

    GOOD = 0, "done, and nobody has to look"
    LOOK = 1, "somebody has to look: something was found, or an input is at fault"
    USAGE = 2, "unknown subcommand or option, or a wrong argument"
    FAILED = 3, "it couldn't be run, or its result couldn't be saved"
    STOPPED = 130, "it was stopped by Ctrl-C, or by SIGTERM"


def looks(wants: object) -> ExitStatus:
    """Return LOOK if there is something to look at, and GOOD otherwise."""
    return ExitStatus.LOOK if wants else ExitStatus.GOOD


def statuses_said() -> str:
    """Return all statuses in a line each, as `--help` and the manual page have them."""
    return "".join(f"  {each.value:<4} {each.about}\n" for each in ExitStatus)
