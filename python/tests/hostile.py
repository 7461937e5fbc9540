"""A night of forty plants, of which a dozen try to take the night of the others.

`python3 python/tests/hostile.py FOLDER` makes the folder of such a night in its full size: a session
of 64 MiB of one-letter rows, and one that asks 12,000 times for its report.
"""

from __future__ import annotations

import os
import sys
from dataclasses import dataclass, field
from pathlib import Path

GOOD = """unit,U
stream,FEED,env,U,metered,1
stream,PRODUCT,U,env,metered,1
period,may,2024-05-01,2024-05-01
reading,f,FEED,2024-05-01,100000000,1999999999999
reading,p,PRODUCT,2024-05-01,100000000,1999999999999
report,may
"""
# Names that a shell, a spreadsheet, a page or the fleet itself would take for something of its own.
NAMES = [
    "-rf",
    "--help",
    "=cmd|' calc'!A0",
    "@SUM(1)",
    "$(touch owned)",
    "`id`;{}{.}",
    '"quoted" it\'s',
    "<script>alert(1)<script>",
    "Dürnkrut \u202e",
    "a\\b *?",
]
HANGS = "hangs"


@dataclass
class HostileNight:
    """A folder of sessions, and the state that each plant's row is to have.

    Attributes
    ----------
    folder : Path
        The folder.
    states : dict of str to str
        The state by the name of the plant; that of folders that aren't sessions is ``nosession``.
    """

    folder: Path
    states: dict[str, str] = field(default_factory=dict)

    def put(self, name: str, data: bytes, state: str = "converged") -> Path:
        """Put a session into the folder, with the state that its row is to have."""
        path = self.folder / f"{name}.csv"
        path.write_bytes(data)
        self.states[name if name.isprintable() else ascii(name)[1:-1]] = state
        return path


def hostile_night(folder: Path, *, letters: int, reports: int, plants: int = 40) -> HostileNight:
    """Make the folder of a night in which each kind of hostile plant is there once.

    Parameters
    ----------
    folder : Path
        The folder; it isn't there yet.
    letters : int
        How many bytes the session of one-letter rows has.
    reports : int
        How many rows ask for the same report.
    plants : int
        How many rows the night is to have.
    """
    folder.mkdir()
    night = HostileNight(folder)
    os.truncate(night.put("sparse", b"", "TooLarge"), 20 << 30)
    night.put("letters", b"x\n" * (letters // 2), "none")
    night.put("reports", GOOD.encode() + b"report,may\n" * reports)
    night.put(HANGS, GOOD.encode(), "timeout")
    for name in NAMES:
        night.put(name, GOOD.encode(), "converged" if name.isprintable() else "nosession")
    night.put("line\nfeed", GOOD.encode(), "nosession")
    night.put("latest", GOOD.encode(), "nosession")
    os.mkfifo(folder / "pipe.csv")
    (folder / "zero.csv").symlink_to("/dev/zero")
    (folder / "gone.csv").symlink_to("nowhere")
    (folder / "folder.csv").mkdir()
    night.states |= dict.fromkeys(("pipe", "zero", "gone", "folder", "shut"), "nosession")
    (folder / "shut").mkdir(mode=0)
    inner = folder / "loops"
    for number in range(20):
        inner.mkdir()
        for name in ("a", "b", "c"):
            (inner / name).symlink_to("..")
        inner /= f"f{number}"
    for number in range(plants - len(night.states)):
        night.put(f"plant {number:02}", GOOD.encode())
    return night


def hanging(program: Path, folder: Path) -> Path:
    """Return a program that never ends for the session that hangs, and else is the program."""
    made = folder / "program"
    case = f"case $(readlink /proc/self/fd/0) in */{HANGS}.csv) exec sleep 600;; esac"
    made.write_text(f'#!/bin/sh\n{case}\nexec "{program}" "$@"\n', encoding="utf-8")
    made.chmod(0o755)
    return made


if __name__ == "__main__":
    made = hostile_night(Path(sys.argv[1]), letters=64 << 20, reports=12_000)
    print(f"{len(made.states)} plants in {made.folder}")
