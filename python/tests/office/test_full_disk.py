"""A book on a disk that is full: a workbook isn't booked in part, and goes on once there is room."""

from __future__ import annotations

import os
import subprocess
import sys
from pathlib import Path

import pytest


def may_mount() -> bool:
    """Say whether a disk can be mounted that nobody else sees."""
    if os.geteuid() != 0:
        return False
    try:
        words = ["unshare", "--mount", "sh", "-c", "mount -t tmpfs -o size=64k none /mnt"]
        return subprocess.run(words, check=False, capture_output=True).returncode == 0
    except OSError:
        return False


@pytest.mark.skipif(not may_mount(), reason="only root can mount a small disk")
def test_full_disk(tmp_path: Path) -> None:
    """With too little room, whatever it is enough for, each file of the book stays as it was."""
    script = Path(__file__).with_name("full_disk.py")
    words = ["unshare", "--mount", sys.executable, str(script), str(tmp_path)]
    done = subprocess.run(words, check=False, capture_output=True, text=True, timeout=120)
    assert done.returncode == 0, done.stdout + done.stderr
