"""A night beyond one machine: three workers with disks of their own, one killed in the middle."""

from __future__ import annotations

from pathlib import Path

import pytest
from cluster import faults_of, night


def test_nothing_is_lost_and_nothing_is_twice(tmp_path: Path, program: Path) -> None:
    """The short form of `make cluster-tries`, which has 10,000 plants and 100 books."""
    pytest.importorskip("distributed")
    found = night(tmp_path, program, plants=40, books=1, years=1, pause=0.05)
    assert faults_of(found, 40, 1, tmp_path) == []
