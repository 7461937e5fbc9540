"""Fifty people at once, by Locust: for a minute here, for ten by `make office-people`."""

from __future__ import annotations

import csv
import os
import subprocess
from collections.abc import Iterator
from pathlib import Path

import doings
import pytest
import services

SECONDS = int(os.environ.get("OFFICE_SECONDS", "60"))
PEOPLE = int(os.environ.get("OFFICE_PEOPLE", "50"))


@pytest.fixture(name="office")
def fixture_office() -> Iterator[services.Service]:
    """A service with a mill and an engineer."""
    office = services.Service('[sign_in]\nsecond = "none"\n')
    try:
        doings.mill(office)
        office.person("engineer", "engineer", "clerk")
        office.start(workers=3)
        yield office
    finally:
        office.end()


def test_many_people(office: services.Service, tmp_path: Path) -> None:
    """Nothing fails: pages come, comments are kept once, and who guesses locks out nobody else."""
    words = [
        "locust",
        "--headless",
        "--only-summary",
        "-f",
        str(Path(__file__).with_name("at_work.py")),
    ]
    words += [
        "--users",
        str(PEOPLE),
        "--spawn-rate",
        "25",
        "--run-time",
        f"{SECONDS}s",
        "--stop-timeout",
        "60",
    ]
    words += ["--host", f"https://localhost:{office.port}", "--csv", str(tmp_path / "seen")]
    here = os.environ | {
        "OFFICE_PASSWORD": office.passwords["engineer"],
        "OFFICE_CERTIFICATE": str(office.room / "cert.pem"),
    }
    done = subprocess.run(
        words, env=here, capture_output=True, text=True, timeout=SECONDS + 240, check=False
    )
    assert done.returncode == 0, done.stdout + done.stderr[-3000:]
    with open(tmp_path / "seen_stats.csv", encoding="utf-8") as file:
        rows = {(row["Type"], row["Name"]): row for row in csv.DictReader(file)}
    whole = rows["", "Aggregated"]
    print(
        f"\n{PEOPLE} people, {SECONDS} s: {whole['Request Count']} requests, half of them within "
        f"{whole['50%']} ms, 95 % within {whole['95%']} ms, {whole['Failure Count']} failed"
    )
    assert int(whole["Failure Count"]) == 0 and int(whole["Request Count"]) > 0, whole
    asks = "SELECT address, kind, count(*) FROM service_event GROUP BY 1, 2 ORDER BY 1, 2"
    seen = [
        line.split("|") for line in office.database.call("psql", "-Atc", asks, office.name).split()
    ]
    kinds = {(address, kind): int(count) for address, kind, count in seen}
    wrong = sum(kinds.get((services.ELSEWHERE, kind), 0) for kind in ("failed", "locked"))
    print(f"{wrong} wrong passwords from elsewhere")
    assert wrong or SECONDS < 10, "who guesses has guessed"
    assert ("127.0.0.1", "locked") not in kinds, "who guesses locks out nobody else"
    assert (services.ELSEWHERE, "signed-in") not in kinds
    kept = int(office.database.call("psql", "-Atc", "SELECT count(*) FROM notes_note", office.name))
    told = rows.get(("POST", "/p/mill/notes/add"), {"Request Count": "0"})["Request Count"]
    assert kept >= int(told), "each comment that was told is kept"
