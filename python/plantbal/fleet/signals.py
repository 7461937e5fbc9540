"""What a night says to other programs: ``night.json``, ``tell.json``, and ``night.prom``.

``tell.json`` has of ``night.json`` what a mail says, and is small however many plants there are: a
credential of systemd has a megabyte at most. ``night.prom`` is a file for the textfile collector of
Prometheus' node exporter. All are renamed into their place, so that a reader finds either the night
before or this one.
"""

from __future__ import annotations

import datetime
import json
from collections.abc import Iterator, Mapping, Sequence
from dataclasses import asdict, dataclass
from itertools import islice
from pathlib import Path

from plantbal.files import write_text
from plantbal.fleet.keep import Times
from plantbal.fleet.limits import LINE_TOLD, PLANTS_TOLD, REASONS_TOLD
from plantbal.fleet.night import Night, Run
from plantbal.fleet.rows import FleetPlant

_ESCAPES = str.maketrans({"\\": "\\\\", '"': '\\"', "\n": "\\n"})


@dataclass(frozen=True, slots=True)
class Signal:
    """A plant's part of a night.

    Attributes
    ----------
    plant : FleetPlant
        What came of it.
    run : Run or None
        Its run, if it has one.
    """

    plant: FleetPlant
    run: Run | None

    @property
    def session_age(self) -> float | None:
        """How many seconds its session had been as it was when it was run, if it is known."""
        if self.run is None or not self.run.session_begun:
            return None
        return max(0.0, self.run.begun - self.run.session_begun)

    def as_dict(self) -> dict[str, object]:
        """Return it as values that JSON has."""
        plant = self.plant
        return {
            "site": plant.site,
            "look": plant.needs,
            "why": list(plant.says()),
            "seconds": self.run.seconds if self.run else None,
            "session_age_seconds": self.session_age,
            "last_day": plant.last_day or None,
            "rows": [asdict(row) for row in plant.rows],
        }


def write_signals(night: Night, signals: Sequence[Signal], times: Times, status: int) -> None:
    """Write what a night says to other programs.

    Parameters
    ----------
    night : Night
        The night.
    signals : sequence of Signal
        The plants.
    times : Times
        When it began and ended.
    status : int
        The status that the fleet ends with.
    """
    found = {
        "night": night.name,
        "begun": times.begun,
        "ended": times.ended,
        "seconds": _seconds(times),
        "status": status,
        "program": str(night.program),
        "program_sha256": night.program_sha256,
        "words": night.words,
        "plants": len(signals),
        "wanting": sum(each.plant.needs for each in signals),
        "sites": [each.as_dict() for each in signals],
    }
    write_text(_path(night, "night.json"), json.dumps(found, indent=1) + "\n")
    short = {**found, "words": [], "sites": list(map(_shortened, _wanting(signals)))}
    write_text(_path(night, "tell.json"), json.dumps(short, indent=1) + "\n")
    write_text(_path(night, "night.prom"), "".join(_metrics(signals, times, status)))


def _wanting(signals: Sequence[Signal]) -> Iterator[Signal]:
    """Give the first plants that want a person, as many as a mail names."""
    return islice((each for each in signals if each.plant.needs), PLANTS_TOLD)


def _shortened(signal: Signal) -> dict[str, object]:
    """Return what a mail says of a plant."""
    why = [said[:LINE_TOLD] for said in islice(signal.plant.says(), REASONS_TOLD + 1)]
    return {"site": signal.plant.site[:LINE_TOLD], "look": True, "why": why}


def _path(night: Night, name: str) -> Path:
    return night.out / name


def _seconds(times: Times) -> float:
    return (_moment(times.ended) - _moment(times.begun)).total_seconds()


def _moment(text: str) -> datetime.datetime:
    return datetime.datetime.fromisoformat(text)


def _metrics(signals: Sequence[Signal], times: Times, status: int) -> Iterator[str]:
    """Give the lines of the metrics."""
    yield from _gauge("plants", "Plants of the last night.", {"": len(signals)})
    wanting = sum(each.plant.needs for each in signals)
    yield from _gauge("plants_wanting", "Plants that need a person.", {"": wanting})
    yield from _gauge("status", "The status that the night ended with.", {"": status})
    yield from _gauge("duration_seconds", "How long the night took.", {"": _seconds(times)})
    end = _moment(times.ended).timestamp()
    yield from _gauge("end_time_seconds", "When the night ended, since 1970.", {"": end})
    look = {each.plant.site: int(each.plant.needs) for each in signals}
    yield from _gauge("plant_look", "Whether a person has to look at a plant.", look)
    runs = {each.plant.site: each.run.seconds for each in signals if each.run}
    yield from _gauge("plant_run_seconds", "How long the program ran for a plant.", runs)
    ages = {each.plant.site: each.session_age for each in signals}
    known = {site: age for site, age in ages.items() if age is not None}
    yield from _gauge("plant_session_age_seconds", "How long a session has been as it is.", known)


def _gauge(name: str, about: str, values: Mapping[str, float]) -> Iterator[str]:
    """Give the lines of a metric: its values by the plants, or one of no plant."""
    whole = f"plantbal_night_{name}"
    yield f"# HELP {whole} {about}\n# TYPE {whole} gauge\n"
    for site, value in values.items():
        label = f'{{site="{site.translate(_ESCAPES)}"}}' if site else ""
        yield f"{whole}{label} {value:.15g}\n"
