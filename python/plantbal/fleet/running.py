"""A night that is being run: which plants are asked for, run and taken in, side by side."""

# Only what starts the first sessions is loaded here: `_load` loads the rest while these run.

from __future__ import annotations

import gc
from concurrent.futures import ThreadPoolExecutor
from contextlib import closing
from dataclasses import dataclass, field, replace

from plantbal.faults import InputFault
from plantbal.fleet.engines import WHY, Ended, Engine, EngineChoice, Job
from plantbal.fleet.given import Given, SessionTooLarge
from plantbal.fleet.night import KeptPlant, Night, Run
from plantbal.fleet.pack import Packer
from plantbal.fleet.rows import FleetPlant, failed_plant
from plantbal.fleet.sites import Site
from plantbal.fleet.taking import Taker


@dataclass
class Fleet:
    """A night that is being run.

    Attributes
    ----------
    night : Night
        The night.
    sites : list of Site
        The plants.
    given : dict of Site to Given
        The session of each, if it can be read.
    runs : dict of Site to Run
        What is asked of each of these, and how it ended.
    sums : dict of Site to dict of str to str
        The digests of the files of each that is kept.
    taker : Taker
        What takes in what came of a plant.
    plants : dict of str to FleetPlant
        What came of each.
    begun : set of Site
        Those that may have a folder of a run that hasn't ended.
    packer : Packer or None
        What puts the files of plants into the night's pack, if they go there.
    """

    night: Night
    sites: list[Site]
    taker: Taker = field(default_factory=Taker)
    given: dict[Site, Given] = field(default_factory=dict)
    runs: dict[Site, Run] = field(default_factory=dict)
    sums: dict[Site, dict[str, str]] = field(default_factory=dict)
    plants: dict[str, FleetPlant] = field(default_factory=dict)
    begun: set[Site] = field(default_factory=set)
    packer: Packer | None = None

    def __post_init__(self) -> None:
        self._site_of = {site.name: site for site in self.sites}

    def add(self, site: Site) -> None:
        """Add a plant whose session was made just now."""
        self.sites.append(site)
        self._site_of[site.name] = site

    def job(self, site: Site) -> Job:
        """Return the job of a plant."""
        output = self.night.part_of(site) / self.night.output_name
        return Job(site.name, site.path.absolute(), output.absolute(), _size_of(site))

    def ask(self, site: Site) -> bool:
        """Read a plant's session, and say whether it can be read."""
        if site not in self.runs:
            try:
                self.given[site] = Given.read(site.path)
            except SessionTooLarge as fault:
                self.plants[site.name] = failed_plant(site, "TooLarge", str(fault))
                return False
            except InputFault as fault:
                self.plants[site.name] = failed_plant(site, "nosession", str(fault))
                return False
            self.runs[site] = self.night.asked_of(site, self.given[site])
        return True

    def is_done(self, site: Site) -> bool:
        """Take in a plant if it has its output, and say whether it has."""
        kept = self.night.kept(site, self.runs[site]) if self.ask(site) else None
        if kept is not None:
            self.take(site, kept)
        return kept is not None

    def begin(self, job: Job) -> bool:
        """Make a plant ready to be run, and say whether it can be."""
        site = self._site_of[job.site]
        if not self.ask(site):
            return False
        try:
            self.night.begin(site)
        except InputFault as fault:
            self.plants[site.name] = failed_plant(site, "nooutput", str(fault))
            return False
        self.begun.add(site)
        return True

    def came(self, ended: Ended) -> None:
        """Take in a plant whose job ended."""
        site = self._site_of[ended.site]
        kept = None
        if ended.why:
            self.night.drop(site)
            self.plants[site.name] = failed_plant(site, ended.why, WHY[ended.why])
        else:
            try:
                run = self.runs[site]
                if ended.program_sha256:
                    run = replace(run, program_sha256=ended.program_sha256)
                kept = self.night.publish(site, run, ended.came)
            except (OSError, InputFault) as error:
                self.plants[site.name] = failed_plant(
                    site, "nooutput", f"its output is lost: {error}"
                )
        self.begun.discard(site)  # not before: Ctrl-C may come at any time
        if kept is not None:
            self.take(site, kept)

    def take(self, site: Site, kept: KeptPlant) -> None:
        """Take in what is kept of a plant."""
        self.runs[site], self.sums[site] = kept.run, kept.sums

        def taken(plant: FleetPlant) -> None:
            if not plant.is_believed:
                try:
                    self.sums[site] = self.night.refuse(site, self.sums[site])
                except OSError as error:
                    plant.why.append(f"its output stays where it is: {error}")
            if self.packer is not None:
                self.packer.add(site)
            self.plants[site.name] = plant

        self.taker.plant(self.night, site, kept, self.given[site], taken)

    def run(self, engine: Engine, asked: EngineChoice, again: bool) -> None:
        """Run what has no output yet; sessions are read, and outputs taken in, while others run."""
        try:
            # Mostly these wait for the disk.
            with ThreadPoolExecutor(8, "fleet") as pool:
                known = [site for site in self.sites if not again and self.night.has_run(site)]
                whole = zip(known, pool.map(self.is_done, known))
                done = [site for site, is_done in whole if is_done]
                known_now = {*self.plants, *(site.name for site in done)}
                todo = [site for site in self.sites if site.name not in known_now]
                jobs = sorted(map(self.job, todo), key=lambda job: job.size, reverse=True)
                every = engine(asked, jobs, self.begin, [self.job(site) for site in done])
                pool.submit(_load)
                with closing(every):
                    for ended in every:
                        self.came(ended)
                self.taker.finish()
        finally:
            self.taker.stop()
            for site in self.begun:
                self.night.drop(site)

    def in_order(self) -> list[FleetPlant]:
        """Return the plants by name, with the reasons in their rows."""
        return [self.plants[name] for name in sorted(self.plants)]


def _load() -> None:
    """Load what writes the night."""
    from plantbal.fleet import index, keep  # noqa: F401

    index.index_template()
    gc.freeze()  # all this stays, and the garbage collector needn't go through it again


def _size_of(site: Site) -> int:
    """Return how many bytes a session has; none if it has gone."""
    try:
        return site.path.stat().st_size
    except OSError:
        return 0


def lint_plants(taker: Taker, plants: list[FleetPlant], chosen: list[Site]) -> None:
    """Add to plants what lint finds in their sessions; its errors are in their outputs, too."""
    site_of = {site.name: site for site in chosen}
    for plant in plants:
        if plant.rows[0].state in ("nosession", "TooLarge"):
            continue  # it can't be read, or may be a pipe

        def found(said: str, plant: FleetPlant = plant) -> None:
            plant.rows = [replace(row, warnings=said) for row in plant.rows]

        taker.lint(site_of[plant.site], found)
    taker.finish()
