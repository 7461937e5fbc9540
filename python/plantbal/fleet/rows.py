"""What is said of a plant: a row for each last report, and why a person has to look."""

from __future__ import annotations

from collections.abc import Iterator, Sequence
from dataclasses import dataclass, field, fields, replace

from plantbal.fleet.night import Run
from plantbal.fleet.sites import Site


@dataclass(frozen=True, slots=True)
class FleetRow:
    """A row of the table.

    Attributes
    ----------
    site, period, days : str
        The plant, what the report is of (``may``, of a window ``may to june``, of a balance
        ``cu in may``), and its first and last day.
    state : str
        ``converged``, ``unconverged``, ``over``, ``none``, ``unreadable``, ``refused`` (the output
        doesn't agree with itself); ``yes`` or ``no`` of a
        check; the name of a status of 2 to 6, ``ended`` of any other, ``timeout``, ``lost``,
        ``nosession``, ``nooutput``.
    dof, statistic, critical, verdict : str
        The global test: degrees of freedom, the least value that the statistic may have, the
        critical value and the verdict.
    p : str
        The probability of a statistic as great as that if there is no gross error.
    suspects : str
        The streams that were taken and, if the global test rejects, those whose own test does.
    refused : str
        How many rows of the session are refused.
    first_refusal : str
        Why the first one is, in a sentence.
    status : str
        The status of the program.
    seconds : str
        How long it took.
    warnings : str
        What lint finds in the session, if it was asked.
    look : str
        Why a person has to look, the reasons of the plant before those of the period; empty if
        nobody has to.
    """

    site: str
    period: str = ""
    days: str = ""
    state: str = ""
    dof: str = ""
    statistic: str = ""
    critical: str = ""
    p: str = ""
    verdict: str = ""
    suspects: str = ""
    refused: str = ""
    first_refusal: str = ""
    status: str = ""
    seconds: str = ""
    warnings: str = ""
    look: str = ""

    def values(self) -> list[str]:
        """Return its fields in order."""
        return [str(getattr(self, name)) for name in HEADS]


# What a plant's state is if it wasn't the session that kept it from being run.
_NOT_RUN = frozenset(["ended", "lost", "nooutput", "WriteFault"])
HEADS = [each.name for each in fields(FleetRow)]


@dataclass(slots=True)
class FleetPlant:
    """A plant: its rows, and why a person has to look at it as a whole.

    Attributes
    ----------
    site : str
        Its name.
    rows : list of FleetRow
        Its rows, one at least.
    why : list of str
        Sentences on the plant.
    why_of : dict of str to list of str
        Sentences on its periods.
    is_believed : bool
        Whether its output agrees with itself; otherwise it isn't kept under its name.
    has_critical : bool
        Whether its session has a critical value of the global test, if a report lacks its own.
    last_day : str
        The last day of its facts, if it was looked for.
    """

    site: str
    rows: list[FleetRow] = field(default_factory=list)
    why: list[str] = field(default_factory=list)
    why_of: dict[str, list[str]] = field(default_factory=dict)
    is_believed: bool = True
    has_critical: bool = False
    last_day: str = ""

    @property
    def needs(self) -> bool:
        """Whether a person has to look."""
        return bool(self.why or any(self.why_of.values()))

    @property
    def is_not_run(self) -> bool:
        """Whether the program couldn't be run on it, whatever its session says."""
        return self.rows[0].state in _NOT_RUN

    def tell(self) -> None:
        """Write the reasons into the rows."""
        short = [said.split(", the first: ")[0] for said in self.why]
        self.rows = [
            replace(row, look="; ".join([*short, *self.why_of.get(row.period, [])]))
            for row in self.rows
        ]

    def says(self) -> Iterator[str]:
        """Give why a person has to look, a sentence each."""
        for said in self.why:
            yield f"{self.site}: {said}"
        for period, some in self.why_of.items():
            for said in some:
                yield f"{self.site}, {period}: {said}"


def failed_plant(site: Site, state: str, said: str, run: Run | None = None) -> FleetPlant:
    """Return a plant without an output."""
    row = FleetRow(site.name, state=state)
    if run is not None and run.status is not None:
        row = replace(row, status=str(run.status), seconds=f"{run.seconds:.3f}")
    return FleetPlant(site.name, [row], [said])


def plants_summary(plants: Sequence[FleetPlant]) -> str:
    """Return how many plants there are, and how many need a person."""
    wanting = sum(plant.needs for plant in plants)
    count = "1 plant" if len(plants) == 1 else f"{len(plants)} plants"
    some = f"{wanting} needs" if wanting == 1 else f"{wanting} need" if wanting else "none needs"
    return f"{count}, of which {some} a person"
