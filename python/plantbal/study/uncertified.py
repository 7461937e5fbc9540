"""What is said of a solution that isn't handed out."""

from __future__ import annotations

from typing import TYPE_CHECKING

from plantbal.faults import Fault

if TYPE_CHECKING:
    import pandas


class Uncertified(Fault):
    """A solution that isn't certified, so that it isn't handed out.

    Attributes
    ----------
    subject, test, name : str
        The first block that isn't, the first test that it fails, and the node or stream at which:
        ``balance`` if figures don't balance, ``gap`` if they aren't near enough to the least
        squares solution, or the word of a test of the program's check.
    verdicts : DataFrame or None
        What the check found; None if a test before it failed.
    """

    _SAID = ("subject", "test", "name")

    def __init__(
        self,
        what: str,
        *,
        subject: str,
        test: str,
        name: str = "",
        remedy: str = "the solution isn't handed out",
        verdicts: pandas.DataFrame | None = None,
    ) -> None:
        super().__init__(what, remedy=remedy)
        self.subject = subject
        self.test = test
        self.name = name
        self.verdicts = verdicts

    @classmethod
    def by_check(cls, verdicts: pandas.DataFrame) -> Uncertified:
        """Return what is said of an output to which the check doesn't say yes."""
        wrong = verdicts[verdicts["verdict"] != "yes"]
        first = wrong.iloc[0]
        return cls(
            f"the check doesn't say yes to {len(wrong)} of {len(verdicts)} blocks: "
            f"{first['period']}: {first['word']} {first['name']}: {first['about']}",
            subject=str(first["period"]),
            test=str(first["word"]),
            name=str(first["name"]),
            verdicts=verdicts,
        )
