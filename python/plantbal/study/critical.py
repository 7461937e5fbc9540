"""Writes critical values of chi-squared, computed with scipy, as rows of a session."""

from __future__ import annotations

import argparse
from collections.abc import Iterator, Sequence

from plantbal.faults import ToolMissing
from plantbal.schema import schema
from plantbal.statuses import ExitStatus

HELP = """
LEVEL is the chance that plants without a fault are rejected, such as 0.05.

  critical 0.05 4 7          the global test at 4 and at 7 degrees of freedom
  critical 0.05 1-20         at 1 to 20
  critical 0.05 --nodal 6    the test of each of 6 nodes, so that any of them rejects no more often
                             than LEVEL
  critical 0.05 --measure 9  the test of each of 9 measured streams, likewise

A report's row `solved` has its degrees of freedom. If there are many tests at once, each has the
level 1 - (1 - LEVEL)^(1/N): this is Sidak's correction, exact for independent tests and, for
these, never too lenient.
"""


def degrees(text: str) -> range:
    """Return degrees of freedom: `4` or `1-20`."""
    first, dash, last = text.partition("-")
    if not first.isdigit() or (dash and not last.isdigit()):
        raise argparse.ArgumentTypeError(
            f"{text!r} isn't a number of degrees of freedom: write 4 or 1-20"
        )
    most = schema().limits["most_freedom"]
    if not 1 <= int(first) <= int(last or first) <= most:
        raise argparse.ArgumentTypeError(f"{text!r}: degrees of freedom are 1 to {most:,}")
    return range(int(first), int(last or first) + 1)


def level(text: str) -> float:
    """Return a level: a number between 0 and 1."""
    try:
        number = float(text)
    except ValueError:
        number = 0.0
    if not 0 < number < 1:
        raise argparse.ArgumentTypeError(
            f"{text!r} isn't a level: write a number between 0 and 1, such as 0.05"
        )
    return number


def tests(text: str) -> int:
    """Return a number of tests."""
    if not text.isdigit() or int(text) < 1:
        raise argparse.ArgumentTypeError(f"{text!r} isn't a number of tests")
    return int(text)


def chi_squared_thousandths(of_level: float, dof: int) -> int:
    """Return the critical value of chi-squared in thousandths.

    Parameters
    ----------
    of_level : float
        The chance that it is exceeded.
    dof : int
        The degrees of freedom.
    """
    try:
        from scipy.special import chdtri
    except ImportError as error:
        raise ToolMissing("scipy", "python3-scipy") from error
    return round(1000 * float(chdtri(dof, of_level)))


def of_each(of_all: float, count: int) -> float:
    """Return the level of each of this many tests, so that any rejects no more often than
    `of_all`."""
    each: float = 1 - (1 - of_all) ** (1 / count)
    return each


def values_of(
    of_all: float, kinds: Sequence[str], streams: Sequence[Sequence[str]]
) -> Iterator[tuple[str, ...]]:
    """Give the critical values that the reports of a plant may need, as rows of a session.

    A report has at most a degree of freedom for each unit and tank, and a window of two periods
    twice as many. Each unit and tank may be tested, and each tank and stream that isn't plain; with
    fewer tests the level is kept too.

    Parameters
    ----------
    of_all : float
        The chance that a plant without a fault is rejected by the tests of one kind.
    kinds : sequence of str
        For each unit and tank, ``unit`` or ``tank``.
    streams : sequence of sequence of str
        The streams as rows of the session.
    """
    most = min(2 * len(kinds), schema().limits["most_freedom"])
    for dof in range(1, most + 1):
        yield "critical", "global", str(dof), str(chi_squared_thousandths(of_all, dof))
    measured = kinds.count("tank") + sum(row[4] != "plain" for row in streams)
    for test, count in (("nodal", len(kinds)), ("measure", measured)):
        if count:
            yield "critical", test, str(chi_squared_thousandths(of_each(of_all, count), 1))


def add_arguments(parser: argparse.ArgumentParser) -> None:
    """Add the words of the command."""
    parser.add_argument("level", metavar="LEVEL", type=level)
    parser.add_argument("dof", metavar="DOF", nargs="*", type=degrees)
    parser.add_argument("--nodal", metavar="N", type=tests, help="how many nodes are tested")
    measure = "how many measured streams are tested"
    parser.add_argument("--measure", metavar="N", type=tests, help=measure)
    parser.set_defaults(error=parser.error)


def run(options: argparse.Namespace) -> int:
    """Write the rows."""
    if not (options.dof or options.nodal or options.measure):
        options.error("give degrees of freedom, --nodal or --measure")
    for dof in sorted({dof for some in options.dof for dof in some}):
        print(f"critical,global,{dof},{chi_squared_thousandths(options.level, dof)}")
    for kind in ("nodal", "measure"):
        count = getattr(options, kind)
        if count:
            print(f"critical,{kind},{chi_squared_thousandths(of_each(options.level, count), 1)}")
    return ExitStatus.GOOD
