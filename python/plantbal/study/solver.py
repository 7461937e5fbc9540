"""Reconciles a session by scipy, or takes anybody's figures, and has the program certify them.

The program gives the merged measurements, the classes and their certificates, after hardly a sweep.
Flows and prices come from scipy, or from whoever has them. Then the program's check judges each
block, and what doesn't get its `yes` isn't handed out.
"""

from __future__ import annotations

from collections.abc import Callable, Mapping
from dataclasses import dataclass
from pathlib import Path
from typing import TYPE_CHECKING, Any

from plantbal.faults import Fault, InputFault, Place
from plantbal.report.blocks import Block, Values
from plantbal.report.frames import whole_numbers
from plantbal.report.output import Output
from plantbal.runs import check, run, session_bytes
from plantbal.session import Session
from plantbal.study.certificate import SeenCritical, seen_critical, solved_rows
from plantbal.study.figures import Figures
from plantbal.study.uncertified import Uncertified

if TYPE_CHECKING:
    import pandas


@dataclass(frozen=True)
class EngineTask:
    """What an engine is asked to solve: the balances of one report.

    Attributes
    ----------
    period : str
        What the report is of: a period, or ``may to june`` of a window.
    nodes : tuple of str
        The nodes; the first one, ``env``, is the world outside, and needs no balance.
    streams : DataFrame
        A row a stream: `name`, `from`, `to`, `class`, and in grams `value` and `variance`, which
        are missing of a stream that isn't measured.
    """

    period: str
    nodes: tuple[str, ...]
    streams: pandas.DataFrame


Engine = Callable[[EngineTask], Any]


def solve(
    session: Session | str | Path | bytes,
    engine: str | Engine = "scipy",
    *,
    tests: bool = True,
    gap: int = 10,
    sweeps: int = 5000,
    program: str | Path | None = None,
    timeout: float | None = None,
) -> Output:
    """Reconcile a session by another engine, certified by the program.

    It is for plants on which sweeps don't converge, such as long lines of units with equal meters.
    Tests of single measurements and elimination need the program's own solver, and aren't made.

    Parameters
    ----------
    session : Session, bytes, str or Path
        The session, its bytes, or a file.
    engine : {'scipy'} or callable
        What solves. A callable gets a `EngineTask` for each report, and returns the flows in grams by
        stream, or these and the multipliers by node, as `certify` takes them.
    tests : bool
        Whether the global and the nodal tests are made.
    gap : int
        The greatest gap of a report that has converged, in thousandths of a standard deviation.
    sweeps : int
        What the report says of the sweeps that were allowed; none are made.
    program, timeout : optional
        As in `plantbal.run`.

    Returns
    -------
    Output
        What the program writes of the session, with the solution in each block.

    Raises
    ------
    Uncertified
        If some block doesn't get the check's `yes`, or the figures of a callable aren't certified.
    """
    if not callable(engine) and engine != "scipy":
        what = f"there is no engine {engine!r}"
        raise Fault(what, text=engine, remedy="use 'scipy', or pass a callable")
    raw, data = _unswept(session, gap, program, timeout)
    found: dict[int, list[Values]] = {}
    blocks = raw.blocks_in_order
    for block, critical in zip(blocks, _critical(raw, data, tests)):
        solution = _asked(engine, block).solution(block) if callable(engine) else None
        found[block.number] = solved_rows(block, solution, sweeps=str(sweeps), critical=critical)
    return _certified(raw, found, program, timeout)


def certify(
    session: Session | str | Path | bytes,
    flows: Any,
    multipliers: Any = None,
    *,
    unit: str = "tonnes",
    tests: bool = True,
    gap: int = 10,
    sweeps: int = 5000,
    program: str | Path | None = None,
    timeout: float | None = None,
) -> Output:
    """Certify the figures of any engine: return them as an output that the program's check passes.

    Flows are rounded to grams so that they balance. Whoever made them isn't believed: that they
    balance and how near they are to the least squares solution follows from the numbers handed out.

    Parameters
    ----------
    session : Session, bytes, str or Path
        The session, its bytes, or a file.
    flows : mapping, Series, DataFrame or list
        The flow of each measured stream, and of others if you have them, by its name: numbers,
        floats too. If the session asks for several reports, a mapping or frame has such figures for
        each period, and a list for each report in its order.
    multipliers : mapping, Series, DataFrame or list, optional
        The multipliers of the balances by node, likewise, such that each measured stream has ``flow
        = value + variance * (multiplier of to - multiplier of from)``. Without them the prices are
        found by least squares.
    unit : {'tonnes', 'grams'}
        What flows are in; multipliers are in one over it.
    tests : bool
        Whether the global and the nodal tests are made.
    gap : int
        How far flows may be from the least squares solution, in thousandths of a standard
        deviation, and how far the figures given may be from flows that balance.
    sweeps : int
        What the report says of the sweeps that were allowed; none are made.
    program, timeout : optional
        As in `plantbal.run`.

    Returns
    -------
    Output
        What the program writes of the session, with the flows in each block.

    Raises
    ------
    InputFault
        If a figure is missing, isn't a number, or is of nothing in the report.
    Uncertified
        If a block doesn't pass: it has the first test that fails.
    """
    raw, data = _unswept(session, gap, program, timeout)
    found: dict[int, list[Values]] = {}
    blocks = raw.blocks_in_order
    for block, critical in zip(blocks, _critical(raw, data, tests)):
        own = _of_block("flows", flows, block, len(blocks))
        rises = None
        if multipliers is not None:
            rises = _of_block("multipliers", multipliers, block, len(blocks))
        solution = Figures(own, rises, unit).solution(block)
        found[block.number] = solved_rows(block, solution, sweeps=str(sweeps), critical=critical)
    return _certified(raw, found, program, timeout)


def solved_again(
    output: Output,
    data: bytes,
    *,
    tests: bool,
    program: str | Path | None = None,
    timeout: float | None = None,
) -> Output:
    """Return an output in which what isn't converged is solved by scipy, and certified.

    A report stays as it is if balances of components rest on its flows.

    Parameters
    ----------
    output : Output
        What the program wrote, without elimination.
    data : bytes
        The session.
    tests : bool
        Whether the global and the nodal tests are made.
    program, timeout : optional
        As in `plantbal.run`.

    Raises
    ------
    Uncertified
        If some block doesn't get the check's `yes`.
    """
    blocks = output.blocks_in_order
    rested_on = {block.period for block in blocks if block.component}
    found = {
        block.number: solved_rows(block, critical=critical)
        for block, critical in zip(blocks, _critical(output, data, tests))
        if block.solved
        and block.solved["state"] != "converged"
        and not (block.is_report and block.period in rested_on)
    }
    return _certified(output, found, program, timeout) if found else output


def _unswept(
    session: Session | str | Path | bytes,
    gap: int,
    program: str | Path | None,
    timeout: float | None,
) -> tuple[Output, bytes]:
    """Return what the program writes of a session without a sweep, and the session's bytes.

    Raises
    ------
    Fault
        If a balance of a component is asked for.
    """
    source, data, left_out = session_bytes(session)
    raw = run(data, tests=False, gap=gap, sweeps=0, program=program, timeout=timeout)
    if any(block.component for block in raw.blocks_in_order):
        what = "a balance of a component rests on the flows of the program's own sweeps"
        raise Fault(what, remedy="leave the component rows out of what is solved elsewhere")
    raw.source, raw.left_out = f"the solution of {source}", left_out
    return raw, data


def _critical(output: Output, data: bytes, tests: bool) -> list[SeenCritical | None]:
    """Return the critical values of each block; None without tests."""
    if not tests:
        return [None] * len(output.blocks_in_order)
    values = seen_critical(data, set(output.refused["at"]))
    asked = [row for row in output.rows if row["row"] in ("report", "over")]
    return [values[place] for place, row in enumerate(asked) if row["row"] == "report"]


def _certified(
    output: Output,
    found: Mapping[int, list[Values]],
    program: str | Path | None,
    timeout: float | None,
) -> Output:
    """Return an output with the rows found for some blocks, if the check says yes to each block."""
    rows: list[Values] = []
    number, inside = -1, False
    for row in output.rows:
        if row["row"] == "report":
            number += 1
            inside = number in found
            rows += found.get(number, [])
        if not inside:
            rows.append(row)
        if row["row"] == "end":
            inside = False
    made = Output(rows, source=output.source, status=output.status, left_out=output.left_out)
    if found:
        verdicts = check(made, program=program, timeout=timeout)
        if not (verdicts["verdict"] == "yes").all():
            raise Uncertified.by_check(verdicts)
    return made


def _asked(engine: Engine, block: Block) -> Figures:
    """Return the figures that a callable finds for a block."""
    import pandas

    names = ("name", "from", "to", "class")
    data: dict[str, Any] = {head: [row[head] for row in block.streams] for head in names}
    for head in ("value", "variance"):
        numbers = [int(row[head]) if row["value"] else None for row in block.streams]
        data[head] = whole_numbers(numbers)
    nodes = tuple(node["name"] for node in block.nodes)
    answer = engine(EngineTask(block.subject, nodes, pandas.DataFrame(data)))
    flows, multipliers = answer if isinstance(answer, tuple) else (answer, None)
    for figures in (flows, {} if multipliers is None else multipliers):
        if not hasattr(figures, "items"):
            what = f"the engine returns a {type(figures).__name__}"
            raise InputFault(what, remedy="return a mapping or Series of figures by their names")
    return Figures(flows, multipliers, "grams")


def _of_block(what: str, given: Any, block: Block, count: int) -> Any:
    """Return the figures of a block out of those of all of them."""
    place = Place(file=what)
    if isinstance(given, (list, tuple)):
        if len(given) != count:
            said = f"there are figures of {len(given)} reports, and the session has {count}"
            raise InputFault(said, place=place, remedy="give those of each report in its order")
        figures = given[block.number]
    elif not hasattr(given, "items"):
        said = f"{what} is of type {type(given).__name__}"
        raise InputFault(said, remedy="give a mapping, a Series or a DataFrame")
    elif block.subject in given and hasattr(given[block.subject], "items"):
        figures = given[block.subject]
    elif count == 1 and not any(hasattr(value, "items") for _, value in given.items()):
        figures = given
    else:
        said = f"there are no figures of {block.subject}"
        raise InputFault(said, place=place, remedy="give figures for each period of the session")
    if not hasattr(figures, "items"):
        said = f"the figures of {block.subject} are a {type(figures).__name__}"
        raise InputFault(said, place=place, remedy="give a mapping or a Series")
    return figures
