"""Says how good each reconciled flow is: its standard deviation, and the meters that it rests on.

The estimate is that of weighted least squares with the variances of the report. Its covariance
comes from the balances of merged nodes by a sparse factorisation.
"""

from __future__ import annotations

import argparse
import sys
from collections.abc import Collection, Iterable, Iterator
from typing import TYPE_CHECKING, Any, NamedTuple

from plantbal.amounts import tonnes_text
from plantbal.faults import InputFault, ToolMissing
from plantbal.inert import inert_frame
from plantbal.report.blocks import Block, Values, last_blocks
from plantbal.report.output import Output, read_whole
from plantbal.statuses import ExitStatus
from plantbal.study.plant import Labels, NumberedPlant, plant_of

if TYPE_CHECKING:
    import pandas

HELP = """
OUTPUT is what plantbal wrote, as CSV or as JSON lines; without it standard input is read. The last
round of each period's last report is used. There is a row for each stream that is measured or
observable; an unobservable stream has no flow to book, and no uncertainty. Windows and balances of
components have names of their own, such as may to june and cu in may.

  text   tonnes, as a table to read: flow, its standard deviation, that of the meter alone, by
         how much it is smaller (the gain), and the three meters that contribute most to it
  csv    the same in grams with all digits, a column for each; shares and gain as fractions
  json   the same as a list of objects; a missing figure is null

Twice the standard deviation holds 95 times in 100, if the meters are as good as their variances
say. It says something about the plant. The bounds of a report say something only about its
arithmetic.

examples:
  plantbal run < month.csv | plantbal-desk uncertainty
  plantbal-desk uncertainty --form csv year.out.csv > year.uncertainty.csv
"""

# How many meters are named that contribute most.
MOST_METERS = 3
_RANKS = ("first", "second", "third")
COLUMNS = (
    *("block", "period", "round", "name", "class", "sd", "meter_sd", "gain"),
    *(column for rank in _RANKS for column in (rank, f"{rank}_share")),
)
_TEXTS = ("period", "name", "class", *_RANKS)
# So many flows are asked at once: each takes a number for each meter, and all of a large plant
# together would take hundreds of megabytes.
_AT_ONCE = 250
# A meter with a smaller share isn't named.
_LEAST_SHARE = 1e-6
# A stream whose variance is this many times the least one is strong.
_STRONG = 1e6
# A standard deviation below this part of the meters' own is what rounding leaves of 0.
_NOTHING = 1e-10
_NAN = float("nan")
# The columns of the table to be read that hold words.
_WORDS = ("period", "stream", "class", "rests on")
_CHECK = "plantbal-desk check says more"


def uncertainty_of(found: Output | Block | Iterable[Block]) -> pandas.DataFrame:
    """Return how good the flows of an output, or of one round of a report, are.

    Parameters
    ----------
    found : Output, Block or iterable of Block
        The output, or blocks of it. A block that is cut off has no rows.

    Returns
    -------
    DataFrame
        A row for each stream that is measured or observable, in the order of the report:

        block, period, round, name, class
            Which stream it is.
        sd : float
            The standard deviation of its reconciled flow, in grams.
        meter_sd : float
            That of its meter alone; NaN if it isn't measured.
        gain : float
            1 - sd / meter_sd: by which part reconciliation makes it smaller. It is 0 if nothing
            checks the meter.
        first, second, third : str
            The meters that contribute most to its variance; empty if there are no more.
        first_share, second_share, third_share : float
            Their parts of the variance; NaN if there is no such meter.

    Notes
    -----
    The errors of the meters count as independent, with the variances of the report. So nothing is
    said of a meter that is off by more than its variance explains.
    """
    import pandas

    if isinstance(found, Output):
        found = found.blocks_in_order
    table = pandas.DataFrame(
        flows_known([found] if isinstance(found, Block) else found), columns=list(COLUMNS)
    )
    kinds = {name: int if name in ("block", "round") else float for name in COLUMNS}
    return table.astype({name: kind for name, kind in kinds.items() if name not in _TEXTS})


def flows_known(blocks: Iterable[Block]) -> list[KnownFlow]:
    """Return the same rows as a list, for a page that needs no table.

    Raises
    ------
    ToolMissing
        If scipy isn't installed.
    """
    try:
        import scipy  # noqa: F401
    except ImportError as error:
        raise ToolMissing("scipy", "python3-scipy") from error
    return [row for block in blocks if block.ended for row in _rows_of(block)]


def last_of_each_period(output: Output) -> pandas.DataFrame:
    """Return the rows of the last round of each period's last report."""
    last = [block.number for block in last_blocks(output.blocks_in_order).values()]
    table = output.uncertainty
    return table[table["block"].isin(last)].reset_index(drop=True)


def answers_of(block: Block) -> tuple[dict[str, int], Any, Any]:
    """Return how the flows of a block answer to one more gram of each of its measurements.

    Parameters
    ----------
    block : Block
        The block.

    Returns
    -------
    tuple of dict, array and array
        The column of each stream that has a flow to book; the answers, a row for each measured
        stream and a column for each of these; and the variances of the measured streams.
    """
    import numpy

    asked = _known(block)
    plant = plant_in(block)
    variance = numpy.array([float(plant.variance[j]) for j in plant.measured])
    columns = {stream["name"]: column for column, stream in enumerate(asked)}
    if not asked:
        return columns, numpy.zeros((len(variance), 0)), variance
    return columns, answers_to(plant, variance, _weights(plant, asked)), variance


def _known(block: Block) -> list[Values]:
    """Return the streams that have a flow to book."""
    return [stream for stream in block.streams if stream["class"] != "unobservable"]


class KnownFlow(NamedTuple):
    """How good a flow is: a row of the table, whose columns have the same names in their order."""

    block: int
    period: str
    round: int
    name: str
    class_: str
    sd: float
    meter_sd: float
    gain: float
    first: str = ""
    first_share: float = _NAN
    second: str = ""
    second_share: float = _NAN
    third: str = ""
    third_share: float = _NAN


def _rows_of(block: Block) -> Iterator[KnownFlow]:
    """Give the rows of a block."""
    import numpy

    asked = _known(block)
    if not asked:
        return
    plant = plant_in(block)
    variance = numpy.array([float(plant.variance[j]) for j in plant.measured])
    answers = Answers(plant, variance)
    for begin in range(0, len(asked), _AT_ONCE):
        yield from _some_rows(block, plant, asked[begin : begin + _AT_ONCE], answers)


def _some_rows(
    block: Block, plant: NumberedPlant, asked: list[Values], answers: Answers
) -> Iterator[KnownFlow]:
    """Give the rows of some streams of a block."""
    variance = answers.variance
    weights = _weights(plant, asked)
    parts = answers.to(weights) ** 2 * variance[:, None]
    total, before = parts.sum(axis=0), weights.power(2).T @ variance
    total[total <= _NOTHING**2 * before] = 0.0
    leading = _greatest(parts)
    names = [plant.streams[j]["name"] for j in plant.measured]
    for place, stream in enumerate(asked):
        sd, meter_sd, gain = float(total[place]) ** 0.5, _NAN, _NAN
        if stream["value"]:
            meter_sd = float(before[place]) ** 0.5
            sd = min(sd, meter_sd)
            gain = 1 - sd / meter_sd
        shares: dict[str, Any] = {}
        for rank, row in zip(_RANKS, (rows_of[place] for rows_of in leading)):
            share = float(parts[row, place] / total[place]) if sd else 0.0
            if share > _LEAST_SHARE:
                shares |= {rank: names[row], f"{rank}_share": share}
        head = (block.number, block.subject, block.round, stream["name"], stream["class"])
        yield KnownFlow(*head, sd, meter_sd, gain, **shares)


def _greatest(parts: Any) -> list[Any]:
    """Return of each column the rows of its greatest entries, the first of equal ones first."""
    import numpy

    left, columns, found = parts.copy(), numpy.arange(parts.shape[1]), []
    for _ in range(min(MOST_METERS, len(parts))):
        found.append(left.argmax(axis=0))
        left[found[-1], columns] = -1.0
    return found


def plant_in(block: Block) -> NumberedPlant:
    """Return the plant of a block, or say what is wrong with it."""
    try:
        plant = plant_of(block)
    except KeyError as error:
        raise InputFault(f"{block.title}: there is no node {error}", remedy=_CHECK) from error
    for j in plant.measured:
        if plant.variance[j] < 1:
            name = plant.streams[j]["name"]
            raise InputFault(f"{block.title}: the variance of {name} is below 1", remedy=_CHECK)
    return plant


def _weights(plant: NumberedPlant, asked: list[Values]) -> Any:
    """Return for each stream that is asked the measured ones whose flows add up to its own.

    A row is a measured stream, a column one that is asked, and the entries are signs. A measured
    stream is itself, an observable one the sum over the others of its cut.
    """
    from scipy import sparse

    row = {j: place for place, j in enumerate(plant.measured)}
    signs: list[float] = []
    rows: list[int] = []
    columns: list[int] = []
    for column, stream in enumerate(asked):
        for sign, j in _members(plant, stream):
            signs.append(sign)
            rows.append(row[j])
            columns.append(column)
    shape = (len(plant.measured), len(asked))
    return sparse.csc_matrix((signs, (rows, columns)), shape=shape)


def _members(plant: NumberedPlant, stream: Values) -> list[tuple[int, int]]:
    """Return the measured streams, with signs, whose flows add up to that of a stream."""
    name = stream["name"]
    j = plant.place[name]
    if plant.value[j] is not None:
        return [(1, j)]
    parts = [(1 if part[:1] == "+" else -1, part[1:]) for part in stream["parts"].split()]
    own = sum(sign for sign, member in parts if member == name)
    others = [(-own * sign, plant.place.get(other, -1)) for sign, other in parts if other != name]
    if own not in (1, -1) or any(k < 0 or plant.value[k] is None for _, k in others):
        raise InputFault(
            f"the cut of {name} doesn't determine it", text=stream["parts"], remedy=_CHECK
        )
    return others


def answers_to(plant: NumberedPlant, variance: Any, weights: Any) -> Any:
    """Return how each flow that is asked answers to one more gram of each meter.

    Parameters
    ----------
    plant : NumberedPlant
        The plant.
    variance : array
        The variances of the measured streams.
    weights : sparse matrix
        The flows that are asked, as sums of measured ones.

    Notes
    -----
    Least squares make of measurements y the flows y - V A' (A V A')^-1 A y. A has the balances of
    the merged nodes, V the variances. So a sum w of flows answers to the meters as w - A' z says,
    with A V A' z = A V w.

    If variances differ by many powers of ten, A V A' can't be solved in floats as it stands: what
    streams of small variance say is lost beside the others. So the balance of a node is added up
    with those of the nodes that strong streams hang on it; then these no longer stand in it.
    """
    return Answers(plant, variance).to(weights)


class Answers:
    """The answers of a plant's flows, as `answers_to` gives them, factorised once.

    Parameters
    ----------
    plant : NumberedPlant
        The plant.
    variance : array
        The variances of the measured streams.
    """

    def __init__(self, plant: NumberedPlant, variance: Any) -> None:
        from scipy.sparse import diags, linalg

        self.variance = variance
        self._ends = _incidence(plant) @ _together(plant, variance)
        if not self._ends.shape[1]:
            return
        matrix = self._ends.T @ diags(variance) @ self._ends
        self._scale = diags(1 / matrix.diagonal() ** 0.5)
        self._right = self._scale @ self._ends.T @ diags(variance)
        self._solver = linalg.splu(
            (self._scale @ matrix @ self._scale).tocsc(),
            permc_spec="MMD_AT_PLUS_A",
            diag_pivot_thresh=0.0,
            options={"SymmetricMode": True},
        )

    def to(self, weights: Any) -> Any:
        """Return how each flow that is asked answers to one more gram of each meter."""
        if not self._ends.shape[1]:
            return weights.toarray()
        found = self._solver.solve((self._right @ weights).toarray())
        return weights.toarray() - self._ends @ (self._scale @ found)


def _columns(plant: NumberedPlant) -> list[int]:
    """Return for each node the number of its merged node's balance; -1 is one that isn't asked.

    The balance of env follows from the others. In a part of the plant that nothing joins to env,
    that of the least node does.
    """
    nodes = range(len(plant.names))
    parts = Labels(len(nodes))
    for ends in plant.ends:
        parts.join(*ends)
    follow = {plant.group[parts.of(node)] for node in nodes}
    numbers = {group: place for place, group in enumerate(sorted(set(plant.group) - follow))}
    return [numbers.get(group, -1) for group in plant.group]


def _incidence(plant: NumberedPlant) -> Any:
    """Return where each measured stream enters (1) and leaves (-1) the merged nodes.

    A row is a measured stream, a column a merged node.
    """
    from scipy import sparse

    column = _columns(plant)
    found = [
        (sign, row, column[node])
        for row, j in enumerate(plant.measured)
        for sign, node in zip((-1.0, 1.0), plant.ends[j])
        if column[node] >= 0
    ]
    signs, rows, columns = zip(*found) if found else ((), (), ())
    shape = (len(plant.measured), max(column, default=-1) + 1)
    return sparse.csr_matrix((signs, (rows, columns)), shape=shape)


def _together(plant: NumberedPlant, variance: Any) -> Any:
    """Return which balances are added up: a column is a merged node, with ones at those that are.

    They are its own, and those of the nodes that strong streams hang on it, in the spanning forest
    of the greatest variances as it is seen from env.
    """
    import numpy
    from scipy import sparse
    from scipy.sparse import csgraph

    column = _columns(plant)
    ground = max(column, default=-1) + 1
    tree = [j for j in plant.forest if plant.value[j] is not None]
    ends = numpy.array([[column[node] for node in plant.ends[j]] for j in tree]).reshape(-1, 2)
    ends[ends < 0] = ground
    weight = [float(plant.variance[j]) for j in tree]
    graph = sparse.csr_matrix((weight, (*ends.T,)), shape=(ground + 1, ground + 1))
    _, parent = csgraph.breadth_first_order(graph, ground, directed=False)
    nodes = numpy.arange(ground)
    above = parent[:ground]
    of_edge = numpy.asarray((graph + graph.T)[nodes, above]).ravel()
    strong = (of_edge > _STRONG * variance.min()) & (above != ground) if ground else nodes > 0
    hangs = sparse.csr_matrix(
        (numpy.ones(strong.sum()), (nodes[strong], above[strong])), shape=(ground, ground)
    )
    found = sparse.identity(ground, format="csr")
    while hangs.nnz:
        found, hangs = found + found @ hangs, hangs @ hangs
    return found


# ---- the command


def in_tonnes(output: Output, table: pandas.DataFrame) -> pandas.DataFrame:
    """Return rows as a person reads them: tonnes, percent, meters with their shares."""
    import pandas

    flows = output.streams.set_index(["block", "name"])["flow"]
    lines = []
    for row in table.to_dict("records"):
        shown = output.blocks_in_order[row["block"]].shown
        measured = row["meter_sd"] == row["meter_sd"]
        rests = [
            f"{shown(row[rank])} {row[f'{rank}_share']:.0%}"
            for rank in _RANKS
            if row[f"{rank}_share"] >= 0.005
        ]
        lines.append(
            {
                "period": row["period"],
                "stream": shown(row["name"]),
                "class": row["class"],
                "flow t": tonnes_text(flows[row["block"], row["name"]]),
                "± t": f"{row['sd'] / 1e6:,.3f}",
                "meter ± t": f"{row['meter_sd'] / 1e6:,.3f}" if measured else "",
                "gain": f"{row['gain']:.1%}" if measured else "",
                "rests on": ", ".join(rests),
            }
        )
    return pandas.DataFrame(lines)


def table_text(table: pandas.DataFrame, left: Collection[str] = _WORDS) -> str:
    """Return a table as lines of text, numbers to the right, columns of words to the left."""
    columns = []
    for name in table.columns:
        texts = [str(name), *map(str, table[name])]
        width = max(map(len, texts))
        columns.append([t.ljust(width) if name in left else t.rjust(width) for t in texts])
    return "".join(f"{'  '.join(line).rstrip()}\n" for line in zip(*columns))


def add_arguments(parser: argparse.ArgumentParser) -> None:
    """Add the words of the command."""
    parser.add_argument("output", metavar="OUTPUT", nargs="?", default="-")
    form = "the form of the table (default: text)"
    parser.add_argument("--form", choices=["text", "csv", "json"], default="text", help=form)


def run(options: argparse.Namespace) -> int:
    """Write the table."""
    output = read_whole(options.output, "report")
    table = last_of_each_period(output)
    if options.form == "csv":
        text = inert_frame(table).to_csv(index=False)
    elif options.form == "json":
        text = table.to_json(orient="records", indent=1, force_ascii=False) + "\n"
    else:
        text = table_text(in_tonnes(output, table))
    sys.stdout.write(text)
    return ExitStatus.GOOD
