"""Every public object is safe to hand around: through pickle, processes, dask and threads.

The classes are found by introspection, so that a new one is tried too, and fails here until somebody
says how it is made.
"""

from __future__ import annotations

import datetime
import enum
import inspect
import pickle
from collections.abc import Callable, Iterator, Mapping
from concurrent.futures import Executor, ProcessPoolExecutor, ThreadPoolExecutor
from pathlib import Path
from typing import Any

import pandas
import pytest
from surface import function_of, hints_of, public, value_of

import plantbal
from plantbal.accounts.sheet import Accounts
from plantbal.book.ledger import YearLedger
from plantbal.faults import (
    Fault,
    InputFault,
    ModelFault,
    Place,
    ProgramFault,
    Refusal,
    ToolMissing,
)
from plantbal.model.effects import DeclaresUnit, Effect
from plantbal.model.readings import ReadingRows, ReadingRun
from plantbal.model.state import State
from plantbal.report.kept import kept_table
from plantbal.report.output import Output
from plantbal.sentence import Sentence
from plantbal.study.uncertified import Uncertified

TOP = Path(__file__).resolve().parents[2]
REPORT = TOP / "examples" / "refinery_day.out.csv"
CHECKED = pandas.DataFrame(
    {"period": ["may"], "verdict": ["no"], "word": ["gap"], "name": ["U"], "about": ["wide"]}
)
READINGS = [
    ["reading"] * 2,
    ["a", "b"],
    ["A"] * 2,
    ["2024-05-01", "2024-05-02"],
    ["7"] * 2,
    ["1"] * 2,
]


def session() -> plantbal.Session:
    made = plantbal.Session()
    made.unit("U")
    made.stream("A", "env", "U", deviation_tonnes="1")
    made.period("may", "2024-05-01", "2024-05-01")
    made.reading("a", "A", "2024-05-01", tonnes=1, deviation_tonnes="1")
    return made


def refusal() -> Refusal:
    with pytest.raises(Refusal) as caught:
        session().stream("B", "env", "NOWHERE", deviation_tonnes="1")
    return caught.value


def ledger() -> YearLedger:
    return YearLedger("2024", datetime.date(2024, 1, 1), datetime.date(2024, 12, 31))


# How a public object is made that isn't made by its fields alone.
MAKERS: dict[type, Callable[[], Any]] = {
    Fault: lambda: Fault("wrong", place=Place(file="f", line=3), text="x", remedy="mend it"),
    InputFault: lambda: InputFault("wrong", place=Place(file="f", sheet="s", cell="B7")),
    ToolMissing: lambda: ToolMissing("openpyxl", "python3-openpyxl"),
    ProgramFault: lambda: ProgramFault("it ended", status=6, name="NoMemory", remedy="more"),
    ModelFault: lambda: ModelFault(("unit", "U"), "refuse it with 5, duplicate", Place(line=3)),
    ReadingRun: lambda: ReadingRun(ReadingRows(READINGS), [4, 5]),
    Uncertified: lambda: Uncertified.by_check(CHECKED),
    Refusal: refusal,
    Output: lambda: plantbal.read_report(REPORT),
    plantbal.Session: session,
    plantbal.Book: lambda: plantbal.Book("nowhere", who="Ann"),
    State: lambda: session().state,
    Effect: lambda: DeclaresUnit("U"),
    YearLedger: ledger,
    Accounts: Accounts,
    Sentence: lambda: Sentence("there are {count}", count=7),
}
PUBLIC = public()
CLASSES = {name: each for name, each in PUBLIC.items() if isinstance(each, type)}


def made() -> dict[str, Any]:
    """An object of each public class; of words that are an enum, the list of all of them."""
    return {
        name: list(each) if issubclass(each, enum.Enum) else value_of(each, MAKERS)
        for name, each in CLASSES.items()
    }


def is_same(one: Any, other: Any) -> bool:
    """Say whether an object is the same as another one: of its type, and of the same values."""
    if type(one) is not type(other):
        return False
    if isinstance(one, pandas.DataFrame):
        return bool(one.equals(other))
    if inspect.ismethod(one):  # of an object that is compared by itself
        return one.__func__ is other.__func__
    if isinstance(one, Mapping):
        return list(one) == list(other) and all(is_same(one[key], other[key]) for key in one)
    if isinstance(one, (list, tuple)):
        return len(one) == len(other) and all(map(is_same, one, other))
    if type(one).__module__.startswith("plantbal") and not isinstance(one, enum.Enum):
        return all(map(is_same, values_of(one), values_of(other)))
    return bool(one == other)


def values_of(found: Any) -> list[Any]:
    """What an object holds, by the names of that."""
    held = dict(getattr(found, "__dict__", {}))
    if isinstance(found, State):  # it hands on no session of the library
        held = found.__getstate__()
    for kind in type(found).__mro__:
        slots = getattr(kind, "__slots__", ())
        held |= {
            name: getattr(found, name, None)
            for name in ([slots] if isinstance(slots, str) else slots)
        }
    return [sorted(held), *(held[name] for name in sorted(held))]


def test_there_are_public_classes() -> None:
    """The walk finds what is public by name, and what only results lead to."""
    names = {name.rpartition(".")[2] for name in CLASSES}
    assert {"Book", "Session", "Output", "Finding", "MonthAccount", "Place", "Block"} <= names
    assert len(CLASSES) > 100


@pytest.mark.parametrize("name", CLASSES)
def test_pickle(name: str) -> None:
    """An object is the same after a way through pickle, and a public class can be made here."""
    found = made_alone(name)
    again = pickle.loads(pickle.dumps(found))
    assert is_same(found, again), name


def made_alone(name: str) -> Any:
    each = CLASSES[name]
    return list(each) if issubclass(each, enum.Enum) else value_of(each, MAKERS)


def sent_back(found: dict[str, Any]) -> dict[str, Any]:
    """What a worker returns: what it got."""
    return found


def raised(fault: Fault) -> None:
    raise fault


def assert_same(found: dict[str, Any], again: dict[str, Any]) -> None:
    assert [name for name in found if not is_same(found[name], again[name])] == []


@pytest.mark.parametrize("kind", [ThreadPoolExecutor, ProcessPoolExecutor])
def test_pools(kind: type[Executor]) -> None:
    """All of them go to a worker and back; a fault that one raises arrives as it is."""
    found = made()
    faults = [each for each in found.values() if isinstance(each, Fault)]
    with kind(max_workers=2) as pool:  # type: ignore[call-arg]
        assert_same(found, pool.submit(sent_back, found).result(timeout=120))
        for fault in faults:
            with pytest.raises(type(fault)) as caught:
                pool.submit(raised, fault).result(timeout=120)
            assert type(caught.value) is type(fault) and str(caught.value) == str(fault)
    assert len(faults) >= 6


def test_dask() -> None:
    distributed = pytest.importorskip("distributed")
    found = made()
    with distributed.Client(n_workers=1, threads_per_worker=1, dashboard_address=None) as client:
        client.submit(
            exec, f"import sys; sys.path.insert(0, {str(Path(__file__).parent)!r})"
        ).result()
        assert_same(found, client.submit(sent_back, found).result(timeout=120))


def test_threads_share_an_output() -> None:
    """Threads that ask for tables of one output at once get the same ones, each its own copy."""
    output = plantbal.read_report(REPORT)
    names = [name for name, each in vars(Output).items() if isinstance(each, kept_table)]
    with ThreadPoolExecutor(8) as pool:
        tables = list(pool.map(lambda name: getattr(output, name), names * 8))
    for name, table in zip(names * 8, tables):
        assert table.equals(getattr(output, name)), name
    assert len({id(table) for table in tables}) == len(tables)


# ---- what hands out a table


def hands_out_tables() -> Iterator[tuple[type, str]]:
    """Each public member of a public class that hands out a table, or several."""
    for each in CLASSES.values():
        for name, member in inspect.getmembers_static(each):
            function = None if name.startswith("_") else function_of(member)
            if function is not None and is_of_tables(hints_of(function).get("return")):
                yield each, name


def is_of_tables(hint: Any) -> bool:
    inner = getattr(hint, "__args__", ())
    return hint is pandas.DataFrame or any(map(is_of_tables, inner))


def spoil(found: Any) -> None:
    """Change in place whatever was handed out, in each way that pandas, lists and dicts have."""
    if isinstance(found, pandas.DataFrame):
        for column in found.columns:
            found[column] = "changed"
        if len(found):
            found.iloc[:, :] = "changed again"
        found.drop(index=found.index, inplace=True)
    elif isinstance(found, dict):
        for each in list(found.values()):
            spoil(each)
        found.clear()
    elif isinstance(found, list):
        for each in found:
            spoil(each)
        found.clear()


def test_who_hands_out_tables() -> None:
    """Only outputs do; another class that does is to be tried here as they are."""
    assert {each for each, _ in hands_out_tables()} == {Output}
    kept = {name for name, each in vars(Output).items() if isinstance(each, kept_table)}
    assert {name for _, name in hands_out_tables()} == kept | {"tonnes", "tables"}


def booked(output: Output, folder: Path) -> list[Any]:
    """What is booked of an output, in each form that it has."""
    output.to_sqlite(folder / "out.sqlite")
    output.to_xlsx(folder / "out.xlsx")
    sheets = pandas.read_excel(folder / "out.xlsx", sheet_name=None)
    frames = {name: frame.to_csv() for name, frame in sheets.items()}
    texts = [output.to_csv(), output.to_json(), output.summary(), output._repr_html_()]
    amounts = [
        output.tonnes(anyway=True).to_csv(),
        output.tonnes(anyway=True, exact=False).to_csv(),
    ]
    return [*texts, *amounts, frames, output.to_dict(), output.ok, output.why, output.impossible]


@pytest.mark.parametrize("name", ["refinery_day", "heat_exchanger_suspect", "flotation_copper"])
def test_what_is_changed_in_place_changes_nothing(name: str, tmp_path: Path) -> None:
    """Tables, lists and dicts of an output, each spoilt, and what is booked is the same."""
    output = plantbal.read_report(TOP / "examples" / f"{name}.out.csv")
    before = booked(output, tmp_path)
    for each, member in hands_out_tables():
        handed = getattr(output, member)
        spoil(
            handed(anyway=True) if member == "tonnes" else handed() if callable(handed) else handed
        )
    output.reports.clear()
    for found in (output.to_dict(), output.why, output.impossible):
        spoil(found)
    assert booked(output, tmp_path) == before
    other = plantbal.read_report(TOP / "examples" / f"{name}.out.csv")
    assert output == other and booked(other, tmp_path) == before


def test_what_functions_return_is_the_callers_own() -> None:
    """A second call after the first one's answer was spoilt says the same."""
    output = plantbal.read_report(REPORT)
    for call in (
        lambda: plantbal.uncertainty_of(output),
        lambda: plantbal.check(output),
        lambda: output.tables()["streams"],
        lambda: output.tonnes(anyway=True),
    ):
        first = call()
        kept = first.copy()
        spoil(first)
        assert call().equals(kept)
