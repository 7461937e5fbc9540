"""The mistakes that are a subcommand's own: each is refused, and the sentence says what to do."""

from __future__ import annotations

import re
import subprocess
import sys
from dataclasses import dataclass
from pathlib import Path

import pytest
from conftest import TOP, Desk, example

from plantbal import desk

SESSION = example("refinery_day.csv").read_bytes()
REPORT = example("refinery_day.out.csv").read_bytes()
JSON = example("heat_exchanger_suspect.jsonl").read_bytes()
WORKBOOK = b"PK\x03\x04 and so on"
GARBAGE = bytes(range(256)) * 20
FOLDER = b"folder"
NONE = b"none"


@dataclass(frozen=True)
class Input:
    """What a subcommand reads: its words with FILE for the file, and what is said of each mistake."""

    words: tuple[str, ...]
    mistakes: dict[str, tuple[bytes, str]]
    says: str = "err"

    @property
    def name(self) -> str:
        """The words, as they are typed."""
        return " ".join(self.words)


UTF16 = 'this is UTF-16[:;] save it as "CSV UTF-8"'
ABSENT = {
    "not there": (NONE, "No such file or directory: check its name"),
    "folder": (FOLDER, "Is a directory: name a file in this folder"),
}
OF_SESSIONS = {
    **ABSENT,
    "UTF-16": (SESSION.decode().encode("utf-16"), UTF16),
    "semicolons": (SESSION.replace(b",", b";"), "semicolons.*save the file with commas between"),
    "tabs": (SESSION.replace(b",", b"\t"), "tabs.*save the file with commas between"),
    "empty": (b"", "it has no row; write the session's rows into it"),
    "no row": (b"\n\n", "it has no row; write the session's rows into it"),
    "JSON lines": (JSON, "these are JSON lines; a session is CSV"),
    "workbook": (
        WORKBOOK,
        "workbook or another archive; a plant's workbook becomes a session by plantbal-desk convert",
    ),
    "garbage": (GARBAGE, "there is no such kind of row"),
    "text": (b"hello, world\n", "there is no such kind of row"),
    "a report": (REPORT, "plantbal writes rows of this kind, and reads none: is this an output?"),
    "a check": (b"yes,may1,0\n", "plantbal writes rows of this kind, and reads none"),
    "cp1252": ("unit,FUEL_GÄS\nreport,d\n".encode("cp1252"), "'FUEL_GÄS'"),
    "nothing asked": (b"unit,U\n", "it asks for nothing; add a row report,PERIOD"),
    "no such name": (SESSION.replace(b"CDU,FUEL_GAS", b"CDU,FUEL_GSA"), "did you mean FUEL_GAS"),
}
# lint counts what explain says a row at a time.
OF_LINT = {
    **ABSENT,
    **{
        name: (data, f"error: .*{said}.*: .*\\[")
        for name, said in {
            "UTF-16": "UTF-16",
            "semicolons": "semicolons",
            "tabs": "tabs",
            "empty": "there is no row",
            "JSON lines": "refused",
            "workbook": "refused",
            "garbage": "refused",
            "a report": "refused",
            "a check": "refused",
            "nothing asked": "no report, window, balance, design, advice or history is asked for",
        }.items()
        for data in [OF_SESSIONS[name][0]]
    },
}
OF_REPORTS = {
    **ABSENT,
    "UTF-16": (REPORT.decode().encode("utf-16"), UTF16),
    "semicolons": (REPORT.replace(b",", b";"), "save it with commas between fields"),
    "tabs": (REPORT.replace(b",", b"\t"), "save it with commas between fields"),
    "empty": (b"", "it is empty: run a session that asks for a report"),
    "no row": (b"\n\n", "it is empty: run a session that asks for a report"),
    "cut JSON": (JSON[: len(JSON) // 2], "not a JSON object.*: give the file as plantbal wrote it"),
    "other JSON": (
        b'{"a": 1}\n',
        "not a row of plantbal.*: give what `plantbal run --format json`",
    ),
    "a list": (b'[{"row": "report"}]\n', "write an object a line: jq"),
    "workbook": (WORKBOOK, "this is a workbook: save the sheet as CSV"),
    "garbage": (GARBAGE, "this isn't UTF-8 text"),
    "text": (b"hello, world\n", "'hello': give what `plantbal run` wrote"),
    "a session": (SESSION, "this is a session: run it first"),
    "a check": (b"yes,may1,0\n", "this is what a check said: give the report that was checked"),
    "a no": (
        b"no,d1,0,9,bounds,A,100999998,100999997\n",
        "this is what a check said: give the report that was checked",
    ),
    "commas at ends": (
        REPORT.replace(b"\n", b",,\n"),
        "a spreadsheet put commas at the ends of rows",
    ),
    "cut off": (REPORT[: REPORT.rindex(b"end,")], "the report of may1 is cut off: run the session"),
    "cut in the design": (b"design,9,23\n", "the design is cut off: run the session again"),
    "cut in the advice": (b"design,1,0\nadvise,2,9\n", "the advice is cut off: run the session"),
    "cut in the window": (b"window,p1,p2,2\nplace,n1.1,p1,K\n", "a window is cut off: run the"),
    "cut in the balance": (b"component,cu,d1\n", "a balance is cut off: run the session again"),
    "refused rows alone": (b"refused,2,3,name\n", "there is no report .*: ask for one"),
}


def but(mistakes: dict[str, tuple[bytes, str]], **others: str) -> dict[str, tuple[bytes, str]]:
    """The same mistakes, of which some are told otherwise, or are none if this is empty."""
    found = dict(mistakes)
    for name, said in others.items():
        data, _ = found.pop(name.replace("_", " "))
        if said:
            found[name.replace("_", " ")] = data, said
    return found


OF_BALANCES = but(
    OF_REPORTS, refused_rows_alone="there is no component in it: ask for one in the session, by a"
)
# A page shows refused rows, and a drawing needs a design alone.
OF_PAGES = but(OF_REPORTS, refused_rows_alone="")
# A check judges row by row whatever begins as a report does.
OF_CHECKS = but(
    OF_REPORTS,
    commas_at_ends="not all of it passes: plantbal-desk explain FILE shows the rows",
    cut_off="not all of it passes: plantbal-desk explain FILE shows the rows",
    cut_in_the_design="there is no block to check: ask for a report",
    cut_in_the_advice="there is no block to check: ask for a report",
    cut_in_the_window="there is no block to check: ask for a report",
    cut_in_the_balance="there is no block to check: ask for a report",
    refused_rows_alone="there is no block to check: ask for a report",
)
# What is turned into tables may be a check's rows.
OF_TURNS = but(OF_REPORTS, refused_rows_alone="", a_check="", a_no="")
OF_OUTPUTS = but(
    OF_REPORTS, refused_rows_alone="this isn't the output of .*: run the session again"
)
NO_TAGS = "there is no column 'tag': give the table of tags first"
OF_TAGS = {
    **ABSENT,
    "UTF-16": (b"\xff\xfe" + "tag,stream".encode("utf-16-le"), UTF16),
    "empty": (b"", "there is no row: write heads and rows into it"),
    "garbage": (GARBAGE, "this isn't UTF-8 text"),
    "a session": (SESSION, NO_TAGS),
    "a report": (REPORT, NO_TAGS),
    "JSON lines": (
        JSON,
        "line 1: a double quote in this row isn't closed, or is within a field",
    ),
    "workbook": (WORKBOOK, NO_TAGS),
}
OF_READINGS = but(OF_TAGS, workbook="") | {
    name: (OF_TAGS[name][0], "the table of tags has no tag '.*; use --skip '.*'")
    for name in ("a session", "a report")
}
# Of a session the plant alone is wanted.
OF_PLANTS = but(
    OF_SESSIONS,
    nothing_asked="it has no stream: is it a session?",
    **dict.fromkeys(("a_report", "a_check", "JSON_lines"), "this is an output: name the session"),
)
NO_HEADS = "no row has the heads stream and cost: write stream,cost over the columns"
OF_COSTS = {
    "not there": ABSENT["not there"],
    "folder": (FOLDER, "there is no CSV file in this folder"),
    "empty": (b"", NO_HEADS),
    "garbage": (GARBAGE, 'this isn\'t text: save it as "CSV UTF-8" or as xlsx'),
    "a session": (SESSION, NO_HEADS),
    "no such stream": (b"stream,cost\nRESI,9000\n", "there is no stream RESI: correct the name"),
    "no name": (b"stream,cost\n,9000\n", "there is no name of a stream: correct the name"),
    "a tank": (b"stream,cost\nTK1,9000\n", "TK1 is a tank, not a stream: correct the name"),
    "a meter": (b"stream,cost\nSHIP,9000\n", "SHIP is a batch stream: it is measured already"),
    "twice": (
        b"stream,cost\nRES,1\nRES,2\n",
        "RES is already given above: leave one of the two out",
    ),
    "decimals": (b"stream,cost\nRES,9.50\n", "9.50 isn't a cost: write a whole number from 0 to"),
    "below 0": (b"stream,cost\nRES,-1\n", "-1 isn't a cost: write a whole number from 0 to"),
    "no cost": (b"stream,cost\nRES,\n", "'' isn't a number"),
}
NO_SHEET = "there is no sheet streams: plantbal-desk map proposes how it is read"
OF_WORKBOOKS = {
    "not there": ABSENT["not there"],
    "folder": (FOLDER, "there is no CSV file in this folder: write streams.csv"),
    "empty": (b"", NO_SHEET),
    "garbage": (GARBAGE, 'this isn\'t text: save it as "CSV UTF-8" or as xlsx'),
    "workbook": (
        WORKBOOK,
        "this isn't an xlsx or ods workbook|this workbook can't be read|there is no sheet",
    ),
    "a session": (SESSION, NO_SHEET),
    "a report": (REPORT, NO_SHEET),
    "semicolons": (SESSION.replace(b",", b";"), NO_SHEET),
}
CONCENTRATOR = example("concentrator")
INPUTS = [
    Input(("run", "FILE"), OF_SESSIONS),
    Input(("solve", "FILE"), OF_SESSIONS),
    Input(("explain", "FILE"), but(OF_SESSIONS, a_report="", JSON_lines="", a_check=""), "out"),
    Input(("lint", "FILE"), OF_LINT, "out"),
    Input(("check", "FILE"), OF_CHECKS),
    Input(("report", "FILE"), OF_TURNS),
    *(
        Input(("tables", what, "FILE"), OF_REPORTS)
        for what in ("flows", "classes", "count", "suspects", "imbalance")
    ),
    Input(("uncertainty", "FILE"), OF_REPORTS),
    Input(("draw", "FILE"), OF_REPORTS),
    Input(("advise", "FILE"), OF_PLANTS),
    Input(("advise", str(example("crude_unit_meters.csv")), "FILE"), OF_COSTS),
    Input(("chart", "FILE"), OF_REPORTS),
    Input(("recovery", "FILE"), OF_BALANCES),
    Input(("balance", "FILE", "may1"), OF_PLANTS),
    Input(("page", "FILE"), OF_PAGES),
    Input(("from-scipy", "FILE"), OF_REPORTS),
    Input(("explain", str(example("refinery_day.csv")), "FILE"), OF_OUTPUTS),
    Input(("convert", "FILE"), OF_WORKBOOKS),
    Input(("from-spreadsheet", "FILE", str(CONCENTRATOR / "readings.csv")), OF_TAGS),
    Input(
        ("from-spreadsheet", "--decimal", "comma", str(CONCENTRATOR / "tags.csv"), "FILE"),
        OF_READINGS,
    ),
]
CASES = [(each, mistake) for each in INPUTS for mistake in each.mistakes]


@pytest.mark.parametrize(
    "read, mistake", CASES, ids=[f"{' '.join(r.words[:2])}, {mistake}" for r, mistake in CASES]
)
def test_input(program: Path, say: Desk, tmp_path: Path, read: Input, mistake: str) -> None:
    data, said = read.mistakes[mistake]
    path = tmp_path / "given.csv"
    if data is FOLDER:
        path.mkdir()
    elif data is not NONE:
        path.write_bytes(data)
    found = say(*(str(path) if word == "FILE" else word for word in read.words))
    text = found.err + (found.out if read.says == "out" else "")
    # a folder of CSV files is a form of a workbook: one without any is something to look at
    unread = data is NONE or (data is FOLDER and not said.startswith("there is no CSV file"))
    assert found.status == (3 if unread else 1), text
    assert "Traceback" not in text and str(path) in text, text
    assert re.search(said.replace("FILE", re.escape(str(path))), text, re.DOTALL), text


OUTPUTS = [
    ("run", example("refinery_day.csv"), "--out", "OUT.csv"),
    ("run", example("refinery_day.csv"), "--out", "OUT.xlsx"),
    ("solve", example("refinery_day.csv"), "--out", "OUT.csv"),
    ("report", example("refinery_day.out.csv"), "--out", "OUT.csv"),
    ("report", example("refinery_day.out.csv"), "--out", "OUT.xlsx"),
    ("report", example("refinery_day.out.csv"), "--out", "OUT.sqlite"),
    ("chart", example("refinery_day.out.csv"), "--out", "OUT.svg"),
    ("convert", example("refinery_workbook"), "--out", "OUT.csv"),
    ("template", "refinery", "OUT.xlsx"),
    ("advise", example("crude_unit_meters.csv"), "--draw", "OUT.svg"),
    ("recovery", example("flotation_copper.out.csv"), "--chart", "OUT.svg"),
]
WHERE = {
    "no folder": ("nowhere/OUT", "No such file or directory: make its folder first"),
    "a folder": ("folder", "Is a directory: name a file in this folder"),
    "in a file": ("file/OUT", "make its folder first|check its name"),
}


@pytest.mark.parametrize("where", WHERE)
@pytest.mark.parametrize("words", OUTPUTS, ids=lambda words: f"{words[0]} {words[-1]}")
def test_output(
    program: Path, say: Desk, tmp_path: Path, words: tuple[object, ...], where: str
) -> None:
    """What can't be written is said with what to do, and nothing is left there."""
    place, said = WHERE[where]
    ending = Path(str(words[-1])).suffix
    path = tmp_path / f"{place}{ending}"
    (tmp_path / "file").write_text("hello")
    if where == "a folder":
        path.mkdir()
    before = sorted(tmp_path.rglob("*"))
    found = say(*words[:-1], path)
    assert found.status == 3, found
    assert f"{path}: it can't be written: " in found.err, found.err
    assert re.search(said, found.err) and "Traceback" not in found.err
    assert sorted(tmp_path.rglob("*")) == before


FULL = [
    ("run", example("refinery_day.csv")),
    ("check", example("refinery_day.out.csv")),
    ("report", example("refinery_day.out.csv")),
    ("tables", "flows", example("refinery_day.out.csv")),
    ("draw", example("refinery_day.out.csv")),
    ("chart", example("refinery_day.out.csv")),
    ("page", example("refinery_day.out.csv")),
    ("critical", "0.05", "4"),
    ("lint", example("refinery_day.csv")),
    ("schema",),
    ("convert", example("refinery_workbook")),
    ("from-scipy", example("refinery_day.out.csv")),
    ("advise", example("crude_unit_meters.csv")),
    ("recovery", example("flotation_copper.out.csv")),
    ("balance", example("flotation_copper.csv"), "jun04"),
]


@pytest.mark.parametrize("words", FULL, ids=lambda words: words[0])
def test_full_device(program: Path, words: tuple[object, ...]) -> None:
    """A full disk at standard output is said in a sentence, and never at the end of Python."""
    with open("/dev/full", "wb") as full:
        done = subprocess.run(
            [sys.executable, "-m", "plantbal", *map(str, words)],
            cwd=TOP / "python",
            stdout=full,
            stderr=subprocess.PIPE,
            text=True,
            check=False,
        )
    assert done.returncode == 3, done.stderr
    assert "standard output: No space left on device: free some space" in done.stderr
    assert "Traceback" not in done.stderr and "Exception" not in done.stderr


DAY, OUTPUT = example("refinery_day.csv"), example("refinery_day.out.csv")
METERS = example("crude_unit_meters.csv")
TOOLS = [
    (("run", DAY), "PLANTBAL", "there is no program nowhere: install plantbal, or name it in"),
    (("solve", DAY), "PLANTBAL", "there is no program nowhere: install plantbal, or name it in"),
    (("check", OUTPUT), "PLANTBAL", "there is no program nowhere: install plantbal, or name it in"),
    (("fleet", "--out", "OUT", DAY.parent), "PLANTBAL", "there is no program nowhere: install"),
    (("advise", METERS), "PLANTBAL", "there is no program nowhere: install plantbal, or name it"),
    (("draw", OUTPUT), "dot", "there is no `dot`: install graphviz"),
    (("page", OUTPUT), "jinja2", "there is no jinja2: install python3-jinja2"),
    (("chart", OUTPUT), "matplotlib", "there is no matplotlib: install python3-matplotlib"),
    (("critical", "0.05", "4"), "scipy", "there is no scipy: install python3-scipy"),
    (("solve", DAY), "scipy", "there is no scipy: install python3-scipy"),
    (("tables", "flows", OUTPUT), "pandas", "there is no pandas: install python3-pandas"),
    (("run", DAY, "--out", "OUT.xlsx"), "pandas", "there is no pandas: install python3-pandas"),
    (("check", OUTPUT), "pandas", "there is no pandas: install python3-pandas"),
    (("uncertainty", OUTPUT), "pandas", "there is no pandas: install python3-pandas"),
    (("convert", "--locale", "de", "x.xlsx"), "babel", "there is no babel: install python3-babel"),
    (("report", OUTPUT, "--out", "OUT.xlsx"), "openpyxl", "no openpyxl: install python3-openpyxl"),
    (("template", "refinery", "OUT.xlsx"), "openpyxl", "no openpyxl: install python3-openpyxl"),
]


@pytest.mark.parametrize(
    "words, tool, said", TOOLS, ids=[f"{words[0]}, {tool}" for words, tool, _ in TOOLS]
)
def test_missing_tool(
    program: Path,
    say: Desk,
    tmp_path: Path,
    monkeypatch: pytest.MonkeyPatch,
    words: tuple[object, ...],
    tool: str,
    said: str,
) -> None:
    """A library or a program that isn't installed is named with the package that has it."""
    if tool == "PLANTBAL":
        monkeypatch.setenv("PLANTBAL", "nowhere")
    elif tool == "dot":
        monkeypatch.setenv("PATH", str(tmp_path))
    else:
        for name in [name for name in sys.modules if name.split(".")[0] == tool]:
            monkeypatch.delitem(sys.modules, name)
        monkeypatch.setitem(sys.modules, tool, None)
    made = [str(word).replace("OUT", str(tmp_path / "made")) for word in words]
    found = say(*made)
    assert (found.status, said in found.err) == (3, True), found.err
    assert "Traceback" not in found.err and not list(tmp_path.iterdir())


def test_another_python(say: Desk, monkeypatch: pytest.MonkeyPatch) -> None:
    """Debian's packages are for Debian's Python, and not for another one that comes first."""
    monkeypatch.setitem(sys.modules, "pandas", None)
    for own in (False, True):
        monkeypatch.setattr(sys, "executable", "/usr/bin/python3" if own else "/opt/bin/python3")
        found = say("tables", "flows", OUTPUT)
        assert found.status == 3 and "install python3-pandas" in found.err
        assert (", which is for /usr/bin/python3: this is /opt/bin/" in found.err) != own


WORDS = [
    (["nope"], "invalid choice: 'nope'"),
    (["run", "--nope"], "unrecognized arguments: --nope"),
    (["run", "--gap", "0.01"], "argument --gap: '0.01' isn't a whole number from 1 to 1,000,000"),
    (["lint", "--ignore", "nope"], "argument --ignore: invalid choice: 'nope'"),
    (["explain"], "the following arguments are required: SESSION"),
    (["check", "--format", "json"], "unrecognized arguments: --format"),
    (["report", "a", "b"], "unrecognized arguments: b"),
    (["solve", "--engine", "x"], "unrecognized arguments: --engine"),
    (["convert"], "the following arguments are required: WORKBOOK"),
    (["template", "brewery", "a.xlsx"], "argument KIND: invalid choice: 'brewery'"),
    (["from-spreadsheet", "tags.csv"], "the following arguments are required: READINGS"),
    (["from-spreadsheet", "--decimal", "x", "a", "b"], "argument --decimal: invalid choice: 'x'"),
    (["tables", "all"], "argument what: invalid choice: 'all'"),
    (["advise", "--form", "xml", "a"], "argument --form: invalid choice: 'xml'"),
    (["draw", "--round", "first"], "argument --round: invalid int value: 'first'"),
    (["chart", "--most", "many"], "argument --most: invalid int value: 'many'"),
    (["page", "--titel", "x"], "unrecognized arguments: --titel"),
    (["fleet", "sessions"], "the following arguments are required: --out"),
    (["fleet", "--engine", "spark", "--out", "o", "s"], "argument --engine: invalid choice"),
    (["critical", "5"], "'5' isn't a level: write a number between 0 and 1, such as 0.05"),
    (["critical", "0.05"], "give degrees of freedom, --nodal or --measure"),
    (["critical", "0.05", "many"], "'many' isn't a number of degrees of freedom: write 4 or 1-20"),
    (["from-scipy", "--nope"], "unrecognized arguments: --nope"),
    (["schema", "x"], "unrecognized arguments: x"),
]


@pytest.mark.parametrize("words, said", WORDS, ids=[" ".join(words) for words, _ in WORDS])
def test_words(say: Desk, words: list[str], said: str) -> None:
    """Words that aren't a subcommand's end with 2, and the wrong one is named."""
    found = say(*words)
    assert (found.status, found.out) == (2, "")
    assert said in found.err and "usage:" in found.err


NAMES = [
    (["draw", OUTPUT, "--period", "may2"], "no report of this period and round: there are may1"),
    (["draw", OUTPUT, "--mark", "KEROSENES"], "there is no stream KEROSENES"),
    (["draw", OUTPUT, "--advice"], "there is no advice in what was read: write the rows design"),
    (["draw", OUTPUT, "--period", "may1", "--advice"], "--advice is for a plant, not for a report"),
    (["from-scipy", OUTPUT, "--period", "may2"], "there is no report of may2: there are may1"),
    (["run", DAY, "--out", "a.pdf"], "a.pdf ends with '.pdf': use .csv, .sqlite or .xlsx"),
    (["solve", DAY, "--out", "a.pdf"], "a.pdf ends with '.pdf': use .csv, .sqlite or .xlsx"),
    (["report", OUTPUT, "--out", "a.json"], "a.json ends with '.json': use .csv, .sqlite or .xlsx"),
    (["template", "refinery", "a.ods"], "a.ods doesn't end with .xlsx: use a name such as"),
    (["convert", DAY.parent / "refinery_workbook", "--locale", "xx"], "xx"),
]


@pytest.mark.parametrize(
    "words, said", NAMES, ids=[f"{words[0]} {words[-1]}" for words, _ in NAMES]
)
def test_names(program: Path, say: Desk, words: list[object], said: str) -> None:
    """A period or a stream that isn't there is named, and an ending, which is of the words."""
    found = say(*words)
    is_of_words = Path(str(words[-1])).suffix in (".pdf", ".json", ".ods") or len(words) == 5
    status = 2 if is_of_words else 1
    assert (found.status, found.out, said in found.err) == (status, "", True), found.err


# Those with mistakes in tests of their own.
ELSEWHERE = {
    "fleet": "test_fleet.py",
    "map": "test_map.py",
    "book": "test_book.py",
    "archive": "test_audit.py",
    "audit": "test_audit.py",
    "tell": "test_tell.py",
    "across": "test_across.py",
    "pull": "test_database.py",
    "serve": "office/test_bad_input.py",
    "push": "test_database.py",
}


def test_each_subcommand_is_tried() -> None:
    tried = {each.words[0] for each in INPUTS} | {str(words[0]) for words in OUTPUTS}
    tried |= {str(words[0]) for words in FULL}
    for command in desk.COMMANDS:
        own = Path(__file__).parent / ELSEWHERE.get(command.word, "none")
        assert command.word in tried or own.exists(), command.word
