"""Facts pulled from PostgreSQL and SQLite into a book, and what is booked pushed to them, once."""

from __future__ import annotations

import os
import shutil
import signal
import sqlite3
import time
from collections.abc import Callable, Iterator
from pathlib import Path

import pytest
from books import ANYWAY, PLANT, files_of, folder, journal_of, month, rows_of
from conftest import Desk, text_of
from postgres import BIN, PASSWORD, Server, served

from plantbal import desk
from plantbal.database.queries import read_queries
from plantbal.database.pushing import tables_sql

pytestmark = pytest.mark.skipif(not (BIN / "postgres").exists(), reason="there is no postgresql-15")
KILLS = int(os.environ.get("PLANTBAL_KILLS", "10"))  # make kills tries 100 of each

# As a historian keeps them: a row an hour and tag, in doubles, with a quality; and as a LIMS does.
HISTORIAN = """
CREATE SCHEMA hist;
CREATE TABLE hist."Samples" (
    tag text, at timestamptz, value double precision, quality int, changed timestamptz
);
INSERT INTO hist."Samples"
    SELECT tag, at, amount / 24.0, 192, at + interval '90 s'
    FROM (VALUES ('F-1', 1200), ('P-1', 1199.5)) AS tags (tag, amount),
         generate_series('2024-04-01T00:00Z'::timestamptz, '2024-04-03T23:00Z', '1 h') AS at;
CREATE TABLE dips (tank text, day date, mm numeric(6, 1), changed timestamptz);
INSERT INTO dips VALUES ('SILO', '2024-03-31', 8000, '2024-03-31T23:10Z'),
                        ('SILO', '2024-04-30', 9500, '2024-04-30T23:10Z');
CREATE TABLE tickets (id text, stream text, day date, tonnes numeric(12, 3), changed timestamptz);
INSERT INTO tickets VALUES ('truck-04', 'TRUCKS', '2024-04-01', 800.000, '2024-04-01T12:00Z');
GRANT USAGE ON SCHEMA hist TO reader;
GRANT SELECT ON hist."Samples", dips, tickets TO reader;
"""
MAPPING = """
[source]
url = "{url}"
password = "{password}"
[settings]
zone = "UTC"
[[query]]
sheet = "readings"
sql = '''SELECT at AS day, tag, value, quality, changed FROM hist."Samples"
         WHERE at >= :begin AND at < :end ORDER BY tag, at'''
quality = "quality"
good = [192]
bad = [0]
changed = "changed"
[[query]]
sheet = "dips"
sql = "SELECT tank, day, mm AS level, changed FROM dips WHERE day BETWEEN :eve AND :last"
changed = "changed"
[[query]]
sheet = "tickets"
sql = '''SELECT id, stream, day AS "first", tonnes AS amount, changed FROM tickets
         WHERE day BETWEEN :first AND :last'''
changed = "changed"
[push]
schema = "erp"
"""
DAYS = ("--from", "2024-04-01", "--to", "2024-04-30")


@pytest.fixture(name="server", scope="module")
def fixture_server(tmp_path_factory: pytest.TempPathFactory) -> Iterator[Server]:
    with served(tmp_path_factory.mktemp("server")) as server:
        yield server


@pytest.fixture(name="tables")
def fixture_tables(server: Server) -> Iterator[Server]:
    """The server with the tables of a historian and a LIMS, as they were at first."""
    server.sql(HISTORIAN)
    yield server
    server.sql(
        "DROP SCHEMA hist CASCADE; DROP TABLE dips, tickets; DROP SCHEMA IF EXISTS erp CASCADE;"
    )


@pytest.fixture(name="mapping")
def fixture_mapping(tables: Server, tmp_path: Path, monkeypatch: pytest.MonkeyPatch) -> Path:
    monkeypatch.setenv("HISTORIAN_PASSWORD", PASSWORD)
    path = tmp_path / "historian.toml"
    text = MAPPING.format(url=tables.url, password="env HISTORIAN_PASSWORD")
    path.write_text(text, encoding="utf-8")
    return path


@pytest.fixture(name="mill")
def fixture_mill(say: Desk, tmp_path: Path) -> Path:
    """A book without facts."""
    plant = folder(tmp_path / "plant", PLANT)
    assert say("book", "new", "2024", plant, "--book", tmp_path / "mill").status == 0
    return tmp_path / "mill"


def test_a_month_pulled_twice_is_as_by_workbook(
    say: Desk, mill: Path, mapping: Path, tables: Server, tmp_path: Path
) -> None:
    """Hours of April, then a corrected hour, a corrected ticket and a bad hour that is good now."""
    said = say("pull", mapping, "--book", mill, *DAYS)
    assert (said.status, said.err) == (0, ""), said
    assert "query 1: 144 are floats" in said.out and "new: 1 period, 6 readings" in said.out
    again = say("pull", mapping, "--book", mill, *DAYS)
    assert "9 facts are booked already" in again.out and "nothing new" in again.out, again
    tables.sql(
        "UPDATE hist.\"Samples\" SET value = value + 6, changed = '2024-05-02T08:15:00Z' "
        "WHERE tag = 'F-1' AND at = '2024-04-02T05:00Z';"
        "UPDATE tickets SET tonnes = 810.5, changed = '2024-05-03T09:00:00Z';"
    )
    said = say("pull", mapping, "--book", mill, *DAYS)
    assert (said.status, said.err) == (0, ""), said
    rows = rows_of(tmp_path)
    hand = say("book", "new", "2024", tmp_path / "plant", "--book", tmp_path / "hand" / "mill")
    april = month()
    assert hand.status == 0
    assert (
        say(
            "book", "add", folder(tmp_path / "april", april), "--book", tmp_path / "hand" / "mill"
        ).err
        == ""
    )
    april["readings"][2][1], april["tickets"][1][3] = "1206", "810.5"
    words = "--book", tmp_path / "hand" / "mill", "--why", "x"
    assert say("book", "add", folder(tmp_path / "april", april), *words).err == ""
    wanted = rows_of(tmp_path / "hand")
    assert sorted(map(without_reason, rows)) == sorted(map(without_reason, wanted))
    edits = {row.split(",")[1]: row for row in rows if row.startswith("amend")}
    assert (
        "changed at the source at 2024-05-02T08:15:00Z (historian.toml)" in edits["F-1_2024-04-02"]
    )
    assert "changed at the source at 2024-05-03T09:00:00Z (historian.toml)" in edits["truck-04"]
    assert journal_of(mill)[-1][1:4] == ["pull", "historian.toml", "2024-04-01 to 2024-04-30"]


def without_reason(row: str) -> str:
    return row.rpartition(",")[0] if row.startswith("amend") else row


def test_late_facts(say: Desk, mill: Path, mapping: Path, tables: Server, tmp_path: Path) -> None:
    assert say("pull", mapping, "--book", mill, *DAYS).status == 0
    assert say("book", "close", "2024-04", *ANYWAY, "--book", mill).status in (0, 1)
    tables.sql("INSERT INTO tickets VALUES ('truck-05', 'TRUCKS', '2024-04-02', 12.5, now())")
    said = say("pull", mapping, "--book", mill, *DAYS)
    assert said.status == 0, said
    assert rows_of(tmp_path)[-1].startswith(
        "late,transfer,truck-05,TRUCKS,2024-04-02,2024-04-02,12500000,"
    )


def test_a_pull_is_shown_before_it_is_booked(
    say: Desk, mill: Path, mapping: Path, tables: Server, monkeypatch: pytest.MonkeyPatch
) -> None:
    """What is new, what changes from which figure to which and when, what vanished; then a question."""
    assert say("pull", mapping, "--book", mill, *DAYS).status == 0
    tables.sql(
        "UPDATE tickets SET tonnes = 810.5, changed = '2024-05-03T09:00:00Z';"
        "INSERT INTO tickets SELECT 'new-' || n, 'TRUCKS', '2024-04-02', n, '2024-05-04T10:00:00Z'"
        " FROM generate_series(1, 14) AS n;"
        "DELETE FROM dips WHERE day = '2024-04-30'"
    )
    wanted = (
        "new: new-3: 3 t, of 2024-05-04T10:00:00Z at the source",
        "2 more are new",
        "truck-04: 800 t becomes 810.5 t, changed at the source at 2024-05-03T09:00:00Z",
        "SILO_2024-04-30: 9,500 mm at 1,250 kg/m3 is booked, and is no longer in historian.toml",
    )
    before = files_of(mill)
    monkeypatch.setattr("plantbal.commands.database.may_ask", lambda: True)
    for words, answer, last in (
        (("--dry-run",), "", "nothing is booked, as --dry-run says"),
        ((), "n", "nothing is booked"),
        ((), "", "nothing is booked"),
        ((), "y", "it is booked"),
    ):
        monkeypatch.setattr("builtins.input", lambda question, answer=answer: answer)
        said = say("pull", mapping, "--book", mill, *DAYS, *words)
        assert [text for text in wanted if text not in said.out] == [], said.out
        assert said.out.splitlines()[-1] == last, (answer, said)
        assert (files_of(mill) == before) == (answer != "y"), answer
    assert "nothing new" in say("pull", mapping, "--book", mill, *DAYS, "--yes").out


GONE = "DELETE FROM tickets WHERE id = 'truck-04'"


@pytest.mark.parametrize("vanished", ["", "ask", "keep", "strike"])
def test_a_row_that_vanished(
    say: Desk, mill: Path, mapping: Path, tables: Server, tmp_path: Path, vanished: str
) -> None:
    """It is told and asked, kept or struck; what a workbook brought is never taken for vanished."""
    hand = {
        "tickets": [["id", "stream", "first", "amount"], ["typed", "TRUCKS", "2024-04-02", "9"]]
    }
    assert say("pull", mapping, "--book", mill, *DAYS).status == 0
    assert say("book", "add", folder(tmp_path / "hand", hand), "--book", mill).status == 0
    before = rows_of(tmp_path)
    tables.sql(GONE)
    text = text_of(mapping)
    if vanished:
        text = text.replace('sheet = "tickets"', f'sheet = "tickets"\nvanished = "{vanished}"')
    mapping.write_text(text, encoding="utf-8")
    said = say("pull", mapping, "--book", mill, *DAYS)
    told = "truck-04: 800 t is booked, and is no longer in historian.toml" in said.out
    assert told == (vanished in ("", "ask")) and "typed" not in said.out, said
    assert said.status == (1 if told else 0), said
    struck = rows_of(tmp_path)[len(before) :]
    wanted = ["strike,truck-04,no longer at the source (historian.toml)"]
    assert struck == (wanted if vanished == "strike" else [])
    if vanished == "strike":
        assert "nothing new" in say("pull", mapping, "--book", mill, *DAYS).out
        tables.sql("INSERT INTO tickets VALUES ('truck-04', 'TRUCKS', '2024-04-01', 800, now())")
        assert say("pull", mapping, "--book", mill, *DAYS).status == 0
        assert any("truck-04" in row for row in rows_of(tmp_path)[len(before) + 1 :]), "it is back"


def test_most_vanished(say: Desk, mill: Path, mapping: Path, tables: Server) -> None:
    """A source that is nearly empty is a fault, and nothing is struck."""
    text = text_of(mapping).replace('sheet = "readings"', 'sheet = "readings"\nvanished = "strike"')
    mapping.write_text(text, encoding="utf-8")
    assert say("pull", mapping, "--book", mill, *DAYS).status == 0
    before = files_of(mill)
    tables.sql('DELETE FROM hist."Samples"; DELETE FROM dips')
    said = say("pull", mapping, "--book", mill, *DAYS)
    assert said.status != 0 and "facts that are booked aren't in historian.toml" in said.err, said
    assert files_of(mill) == before


ODBC = """
[source]
url = "odbc://reader@127.0.0.1/plant?driver=PostgreSQL+Unicode&port={port}"
password = "env HISTORIAN_PASSWORD"
[[query]]
sheet = "readings"
sql = '''SELECT CAST(at AS date) AS day, tag, round(sum(value)::numeric, 6) AS value
         FROM hist."Samples" WHERE at >= :first AND at < :last GROUP BY 1, 2'''
[[query]]
sheet = "dips"
sql = "SELECT tank, day, mm AS level FROM dips WHERE day BETWEEN :eve AND :last"
[[query]]
sheet = "tickets"
sql = '''SELECT id, stream, day AS "first", tonnes AS amount FROM tickets
         WHERE day BETWEEN :first AND :last'''
[push]
schema = "erp"
"""
DRIVER = Path("/usr/lib/x86_64-linux-gnu/odbc/psqlodbcw.so")


@pytest.mark.skipif(not DRIVER.exists(), reason="there is no odbc-postgresql")
def test_odbc(
    say: Desk,
    mill: Path,
    mapping: Path,
    erp: Callable[[], list[str]],
    tables: Server,
    tmp_path: Path,
) -> None:
    """The same tables by ODBC give the same book as by the database's own driver, and take a push."""
    path = tmp_path / "odbc" / "odbc.toml"
    path.parent.mkdir()
    path.write_text(ODBC.format(port=tables.port), encoding="utf-8")
    other = tmp_path / "odbc" / "mill"
    plant = tmp_path / "plant"
    assert say("book", "new", "2024", plant, "--book", other).status == 0
    said = say("pull", path, "--book", other, *DAYS)
    assert said.status == 0 and "6 readings, 1 ticket, 2 dips" in said.out, said
    own = [row for row in rows_of(tmp_path) if not row.startswith("report,")]
    assert sorted(rows_of(tmp_path / "odbc")) == sorted(own)
    for said_ in (say("push", path, "2024-04", "--book", mill) for _ in range(2)):
        assert said_.status == 0, said_
    assert len(erp()) == 1
    said = say("pull", path, "--book", other, *DAYS)
    assert PASSWORD not in said.out + said.err + "".join(files_of(other).values())


def test_quality(say: Desk, mill: Path, mapping: Path, tables: Server) -> None:
    """A bad hour is missing, so its day isn't a figure; a code that nothing tells is a fault."""
    change = (
        "UPDATE hist.\"Samples\" SET quality = {} WHERE tag = 'F-1' AND at = '2024-04-02T05:00Z'"
    )
    tables.sql(change.format(0))
    said = say("pull", mapping, "--book", mill, *DAYS)
    assert said.status == 1 and "2024-04-02" in said.err and "05:00" in said.err, said
    tables.sql(change.format(64))
    said = say("pull", mapping, "--book", mill, *DAYS)
    assert said.status == 1 and "nothing says what the quality 64 means" in said.err, said


PASSWORDS = [
    # where the password is, and what is said
    ("url", "[source] url has a password"),
    ("wrong", "password authentication failed"),
    ("none", "there is no password in the environment's PB_NONE"),
    ("open file", "others can read this password"),
    ("file", ""),
    ("pgpass", ""),
]


@pytest.mark.parametrize(("way", "what"), PASSWORDS, ids=[way for way, _ in PASSWORDS])
def test_passwords(
    say: Desk,
    mill: Path,
    tables: Server,
    tmp_path: Path,
    monkeypatch: pytest.MonkeyPatch,
    way: str,
    what: str,
) -> None:
    """A password comes from where the mapping says, and is in nothing that is said or kept."""
    secret = tmp_path / "secret"
    secret.write_text(PASSWORD + "\n", encoding="utf-8")
    secret.chmod(0o644 if way == "open file" else 0o600)
    url, place = tables.url, f"file {secret}"
    if way == "url":
        url, place = url.replace("reader@", "reader:hunter2@"), ""
    elif way == "wrong":
        monkeypatch.setenv("PB_WRONG", "not the word of it")
        place = "env PB_WRONG"
    elif way == "none":
        monkeypatch.delenv("PB_NONE", raising=False)
        place = "env PB_NONE"
    elif way == "pgpass":
        kept = PASSWORD.replace("\\", "\\\\").replace(":", "\\:")
        secret.write_text(f"127.0.0.1:{tables.port}:plant:reader:{kept}\n", encoding="utf-8")
        monkeypatch.setenv("PGPASSFILE", str(secret))
        place = ""
    path = tmp_path / "m.toml"
    path.write_text(MAPPING.format(url=url, password=place), encoding="utf-8")
    said = say("pull", path, "--book", mill, *DAYS)
    assert (said.status != 0) == bool(what), said
    assert what in said.err
    kept_texts = "".join(files_of(mill).values())
    for word in (PASSWORD, "hunter2", "not the word of it"):
        assert word not in said.out + said.err + kept_texts, "no password is said or kept"


LIMITS = [
    ("rows = 100", "more than 100 rows", ""),
    ("megabytes = 1", "more than 1 MB", "repeat('x', 30000)"),
    ("seconds = 1", "canceling statement due to statement timeout", "pg_sleep(20)::text"),
]


@pytest.mark.parametrize(("limit", "what", "instead"), LIMITS, ids=[each[0] for each in LIMITS])
def test_limits(say: Desk, mill: Path, mapping: Path, limit: str, what: str, instead: str) -> None:
    text = text_of(mapping) + f"[limits]\n{limit}\n"
    if instead:
        text = text.replace("SELECT at AS day, tag,", f"SELECT at AS day, {instead} AS tag,")
    mapping.write_text(text, encoding="utf-8")
    begin, before = time.monotonic(), files_of(mill)
    said = say("pull", mapping, "--book", mill, *DAYS)
    assert said.status != 0 and what in said.err, said
    assert time.monotonic() - begin < 15 and files_of(mill) == before


def test_a_pull_is_read_only(say: Desk, mill: Path, mapping: Path, tables: Server) -> None:
    """A query can't change the source, even if its user may, by a function that does."""
    tables.sql(
        "GRANT ALL ON tickets TO reader;"
        "CREATE OR REPLACE FUNCTION wiped() RETURNS integer LANGUAGE sql"
        " AS 'DELETE FROM tickets RETURNING 1';"
    )
    text = text_of(mapping).replace("mm AS level", "mm + wiped() AS level")
    mapping.write_text(text, encoding="utf-8")
    said = say("pull", mapping, "--book", mill, *DAYS)
    assert said.status != 0 and "read-only transaction" in said.err, said
    assert tables.sql("SELECT count(*) FROM tickets").strip() == "1"


def test_what_a_mapping_may_not_say(say: Desk, mill: Path, tmp_path: Path) -> None:
    cases = {
        "url = 3": "[source] has no url",
        'url = "nonsense"': "[source] url isn't the address of a database",
        'url = "sqlite:///none.db"': "there is no such database",
        'url = "x"\npassword = "hunter2"': "isn't the place of a password",
        'url = "x"\n[[query]]\nsheet = "streams"\nsql = "x"': "'streams' isn't a sheet of facts",
        'url = "x"\n[limits]\nrows = 0': "isn't a whole number above 0",
        'url = "x"\n[push]\nschema = "a\\"; DROP"': "isn't a name of a table",
        'url = "x"\nuser = "y"': "[source] has 'user'",
        "url = = 3": "this isn't TOML",
        'url = "x"\n[[query]]\nsheet = "dips"\nsql = "x"\nvanished = "no"': "vanished is 'no'",
        'url = "odbc:///?odbc_connect=DSN%3Dx%3BPWD%3Dhunter2"': "[source] url has a password",
    }
    path = tmp_path / "m.toml"
    for text, what in cases.items():
        query = '\n[[query]]\nsheet = "dips"\nsql = "SELECT 1"\n' if "query" not in text else ""
        path.write_text(f"[source]\n{text}{query}", encoding="utf-8")
        said = say("pull", path, "--book", mill)
        assert said.status != 0 and what in said.err and "hunter2" not in said.err, (text, said)


def pushed(server: Server) -> list[str]:
    """What the tables have: pushes with how many figures each has."""
    asked = (
        "SELECT p.id, p.figures, count(*) FROM erp.plantbal_pushes p JOIN erp.plantbal_figures f "
    )
    return server.sql(asked + "ON f.push_id = p.id GROUP BY 1, 2 ORDER BY 1").split()


@pytest.fixture(name="erp")
def fixture_erp(
    say: Desk, mill: Path, mapping: Path, tables: Server, program: Path
) -> Callable[[], list[str]]:
    """A month that is pulled and reported, and tables for it."""
    assert say("pull", mapping, "--book", mill, *DAYS).status == 0
    assert say("book", "report", "2024-04", "--book", mill, "--program", program).status in (0, 1)
    tables.sql("CREATE SCHEMA erp; " + tables_sql(read_queries(mapping)))
    tables.sql(
        "GRANT USAGE ON SCHEMA erp TO reader; GRANT ALL ON ALL TABLES IN SCHEMA erp TO reader"
    )
    return lambda: pushed(tables)


def test_a_push_is_written_once(
    say: Desk, mill: Path, mapping: Path, erp: Callable[[], list[str]], tables: Server
) -> None:
    said = say("push", mapping, "2024-04", "--book", mill)
    assert (said.status, said.err) == (0, ""), said
    there = erp()
    said = say("push", mapping, "2024-04", "--book", mill)
    assert said.status == 0 and "already exists, so nothing is written" in said.out
    assert erp() == there and len(there) == 1
    closing = "SELECT what, grams FROM erp.plantbal_figures WHERE name = 'SILO' AND kind = 'stock'"
    stock = dict(line.split("|") for line in tables.sql(closing).split())
    opened = (8000 * 4_708_000_000 // 20_000 + 2_000_000) * 1_250_000 // 10**6
    assert int(stock["opening"]) == opened, "the dip of the eve, by the table"
    moved = sum(int(stock[what]) for what in ("opening", "adjustment", "gain"))
    assert moved == int(stock["closing"])
    tables.sql("INSERT INTO tickets VALUES ('truck-06', 'TRUCKS', '2024-04-03', 1, now())")
    assert say("pull", mapping, "--book", mill, *DAYS).status == 0
    said = say("push", mapping, "2024-04", "--book", mill)
    assert said.status != 0 and "older than its facts" in said.err
    assert erp() == there


def test_killed(
    mill: Path,
    mapping: Path,
    erp: Callable[[], list[str]],
    tables: Server,
    tmp_path: Path,
    say: Desk,
) -> None:
    """A pull and a push that are killed at any moment, and done again, lose and double nothing."""
    kept = tmp_path / "kept"
    shutil.copytree(mill, kept)
    tables.sql("UPDATE tickets SET tonnes = 801, changed = '2024-05-03T09:00:00Z'")
    whole = timed(mapping, kept, "pull", *DAYS)
    wanted = files_of(kept)
    shutil.copytree(mill, tmp_path / "report")
    hit = 0
    for at in range(KILLS):
        room = tmp_path / "tried"
        shutil.rmtree(room, ignore_errors=True)
        shutil.copytree(mill, room)
        hit += killed(mapping, room, whole * (at + 0.5) / KILLS, "pull", *DAYS)
        assert timed(mapping, room, "pull", *DAYS), "it is pulled again"
        assert rows(room) == rows(kept), f"after kill {at} of {KILLS}"
    assert wanted
    whole = timed(mapping, tmp_path / "report", "push", "2024-04")
    there = erp()
    for at in range(KILLS):
        tables.sql("TRUNCATE erp.plantbal_pushes CASCADE")
        hit += killed(mapping, tmp_path / "report", whole * (at + 0.5) / KILLS, "push", "2024-04")
        half = erp()
        assert half in ([], there), "all of it is there, or nothing"
        timed(mapping, tmp_path / "report", "push", "2024-04")
        assert erp() == there, f"after kill {at} of {KILLS}"
    assert hit >= KILLS // 2, f"only {hit} of {2 * KILLS} kills came before the end"
    print(f"{2 * KILLS} kills, {hit} of them before the command had ended")


def rows(book: Path) -> str:
    return text_of(book / "2024.csv")


def begun(mapping: Path, book: Path, *words: str) -> int:
    """A process that carries out a command: a copy of this one, so that no time goes to imports."""
    pid = os.fork()
    if pid:
        return pid
    status = 70
    try:
        nothing = os.open(os.devnull, os.O_WRONLY)
        os.dup2(nothing, 1), os.dup2(nothing, 2)
        first, *more = words
        status = desk.run_words(
            desk.desk_parser(), [first, str(mapping), *more, "--book", str(book)]
        )
    finally:
        os._exit(status)


def timed(mapping: Path, book: Path, *words: str) -> float:
    begin = time.monotonic()
    _, status = os.waitpid(begun(mapping, book, *words), 0)
    assert os.waitstatus_to_exitcode(status) == 0
    return time.monotonic() - begin


def killed(mapping: Path, book: Path, seconds: float, *words: str) -> bool:
    """Kill a command after some seconds, and return whether it was still at work."""
    pid = begun(mapping, book, *words)
    time.sleep(seconds)
    os.kill(pid, signal.SIGKILL)
    return os.WIFSIGNALED(os.waitpid(pid, 0)[1])


def test_sqlite(say: Desk, mill: Path, tmp_path: Path, program: Path) -> None:
    """A file of SQLite is pulled from, within a transaction that can't write, and pushed to."""
    path = tmp_path / "lims.toml"
    text = """
[source]
url = "sqlite:///lims.db"
[[query]]
sheet = "readings"
sql = "SELECT day, tag, value FROM daily WHERE day BETWEEN :first AND :last"
[[query]]
sheet = "dips"
sql = "SELECT tank, day, level FROM dips WHERE day BETWEEN :eve AND :last"
[push]
"""
    path.write_text(text, encoding="utf-8")
    with sqlite3.connect(tmp_path / "lims.db") as base:
        base.execute("CREATE TABLE daily (day TEXT, tag TEXT, value REAL)")
        base.execute("CREATE TABLE dips (tank TEXT, day TEXT, level INTEGER)")
        april = month()
        for day, *values in april["readings"][1:]:
            for tag, value in zip(("F-1", "P-1"), values):
                base.execute("INSERT INTO daily VALUES (?, ?, ?)", (day, tag, float(value)))
        base.execute("INSERT INTO daily VALUES ('2024-04-04', 'F-1', 9e999)")
        base.executemany("INSERT INTO dips VALUES (?, ?, ?)", april["dips"][1:])
        base.executescript(tables_sql(read_queries(path)))
    said = say("pull", path, "--book", mill, *DAYS)
    assert (said.status, said.err) == (0, ""), said
    assert "6 readings, 2 dips" in said.out and "query 1: 7 are floats" in said.out
    assert "query 1: 1 figure is NaN or infinite, and taken for missing: value" in said.out
    assert any(
        row.startswith("reading,P-1_2024-04-02,PRODUCT,2024-04-02,1199500000,")
        for row in rows_of(tmp_path)
    )
    assert say("book", "report", "2024-04", "--book", mill, "--program", program).status in (0, 1)
    for _ in range(2):
        assert say("push", path, "2024-04", "--book", mill).status == 0
    with sqlite3.connect(tmp_path / "lims.db") as base:
        assert base.execute("SELECT count(*) FROM plantbal_pushes").fetchall() == [(1,)]
    path.write_text(
        text.replace("SELECT day, tag", "DELETE FROM daily; SELECT day, tag"), encoding="utf-8"
    )
    assert say("pull", path, "--book", mill, *DAYS).status != 0
    with sqlite3.connect(tmp_path / "lims.db") as base:
        assert base.execute("SELECT count(*) FROM daily").fetchall() == [(7,)]
