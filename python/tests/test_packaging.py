"""What is made from other files is fresh, and completions complete."""

from __future__ import annotations

import ast
import re
import shutil
import subprocess
import sys
from pathlib import Path

import pytest

from plantbal.commands.book.command import COMMANDS

TOP = Path(__file__).resolve().parents[2]
COMPLETIONS = TOP / "packaging" / "completions"


def needed(tool: str) -> str:
    """Return the path of a tool, or skip the test where it isn't installed."""
    path = shutil.which(tool)
    if path is None:
        pytest.skip(f"there is no {tool}")
    return path


def said_by_bash(command: str, *typed: str) -> list[str]:
    """Return what bash offers for the last of the typed words."""
    name = "_" + command.replace("-", "_")
    script = f"""
        . {COMPLETIONS / command}.bash
        COMP_WORDS=("$@") COMP_CWORD=$(($# - 1))
        {name}
        printf '%s\\n' "${{COMPREPLY[@]}}"
    """
    done = subprocess.run(
        ["bash", "-c", script, "bash", command, *typed],
        stdout=subprocess.PIPE,
        check=True,
        text=True,
    )
    return sorted(done.stdout.split())


def test_derived_files_are_fresh() -> None:
    done = subprocess.run(
        [sys.executable, TOP / "packaging" / "derived", "check"],
        stderr=subprocess.PIPE,
        text=True,
    )
    assert (done.returncode, done.stderr) == (0, "")


BASH_CASES = [
    (["c"], ["check"]),
    (["run", "--t"], ["--tests"]),
    (["run", "--"], ["--eliminate", "--format", "--gap", "--sweeps", "--tests"]),
    (["make", "--"], ["--gap", "--number", "--streams", "--summary", "--sweeps"]),
    (["check", ""], []),
    (["run", "--format", ""], ["csv", "json"]),
    (["run", "--format", "=", "j"], ["json"]),
    (["run", "--format", "="], ["csv", "json"]),
    (["run", "--gap", ""], []),
    (["--tests", "r"], ["run"]),
]


@pytest.mark.parametrize(("typed", "wanted"), BASH_CASES, ids=lambda case: " ".join(case))
def test_bash_completes_plantbal(typed: list[str], wanted: list[str]) -> None:
    assert said_by_bash("plantbal", *typed) == wanted


BOOK = {inner.word for inner in COMMANDS}


def test_bash_completes_plantbal_desk() -> None:
    assert said_by_bash("plantbal-desk", "--ver") == ["--version"]
    assert said_by_bash("plantbal-desk", "fl") == ["fleet"]
    assert said_by_bash("plantbal-desk", "fleet", "--engine", "") == ["dask", "parallel"]
    assert said_by_bash("plantbal-desk", "fleet", "--j") == ["--jobs"]
    assert said_by_bash("plantbal-desk", "tables", "fl") == ["flows"]
    assert said_by_bash("plantbal-desk", "book", "am") == ["amend"]
    assert {"add", "status"} < set(said_by_bash("plantbal-desk", "book", "")) <= BOOK
    assert "/etc/hostname" in said_by_bash("plantbal-desk", "book", "add", "/etc/host")
    assert "/etc/hostname" in said_by_bash("plantbal-desk", "advise", "plant.csv", "/etc/host")
    assert said_by_bash("plantbal-desk", "book", "close", "--any") == ["--anyway"]
    assert "/etc/hostname" in said_by_bash("plantbal-desk", "run", "/etc/host")


@pytest.mark.parametrize("command", ["plantbal", "plantbal-desk"])
def test_completions_are_read_by_their_shells(command: str) -> None:
    subprocess.run(["bash", "-n", COMPLETIONS / f"{command}.bash"], check=True)
    if shutil.which("zsh"):
        subprocess.run(["zsh", "-n", COMPLETIONS / f"{command}.zsh"], check=True)
    if shutil.which("fish"):
        subprocess.run(["fish", "-n", COMPLETIONS / f"{command}.fish"], check=True)


@pytest.mark.parametrize(
    ("prefix", "folder"), [("/usr", "vendor-completions"), ("/usr/local", "site-functions")]
)
def test_completions_are_where_zsh_looks(prefix: str, folder: str) -> None:
    words = ["make", "-n", "-C", str(TOP), "install-desk", f"PREFIX={prefix}"]
    done = subprocess.run(words, stdout=subprocess.PIPE, check=True, text=True)
    assert f"{prefix}/share/zsh/{folder}/_plantbal-desk" in done.stdout.replace(chr(34), "")
    looks = [needed("zsh"), "-f", "-c", "print -l $fpath"]
    done = subprocess.run(looks, stdout=subprocess.PIPE, check=True, text=True)
    assert f"{prefix}/share/zsh/{folder}" in done.stdout.splitlines()


@pytest.mark.parametrize(
    ("typed", "wanted"),
    [
        ("plantbal c", {"check"}),
        ("plantbal run --t", {"--tests"}),
        ("plantbal run --format ", {"csv", "json"}),
        ("plantbal make --s", {"--streams", "--summary", "--sweeps"}),
        ("plantbal-desk --ver", {"--version"}),
        ("plantbal-desk fl", {"fleet"}),
        ("plantbal-desk fleet --engine d", {"dask"}),
        ("plantbal-desk tables cl", {"classes"}),
        ("plantbal-desk book am", {"amend"}),
    ],
)
def test_fish_completes(typed: str, wanted: set[str]) -> None:
    script = f"source {COMPLETIONS}/{typed.split()[0]}.fish; complete -C '{typed}'"
    done = subprocess.run(
        [needed("fish"), "--no-config", "-c", script],
        stdout=subprocess.PIPE,
        check=True,
        text=True,
    )
    assert {line.split("\t")[0] for line in done.stdout.splitlines()} == wanted


PAGES = "plantbal.1 plantbal-verify.1 plantbal-desk.1 plantbal-session.5 plantbal-report.5"


@pytest.mark.parametrize("page", PAGES.split())
def test_pages_have_no_fault(page: str) -> None:
    done = subprocess.run(
        [needed("mandoc"), "-T", "lint", "-W", "warning", TOP / "docs" / page],
        stdout=subprocess.PIPE,
        text=True,
    )
    assert done.stdout == ""


PACKAGES = {
    "babel": "python3-babel",
    "cloudpickle": "python3-distributed",
    "cffi": "python3-cffi",
    "dask": "python3-distributed",
    "defusedxml": "python3-defusedxml",
    "distributed": "python3-distributed",
    "django": "python3-django",
    "graphviz": "python3-graphviz",
    "jinja2": "python3-jinja2",
    "markupsafe": "python3-jinja2",
    "matplotlib": "python3-matplotlib",
    "networkx": "python3-networkx",
    "numpy": "python3-pandas",
    "openpyxl": "python3-openpyxl",
    "oracledb": "python3-oracledb",
    "pandas": "python3-pandas",
    "scipy": "python3-scipy",
    "sqlalchemy": "python3-sqlalchemy",
    "unidecode": "python3-unidecode",
    "tqdm": "python3-tqdm",
}


def imported(path: Path) -> set[str]:
    """Return the modules of others that a file imports."""
    found: set[str] = set()
    for node in ast.walk(ast.parse(path.read_text(encoding="utf-8"))):
        if isinstance(node, ast.Import):
            found |= {alias.name.split(".")[0] for alias in node.names}
        elif isinstance(node, ast.ImportFrom) and node.module and not node.level:
            found.add(node.module.split(".")[0])
    return found - set(sys.stdlib_module_names) - {"plantbal", "plantbal_office"}


def test_each_import_has_its_package() -> None:
    named = {
        package
        for word in ("depends", "recommends", "suggests")
        for package in subprocess.run(
            [TOP / "packaging" / "needs", "control", word],
            stdout=subprocess.PIPE,
            check=True,
            text=True,
        ).stdout.split(", ")
    }
    for path in sorted((TOP / "python" / "plantbal").rglob("*.py")):
        for module in sorted(imported(path)):
            assert PACKAGES.get(module) in named, f"{path.name} imports {module}"


def test_each_conformance_file_is_in_the_document() -> None:
    table = (
        (TOP / "docs" / "FORMAT.md").read_text(encoding="utf-8").split("## Conformance files")[1]
    )
    named = {
        name
        for line in table.splitlines()
        if line.startswith("| `")
        for name in re.findall(r"`([a-z0-9_]+)`", line.split("|")[1])
    }
    folder = TOP / "examples" / "conformance"
    files = {path.stem for path in folder.glob("*.in")}
    assert named == files


def test_the_change_log_has_a_debian_form() -> None:
    done = subprocess.run(
        [TOP / "packaging" / "debian_changelog", "plantbal", "A B <a@b.example>"],
        stdout=subprocess.PIPE,
        check=True,
        text=True,
    )
    version = (TOP / "VERSION").read_text(encoding="ascii").strip()
    assert done.stdout.startswith(f"plantbal ({version}) unstable; urgency=medium\n\n  * ")
    assert re.search(
        r"\n -- A B <a@b\.example>  \w{3}, \d{2} \w{3} \d{4} 00:00:00 \+0000\n", done.stdout
    )


def test_an_installed_package_tells_its_version(tmp_path: Path) -> None:
    subprocess.run([TOP / "packaging" / "install_library", tmp_path], check=True)
    script = (
        "import plantbal, importlib.metadata as metadata;"
        "print(plantbal.__version__, metadata.version('plantbal'))"
    )
    done = subprocess.run(
        [sys.executable, "-c", script],
        cwd=tmp_path,
        env={"PYTHONPATH": str(tmp_path), "PATH": "/usr/bin:/bin"},
        stdout=subprocess.PIPE,
        check=True,
        text=True,
    )
    version = (TOP / "VERSION").read_text(encoding="ascii").strip()
    assert done.stdout.split() == [version, version]


def test_setuptools_builds_the_package(tmp_path: Path) -> None:
    """What pip builds has all files of the package, beside the command `build` of the repository."""
    tracked = ["pyproject.toml", "VERSION", "README.md", "build"]
    for name in tracked:
        shutil.copy(TOP / name, tmp_path / name)
    ignored = shutil.ignore_patterns("__pycache__")
    shutil.copytree(TOP / "python/plantbal", tmp_path / "python/plantbal", ignore=ignored)
    script = "from setuptools import setup; setup(script_args=['--quiet', 'build'])"
    subprocess.run([sys.executable, "-c", script], cwd=tmp_path, check=True, capture_output=True)
    made = tmp_path / "packaging/out/python/lib/plantbal"
    sources = {path.relative_to(tmp_path / "python/plantbal") for path in files_of(tmp_path)}
    assert {path.relative_to(made) for path in made.rglob("*") if path.is_file()} == sources


def files_of(folder: Path) -> list[Path]:
    """The files of the package in a copy of the repository."""
    return [path for path in (folder / "python/plantbal").rglob("*") if path.is_file()]


def test_the_version_moves() -> None:
    """It is that of the newest release or, once something has landed since, a later one."""
    changes = (TOP / "CHANGELOG.md").read_text(encoding="utf-8")
    version = (TOP / "VERSION").read_text().strip()
    newest = re.search(r"^## \[(\d[^]]*)\]", changes, re.M)
    assert newest is not None
    unreleased = changes.partition("## [Unreleased]")[2].partition("\n## [")[0].strip()
    numbers = [tuple(map(int, text.split("."))) for text in (newest[1], version)]
    assert (numbers[0] < numbers[1]) if unreleased else (numbers[0] == numbers[1]), version


def test_the_audit_in_one_file(tmp_path: Path) -> None:
    """On a Python without any package, and without the program."""
    subprocess.run([TOP / "packaging" / "audit_pyz", tmp_path], check=True, capture_output=True)
    audit = [sys.executable, "-I", "-S", str(tmp_path / "plantbal-audit.pyz")]
    day = TOP / "examples" / "refinery_day"
    plain = {"PATH": "/usr/bin:/bin"}
    report, session = f"{day}.out.csv", f"{day}.csv"
    for words, status, said in (
        ((report, session), 0, "everything holds"),
        ((report, str(TOP / "examples" / "two_meters.csv")), 1, "wrong: "),
        ((str(tmp_path / "none.zip"),), 3, ""),
        ((), 2, ""),
    ):
        done = subprocess.run([*audit, *words], capture_output=True, text=True, env=plain, cwd="/")
        assert done.returncode == status and said in done.stdout, (words, done)
    with open(report, "rb") as file:
        done = subprocess.run(
            [*audit, "check"], stdin=file, capture_output=True, text=True, env=plain
        )
    assert done.stdout == "yes,may1,0\n" and done.returncode == 0, done
