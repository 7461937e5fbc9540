"""What ./plantbal and ./build say: without the kit, before the build, while it builds, if a proof fails, and after it.

A small tree with a kit of no proofs stands for the repository; its program of cases and its crate of tests aren't built.
"""

from __future__ import annotations

import shutil
import subprocess
from dataclasses import dataclass
from pathlib import Path

import pytest
from conftest import TOP

TOOLS = "sh readlink head wc mktemp tail grep sed cat awk nproc rm mkdir chmod sha256sum cut"
CRATES = """# low
pb_low: std

# cases
low_cases: pb_low

plantbal status=0: pb_low # top
low_tests: pb_low
"""
RT = r"""#!/bin/sh
end() {
    printf 'checked: ended status=%s\nrun=ended status=%s runners=1 proved=no\n' "$1" "$1" >&2
    exit "$1"
}
case $PWD:$* in
*/pb_low:"lib --jobs "*) echo one open goal; [ ! -e ../../broken ] ;;
*:version) echo "kit 1 logic 1" ;;
*/plantbal:"run --jobs "*" -- run")
    mkdir -p out && printf '#!/bin/sh\necho "ran $*"\n' >out/plantbal && chmod +x out/plantbal
    ;;
*/plantbal:"try --seconds "*" -- run refused") echo "rt: a check will refuse this" >&2; echo partly; end 1 ;;
*/plantbal:"try --seconds "*" -- run usage") echo Usage >&2; end 2 ;;
*/plantbal:"try --seconds "*" -- run long")
    printf "the end of the program's standard output:\n| partly\n" >&2
    printf 'checked: no-answer: too long\nrun=no-answer proved=no\n' >&2
    exit 6
    ;;
*/plantbal:"try --seconds "*" -- run fault")
    printf 'checked: fault kind=index\nrun=fault proved=no\n' >&2
    exit 4
    ;;
*/plantbal:"try --seconds "*" -- run none") echo "src/main.rt:1:1: error" >&2; exit 1 ;;
*/plantbal:"try --seconds "*" -- run") cat; end 0 ;;
*/plantbal:"try --seconds "*" -- make") echo made; cat; end 0 ;;
*) exit 9 ;;
esac
"""


@dataclass
class Tree:
    """A small repository, and a folder that is the whole path."""

    top: Path
    path: Path

    def call(
        self, command: Path, *words: str, given: bytes = b""
    ) -> subprocess.CompletedProcess[bytes]:
        return subprocess.run(
            [command, *words],
            env={"PATH": str(self.path)},
            input=given,
            capture_output=True,
            check=False,
        )

    def plantbal(self, *words: str, given: bytes = b"") -> subprocess.CompletedProcess[bytes]:
        return self.call(self.top / "plantbal", *words, given=given)

    def build(self) -> subprocess.CompletedProcess[bytes]:
        return self.call(self.top / "build")

    def two_lines(self) -> str:
        return (
            "plantbal: the program isn't built yet: this answer comes before the proofs, "
            "by a build for this run alone, in a minute or two\n"
            f"plantbal: {self.top}/build proves and builds the program, "
            "after which it starts at once\n"
        )

    def give_kit(self) -> None:
        (self.path / "rt").write_text(RT, encoding="ascii")
        (self.path / "rt").chmod(0o755)


@pytest.fixture(name="tree")
def fixture_tree(tmp_path: Path) -> Tree:
    top, path = tmp_path / "tree", tmp_path / "kit"
    for crate in ("pb_low", "plantbal"):
        (top / "crates" / crate / "src").mkdir(parents=True)
    for script in ("plantbal", "build"):
        shutil.copy(TOP / script, top / script)
    (top / "crates.txt").write_text(CRATES, encoding="ascii")
    path.mkdir()
    for tool in TOOLS.split():
        found = shutil.which(tool)
        if found is not None:
            (path / tool).symlink_to(found)
    return Tree(top, path)


def test_no_kit(tree: Tree) -> None:
    said = tree.plantbal("run")
    assert (said.returncode, said.stdout) == (127, b"")
    assert b"install the package plantbal, or the Rattle kit" in said.stderr
    said = tree.build()
    assert (said.returncode, said.stdout) == (127, b"")
    assert b"the Rattle kit, with its command rt, isn't on the path" in said.stderr


@pytest.mark.parametrize(
    ("words", "status", "output", "error"),
    [
        (["run"], 0, b"a\nb\n", ""),
        (["run", "refused"], 1, b"partly\n", ""),
        (["run", "usage"], 2, b"", "Usage\n"),
        (["make"], 0, b"made\n", ""),
    ],
)
def test_first_answer(tree: Tree, words: list[str], status: int, output: bytes, error: str) -> None:
    tree.give_kit()
    said = tree.plantbal(*words, given=b"a\nb\n")
    assert (said.returncode, said.stdout) == (status, output)
    assert said.stderr.decode() == tree.two_lines() + error


@pytest.mark.parametrize(
    ("word", "why"),
    [
        ("long", "checked: no-answer: too long\nrun=no-answer proved=no\n"),
        ("fault", "checked: fault kind=index\nrun=fault proved=no\n"),
        ("none", "src/main.rt:1:1: error\n"),
    ],
)
def test_no_first_answer(tree: Tree, word: str, why: str) -> None:
    tree.give_kit()
    said = tree.plantbal("run", word)
    assert (said.returncode, said.stdout) == (126, b"")
    assert said.stderr.decode() == (
        f"{tree.two_lines()}{why}plantbal: the build without proofs gave no answer, "
        f"as said above: {tree.top}/build proves and builds the program\n"
    )


def test_first_answer_of_too_many_bytes(tree: Tree) -> None:
    tree.give_kit()
    said = tree.plantbal("run", given=bytes(67_108_865))
    assert said.returncode == 126
    assert b"at most 67108864 bytes" in said.stderr


def test_first_answer_that_cannot_be_written(tree: Tree) -> None:
    tree.give_kit()
    with Path("/dev/full").open("wb") as full:
        said = subprocess.run(
            [tree.top / "plantbal", "make"],
            env={"PATH": str(tree.path)},
            stdin=subprocess.DEVNULL,
            stdout=full,
            stderr=subprocess.PIPE,
            check=False,
        )
    assert said.returncode == 4
    assert said.stderr.endswith(b"WriteFault\n")


def test_proof_that_fails(tree: Tree) -> None:
    tree.give_kit()
    (tree.top / "broken").touch()
    said = tree.build()
    assert (said.returncode, said.stdout) == (126, b"")
    assert b"one open goal" in said.stderr


def test_build_crate_by_crate(tree: Tree, tmp_path: Path) -> None:
    tree.give_kit()
    said = tree.build()
    assert said.returncode == 0
    assert said.stderr.splitlines()[1:-1] == [b"build: pb_low, 1 of 2", b"build: plantbal, 2 of 2"]
    linked, again = tmp_path / "linked", tmp_path / "again"
    linked.symlink_to(tree.top / "plantbal")
    again.symlink_to(linked)
    for command in (tree.top / "plantbal", again):
        said = tree.call(command, "run", "--tests")
        assert (said.returncode, said.stdout, said.stderr) == (0, b"ran run --tests\n", b"")
