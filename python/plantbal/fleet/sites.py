"""Which sessions of a folder are run, and which files of it aren't."""

from __future__ import annotations

import os
import re
from collections import defaultdict
from collections.abc import Iterator, Mapping
from contextlib import suppress
from dataclasses import dataclass, field
from itertools import islice
from pathlib import Path

from plantbal.faults import FileFault, InputFault, Place
from plantbal.fleet.limits import DEPTH, FOLDERS, NOTES

# What the folder of the nights has beside the sites.
RESERVED = (
    "nights",
    "latest",
    "index.html",
    "fleet.sqlite",
    "night.json",
    "tell.json",
    "night.prom",
)
NIGHT = re.compile(r"\d{4}-\d\d-\d\d(?:[T_.-][0-9A-Za-z]+)?")
_PAGE = re.compile(r"index-[0-9]+\.html")
_SHOWN = 5


@dataclass(frozen=True, slots=True, order=True)
class Site:
    """A session of the folder.

    Attributes
    ----------
    name : str
        The file's name without its ending, after the names of its folders and a slash.
    path : Path
        The file.
    """

    name: str
    path: Path


@dataclass(frozen=True, slots=True)
class Chosen:
    """The sessions of a folder.

    Attributes
    ----------
    sites : list of Site
        Those that are run.
    wrong : dict of Site to str
        Those that can't be run under their names, the folders that can't be read, and why.
    left : list of str
        What is said of the other files.
    books : list of Site
        The folders of books.
    """

    sites: list[Site]
    wrong: dict[Site, str]
    left: list[str]
    books: list[Site] = field(default_factory=list)


def _is_session(name: str) -> bool:
    return name.lower().endswith(".csv")


def _some(names: list[str]) -> str:
    """Return the first names of a list, and how many more there are."""
    more = len(names) - _SHOWN
    return ", ".join(sorted(names)[:_SHOWN]) + (f" and {more} more" if more > 0 else "")


@dataclass
class _Walk:
    """A walk through the folders of sessions; links to folders aren't followed.

    Attributes
    ----------
    out : Path or None
        The folder of the nights, which is skipped.
    recursive : bool
        Whether the folders inside are walked through, too.
    left : list of str
        What is said of what isn't run.
    unread : dict of Path to str
        The folders inside that can't be read, and why.
    books : list of Path
        The folders that are books.
    """

    out: Path | None
    recursive: bool
    left: list[str] = field(default_factory=list)
    unread: dict[Path, str] = field(default_factory=dict)
    books: list[Path] = field(default_factory=list)
    folders: int = 0

    def sessions(self, folder: Path, depth: int = 0) -> Iterator[Path]:
        """Give the sessions in a folder, and note what else there is; hidden files are skipped.

        Raises
        ------
        OSError
            If the folder can't be read.
        """
        self.folders += 1
        if is_book(folder):
            self.books.append(folder)
            return
        others, linked, sheets = [], [], []
        is_workbook = depth > 0 and _is_workbook(folder)
        for entry in sorted(os.scandir(folder), key=lambda each: each.name):
            path = folder / entry.name
            if entry.name.startswith("."):
                continue
            if is_workbook and _is_sheet(path):
                sheets.append(entry.name)
            elif _is_session(entry.name):
                yield path
            elif entry.is_dir(follow_symlinks=False):
                if path.resolve() != self.out:
                    yield from self._inside(path, depth + 1)
            elif entry.is_symlink() and path.is_dir():
                linked.append(entry.name)
            else:
                others.append(entry.name)
        if sheets:
            said = f"the sheets of a workbook aren't run: {_some(sheets)}"
            self.left.append(f"{folder}: {said}; plantbal-desk convert makes a session of them")
        if linked:
            what = "a link to a folder isn't" if len(linked) == 1 else "links to folders aren't"
            self.left.append(f"{folder}: {what} followed: {_some(linked)}")
        if others:
            what = "a file isn't" if len(others) == 1 else f"{len(others)} files aren't"
            said = f"{what} run, since a session's name ends with .csv: {_some(others)}"
            self.left.append(f"{folder}: {said}")

    def _inside(self, folder: Path, depth: int) -> Iterator[Path]:
        """Give the sessions of a folder inside, or note that it has one."""
        if self.recursive or is_book(folder):
            if depth > DEPTH or self.folders >= FOLDERS:
                what = f"{DEPTH} within each other" if depth > DEPTH else f"{FOLDERS:,}"
                self.unread[folder] = f"it isn't looked into: there are more folders than {what}"
                return
            try:
                yield from self.sessions(folder, depth)
            except OSError as error:
                self.unread[folder] = error.strerror or "it can't be read"
        elif _has_session(folder):
            said = "this folder has a session or more, which aren't run: use --recursive for them"
            self.left.append(f"{folder}: {said}")


def is_book(folder: Path) -> bool:
    """Say whether a folder is that of a book: whether it has a journal with a journal's head."""
    try:
        with (folder / "journal.csv").open("rb") as file:
            head = file.read(64).removeprefix(b"\xef\xbb\xbf").partition(b",")[0]
    except OSError:
        return False
    return head in (b"number", b"when")


def _is_workbook(folder: Path) -> bool:
    """Say whether a folder is a workbook: whether two of its files or more are sheets of one."""
    with suppress(OSError):
        paths = (folder / entry.name for entry in os.scandir(folder))
        return len(list(islice(filter(_is_sheet, paths), 2))) == 2
    return False


def _is_sheet(path: Path) -> bool:
    """Say whether a file is a sheet of a workbook: it has the name of one, and heads of its columns.

    A row of a session has one of these words at most, its kind.
    """
    from plantbal.schema import schema
    from plantbal.workbook.sheetkinds import SHEETS

    kind = SHEETS.get(path.stem.lower()) if path.suffix.lower() == ".csv" else None
    if kind is None:
        return False
    with suppress(OSError), path.open("rb") as file:
        line = file.read(1024).removeprefix(b"\xef\xbb\xbf").partition(b"\n")[0]
        heads = [
            each.strip().lower() for each in re.split("[,;\t]", line.decode("utf-8", "replace"))
        ]
        if sum(head in kind.heads for head in heads) > 1:
            return True
        return heads[0] in kind.heads and heads[0] not in {row.kind for row in schema().session}
    return False


def _has_session(folder: Path) -> bool:
    """Return whether a session is in a folder or its own folders, as far as can be known."""
    seen = 0
    waiting = [folder]
    while waiting and seen < FOLDERS:
        seen += 1
        try:
            entries = [each for each in os.scandir(waiting.pop()) if not each.name.startswith(".")]
        except OSError:
            return True  # nobody knows: it is said
        if any(_is_session(each.name) for each in entries):
            return True
        waiting += [Path(each.path) for each in entries if each.is_dir(follow_symlinks=False)]
    return bool(waiting)


def sites(folder: Path, *, recursive: bool = False, out: Path | None = None) -> Chosen:
    """Return the sessions of a folder by name.

    Parameters
    ----------
    folder : Path
        The folder: each SITE.csv in it is a session, whichever letters of the ending are capitals.
    recursive : bool
        Whether those in the folders inside it are taken too.
    out : Path, optional
        The folder of the nights, which is skipped if it is in there.

    Raises
    ------
    InputFault
        If it can't be read, or has no session.
    """
    walk, place = _Walk(out and out.resolve(), recursive), Place(file=str(folder))
    try:
        paths = list(walk.sessions(folder))
    except OSError as error:
        raise FileFault(error.strerror or "it can't be read", place=place) from error
    if not paths and not walk.unread and not walk.books:
        raise FileFault(
            "there is no session, no file that ends with .csv",
            place=place,
            remedy="; ".join(walk.left) or "put each plant's session there as SITE.csv",
        )
    named = defaultdict[str, list[Path]](list)
    for path in paths:
        named[path.relative_to(folder).as_posix()[: -len(".csv")]].append(path)
    found, wrong = list[Site](), dict[Site, str]()
    for path, said in walk.unread.items():
        name = _shown(path.relative_to(folder).as_posix())
        wrong[Site(name, path)] = f"{_shown(str(path))}: {said}"
    for name, some in sorted(named.items()):
        if fault := _name_fault(name, some):
            wrong[Site(_shown(name), some[0])] = str(fault)
        else:
            found.append(Site(name, some[0]))
    books = _books(folder, walk.books, named, wrong)
    more = len(walk.left) - NOTES
    rest = [f"{folder}: {more} more such folders"] if more > 0 else []
    taken = {site.name for site in wrong}
    found = [site for site in found if site.name not in taken]
    return Chosen(found, wrong, [*walk.left[:NOTES], *rest], books)


def _books(
    folder: Path, paths: list[Path], named: Mapping[str, list[Path]], wrong: dict[Site, str]
) -> list[Site]:
    """Return the books under their names, and note those that can't have theirs."""
    books = []
    for path in paths:
        name = folder.resolve().name if path == folder else path.relative_to(folder).as_posix()
        if fault := _name_fault(name, [path, *named.get(name, [])]):
            wrong[Site(_shown(name), path)] = str(fault)
        else:
            books.append(Site(name, path))
    return books


def _shown(name: str) -> str:
    """Return a name as it can be written in a line."""
    return name if name.isprintable() else ascii(name)[1:-1]


def _name_fault(name: str, paths: list[Path]) -> InputFault | None:
    """Return why no session can be run under a name, if none can."""
    place = Place(file=str(paths[0]))
    for part in name.split("/"):
        if part in RESERVED or NIGHT.fullmatch(part) or _PAGE.fullmatch(part):
            said = f"the name {part} is reserved for the nights"
            return InputFault(said, place=place, remedy="rename it")
    if not name.isprintable():  # a line feed, or bytes that are no UTF-8
        said = "its name has other characters than letters, digits, signs and spaces"
        return InputFault(said, place=Place(file=repr(str(paths[0]))), remedy="rename it")
    if len(paths) > 1:
        said = f"it would be the same plant as {', '.join(path.name for path in paths[1:])}"
        return InputFault(f"{said}, and none is run", place=place, remedy="rename one of them")
    return None
