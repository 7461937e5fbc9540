"""A night: what is asked of all sessions, where its files are, and what of it is done already.

::

    OUT/SITE/NIGHT/output.csv   what the program wrote for a plant
    OUT/SITE/NIGHT/stderr.txt   what it said on standard error
    OUT/SITE/NIGHT/run.json     the session, the program, the words, and their digests
    OUT/SITE/latest             a link to the last night with an output
    OUT/nights/NIGHT/           the table and the checksums of all plants
    OUT/latest                  a link to the last night that is complete
    OUT/fleet.sqlite            all nights
    OUT/index.html              the last night, for a browser

A plant's folder gets its name when all in it is written. With ``--pack`` its files then go into
``OUT/nights/NIGHT/outputs.sqlar``, and the folder goes; the link stays, and leads nowhere by itself.
"""

from __future__ import annotations

import errno
import fcntl
import hashlib
import json
import os
import shutil
from collections.abc import Iterable, Iterator
from contextlib import contextmanager, suppress
from dataclasses import dataclass, fields, replace
from pathlib import Path

from plantbal.faults import FileFault, Hindered, InputFault, Place, read_beginning, read_bytes
from plantbal.fleet.engines import Came
from plantbal.fleet.given import Given, sha256_of
from plantbal.fleet.job import SAID, STATUS, ended
from plantbal.fleet.sites import Site
from plantbal.packed import PACK, packed_files, names_in

# A time after this isn't one, in seconds since 1970: some four thousand years from now.
_LATEST = 1 << 37
_RUN_BYTES = 1 << 20  # of what is said of a run
# Why a folder can't get a name: another one has it, which isn't empty, or a file.
_TAKEN = (errno.ENOTEMPTY, errno.EEXIST, errno.ENOTDIR)


@dataclass(frozen=True, slots=True)
class Run:
    """What a plant's output was made from, and how the program ended.

    Attributes
    ----------
    site, night, session : str
        The plant, the night, and the file of the session.
    session_sha256, program_sha256, output_sha256 : str
        The digests; that of a program on other machines is the one that ran there.
    program : str
        The program.
    words : list of str
        Its words.
    status : int or None
        The status that it ended with; None if it was stopped by the time limit, or didn't run.
    begun : float
        When it began, in seconds since 1970.
    seconds : float
        How long it took.
    session_begun : float
        When a session with these bytes was first run, in seconds since 1970; 0 if it isn't known.
    """

    site: str
    night: str
    session: str
    session_sha256: str
    program: str
    program_sha256: str
    words: list[str]
    output_sha256: str = ""
    status: int | None = None
    begun: float = 0.0
    seconds: float = 0.0
    session_begun: float = 0.0

    def to_json(self) -> bytes:
        """Return it as JSON, an item a line."""
        items = ((each.name, getattr(self, each.name)) for each in fields(self))
        lines = ",\n".join(f' "{name}": {json.dumps(value)}' for name, value in items)
        return f"{{\n{lines}\n}}\n".encode("ascii")

    @classmethod
    def read(cls, data: bytes) -> Run:
        """Return the run of its JSON.

        Raises
        ------
        ValueError
            If it isn't one.
        """
        try:
            found = json.loads(data)
            run = cls(**found)
        except (RecursionError, TypeError) as error:
            raise ValueError(error) from error
        texts = (run.site, run.night, run.session, run.session_sha256, run.program)
        times = (run.begun, run.seconds, run.session_begun)
        if not (
            all(isinstance(each, str) for each in (*texts, run.program_sha256, run.output_sha256))
            and isinstance(run.words, list)
            and type(run.status) in (int, type(None))
            and all(type(each) in (int, float) and 0 <= each < _LATEST for each in times)
        ):
            raise ValueError("it isn't of the form of a run")
        return run

    @property
    def asked(self) -> tuple[str, str, list[str]]:
        """What decides the output: the session, the program and the words."""
        return self.session_sha256, self.program_sha256, self.words


@dataclass(frozen=True, slots=True)
class KeptPlant:
    """What is kept of a plant.

    Attributes
    ----------
    run : Run
        Its run.
    size : int
        How many bytes the program wrote, also if they weren't kept.
    sums : dict of str to str
        The digests of its files, by their names.
    """

    run: Run
    size: int
    sums: dict[str, str]


@dataclass(frozen=True, slots=True)
class Night:
    """What is asked of all sessions, and where their outputs go.

    Attributes
    ----------
    out : Path
        The folder of all nights.
    name : str
        The night's name, mostly its day.
    program : Path
        The program.
    program_sha256 : str
        Its digest; of programs on other machines that which most have.
    words : list of str
        Its words.
    wants_days : bool
        Whether the last day of each session's facts is looked for.
    """

    out: Path
    name: str
    program: Path
    program_sha256: str
    words: list[str]
    wants_days: bool = False

    @property
    def folder(self) -> Path:
        """Where the table of the night is."""
        return self.out / "nights" / self.name

    @property
    def pack(self) -> Path:
        """Where the outputs of the night are if they are packed."""
        return self.folder / PACK

    @property
    def output_name(self) -> str:
        """What an output is called, by its form."""
        words = " ".join(self.words).replace("=", " ")
        return "output.jsonl" if "--format json" in words else "output.csv"

    def folder_of(self, site: Site) -> Path:
        """Return where a plant's files of the night are."""
        return self.out / site.name / self.name

    def part_of(self, site: Site) -> Path:
        """Return where they are while the program runs."""
        return self.out / site.name / f".{self.name}.part"

    def output_of(self, site: Site) -> Path:
        """Return where a plant's output is."""
        return self.folder_of(site) / self.output_name

    def asked_of(self, site: Site, given: Given) -> Run:
        """Return what is to be run for a plant."""
        return Run(
            site=site.name,
            night=self.name,
            session=str(site.path.absolute()),
            session_sha256=given.sha256,
            program=str(self.program),
            program_sha256=self.program_sha256,
            words=self.words,
            session_begun=self._first_run(site, given.sha256),
        )

    def _first_run(self, site: Site, sha256: str) -> float:
        """Return when a session with this digest was first run; 0 if that is now."""
        try:
            path = self.out / site.name / "latest" / STATUS
            before = Run.read(read_bytes(path, _RUN_BYTES)[1])
        except (OSError, InputFault, ValueError):
            return 0.0
        return (before.session_begun or before.begun) if before.session_sha256 == sha256 else 0.0

    def has_run(self, site: Site) -> bool:
        """Say whether a plant has been run this night."""
        with suppress(InputFault):
            return bool(read_beginning(self.folder_of(site) / STATUS, 1)[1])
        return False

    def kept(self, site: Site, asked: Run) -> KeptPlant | None:
        """Return what is kept of a plant, if it is whole and of what is asked."""
        folder = self.folder_of(site)
        try:
            run = Run.read(read_bytes(folder / STATUS, _RUN_BYTES)[1])
            if run.asked != asked.asked or run.status not in (0, 1):
                return None
            if not folder.is_dir():
                files = packed_files(self.pack, site.name)
                sums = {name: hashlib.sha256(data).hexdigest() for name, data in files.items()}
                found = KeptPlant(run, len(files[self.output_name]), sums)
            else:
                size = (folder / self.output_name).stat().st_size
                found = KeptPlant(run, size, _sums(folder, (self.output_name, SAID, STATUS)))
        except (OSError, InputFault, ValueError, KeyError):
            return None
        return found if found.sums[self.output_name] == run.output_sha256 else None

    def begin(self, site: Site) -> None:
        """Make the folder in which the program runs for a plant.

        Raises
        ------
        InputFault
            If it can't be made.
        """
        part = self.part_of(site)
        try:
            try:
                part.parent.mkdir(parents=True)
            except FileExistsError:
                _clear(part.parent)
            part.mkdir()
        except OSError as error:
            raise FileFault(
                error.strerror or "it can't be written", place=Place(file=str(part))
            ) from error

    def drop(self, site: Site) -> None:
        """Take away what a plant that was stopped has written."""
        shutil.rmtree(self.part_of(site), ignore_errors=True)
        with suppress(OSError):  # there are other nights in it
            self.part_of(site).parent.rmdir()

    def publish(self, site: Site, asked: Run, came: Came | None = None) -> KeptPlant:
        """Give the files of a plant their names, and return what is kept.

        An output is kept if the program ended with 0 or 1: otherwise it may be cut off. The disk may
        still lack some of it if the power fails now: then it isn't of its digest, and `kept` has
        nothing of it.

        Parameters
        ----------
        site : Site
            The plant.
        asked : Run
            What was asked.
        came : Came, optional
            How the program ended; without it the files that it left say so.
        """
        part, output_name = str(self.part_of(site)), self.output_name
        came = came or came_of(part)
        output = Path(part, output_name)
        size = output.stat().st_size if output.exists() else 0
        if came.status not in (0, 1):
            output.unlink(missing_ok=True)
        sums = _sums(Path(part), [name for name in os.listdir(part) if name != STATUS])
        run = replace(
            asked,
            status=came.status,
            begun=came.begun,
            seconds=came.seconds,
            session_begun=asked.session_begun or came.begun,
            output_sha256=sums.get(output_name, ""),
        )
        said = run.to_json()
        with open(f"{part}/{STATUS}", "wb", buffering=0) as file:
            file.write(said)
        sums[STATUS] = hashlib.sha256(said).hexdigest()
        put(part, str(self.folder_of(site)))
        newest = f"{self.out}/{site.name}/latest"
        if came.status in (0, 1):
            if not _leads(newest) or os.readlink(newest) <= self.name:
                link(newest, self.name)
        elif os.path.islink(newest) and os.readlink(newest) == self.name:
            self._lead_back(Path(newest))
        return KeptPlant(run, size, sums)

    def refuse(self, site: Site, sums: dict[str, str]) -> dict[str, str]:
        """Take its name from an output that isn't believed, and return the digests by their names.

        Parameters
        ----------
        site : Site
            The plant.
        sums : dict of str to str
            The digests of its files, by their names.
        """
        if not self.folder_of(site).is_dir():
            self.unpack(site)
        output = self.output_of(site)
        refused = output.with_name(f"refused-{output.name}")
        os.replace(output, refused)
        newest = self.out / site.name / "latest"
        if newest.is_symlink() and os.readlink(newest) == self.name:
            self._lead_back(newest)
        return {refused.name if name == output.name else name: sums[name] for name in sums}

    def unpack(self, site: Site) -> None:
        """Give a plant that is in the pack a folder of its own again.

        Raises
        ------
        InputFault
            If the pack can't be read.
        OSError
            If the folder can't be written.
        """
        part = self.part_of(site)
        part.mkdir(parents=True, exist_ok=True)
        for name, data in packed_files(self.pack, site.name).items():
            (part / name).write_bytes(data)
        put(str(part), str(self.folder_of(site)))

    def _lead_back(self, newest: Path) -> None:
        """Lead a plant's link to the last night with an output, now that this one has lost its own."""
        home = newest.parent
        nights = (path for path in home.iterdir() if not path.is_symlink())
        found = [path.name for path in nights if any(path.glob("output.*"))]
        site = home.relative_to(self.out).as_posix()
        for pack in self.out.glob(f"nights/*/{PACK}"):
            if pack != self.pack and f"{site}/{self.output_name}" in names_in(
                pack, self.output_name
            ):
                found.append(pack.parent.name)
        if found:
            link(str(newest), max(found))
        else:
            newest.unlink()


def _leads(newest: str) -> bool:
    """Say whether a plant's link leads to a night that is there, in a folder or in a pack."""
    if os.path.exists(newest):
        return True
    with suppress(InputFault):
        return bool(read_beginning(f"{newest}/{STATUS}", 1)[1])
    return False


def _sums(folder: Path, names: Iterable[str]) -> dict[str, str]:
    """Return the digests of files in a folder."""
    return {name: sha256_of(folder / name) for name in names}


def came_of(part: str) -> Came:
    """Return how a job ended by what it left."""
    try:
        status, begun, end = ended(part)
        return Came(status, round(begun, 3), round(end - begun, 3))
    except (OSError, ValueError, IndexError):
        return Came(None, 0.0, 0.0)


def _clear(home: Path) -> None:
    """Take away what fleets that were stopped have left in a plant's folder, whichever night."""
    with suppress(OSError):
        for left in os.scandir(home):
            if left.name.startswith(".") and left.name.endswith((".part", ".old")):
                shutil.rmtree(left, ignore_errors=True)


def put(made: str, folder: str) -> None:
    """Give a folder its name, in the place of one that has it."""
    try:
        os.rename(made, folder)
        return
    except OSError as error:
        if error.errno not in _TAKEN:
            raise
    home, name = os.path.split(folder)
    old = f"{home}/.{name}.old"
    os.rename(folder, old)
    os.rename(made, folder)
    shutil.rmtree(old, ignore_errors=True)


def link(path: str, target: str) -> None:
    """Make a link, in the place of one that is there."""
    with suppress(FileExistsError):
        os.symlink(target, path)
        return
    home, name = os.path.split(path)
    made = f"{home}/.{name}.new"
    try:
        os.symlink(target, made)
    except FileExistsError:
        os.unlink(made)
        os.symlink(target, made)
    os.replace(made, path)


@contextmanager
def alone(out: Path) -> Iterator[int]:
    """Keep other fleets off a folder, as long as a process has the open file that is given.

    Raises
    ------
    Fault
        If another one runs, or the folder can't be written.
    """
    lock = out / ".lock"
    try:
        out.mkdir(parents=True, exist_ok=True)
        handle = os.open(lock, os.O_RDWR | os.O_CREAT, 0o666)
    except OSError as error:
        raise FileFault(
            error.strerror or "it can't be written", place=Place(file=str(error.filename or out))
        ) from error
    try:
        fcntl.flock(handle, fcntl.LOCK_EX | fcntl.LOCK_NB)
    except OSError as error:
        os.close(handle)
        said = f"a fleet is writing to {out}"
        raise Hindered(said, remedy="wait until it has ended, or stop it") from error
    try:
        yield handle
    finally:
        os.close(handle)
