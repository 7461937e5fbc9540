"""Memory, reads and writes that fail, by a library that is loaded before the program."""

from __future__ import annotations

import shutil
import struct
import subprocess
from pathlib import Path

from gate.running import Ended, Status
from gate.trials.hostile.scene import Scene, Trial, difference, ended, many

FAILING = r"""
#include <errno.h>
#include <fcntl.h>
#include <stdlib.h>
#include <sys/mman.h>
#include <sys/syscall.h>
#include <unistd.h>

extern void *__libc_malloc(size_t);
extern void *__libc_calloc(size_t, size_t);
extern void *__libc_realloc(void *, size_t);

enum { ALLOC, READ, WRITE };

/* The calls since the program began, which of them fails (0: none), and the most bytes that one moves (0: any number). */
static unsigned long own[3], *calls = own, failing[3], most[3];
static int begun, all_behind;

static unsigned long number(const char *name) {
    const char *text = getenv(name);
    return text ? strtoul(text, 0, 10) : 0;
}

__attribute__((constructor)) static void begin(void) {
    const char *counts = getenv("COUNTS");
    int file = counts ? open(counts, O_RDWR | O_CREAT | O_TRUNC, 0600) : -1;
    if (file >= 0 && ftruncate(file, sizeof own) == 0)
        calls = mmap(0, sizeof own, PROT_READ | PROT_WRITE, MAP_SHARED, file, 0);
    failing[ALLOC] = number("FAILING_ALLOC");
    failing[READ] = number("FAILING_READ");
    failing[WRITE] = number("FAILING_WRITE");
    most[READ] = number("MOST_READ");
    most[WRITE] = number("MOST_WRITE");
    all_behind = number("ALL_BEHIND") != 0;
    begun = 1;
}

static int fails(int kind, int error) {
    if (!begun)
        return 0;
    unsigned long call = ++calls[kind];
    if (call != failing[kind] && !(all_behind && failing[kind] && call > failing[kind]))
        return 0;
    errno = error;
    return 1;
}

void *malloc(size_t size) { return fails(ALLOC, ENOMEM) ? 0 : __libc_malloc(size); }
void *calloc(size_t count, size_t size) { return fails(ALLOC, ENOMEM) ? 0 : __libc_calloc(count, size); }
void *realloc(void *block, size_t size) { return fails(ALLOC, ENOMEM) ? 0 : __libc_realloc(block, size); }

ssize_t read(int file, void *bytes, size_t size) {
    if (file == 0 && fails(READ, EIO))
        return -1;
    return syscall(SYS_read, file, bytes, file == 0 && most[READ] && size > most[READ] ? most[READ] : size);
}

ssize_t write(int file, const void *bytes, size_t size) {
    if (file == 1 && fails(WRITE, EIO))
        return -1;
    return syscall(SYS_write, file, bytes, file == 1 && most[WRITE] && size > most[WRITE] ? most[WRITE] : size);
}
"""

NOTHING = "hostile: no memory was refused and no call failed"


def compiled(trial: Trial) -> Path | None:
    """Return the library that makes calls fail, or None where there is no compiler for it."""
    compiler = next((name for name in ("cc", "gcc", "clang") if shutil.which(name)), None)
    if compiler is None:
        print(f"{NOTHING}: there is no C compiler")
        return None
    source, library = trial.room / "failing.c", trial.room / "failing.so"
    source.write_text(FAILING, encoding="ascii")
    words = [compiler, "-shared", "-fPIC", "-O1", "-o", str(library), str(source)]
    built = subprocess.run(words, stderr=subprocess.PIPE, check=False)
    if built.returncode != 0:
        print(f"{NOTHING}: {built.stderr.decode(errors='replace')}")
        return None
    made = ["make", "--streams", "3"]
    if trial.run(made, env={"LD_PRELOAD": str(library)}) != trial.run(made):
        print(f"{NOTHING}: the library that makes them fail needs the GNU C library")
        return None
    return library


class Failing:
    """A scene whose calls fail."""

    def __init__(self, scene: Scene, library: Path) -> None:
        self.scene, self.library = scene, library

    def run(self, **env: str | int) -> Ended:
        """Run the scene with the library, which reads these variables."""
        given = {name: str(value) for name, value in env.items()}
        return self.scene.run(LD_PRELOAD=str(self.library), **given)

    def counts(self, **limits: int) -> tuple[int, ...]:
        """Return how many allocations, reads and writes the run makes in peace."""
        name = self.scene.trial.room / "counts"
        self.run(COUNTS=str(name), **limits)
        return struct.unpack("3L", name.read_bytes())

    def without_memory(self, call: int, behind: bool) -> str | None:
        """Run it while this allocation fails, alone or with all after it."""
        scene = self.scene
        found = self.run(FAILING_ALLOC=call, ALL_BEHIND=int(behind))
        if found == scene.in_peace():
            return None
        if (
            found == ended(Status.NO_MEMORY, found.output)
            and scene.output.startswith(found.output)
            and len(found.output) in scene.places
        ):
            return None
        rest = " and all after it" if behind else ""
        said = f"status {found.status:d} with {len(found.output)} bytes, {found.error!r}"
        return f"allocation {call}{rest}: {said}"

    def written_early(self, allocs: int) -> str | None:
        """Say whether the texts before the last allocation that can't be done without are there.

        A run writes each record's text before it takes the next record, and doesn't gather its
        output.
        """
        for call in range(allocs, 0, -1):
            found = self.run(FAILING_ALLOC=call, ALL_BEHIND=1)
            if found.status == Status.NO_MEMORY:
                if found.output:
                    return None
                return f"allocation {call} and all after it: nothing was written before it"
        return "no allocation is needed"

    def read(self, call: int) -> str | None:
        """Run it while this read fails."""
        found = self.run(MOST_READ=64, FAILING_READ=call)
        return difference(f"read {call}", found, ended(Status.READ_FAULT))

    def write(self, call: int) -> str | None:
        """Run it while this write fails: a prefix of the output is there, and not all of it.

        Each write before the one that fails took some bytes.
        """
        found = self.run(MOST_WRITE=16, FAILING_WRITE=call)
        count, whole = len(found.output), self.scene.output
        wanted = ended(Status.WRITE_FAULT, whole[:count])
        if not call - 1 <= count < len(whole):
            wanted = Ended(Status.WRITE_FAULT, b"", b"")
        return difference(f"write {call}", found, wanted)


def failing(scene: Scene, library: Path) -> None:
    """Try each allocation, read and write that fails."""
    tried = Failing(scene, library)
    allocs, reads, writes = tried.counts(MOST_READ=64, MOST_WRITE=16)
    jobs = [(call, behind) for call in range(1, allocs + 1) for behind in (False, True)]
    faults = many(tried.without_memory, jobs) if allocs else ["no allocation was seen"]
    if len(scene.places) > 2:
        faults.append(tried.written_early(allocs))
    what = f"{scene.name}: each of {allocs} allocations refused, alone and with all after it"
    scene.trial.report(what, faults)
    by_one = tried.run(MOST_READ=1, MOST_WRITE=1)
    faults = [difference("one byte a call", by_one, scene.in_peace())]
    faults += many(tried.read, [(call,) for call in range(1, reads + 1)])
    faults += many(tried.write, [(call,) for call in range(1, writes + 1)])
    scene.trial.report(
        f"{scene.name}: one byte a call; each of {reads} reads and of {writes} writes failing",
        faults,
    )
