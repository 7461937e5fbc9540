"""What the desk does on a disk that is full, in a mount namespace of its own: `unshare --mount full_disk.py FOLDER`.

    full_disk.py FOLDER     the folder is taken for a disk of a few MB, with a book on it, and a workbook is booked with as much room
                            as there is in ROOMS; the status is 0 if each time nothing was half written, and the booking went on

The book lies on the small disk alone; the desk's own database and the workbooks that wait are elsewhere.
"""

from __future__ import annotations

import hashlib
import html
import io
import re
import subprocess
import sys
import tempfile
from pathlib import Path
from typing import Any

sys.path[:0] = [str(Path(__file__).resolve().parents[1]), str(Path(__file__).resolve().parents[2])]

from office import site_of  # noqa: E402

# The size of the disk, and the bytes that are left on it.
DISK = "4m"
ROOMS = (0, 4_096, 8_192, 20_480, 65_536)
PAGE = 4_096


def files_of(book: Path) -> dict[str, str]:
    """The digest of each file of a book."""
    return {
        str(each.relative_to(book)): hashlib.sha256(each.read_bytes()).hexdigest()
        for each in sorted(book.rglob("*"))
        if each.is_file() and each.name != ".lock"
    }


def fill(disk: Path, room: int) -> Path:
    """Leave so many bytes of a disk."""
    ballast = disk / "ballast"
    with open(ballast, "wb", buffering=0) as file:
        try:
            while True:
                file.write(b"x" * PAGE)
        except OSError:
            pass
        file.truncate(max(0, file.tell() - room))
    return ballast


def preview(site: site_of.Site, at: int) -> str:
    """Drop a workbook, and return the address where it is shown what it would do."""
    text = f"day,FI-302\n2024-04-18,{12_188 + at}\n"
    file = io.BytesIO(text.encode())
    file.name = "readings.csv"
    data = {**site.fields("enter/"), "locale": "en_GB", "workbook": [file], "called": "april"}
    page = site.client.post(f"/p/{site.plant.slug}/enter/", data, follow=True)
    assert page.status_code == 200, page.content
    return str(page.redirect_chain[-1][0])


def sentence(answer: Any) -> str:
    """What a page says of a fault."""
    text = re.sub(r"<[^>]+>", " ", answer.content.decode())
    return html.unescape(re.sub(r"\s+", " ", text))


def main() -> int:
    """Book a workbook on a disk without room, for each room, and again once there is some."""
    from plantbal import Book

    disk = Path(sys.argv[1])
    state = Path(tempfile.mkdtemp(prefix="plantbal-full-"))
    site_of.begun(state)
    made = site_of.mill(state / "mill")
    subprocess.run(["mount", "-t", "tmpfs", "-o", f"size={DISK}", "none", disk], check=True)
    site = site_of.Site(disk, "mill", ("clerk", "engineer", "approver"), made)
    refused = 0
    for at, room in enumerate(ROOMS):
        path = preview(site, at)
        inner = path.partition(f"/p/{site.plant.slug}/")[2]
        form = site.fields(inner) | {"why": "typed wrong"}
        before, head = files_of(site.book), site.head()
        ballast = fill(disk, room)
        answer = site.client.post(f"{path}/book", form)
        assert answer.status_code in (302, 400), (room, answer)
        if answer.status_code == 400:
            refused += 1
            assert "nothing was booked" in sentence(answer), (room, sentence(answer))
            assert files_of(site.book) == before, f"{room}: something is half written"
            assert site.head() == head
        ballast.unlink()
        if answer.status_code == 400:
            answer = site.client.post(f"{path}/book", form)
            assert answer.status_code == 302, (room, sentence(answer))
        assert site.head() == head + 1, f"{room}: it is booked once"
        assert Book(site.book).verify().ok
    assert refused >= 3, f"{refused} of {len(ROOMS)} rooms were too small"
    print(f"{refused} of {len(ROOMS)} bookings had no room, and went on later")
    return 0


if __name__ == "__main__":
    sys.exit(main())
