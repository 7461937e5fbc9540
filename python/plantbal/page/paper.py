"""A page on paper, by chromium."""

from __future__ import annotations

import os
import shutil
import signal
import subprocess
import tempfile
from contextlib import suppress
from pathlib import Path

from plantbal.faults import Hindered, ToolMissing
from plantbal.files import replacing

BROWSERS = ("chromium", "chromium-browser", "google-chrome")
SECONDS = 120


def browser() -> str:
    """Return the browser.

    Raises
    ------
    ToolMissing
        If there is none.
    """
    for name in BROWSERS:
        found = shutil.which(name)
        if found is not None:
            return found
    raise ToolMissing("`chromium`", "chromium")


def in_browser(page: Path, *words: str, seconds: float = SECONDS) -> bytes:
    """Open a page in a browser without a window, and return what it writes.

    Parameters
    ----------
    page : Path
        The page.
    *words : str
        What the browser is to do.
    seconds : float
        How long it may take.
    """
    with tempfile.TemporaryDirectory(ignore_cleanup_errors=True) as profile:
        command = [
            browser(),
            "--headless",
            *_without_sandbox(),
            "--disable-gpu",
            "--disable-dev-shm-usage",
            "--hide-scrollbars",
            f"--user-data-dir={profile}",
            *words,
            page.resolve().as_uri(),
        ]
        return _written_by(command, seconds)


def _without_sandbox() -> list[str]:
    """Return the word that turns the browser's sandbox off: only root can't have it."""
    return [] if os.geteuid() else ["--no-sandbox"]


def _written_by(command: list[str], seconds: float) -> bytes:
    """Return what a browser writes, and stop all its processes if it takes longer.

    Raises
    ------
    Fault
        If it takes longer, or ends with another status than 0.
    """
    with subprocess.Popen(
        command, stdout=subprocess.PIPE, stderr=subprocess.DEVNULL, start_new_session=True
    ) as process:
        try:
            written, _ = process.communicate(timeout=seconds)
        except BaseException as error:
            with suppress(ProcessLookupError):
                os.killpg(process.pid, signal.SIGKILL)
            if not isinstance(error, subprocess.TimeoutExpired):
                raise
            raise Hindered(f"the browser didn't finish within {seconds:g} s") from error
    if process.returncode:
        remedy = "" if not os.geteuid() else "its sandbox needs user namespaces: have them allowed"
        what = f"the browser ended with the status {process.returncode}"
        raise Hindered(what, remedy=remedy)
    return written


def print_pdf(text: str, path: str | Path) -> None:
    """Write a page as a PDF on A4, whole or not at all."""
    with tempfile.TemporaryDirectory() as folder, replacing(path) as made:
        page = Path(folder) / "page.html"
        page.write_text(text, encoding="utf-8")
        printed = Path(folder) / "page.pdf"
        in_browser(page, f"--print-to-pdf={printed}", "--no-pdf-header-footer")
        if not printed.is_file():
            raise Hindered("the browser wrote no PDF")
        made.write_bytes(printed.read_bytes())
