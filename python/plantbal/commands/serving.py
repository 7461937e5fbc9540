"""Serves the desk in the browser to one person on this machine."""

from __future__ import annotations

import argparse
from typing import Any

from plantbal.statuses import ExitStatus

HELP = """
Each BOOK is the folder of a plant's book; books that were opened before are there again. The desk
answers on 127.0.0.1 alone, and only to whoever has the key in the printed address. It needs
python3-django. The desk's own data (comments, files, sign-ins) is in the folder of --state; figures
are only in the books. Ctrl-C stops it.

examples:
  plantbal-desk serve mill
  plantbal-desk serve --no-browser --port 8010 mill refinery
"""


def add_arguments(parser: argparse.ArgumentParser) -> None:
    """Add the words of the command."""
    parser.add_argument("books", metavar="BOOK", nargs="*", help="the folder of a plant's book")
    parser.add_argument(
        "--port", metavar="N", type=int, default=0, help="the port (default: a free one)"
    )
    parser.add_argument("--no-browser", action="store_true", help="open no browser")
    where = "the folder for the desk's own data (default: plantbal/desk in XDG_STATE_HOME)"
    parser.add_argument("--state", metavar="FOLDER", help=where)
    parser.add_argument(
        "--program", metavar="PATH", help="the program (default: see plantbal-desk run)"
    )


def run(options: argparse.Namespace) -> int:
    """Serve until it is stopped."""
    from plantbal.faults import Fault, ToolMissing

    if not 0 <= options.port <= 65_535:
        raise Fault(f"{options.port} isn't a port", remedy="leave it out, or use one above 1023")
    try:
        import django  # noqa: F401
    except ModuleNotFoundError as error:
        raise ToolMissing("django", "python3-django") from error
    from plantbal_office import serving

    desk: Any = serving.Desk.made(options.state, options.program)
    desk.open(options.books)
    desk.serve(options.port, browser=not options.no_browser)
    return ExitStatus.GOOD
