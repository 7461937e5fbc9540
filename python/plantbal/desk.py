"""Sessions, statements, pictures, audits and fleets around plantbal, each by a subcommand."""

from __future__ import annotations

import argparse
import importlib
import os
import sys
import traceback
from collections.abc import Sequence
from dataclasses import dataclass
from typing import Any, NoReturn, Protocol, cast

from plantbal.faults import Fault, Faults, ToolMissing
from plantbal.plain import plain_streams
from plantbal.statuses import ExitStatus, statuses_said

# Each is imported by the calls that need it, and is Debian's package python3-NAME.
LIBRARIES = frozenset(
    "babel distributed django graphviz jinja2 matplotlib networkx numpy openpyxl pandas scipy sqlalchemy tqdm".split()
)


class Handler(Protocol):
    """What does the work of a subcommand: a module, or a part of one."""

    HELP: str

    def add_arguments(self, parser: argparse.ArgumentParser) -> None:
        """Add the words of the command."""

    def run(self, options: argparse.Namespace) -> int:
        """Do the work, and return the status."""


@dataclass(frozen=True)
class Command:
    """A subcommand: its word, where it is, and one line on it.

    Attributes
    ----------
    word : str
        Its word.
    home : str
        Its module, or a part of a module after a colon.
    about : str
        One line on it.
    takes_words : bool
        Whether words after a lone ``--`` are another program's.
    """

    word: str
    home: str
    about: str
    takes_words: bool = False

    def handler(self) -> Handler:
        """Return what does its work."""
        module, _, part = self.home.partition(":")
        found = importlib.import_module(f"plantbal.{module}")
        return cast(Handler, getattr(found, part) if part else found)


COMMANDS: tuple[Command, ...] = (
    Command("run", "commands.running:RUN", "run a session, and show what needs a look"),
    Command("lint", "lint.command", "find what is accepted in a session but looks wrong"),
    Command("explain", "explain.command", "explain each refused row"),
    Command("check", "commands.running:CHECK", "check a report, in CSV or as JSON lines"),
    Command("archive", "audit.archive", "put a month into a bundle with digests"),
    Command("audit", "audit.command", "verify a bundle, or a report and its session"),
    Command("report", "commands.running:REPORT", "turn a report into CSV, SQLite or a workbook"),
    Command("solve", "commands.running:SOLVE", "reconcile with scipy if sweeps don't converge"),
    Command("map", "workbook.mapping.command", "propose how a plant's workbook is read"),
    Command("convert", "workbook.conversion", "a session from a plant's workbook"),
    Command("book", "commands.book.command", "keep a plant's book, a session for each year"),
    Command("pull", "commands.database:PULL", "read facts of a database into a book"),
    Command("push", "commands.database:PUSH", "write what is booked to a database, once"),
    Command("template", "workbook.template", "an empty workbook for convert"),
    Command("from-spreadsheet", "workbook.spreadsheet", "a session from daily readings and tags"),
    Command("tables", "report.tables", "tables of flows, classes, suspects, imbalances"),
    Command(
        "uncertainty", "study.uncertainty", "how good each flow is, and which meters it rests on"
    ),
    Command(
        "advise", "study.advice", "which streams to meter so that each is observable, at least cost"
    ),
    Command("balance", "balance.command", "reconcile flows and grades together, with both errors"),
    Command(
        "recovery", "study.recovering", "where a component goes, its recovery, and a chart of it"
    ),
    Command("draw", "report.picture", "draw a report, a design, or which streams to meter"),
    Command("chart", "report.chart", "chart the periods of one or more reports"),
    Command("page", "page.command", "the month's statement: a page, a workbook, a PDF"),
    Command("serve", "commands.serving", "the desk in the browser, for one person"),
    Command("fleet", "fleet.command", "run a folder of sessions", takes_words=True),
    Command("across", "fleet.across", "all nights and books of a group in one database"),
    Command("tell", "fleet.tell", "send a mail about a night that needs a person"),
    Command("critical", "study.critical", "critical values as rows of a session"),
    Command("from-scipy", "study.foreign", "another program's figures in the form of a report"),
    Command("schema", "commands.running:SCHEMA", "the rows of sessions and outputs as data"),
)

EPILOG = f"""
Each subcommand ends with one of these statuses:

{statuses_said()}
examples:
  plantbal-desk run day.csv --out day.xlsx
  plantbal run --tests < month.csv | plantbal-desk page --title May > may.html
  plantbal-desk SUBCOMMAND --help
"""


class VersionAction(argparse.Action):
    """Writes the version, which is read only if it is asked for."""

    def __init__(self, option_strings: Sequence[str], dest: str, **_: object) -> None:
        super().__init__(option_strings, dest, nargs=0, help="write the version and end")

    def __call__(self, parser: argparse.ArgumentParser, *_: object) -> NoReturn:
        import plantbal

        print(f"plantbal-desk {plantbal.__version__}")
        parser.exit()


class Parser(argparse.ArgumentParser):
    """A parser whose options may stand between its other words, as argparse's own may not."""

    _is_within = False

    def parse_known_args(self, args: Any = None, namespace: Any = None) -> Any:
        """Read the words; with `parse_known_args` some may be unknown."""
        below = any(isinstance(each, argparse._SubParsersAction) for each in self._actions)
        if below or self._is_within:
            return super().parse_known_args(args, namespace)
        self._is_within = True
        try:
            return self.parse_known_intermixed_args(args, namespace)
        finally:
            self._is_within = False


def parser_of(command: Command, prog: str) -> argparse.ArgumentParser:
    """Return the parser of a subcommand that is called by itself."""
    handler = command.handler()
    parser = Parser(
        prog=prog,
        description=handler.__doc__,
        epilog=handler.HELP,
        formatter_class=argparse.RawDescriptionHelpFormatter,
    )
    handler.add_arguments(parser)
    parser.set_defaults(run=handler.run, prog=prog, takes_words=command.takes_words)
    return parser


def desk_parser() -> argparse.ArgumentParser:
    """Return the parser of the whole command, with all subcommands."""
    parser = Parser(
        prog="plantbal-desk",
        description=__doc__,
        epilog=EPILOG,
        formatter_class=argparse.RawDescriptionHelpFormatter,
    )
    parser.add_argument("--version", action=VersionAction)
    words = parser.add_subparsers(metavar="SUBCOMMAND", required=True)
    for command in COMMANDS:
        handler = command.handler()
        inner = words.add_parser(
            command.word,
            help=command.about,
            description=handler.__doc__,
            epilog=handler.HELP,
            formatter_class=argparse.RawDescriptionHelpFormatter,
        )
        handler.add_arguments(inner)
        inner.set_defaults(run=handler.run, prog=f"plantbal-desk {command.word}")
    return parser


def _options(parser: argparse.ArgumentParser, words: Sequence[str]) -> argparse.Namespace:
    """Read the words; a command that says so gets those after a lone `--` as they are."""
    takes = parser.get_default("takes_words")
    if takes is None:
        takes = any(
            command.takes_words for command in COMMANDS if [command.word] == list(words[:1])
        )
    if not takes or "--" not in words:
        return parser.parse_args(words)
    place = list(words).index("--")
    options = parser.parse_args(words[:place])
    options.words = list(words[place + 1 :])
    return options


def run_words(parser: argparse.ArgumentParser, words: Sequence[str]) -> int:
    """Run a command by its words, and return its status."""
    options = _options(parser, words)
    with plain_streams():
        return _called(options)


def _called(options: argparse.Namespace) -> int:
    """Run a command, and say what is at fault."""
    try:
        status: int = options.run(options)
        sys.stdout.flush()
        return status
    except Fault as fault:
        for line in [*(fault.lines if isinstance(fault, Faults) else ()), fault]:
            print(f"{options.prog}: {line}", file=sys.stderr)
        return fault.ends
    except ModuleNotFoundError as error:
        library = (error.name or "").partition(".")[0]
        if library not in LIBRARIES:
            raise
        missing = ToolMissing(library, f"python3-{library}")
        print(f"{options.prog}: {missing}", file=sys.stderr)
        return missing.ends
    except BrokenPipeError:
        # The reader has gone: nothing more can be written, not even at the end of the process.
        os.dup2(os.open(os.devnull, os.O_WRONLY), sys.stdout.fileno())
        return ExitStatus.FAILED
    except OSError as error:  # a full disk, mostly: what reads and writes files has its own faults
        os.dup2(os.open(os.devnull, os.O_WRONLY), sys.stdout.fileno())
        what = f"{error.filename or 'standard output'}: {error.strerror or error}"
        print(f"{options.prog}: {what}: free some space, or write elsewhere", file=sys.stderr)
        return ExitStatus.FAILED
    except MemoryError:
        print(f"{options.prog}: out of memory: give it more, or less to read", file=sys.stderr)
        return ExitStatus.FAILED
    except KeyboardInterrupt:
        print(f"{options.prog}: stopped", file=sys.stderr)
        return ExitStatus.STOPPED


def end(parser: argparse.ArgumentParser, words: Sequence[str]) -> NoReturn:
    """Run a command, and end with its status: a mistake of our own is none that a person looks at."""
    try:
        status = run_words(parser, words)
    except Exception:
        traceback.print_exc()
        status = ExitStatus.FAILED
    sys.exit(int(status))


def main() -> NoReturn:
    """Run `plantbal-desk` with the words of this process."""
    words = sys.argv[1:]
    for command in COMMANDS:
        if words[:1] == [command.word]:  # the others needn't be loaded
            end(parser_of(command, f"plantbal-desk {command.word}"), words[1:])
    end(desk_parser(), words)


if __name__ == "__main__":
    main()
