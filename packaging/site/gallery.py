"""The gallery of the site: a page for each plant, with its session, drawing, statement and output."""

from __future__ import annotations

import contextlib
import html
import io
import tomllib
from dataclasses import dataclass
from pathlib import Path
from typing import Any

import trying
from plantbal import desk

# The lines of a session or an output that a page shows; the file has all of them.
SHOWN = 40
_PARSER = desk.desk_parser()


@dataclass
class Plant:
    """What plants.toml says of a plant, with its files."""

    name: str
    title: str
    about: str
    learn: str
    words: list[str]
    draw: list[str] | None
    session: Path | None
    output: Path
    statement: bool

    @classmethod
    def of(cls, said: dict[str, Any], examples: Path) -> Plant:
        """Return a plant, from its entry."""
        name = said["name"]
        session = said.get("session", f"{name}.csv")
        return cls(
            name=name,
            title=said["title"],
            about=said["about"],
            learn=said["learn"].strip(),
            words=said.get("words", ["run"]),
            draw=said.get("draw"),
            session=examples / session if session else None,
            output=examples / said.get("output", f"{name}.out.csv"),
            statement=said.get("statement", True),
        )

    @property
    def asked(self) -> Path:
        """The file that the program is given."""
        return self.session or self.output

    def has_report(self) -> bool:
        """Return whether the output has a report of which there is a statement."""
        return self.statement and any(
            line.startswith("report,") for line in self.output.read_text("utf-8").split("\n")
        )


def desk_made(words: list[str], wanted: Path) -> None:
    """Call a subcommand of the desk, which makes a file."""
    said = io.StringIO()
    with contextlib.redirect_stdout(said), contextlib.redirect_stderr(said):
        desk.run_words(_PARSER, [*words, "--out", str(wanted)])
    if not wanted.exists():
        raise SystemExit(
            f"site: plantbal-desk {' '.join(words)} made no picture: {said.getvalue()}"
        )


def lines_of(path: Path, about: str, held: str, tried: str = "") -> list[str]:
    """Return the part of a page that shows the first lines of a file, and links to all of it.

    With `tried`, the place where it can be changed and run, that stands before the lines.
    """
    lines = path.read_text("utf-8").splitlines()
    head = [f"    {line}" for line in lines[:SHOWN]]
    more = "" if len(lines) <= SHOWN else f" (the first {SHOWN} of {len(lines)} lines)"
    there = [tried] if tried else []
    return [f"## {about}", "", f"[{path.name}]({held}){more}:", "", *there, *head, ""]


def page(plant: Plant, folder: Path, static: Path) -> str:
    """Return the page of a plant, and make its drawing and its statement."""
    own = static / "plants" / plant.name
    own.mkdir(parents=True)
    held = {path: f"{plant.name}_{path.name}" for path in {plant.asked, plant.output}}
    for path, name in held.items():
        (folder / name).write_bytes(path.read_bytes())
    lines = [
        f"# {plant.title}",
        "",
        plant.about,
        "",
        "**What to learn from it**",
        "",
        plant.learn,
        "",
    ]
    words = " ".join(plant.words)
    lines += ["## The command", "", f"    plantbal {words} < {plant.asked}", ""]
    if plant.draw is not None:
        words_of_draw = ["draw", str(plant.output), *plant.draw]
        if plant.session and plant.session.read_text("utf-8").startswith("version,2"):
            words_of_draw += ["--session", str(plant.session)]
        desk_made(words_of_draw, folder / f"{plant.name}.svg")
        lines += ["## The plant, drawn", "", "```{image} " + plant.name + ".svg"]
        lines += [f":alt: {html.escape(plant.title)}", ":class: drawing", "```", ""]
    if plant.has_report():
        words_of_page = ["page", str(plant.output), "--title", plant.title]
        if plant.session:
            words_of_page += ["--session", str(plant.session)]
        desk_made(words_of_page, own / "statement.html")
        link = f"../_static/plants/{plant.name}/statement.html"
        lines += ["## The statement", "", "```{raw} html"]
        lines += [f'<p><a href="{link}">The statement as a page of its own</a></p>']
        lines += [
            f'<iframe class="statement" loading="lazy" title="The statement" src="{link}"></iframe>'
        ]
        lines += ["```", ""]
    text = plant.asked.read_text("utf-8")
    is_short = text.count("\n") <= SHOWN
    if not is_short:
        trying.write_text(plant.name, text, static)
    tried = trying.button(" ".join(plant.words), "" if is_short else plant.name)
    if plant.session:
        lines += lines_of(plant.session, "The session", held[plant.session], tried)
        lines += lines_of(plant.output, "The output", held[plant.output])
    else:
        lines += lines_of(plant.output, "The report", held[plant.output], tried)
    return "\n".join(lines)


def write(examples: Path, entries: Path, source: Path) -> None:
    """Write the gallery: its pages, and one that lists them. Pages name files as from the top of the repository."""
    said = tomllib.loads(entries.read_text("utf-8"))["plant"]
    plants = [Plant.of(one, Path(examples.name)) for one in said]
    folder = source / "gallery"
    folder.mkdir()
    lines = [
        "# Plants",
        "",
        "Each plant with its session, drawing, statement and output, and what to learn from it.",
        "",
    ]
    lines += ["| plant | what it is |", "|---|---|"]
    for plant in plants:
        with contextlib.chdir(examples.parent):
            text = page(plant, folder, source / "static")
        (folder / f"{plant.name}.md").write_text(text, encoding="utf-8")
        lines.append(f"| [{plant.title}]({plant.name}.md) | {plant.about} |")
    lines += ["", "```{toctree}", ":hidden:", "", *[plant.name for plant in plants], "```", ""]
    (folder / "index.md").write_text("\n".join(lines), encoding="utf-8")
