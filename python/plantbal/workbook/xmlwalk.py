"""A stream of XML, walked by what is read of each element.

expat reads it, and nothing of it is kept: a sheet of a million rows takes no tree. An element that
isn't looked for is passed over with all that is in it. Entities, and parts of other files, are
refused.
"""

from __future__ import annotations

from collections.abc import Callable
from dataclasses import dataclass, field
from typing import IO
from xml.parsers.expat import ParserCreate

_PIECE = 1 << 16


@dataclass(slots=True)
class SoughtElement:
    """What is looked for of an element.

    Attributes
    ----------
    inner : dict of str to Looked
        The elements in it, by their names as `space}name`.
    begin : callable, optional
        Gets its attributes.
    end : callable, optional
        Is called after all that is in it.
    take : callable, optional
        Gets pieces of its text.
    """

    inner: dict[str, SoughtElement] = field(default_factory=dict)
    begin: Callable[[dict[str, str]], object] | None = None
    end: Callable[[], object] | None = None
    take: Callable[[str], object] | None = None


_NOTHING = SoughtElement()


def walk(source: IO[bytes], root: SoughtElement) -> None:
    """Walk a stream to its end.

    Parameters
    ----------
    source : binary file
        The stream.
    root : Looked
        What is looked for; the first element is in it.

    Raises
    ------
    ValueError
        If it has an entity.
    ExpatError
        If it isn't XML.
    """
    stack = [root]
    enter, leave = stack.append, stack.pop

    def start(name: str, attributes: dict[str, str]) -> None:
        found = stack[-1].inner.get(name, _NOTHING)
        enter(found)
        if found.begin is not None:
            found.begin(attributes)

    def stop(name: str) -> None:
        end = leave().end
        if end is not None:
            end()

    def text(data: str) -> None:
        take = stack[-1].take
        if take is not None:
            take(data)

    parser = ParserCreate(namespace_separator="}")
    parser.buffer_text = True
    parser.StartElementHandler = start
    parser.EndElementHandler = stop
    parser.CharacterDataHandler = text
    parser.EntityDeclHandler = _refuse
    parser.UnparsedEntityDeclHandler = _refuse
    parser.ExternalEntityRefHandler = _refuse
    while piece := source.read(_PIECE):
        parser.Parse(piece, False)
    parser.Parse(b"", True)


def check_beginning(source: IO[bytes]) -> None:
    """Read a stream to its first element: what it declares stands before that, or nowhere.

    Raises
    ------
    ValueError
        If it declares what its document is made of, and so perhaps entities.
    ExpatError
        If it isn't XML.
    """
    begun: list[str] = []
    parser = ParserCreate()
    parser.StartDoctypeDeclHandler = _refuse
    parser.StartElementHandler = lambda name, attributes: begun.append(name)
    while not begun and (piece := source.read(_PIECE)):
        parser.Parse(piece, False)


def _refuse(*_: object) -> int:
    """Refuse an entity: one may stand for a million others, or for a file."""
    raise ValueError("it declares entities")
