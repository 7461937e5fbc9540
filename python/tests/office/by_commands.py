"""A command on a book as a person types it, without a process of its own."""

from __future__ import annotations

import contextlib
import io

from plantbal import desk


def call(*words: object, allowed: tuple[int, ...] = (0,), command: str = "book") -> str:
    """What a command writes; it fails if its status is none that is allowed."""
    out, err = io.StringIO(), io.StringIO()
    own = next(each for each in desk.COMMANDS if each.word == command)
    parser = desk.parser_of(own, f"plantbal-desk {command}")
    with contextlib.redirect_stdout(out), contextlib.redirect_stderr(err):
        try:
            status = desk.run_words(parser, [str(word) for word in words])
        except SystemExit as ended:
            status = int(ended.code or 0)
    assert status in allowed, f"{words}: {out.getvalue()}{err.getvalue()}"
    return out.getvalue()
