"""Whose a book's folder is: a command writes into its user's own, or into one that a group shares.

A folder from elsewhere may have links and an action that waits; whoever writes into it as its owner
wishes does that owner's work with his own rights. As git does with `safe.directory`, a command
refuses to write there unless its user says that he trusts the folder. To read is always allowed.
"""

from __future__ import annotations

import os
import stat
import sys
from collections.abc import Iterable
from pathlib import Path

from plantbal.book.remedies import BookRemedy
from plantbal.faults import Fault, InputFault, Place
from plantbal.sentence import Sentence

TRUSTED = "PLANTBAL_TRUST"  # folders of others that a user trusts, with colons between them


def user_said() -> str:
    """Return who runs this process: the name of the user, and the number in brackets."""
    if sys.platform == "win32":
        import getpass

        return getpass.getuser()
    return owner_said(os.getuid())


def owner_said(number: int) -> str:
    """Return a user's name with the number, or the number alone if it has no name here."""
    import pwd

    try:
        return f"{pwd.getpwuid(number).pw_name} ({number})"
    except KeyError:
        return str(number)


def is_trusted(folder: Path) -> bool:
    """Say whether the user of this process has said that a folder of another is trusted."""
    named = filter(None, os.environ.get(TRUSTED, "").split(os.pathsep))
    return folder.resolve() in [Path(name).resolve() for name in named]


def is_shared(found: os.stat_result, number: int) -> bool:
    """Say whether a folder is one that its group may write to, and a user is of that group."""
    import grp
    import pwd

    if not found.st_mode & stat.S_IWGRP:
        return False
    if number == os.getuid():
        return found.st_gid in (os.getegid(), *os.getgroups())
    try:
        own = pwd.getpwuid(number)
        return own.pw_gid == found.st_gid or own.pw_name in grp.getgrgid(found.st_gid).gr_mem
    except KeyError:
        return False


def check_folder(folder: Path) -> None:
    """Refuse to write into a folder of another user.

    Raises
    ------
    Fault
        If it is another's, isn't shared by a group that this user is of, and isn't trusted.
    """
    if sys.platform == "win32":
        return
    found = folder.stat()
    if found.st_uid == os.getuid() or is_shared(found, os.getuid()) or is_trusted(folder):
        return
    words = {"folder": str(folder.resolve()), "owner": owner_said(found.st_uid)}
    raise Fault(
        Sentence("the book {folder} belongs to {owner}", **words),
        remedy=BookRemedy.SHARE_OR_TRUST(trusted=TRUSTED, **words).sentence,
    )


def link_in(folder: Path, name: str) -> Path | None:
    """Return the link that stands in a book's folder in the place of a file or around it."""
    path = folder
    for part in name.split("/"):
        path = path / part
        if path.is_symlink():
            return path
    return None


def check_links(folder: Path, names: Iterable[str]) -> None:
    """Refuse to write through links, which lead out of the book, in a folder that isn't trusted.

    Raises
    ------
    Fault
        If a file that is to be written is a link, or its folder is one.
    """
    for name in names:
        link = link_in(folder, name)
        if link is not None and not is_trusted(folder):
            form = "it is a link, to {path}, and nothing is written through it"
            words = {"trusted": TRUSTED, "folder": str(folder.resolve())}
            raise InputFault(
                Sentence(form, path=str(link.resolve())),
                place=Place(file=str(link)),
                remedy=BookRemedy.FILE_OR_TRUST(**words).sentence,
            )


def may_have_left(folder: Path, file: os.stat_result) -> bool:
    """Say whether a file in a folder is of somebody who may write into this book.

    That is the user of this process, the owner of the folder, or one of the group that shares it.
    """
    if sys.platform == "win32":
        return True
    found = folder.stat()
    if file.st_uid in (os.getuid(), found.st_uid):
        return True
    return is_shared(found, file.st_uid) or is_trusted(folder)
