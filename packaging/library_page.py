"""The manual page plantbal(3), out of the exports of the library and their comments."""

from __future__ import annotations

import header
import pages
import words

PAGE = words.TOP / "docs" / "plantbal.3"

ABOUT = """\
The library does what the program
.BR plantbal (1)
does, in the process that calls it. Each call returns a status. A session takes records one block
after another and answers each with a code: 0, or the number of the cause for which it is refused.
What the records add to the output is handed over when the caller asks for it. After a call that
returns
.BR PLANTBAL_NO_MEMORY ,
the session is as it was after the last record that was taken, and the caller may go on.
"""

OWED = """\
The caller must ensure what no proof can see: pointers that aren't null and point to as many bytes as
the length says, buffers that don't overlap what is read, a
.B plantbal_session
that began as
.B PLANTBAL_SESSION
and whose words nobody copies, reads or writes, and one call at a time for each session. Sessions
share nothing, so any number of threads may call, each with sessions of its own; a session may move
from one thread to another. A thread needs 128 KB of stack. No call may be made from a signal
handler, or in the forked child of a process with several threads. malloc, realloc and free must be
from the same allocator.
.PP
A session that is freed may be freed again, or used for another one: a call on a handle that holds
nothing returns
.BR PLANTBAL_BAD_HANDLE .
A call can't be stopped, and a long report gives no sign of life: to have a limit of time or memory,
run the program.
"""


def _functions() -> list[str]:
    """Return the lines that describe the functions."""
    lines = []
    for export in header.exports():
        lines += [".TP", f".BI {export.name}", export.comment.replace("-", "\\-")]
    return lines


def _synopsis() -> list[str]:
    """Return the lines of the prototypes."""
    lines = [".nf", ".B #include <plantbal.h>", ".PP"]
    for export in header.exports():
        lines += [f'.BI "{line}"' for line in export.prototype().splitlines()]
        lines.append(".PP")
    return [*lines, ".fi"]


def page() -> str:
    """Return the text of plantbal(3)."""
    lines = pages.head("plantbal", 3, "Library functions", "plant mass balance, in process")
    lines += [".SH LIBRARY", "libplantbal (\\-lplantbal)", ".SH SYNOPSIS"]
    lines += [*_synopsis(), ".SH DESCRIPTION", ABOUT.strip(), ".SS Functions", *_functions()]
    lines += [".SH RETURN VALUE", "The numbers up to 6 are the exit statuses of the program."]
    for comment, name, number in header.status_numbers():
        lines += [".TP", f".B PLANTBAL_{name} \\fR({number})", comment]
    lines += [".SH NOTES", OWED.strip(), ".SH EXAMPLES"]
    example = (words.TOP / "libplantbal" / "examples" / "balance.c").read_text(encoding="utf-8")
    lines += [".EX", example.replace("\\", "\\e").rstrip(), ".EE"]
    lines += [".SH SEE ALSO", ".BR plantbal (1),", ".BR plantbal-session (5),"]
    lines += [".BR plantbal-report (5)"]
    return pages.wrapped(lines)
