"""What the first statement would wait for, done as a server starts: libraries, and templates."""

from __future__ import annotations

from threading import Thread


def warm() -> None:
    """Load the libraries of a statement, and compile its templates."""
    import scipy.sparse.csgraph
    import scipy.sparse.linalg
    import scipy.special  # noqa: F401

    import plantbal_office.look.views  # noqa: F401
    from plantbal.page.accounts import compile_templates

    compile_templates()


def warm_meanwhile() -> None:
    """Do it beside the first requests, so that one person's desk is there at once."""
    Thread(target=warm, name="warm", daemon=True).start()
