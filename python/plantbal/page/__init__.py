"""The month's statement as one page for a browser, a workbook or a PDF."""

from __future__ import annotations

from plantbal.page.command import HELP, add_arguments, page, run

__all__ = ["HELP", "add_arguments", "page", "run"]
