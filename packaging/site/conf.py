"""How Sphinx makes the site; packaging/site/build lays out its sources and calls it."""

from __future__ import annotations

import os

project = "plantbal"
author = "plantbal maintainers"
release = version = os.environ["PLANTBAL_VERSION"]
copyright = "plantbal maintainers"

extensions = ["myst_parser", "sphinx.ext.autodoc", "sphinx.ext.napoleon"]
exclude_patterns = ["examples", "libplantbal"]
# the anchors of headings are those that links in the repository's pages use
myst_heading_anchors = 4
myst_enable_extensions: list[str] = []
# indented commands and rows have no language
highlight_language = "none"
suppress_warnings = ["myst.header"]

autodoc_member_order = "bysource"
autodoc_typehints = "signature"
napoleon_google_docstring = False
napoleon_use_rtype = False
napoleon_use_ivar = True

html_theme = "furo"
html_title = f"plantbal {version}"
html_show_sphinx = False
html_show_copyright = False
html_show_sourcelink = False
html_copy_source = False
# a page opened as a file can't read the other pages, so that it has no summary of them
html_show_search_summary = False
html_static_path = ["static"]
html_css_files = ["plantbal.css"]
html_js_files = [("try.js", {"defer": "defer"})]
pygments_style = "sas"
