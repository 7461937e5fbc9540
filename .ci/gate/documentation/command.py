"""Makes and checks the documents that follow from the sources.

.ci/documents write        makes anew docs/STATEMENT.md, docs/statement/ and python/plantbal/schema.json,
                           and the parts of docs/ASSURANCE.md, docs/GUIDE.md, docs/ARCHITECTURE.md,
                           and docs/MESSAGES.md that are made; lowers the numbers of .ci/at_most.txt
.ci/documents check        ends with 1 if one of these is stale, if a document cites what isn't
                           there, or if there is more of a form than .ci/at_most.txt says
.ci/documents list NAME    prints what there is of a form of .ci/at_most.txt
"""

from __future__ import annotations

import sys

from . import checks, forms
from .sources import Sources


def main(words: list[str]) -> int:
    """Write, check or list, and return the status."""
    if words == ["write"]:
        checks.write(Sources())
        return 0
    if words == ["check"]:
        found = checks.complaints(Sources())
        for line in found:
            print(f"documents: {line}")
        return 1 if found else 0
    if len(words) == 2 and words[0] == "list" and words[1] in forms.FORMS:
        print("\n".join(forms.FORMS[words[1]](Sources())))
        return 0
    print(f"{__doc__}\nThe forms: {', '.join(forms.FORMS)}.", file=sys.stderr)
    return 2
