"""The refinery day by the installed package: to a frame, a workbook and a check.

The words are the session, and a folder in which the output stands as day.csv.
"""

from __future__ import annotations

import sys
from pathlib import Path

import plantbal

session, folder = Path(sys.argv[1]), Path(sys.argv[2])
home = Path(plantbal.__file__).parent
assert folder in home.parents, f"another package is used: {home}"
output = plantbal.run(session, tests=False)
kerosene = output.streams.set_index("name").loc["KEROSENE"]
assert int(kerosene["flow"]) == 1_180_680_924, kerosene
assert kerosene["period"] == "may1"
output.to_xlsx(folder / "day.xlsx")

import pandas  # noqa: E402

sheets = pandas.read_excel(folder / "day.xlsx", sheet_name=None)
assert len(sheets["streams"]) == len(output.streams) == 23
verdicts = plantbal.check(folder / "day.csv")
assert len(verdicts) == 1, verdicts
print(f"{len(output.streams)} streams, {len(sheets)} sheets, {len(verdicts)} block")
