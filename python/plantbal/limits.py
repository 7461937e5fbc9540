"""How much is read of each kind of input, so that no file can take all memory or all time.

Each limit is far above what a plant has, and a sentence with the file's name is said if one is
passed. `plantbal.faults.read_bytes` is the one reader of files, and refuses what is no file.
"""

from __future__ import annotations

# Bytes. The program takes no longer session, and its check no longer report.
SESSION_BYTES = 1 << 26
# A workbook, each CSV file of one, and each table of another form.
WORKBOOK_BYTES = 1 << 26
# An output, and whatever has no limit of its own.
INPUT_BYTES = 1 << 30
# A signature, and the answer of a server of time stamps.
SIGNATURE_BYTES = 1 << 16
STAMP_BYTES = 1 << 18
# The rules of a book, and who may sign in it.
RULES_BYTES = 1 << 20
# What a stopped command on a book has left to do: the rows of a year at most, quoted.
PENDING_BYTES = 1 << 28

# What a workbook holds once it is unpacked: bytes, and cells from the first to the last of rows.
UNPACKED_BYTES = 1 << 28
CELLS = 4_000_000
# Rows and columns of a sheet: as many as Excel has.
ROWS = 1 << 20
COLUMNS = 1 << 14
# The characters of a cell, as Excel has them; a longer one is two tables run into one.
CELL_CHARACTERS = 32_767
# Files of a folder that is read as a workbook.
FOLDER_FILES = 1_000
# Figures of more digits are none.
DIGITS = 60
# How far objects of JSON may stand within one another.
JSON_DEPTH = 20

# A file of which this many rows are of no known kind is of another form.
ROWS_OF_ANOTHER_FORM = 1_000
# Refused rows, and faults of a workbook, that are kept with their sentences; others are counted.
REFUSED_KEPT = 100
FAULTS_KEPT = 10_000

# Seconds that lint has for a session: one of 200,000 facts takes a few.
LINT_SECONDS = 300.0
# Streams of periods that lint looks at, for all rows that ask for output: three seconds a million.
LINT_STREAMS = 8_000_000
# Seconds that graphviz has for a drawing.
DRAWING_SECONDS = 60.0
# A mapping of a workbook, or of a database.
MAPPING_BYTES = 1 << 20

# Facts of a period of whose masses a statement shows how they were calculated; others are counted.
MEASURED_SHOWN = 400

# What a query of a database gives: rows, seconds until it is cancelled, and megabytes of figures.
QUERY_ROWS = 2_000_000
QUERY_SECONDS = 60
QUERY_MEGABYTES = 256
# A file with a password.
PASSWORD_BYTES = 1 << 12
