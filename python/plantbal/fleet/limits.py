"""What one plant of a fleet may take, so that no plant takes the night of the others.

A plant is run by the program, and what came of it is taken in by a process of its own. Both have
limits of memory, of file size and of time. How many processes there are is limited by the unit:
what a process may start counts for its user as a whole, and root has no such limit.
"""

from __future__ import annotations

MIB = 1 << 20
# The most bytes of memory that the program may ask for: it takes up to nine bytes a byte.
JOB_MEMORY = 1024 * MIB
# The most bytes of a file that the program writes: a month of 2,000 streams has 2 MB.
OUTPUT_BYTES = 1024 * MIB
# The same if the output comes from another machine by the network, and so through memory.
SENT_BYTES = 64 * MIB
# The most memory and the most seconds of the process that takes in what came of a plant.
TAKING_MEMORY = 1024 * MIB
TAKING_SECONDS = 600.0
# Plants that one such process may take in one after another, and the bytes of session and output
# from which on a plant has a process of its own.
SHARING_PLANTS, SHARING_BYTES = 500, 8 * MIB
# The most bytes that this process says of a plant.
TOLD_BYTES = 16 * MIB
# The most bytes of an output that is judged, and whose components are held against its flows: a
# check reads no more either.
JUDGED_BYTES = 64 * MIB
# How many refused rows are known by their numbers, and up to how many the whole session explains.
REFUSED_KNOWN, REFUSED_EXPLAINED = 100_000, 1000
# The rows after a refused one in which the reason is looked for, if there are more refused rows.
ROWS_AFTER = 200
# The folders that are looked through, and how deep they may lie within each other.
FOLDERS, DEPTH = 10_000, 64
# The folders of which it is said what in them isn't run; others are counted.
NOTES = 20
# Of the program's words on standard error, and of the sentences on a check.
SAID_BYTES, SENTENCES = 4096, 100
# The most streams of a report whose suspects are named by their sets of equals.
SETS_STREAMS = 500
# The same of a book, of which it says the sessions of the years that are open.
BOOK_BYTES = 144 * MIB
# Plants that a mail names, reasons that it has of each, and the characters of a line.
PLANTS_TOLD, REASONS_TOLD, LINE_TOLD = 200, 5, 300
