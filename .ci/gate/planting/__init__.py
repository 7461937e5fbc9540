"""What the answer to a planted edit rests on, as a sum by which `.ci/planted` knows its records.

`tree.py` has the files of a checkout, `tokens.py` what counts of a text, `code.py` the things of its
source files, `meanings.py` what its definitions say, `rests.py` what is reached from an edit, and
`trying.py` tries edits and records those that are refused.
"""
