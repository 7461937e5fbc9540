"""The Python of the gate: documents that follow from the sources, planted edits, trials of the built program.

`documentation/` makes and checks documents, `planting/` knows what the answer to a planted edit rests
on and tries such edits, `trials/` has what is tried with the built program, `checkout.py` and
`running.py` are what they share. The scripts of `.ci` only call them.
"""
