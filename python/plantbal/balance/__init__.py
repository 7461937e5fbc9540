"""Flows and grades reconciled together: assays determine flows, and flows determine grades.

`problem` has the plant and its measurements, `system` the equations, `solve` finds the minimum,
`known` says what is determined and how well, `reading` takes all from a session, `certify` hands
the flows to the program, `table` and `command` show them.
"""

from plantbal.balance.known import Class, Known
from plantbal.balance.problem import Flow, Measured, Problem, solids_of, water_of
from plantbal.balance.solve import NotFound, Solution, solve

__all__ = [
    "Class",
    "Flow",
    "Known",
    "Measured",
    "NotFound",
    "Problem",
    "Solution",
    "solids_of",
    "solve",
    "water_of",
]
