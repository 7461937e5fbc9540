"""The month's account: what came in, what went out, and what is there, to the gram.

``sheet``, ``reading``
    What the accounts' sheet says of each stream and tank, and how it is read.
``month``
    A period as its report has it: flows, and what tanks held by their dips.
``stock``
    Stock that rolls forward: each month opens with what the month before it booked.
``entries``, ``account``
    What each stream and tank brings to each account; the accounts of a month and their totals.
``spread``
    How good a total is, from the covariance of the reconciled flows.
``shares``
    What is split among owners, to the gram.
``difference``, ``posting``
    How two states of a month differ, why, and what is handed over.
``trend``
    A month beside the months before it.

All amounts are whole grams. Nothing here reads a book or runs the program.
"""
