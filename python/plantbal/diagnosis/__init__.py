"""A verdict that can be acted on: what doesn't close, where, by how much, and since when.

``balances``
    What the measurements leave open, and its covariance.
``gross``
    The generalized likelihood ratio of one error, and the sets of equals.
``evidence``, ``candidates``
    The facts of a period, and what an error of a size may be.
``days``, ``findings``, ``running``
    The days of an error, which measurement fits them, and the running content of a tank.
``proposal``
    Estimates for days without a reading.
``unseen``
    What no test can see.
``diagnose``
    All of it for a round of a report.
``words``
    The same in sentences.
"""
