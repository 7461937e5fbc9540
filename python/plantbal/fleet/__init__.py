"""Many plants: each session of a folder is run, and each night is kept.

`sites` chooses the sessions, `night` knows where a night's files are, `by_parallel` and `by_dask`
run the sessions, `taking` has `gather` read what came of each, by `outline`, within `limits`, `keep`
writes table, database and checksums, and `index` the page. The command is in `command`.
"""
