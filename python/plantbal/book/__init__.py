"""A plant's book: a folder with a session for each year, its reports, and a journal."""
