"""People: who signs in, in which language, and which roles each has in which plant."""
