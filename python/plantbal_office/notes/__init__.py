"""Notes: comments and files on a fact, a stream or a month."""
