"""Look: the statement, streams, facts, the drawing, the journal."""
