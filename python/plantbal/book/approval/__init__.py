"""Four eyes: what a book requires to be approved, by whom, and who has signed it."""
