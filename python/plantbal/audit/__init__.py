"""A month's bundle, and the judges of a report: by its own numbers, and held against its session."""
