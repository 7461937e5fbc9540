"""The changes of its tables."""
