"""Deeds: what a person did once, and what a person was shown."""
