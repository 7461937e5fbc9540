"""The tests of the desk in the browser."""
