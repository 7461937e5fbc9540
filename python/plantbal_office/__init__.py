"""The desk in the browser: plants' books for people without a terminal, on `plantbal.Book`."""
