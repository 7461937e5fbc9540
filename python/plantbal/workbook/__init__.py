"""A plant's workbook: its sheets, their cells, the session that is made of them, and the empty form."""
