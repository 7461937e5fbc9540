"""The mapping of a workbook: which sheet is what, which column, unit, number and date form."""
