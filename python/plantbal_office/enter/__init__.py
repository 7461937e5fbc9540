"""Enter: workbooks that are dropped, and the grid, each looked at before it is booked."""
