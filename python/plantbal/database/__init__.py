"""Facts that are read from databases into a book, and what is booked that is written to one."""
