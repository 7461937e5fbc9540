"""What is tried with the built program, and with the commands around it."""
