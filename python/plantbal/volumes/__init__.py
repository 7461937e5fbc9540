"""What is in a tank or a ticket: volumes at a temperature as mass, with errors and a trail."""
