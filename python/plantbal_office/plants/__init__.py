"""Plants and months: which books there are, and what each month waits for."""
