"""Correct: amend, strike, estimate and close, each with its effect shown before it is booked."""
