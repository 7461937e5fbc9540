"""The commands on a plant's book: their words, and what they print of what `Book` returns."""
