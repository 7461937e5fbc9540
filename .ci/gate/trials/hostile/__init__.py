"""The program with failing ends, refused memory and cut input, and with as much as there may be."""
