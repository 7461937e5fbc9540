"""What the program writes: its rows, the blocks that they make, tables and pictures of them."""
