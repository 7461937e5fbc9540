"""What is computed about a study outside the program: solutions, uncertainty, recovery, advice."""
