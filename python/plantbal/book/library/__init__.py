"""A plant's book as a library: what the commands on a book do, with typed results.

Nothing here prints or reads the words of a command. Each method tests the files of the book against
its journal first, does its action as a whole or not at all, and returns what came of it, or raises
a `Fault`.
"""

from plantbal.book.library.book import Book

__all__ = ["Book"]
