"""Gustparsley in Python: paths that never meet, over the proved library.

    >>> from gustparsley import Mesh
    >>> mesh = Mesh.two(1)
    >>> mesh.plan(0, [5, 1])
    [[0, 2, 3, 7, 6, 4, 5], [0, 1]]

A path is a list of relays, its source first. A refusal is the exception `Refused`: a number, a path, a place, and a sentence that says what is wrong and where.

    >>> mesh.plan(0, [5, 8])
    Traceback (most recent call last):
    gustparsley.Refused: 5: target 1, which is 8, is no relay: the two-level mesh of order 1 has relays 0 to 7

Numbers are those of docs/ROUTINES.md; every answer is the library's own.
"""
from .book import Book
from .errors import Finding, Refused
from .mesh import Entry, Mesh, Survivors
from .record import Arrival, Record
from .sheet import Sheet

__all__ = ["Arrival", "Book", "Entry", "Finding", "Mesh", "Record", "Refused", "Sheet", "Survivors"]
