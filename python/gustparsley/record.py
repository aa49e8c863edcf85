"""Frames that come in several copies: the receiver's record."""
from __future__ import annotations

import dataclasses

from ._library import _Record, library
from .errors import SENTENCES


@dataclasses.dataclass(frozen=True)
class Arrival:
    """What becomes of a frame: passed, or refused by 41 (seen) or 42 (too old), in words too."""

    number: int

    @property
    def passed(self) -> bool:
        return self.number == 0

    def __str__(self) -> str:
        return "passed" if self.passed else f"{self.number}: {SENTENCES[self.number]}"

    def __bool__(self) -> bool:
        return self.passed


@dataclasses.dataclass
class Record:
    """What a receiver keeps of the frames that have come: the newest number, and marks of the 64 newest. A fresh one has no marks.

    >>> record = Record()
    >>> [record.arrive(n).passed for n in (7, 7, 9, 8, 9)]
    [True, False, True, True, False]
    >>> print(record.arrive(7))
    41: a frame of this number was passed before
    """

    newest: int = 0
    marks: int = 0

    def arrive(self, number: int) -> Arrival:
        """The arrival of a frame with a number of 16 bits, which wraps: whether it is passed. The record is kept up."""
        if not 0 <= number < 2**16:
            raise ValueError(f"a frame's number must be from 0 to 65535, not {number}")
        came = library.gust_arrive(_Record(self.newest, self.marks), number)
        self.newest, self.marks = came.newest, came.marks
        return Arrival(came.number)
