"""What is told where all is not well: a refusal, which is raised, and a finding of the judge, which is given back."""
from __future__ import annotations

import dataclasses

# Each number in words. {path} and {place} are as the library tells them.
SENTENCES = {
    1: "there is no mesh of that kind and size",
    2: "the source is no relay of the mesh",
    3: "there is no target",
    4: "there are more targets than a relay has links",
    5: "target {place} is no relay of the mesh",
    6: "target {place} is the source itself",
    7: "target {place} stands earlier in the list already",
    8: "there is too little room",
    9: "distances are known for two-level meshes of orders 1 to 3 only",
    10: "the target bytes are no multiple of 8",
    20: "path {path} has more hops than the longest path may have",
    21: "path {path} does not start at the source",
    22: "path {path}, place {place}: the relay is not linked to the one before it, or is no relay",
    23: "path {path} does not end at its target, at place {place}",
    24: "path {path}, place {place}: the relay stands on an earlier path, or earlier on this one",
    25: "path {path}, place {place}: the unused place is not filled",
    30: "the sheet is cut off, or its length field does not fit its bytes",
    31: "the version of the sheet is not one that is read here",
    32: "the sheet names no mesh, or one that has no sheets",
    33: "the sheet has no path, or more paths than a relay has links",
    34: "path {path} has no hop, or more hops than the longest path may have",
    35: "what is to be written is no fan, or of a mesh that has no sheets",
    36: "bytes are left over after the last path",
    37: "a single path in a two-level mesh protects nothing, and has no sheet",
    38: "path {path} has a zone that is not 0, which version 1 has no place for",
    39: "a sheet of this mesh and source is in the book already",
    40: "the index of the book is full",
    41: "a frame of this number was passed before",
    42: "the number is neither ahead of the newest nor among the newest 64",
    43: "the source has stopped",
    44: "the target has stopped",
    45: "no path of running relays joins the two",
    46: "the mesh is too large to be exported",
    51: "no sheet of this mesh and source is in the book",
    52: "metacubes are not served here",
    53: "the bytes from {place} on are no sheet of a book, or repeat one",
}


def sentence(number: int, path: int = 0, place: int = 0) -> str:
    """What a number says, in words.

    >>> sentence(22, 1, 3)
    'path 1, place 3: the relay is not linked to the one before it, or is no relay'
    """
    return SENTENCES.get(number, "a number that this package does not know").format(path=path, place=place)


class Refused(ValueError):
    """The library refused, and changed nothing: why (`number`), where (`path`, `place`), and both in words (`str`)."""

    def __init__(self, number: int, path: int = 0, place: int = 0, words: str | None = None):
        self.number, self.path, self.place = number, path, place
        self.words = words or sentence(number, path, place)
        super().__init__(f"{number}: {self.words}")

    __module__ = "gustparsley"


@dataclasses.dataclass(frozen=True)
class Finding:
    """The first thing that the judge finds fault with: its number, 20 to 25, its path and place, and both in words."""

    number: int
    path: int
    place: int
    words: str

    def __str__(self) -> str:
        return f"{self.number}: {self.words}"
