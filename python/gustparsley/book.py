"""Books: sheets of both versions in one buffer, with an index beside it (docs/BOOKS.md)."""
from __future__ import annotations

from collections.abc import Iterator

from ._library import _Book, ask, number, octets, room
from .errors import Refused
from .mesh import Mesh

MOST_BYTES, MOST_ENTRIES = 65536, 256


class Book:
    """A map from a mesh and a source to the bytes of a sheet, of up to 65,536 bytes and 256 sheets.

    >>> from gustparsley import Sheet
    >>> book = Book()
    >>> book.add(Sheet.of(Mesh.cube(2), 0, [3, 1]).write())
    0
    >>> Sheet.read(book.find(Mesh.cube(2), 0)).targets
    [3, 1]
    >>> len(Book.open(book.used))
    1
    >>> book.remove(Mesh.cube(2), 0)
    >>> book.find(Mesh.cube(2), 0)
    Traceback (most recent call last):
    gustparsley.Refused: 51: no sheet of this mesh and source is in the book
    """

    def __init__(self, room: int = MOST_BYTES, entries: int = MOST_ENTRIES):
        """An empty book with so much room."""
        self._bytes = octets(room)
        self._index = _places(entries)
        self._head = _Book(0, 0)

    @classmethod
    def open(cls, used: bytes | bytearray | memoryview, room: int = MOST_BYTES, entries: int = MOST_ENTRIES) -> Book:
        """A book again from its used bytes alone, as a host does that starts anew."""
        kept = bytes(used)
        book = cls(max(room, len(kept)), entries)
        opened = ask("gust_book_open", octets(kept), book._index)
        if opened.number:
            raise Refused(opened.number, opened.path, opened.place)
        book._bytes[0][: len(kept)] = kept
        book._head = opened.book
        return book

    @property
    def used(self) -> bytes:
        """The bytes in use, removed sheets among them: what is to be kept over a restart."""
        return bytes(self._bytes[0][: self._head.used])

    def __len__(self) -> int:
        """How many sheets it has."""
        return self._head.entries

    def add(self, sheet: bytes | bytearray | memoryview) -> int:
        """Adds a sheet, and gives where it starts. The book closes up by itself where that makes room."""
        data = bytes(sheet)
        added = ask("gust_book_add", self._head, self._bytes, self._index, octets(data))
        if added.number:
            raise Refused(added.number, added.path, added.place)
        self._head = added.book
        return self._head.used - len(data)

    def find(self, mesh: Mesh, source: int) -> bytes:
        """The sheet of a mesh and a source."""
        found = ask("gust_book_find", self._head, self._bytes, self._index, mesh.kind, mesh.size, number(source, "the source"))
        if found.number:
            raise Refused(found.number)
        return bytes(self._bytes[0][found.start : found.start + found.length])

    def remove(self, mesh: Mesh, source: int) -> None:
        """Removes the sheet of a mesh and a source. Its bytes stay in use until the book is closed up."""
        removed = ask("gust_book_remove", self._head, self._bytes, self._index, mesh.kind, mesh.size, number(source, "the source"))
        if removed.number:
            raise Refused(removed.number)
        self._head = removed.book

    def close(self) -> None:
        """Closes the book up over its removed sheets; every sheet is found that was found before."""
        self._head = ask("gust_book_close", self._head, self._bytes, self._index)

    def sheets(self) -> Iterator[bytes]:
        """The sheets in the order of the index: by kind, size and source."""
        for place in self._index[0][: self._head.entries]:
            start = place % 2**16
            yield bytes(self._bytes[0][start : start + 4 + int.from_bytes(bytes(self._bytes[0][start : start + 4]), "big")])


def _places(count: int):
    return room(count, 0)
