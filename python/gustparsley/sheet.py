"""Sheets: a fan as bytes (docs/SHEETS.md)."""
from __future__ import annotations

import dataclasses
from collections.abc import Iterable, Sequence

from ._library import ask, number, octets, room, small, words
from .errors import Refused, sentence
from .mesh import Mesh, Path, Survivors, _taken


@dataclasses.dataclass(frozen=True)
class Sheet:
    """A fan with the build zone of each path, as it is stored: in version 1, where every zone is 0, or version 2.

    >>> sheet = Sheet.of(Mesh.cube(1), 0, [1], zones=[258])
    >>> sheet.write().hex(" ")
    '00 00 00 1a 02 01 01 01 00 00 00 00 00 00 00 00 00 01 00 00 01 02 00 00 00 00 00 00 00 01'
    >>> Sheet.read(sheet.write()) == sheet
    True
    """

    mesh: Mesh
    source: int
    paths: tuple[tuple[int, ...], ...]
    zones: tuple[int, ...]
    version: int = 2

    @classmethod
    def of(cls, mesh: Mesh, source: int, targets: Iterable[int], zones: Iterable[int] | None = None, version: int | None = None) -> Sheet:
        """The sheet of a fan that is planned here. Without zones it is of version 1."""
        return cls.holding(mesh, source, mesh.plan(source, targets), zones, version)

    @classmethod
    def holding(cls, mesh: Mesh, source: int, paths: Sequence[Sequence[int]], zones: Iterable[int] | None = None, version: int | None = None) -> Sheet:
        """The sheet of these paths."""
        listed = [0] * len(paths) if zones is None else list(zones)
        return cls(mesh, source, tuple(map(tuple, paths)), tuple(listed), version or (1 if zones is None else 2))

    @property
    def targets(self) -> list[int]:
        """Where each path ends."""
        return [path[-1] for path in self.paths if path]

    @classmethod
    def read(cls, data: bytes | bytearray | memoryview) -> Sheet:
        """Reads one sheet of either version, all of the bytes.

        >>> Sheet.read(bytes(16))
        Traceback (most recent call last):
        gustparsley.Refused: 30: the sheet is cut off, or its length field does not fit its bytes
        """
        # no sheet has more paths or places than these
        places, counts, targets, zones = room(1242), room(32), room(32), small([0] * 32)
        reading = ask("gust_read_zoned_sheet", octets(data), places, counts, targets, zones)
        if reading.number:
            raise Refused(reading.number, reading.path, reading.place, _flaw(bytes(data), reading))
        mesh, k = Mesh(reading.kind, reading.size), reading.paths
        paths = _taken(places, (counts[0], k), mesh.places)
        return cls(mesh, reading.source, tuple(map(tuple, paths)), tuple(zones[0][:k]), reading.version)

    def write(self) -> bytes:
        """The bytes of the sheet."""
        out = octets(16 + sum(6 + 8 * len(path) for path in self.paths))
        answer = ask(
            "gust_write_zoned_sheet", self.version, self.mesh.kind, self.mesh.size, number(self.source, "the source"), words(self.targets),
            *self.mesh._lent(self.paths, len(self.paths), self.mesh.places), small(self.zones, "each zone"), out,
        )
        if answer.number == 35:
            found = self.mesh.judge(self.source, self.targets, [list(path) for path in self.paths])
            raise Refused(35, answer.path, answer.place, f"what is to be written is no fan: {found.words}" if found else None)
        if answer.number:
            raise Refused(answer.number, answer.path, answer.place)
        return bytes(out[0][: answer.value])

    def moved(self, version: int) -> Sheet:
        """The same in version 1 or 2. Version 1 has no zones: a path whose zone is not 0 is refused with 38.

        >>> Sheet.of(Mesh.cube(1), 0, [1], zones=[258]).moved(1)
        Traceback (most recent call last):
        gustparsley.Refused: 38: path 0 has a zone that is not 0, which version 1 has no place for
        """
        return self if version == self.version else Sheet.read(moved(self.write(), version))

    def survivors(self, stopped: Iterable[int] = (), cuts: Iterable[tuple[int, int]] = ()) -> Survivors:
        """Which paths are whole, as `Mesh.survivors` tells."""
        return self.mesh.survivors(self.source, self.targets, self.paths, stopped, cuts, self.zones)


def moved(data: bytes, version: int) -> bytes:
    """The bytes of a sheet of the other version, made into those of version 1 or 2."""
    if version not in (1, 2):
        raise ValueError(f"sheets have version 1 or 2, not {version}")
    out = octets(len(data) + 4 * 32)
    answer = ask(f"gust_sheet_to_{version}", octets(data), out)
    if answer.number:
        raise Refused(answer.number, answer.path, answer.place)
    return bytes(out[0][: answer.value])


def _flaw(data: bytes, reading) -> str:
    """What is wrong with a sheet, in words, with the relays that its bytes hold."""
    why, path, place = reading.number, reading.path, reading.place
    if why not in (2, 5, 6, 7, 22, 24):
        return sentence(why, path, place)
    mesh, source = Mesh(data[5], data[6]), int.from_bytes(data[8:16], "big")
    paths = loose(data)
    targets = [row[-1] for row in paths]
    return mesh.words(why, path, place, source, targets, paths)


def loose(data: bytes) -> list[Path]:
    """The paths that a sheet's bytes hold, as they stand, whether they are a fan or not. The sheet's lengths must be right."""
    source, at, paths = int.from_bytes(data[8:16], "big"), 16, []
    for _ in range(data[7]):
        hops = int.from_bytes(data[at : at + 2], "big")
        at += 2 if data[4] == 1 else 6
        paths.append([source, *(int.from_bytes(data[at + 8 * j : at + 8 * j + 8], "big") for j in range(hops))])
        at += 8 * hops
    return paths
