"""A mesh of relays: its facts, its links, and the paths over it."""
from __future__ import annotations

import dataclasses
from collections.abc import Iterable, Sequence
from typing import NoReturn

from . import _library
from ._library import UNUSED, ask, number, octets, room, small, words
from .errors import Finding, Refused, sentence

Path = list[int]


@dataclasses.dataclass(frozen=True)
class Entry:
    """A path among survivors: where it ends, its hops, whether it is whole, and the build zone that it serves."""

    target: int
    hops: int
    whole: bool
    zone: int = 0


class Survivors(list[Entry]):
    """An entry for each path; `whole` is how many are whole."""

    @property
    def whole(self) -> int:
        return sum(entry.whole for entry in self)


@dataclasses.dataclass(frozen=True)
class Mesh:
    """A kind and a size. Any two numbers may be given; a size that there is not is refused by whatever is asked of it.

    >>> Mesh.cube(8).longest, Mesh.two(3).relays, Mesh.meta(2, 3).links
    (9, 2048, 5)
    """

    kind: int
    size: int

    def __post_init__(self) -> None:
        number(self.kind, "the kind")
        number(self.size, "the size")

    @classmethod
    def cube(cls, dimensions: int) -> Mesh:
        """The plain cube of 1 to 32 dimensions."""
        return cls(1, dimensions)

    @classmethod
    def two(cls, order: int) -> Mesh:
        """The two-level mesh of order 1 to 5."""
        return cls(2, order)

    @classmethod
    def meta(cls, classes: int, part: int) -> Mesh:
        """The metacube of so many class bits, 0 to 3, and parts of so many bits; all address bits are 37 at most."""
        if not 0 <= part < 64:
            raise Refused(1, words=f"there is no metacube with parts of {part} bits")
        return cls(3, classes * 64 + part)

    # ---- facts

    def _facts(self) -> _library._Facts:
        facts = ask("gust_facts", self.kind, self.size)
        if facts.number:
            self._refuse(facts)
        return facts

    @property
    def relays(self) -> int:
        """How many relays there are: the numbers below it."""
        return self._facts().relays

    @property
    def links(self) -> int:
        """How many links each relay has, which is the most paths of a fan."""
        return self._facts().links

    @property
    def longest(self) -> int:
        """The most hops that a path of a fan has."""
        return self._facts().longest

    @property
    def places(self) -> int:
        """The places that a path takes: one more than its most hops."""
        return self._facts().places

    def neighbours(self, relay: int) -> list[int]:
        """The relays linked to a relay, in the order of the bits that are changed.

        >>> Mesh.two(2).neighbours(27)
        [26, 25, 59]
        """
        if not 0 <= relay < self.relays:
            raise Refused(2, words=f"the source, {relay}, is no relay: {self} has relays 0 to {self.relays - 1}")
        bits = self.relays.bit_length() - 1
        return [relay ^ 1 << bit for bit in range(bits) if self.linked(relay, relay ^ 1 << bit)]

    def linked(self, source: int, target: int) -> bool:
        """Whether two relays are linked.

        >>> Mesh.two(2).linked(27, 59)
        True
        """
        return bool(self._value("gust_linked", source, number(target, "the target"), targets=[target]))

    def distance(self, source: int, target: int) -> int:
        """The fewest links between two relays, for two-level meshes of orders 1 to 3.

        >>> Mesh.two(1).distance(0, 6)
        4
        """
        return self._value("gust_distance", source, number(target, "the target"), targets=[target])

    def next_hop(self, source: int, target: int) -> int:
        """The relay after the source on the plain route to the target.

        >>> Mesh.two(2).next_hop(0, 23)
        4
        """
        out = octets(8)
        told = ask("gust_next_hop", self.kind, self.size, number(source, "the source"), number(target, "the target"), out)
        if told:
            self._refuse(_library._Verdict(told // 256, 0, told % 256), source, [target])
        return int.from_bytes(bytes(out[0]), "big")

    def route(self, source: int, target: int) -> Path:
        """The plain route, both ends included.

        >>> Mesh.two(2).route(0, 23)
        [0, 4, 6, 22, 23]
        """
        out = room(256)
        hops = self._value("gust_route", source, number(target, "the target"), out, targets=[target])
        return out[0][: hops + 1]

    # ---- fans

    def plan(self, source: int, targets: Iterable[int]) -> list[Path]:
        """A fan: a path from the source to each target, in their order, that meet nowhere but at the source.

        >>> Mesh.cube(2).plan(0, [3, 1])
        [[0, 2, 3], [0, 1]]
        """
        listed = list(targets)
        width = self._facts().places
        places, counts = room(len(listed) * width), room(len(listed))
        self._value("gust_fan", source, words(listed, "each target"), places, counts, targets=listed)
        return _taken(places, counts, width)

    def judge(self, source: int, targets: Iterable[int], paths: Sequence[Sequence[int]]) -> Finding | None:
        """Nothing where the paths are a fan from the source to the targets; else the first finding.

        >>> Mesh.cube(2).judge(0, [3, 1], [[0, 2, 3], [0, 1]])
        >>> print(Mesh.cube(2).judge(0, [3, 1], [[0, 1, 3], [0, 1]]))
        24: path 1, place 1: relay 1 stands on an earlier path
        """
        listed = list(targets)
        verdict = ask("gust_judge", self.kind, self.size, number(source, "the source"), words(listed, "each target"), *self._lent(paths, len(listed), self._facts().places))
        return self._judged(verdict, source, listed, paths)

    def survivors(
        self,
        source: int,
        targets: Iterable[int],
        paths: Sequence[Sequence[int]],
        stopped: Iterable[int] = (),
        cuts: Iterable[tuple[int, int]] = (),
        zones: Iterable[int] | None = None,
    ) -> Survivors:
        """Which paths of a fan are whole: those on which no relay has stopped and no link, a pair of relays in either order, is cut.

        >>> mesh = Mesh.two(1)
        >>> alive = mesh.survivors(0, [5, 1], mesh.plan(0, [5, 1]), stopped=[7])
        >>> [entry.whole for entry in alive], alive.whole
        ([False, True], 1)
        """
        listed = list(targets)
        k = len(listed)
        given = self._lent(paths, k, self._facts().places)
        columns = [room(k, 0) for _ in range(3)]
        out = small([0] * k)
        answer = ask(
            "gust_survivors", self.kind, self.size, number(source, "the source"), words(listed, "each target"), *given, self._zones(zones, k),
            words(stopped, "each stopped relay"), _pairs(cuts), *columns, out,
        )
        return self._alive(answer, source, listed, paths, columns, out)

    # ---- bundles

    def bundle(self, source: int, target: int) -> list[Path]:
        """As many paths from one relay to another as a relay has links, which share nothing but the two.

        >>> Mesh.cube(2).bundle(0, 3)
        [[0, 2, 3], [0, 1, 3]]
        """
        facts = self._facts()
        width = facts.places + 1
        places, counts = room(facts.links * width), room(facts.links)
        self._value("gust_bundle", source, number(target, "the target"), places, counts, targets=[target])
        return _taken(places, counts, width)

    def judge_bundle(self, source: int, target: int, paths: Sequence[Sequence[int]]) -> Finding | None:
        """Nothing where the paths are a bundle from the source to the target; else the first finding."""
        facts = self._facts()
        verdict = ask("gust_judge_bundle", self.kind, self.size, number(source, "the source"), number(target, "the target"), *self._lent(paths, facts.links, facts.places + 1))
        return self._judged(verdict, source, [target], paths)

    def bundle_survivors(
        self,
        source: int,
        target: int,
        paths: Sequence[Sequence[int]],
        stopped: Iterable[int] = (),
        cuts: Iterable[tuple[int, int]] = (),
        zones: Iterable[int] | None = None,
    ) -> Survivors:
        """Which paths of a bundle are whole, as `survivors` tells of a fan."""
        facts = self._facts()
        k = facts.links
        given = self._lent(paths, k, facts.places + 1)
        columns = [room(k, 0) for _ in range(3)]
        out = small([0] * k)
        answer = ask(
            "gust_bundle_survivors", self.kind, self.size, number(source, "the source"), number(target, "the target"), *given, self._zones(zones, k),
            words(stopped, "each stopped relay"), _pairs(cuts), *columns, out,
        )
        return self._alive(answer, source, [target], paths, columns, out)

    # ---- a way round what has stopped

    def way_round(self, source: int, target: int, stopped: Iterable[int] = ()) -> Path:
        """A path with the fewest hops of all that pass no relay that has stopped, for two-level meshes of orders 1 to 3; 45 where there is none.

        >>> Mesh.two(1).way_round(0, 5, stopped=[1])
        [0, 2, 3, 7, 6, 4, 5]
        """
        relays = self._facts().relays
        # what is too large for the search is refused whatever is lent
        lent = relays if relays <= 2048 else 1
        out = room(lent)
        hops = self._value("gust_way_round", source, number(target, "the target"), words(stopped, "each stopped relay"), room(lent), out, targets=[target])
        return out[0][: hops + 1]

    # ---- other people's graphs

    def to_networkx(self):
        """The mesh as an undirected graph of networkx, with block and slot, or class, beside each relay of a mesh that has them. For meshes of up to 4,096 relays."""
        import networkx

        if self.relays > 4096:
            raise ValueError(f"{self} has {self.relays} relays: a graph of more than 4,096 is too large to be told link by link")
        graph = networkx.Graph(name=str(self))
        for relay in range(self.relays):
            graph.add_node(relay, **self.parts(relay))
        graph.add_edges_from((u, v) for u in range(self.relays) for v in self.neighbours(u) if u < v)
        return graph

    def to_dimacs(self) -> str:
        """The mesh as a DIMACS edge file, for cubes of up to 11 dimensions and orders 1 to 3.

        >>> Mesh.cube(2).to_dimacs().splitlines()
        ['p edge 4 4', 'e 1 2', 'e 1 3', 'e 2 4', 'e 3 4']
        """
        out = octets(123009)
        answer = ask("gust_write_graph", self.kind, self.size, out)
        if answer.number:
            self._refuse(answer)
        return bytes(out[0][: answer.value]).decode("ascii")

    def parts(self, relay: int) -> dict[str, int]:
        """Where a relay stands: block and slot in a two-level mesh, the class in a metacube, nothing in a cube.

        >>> Mesh.two(2).parts(27)
        {'block': 6, 'slot': 3}
        """
        if self.kind == 2:
            return {"block": relay >> self.size, "slot": relay & (1 << self.size) - 1}
        if self.kind == 3:
            k, m = divmod(self.size, 64)
            return {"class": relay >> (m << k)}
        return {}

    def __str__(self) -> str:
        if self.kind == 1:
            return f"the cube of {self.size} dimension{'s' if self.size != 1 else ''}"
        if self.kind == 2:
            return f"the two-level mesh of order {self.size}"
        if self.kind == 3:
            return "the metacube of {} class bits and parts of {} bits".format(*divmod(self.size, 64))
        return f"the mesh of kind {self.kind} and size {self.size}"

    # ---- how a call is made, and what is told

    def _value(self, call: str, source: int, *more, targets: Sequence[int]) -> int:
        answer = ask(call, self.kind, self.size, number(source, "the source"), *more)
        if answer.number:
            self._refuse(answer, source, targets)
        return answer.value

    def _refuse(self, told, source: int | None = None, targets: Sequence[int] = ()) -> NoReturn:
        raise Refused(told.number, told.path, told.place, self.words(told.number, told.path, told.place, source, targets))

    def words(self, why: int, path: int = 0, place: int = 0, source: int | None = None, targets: Sequence[int] = (), paths: Sequence[Sequence[int]] = ()) -> str:
        """What a number says, in words, with the relays that it is about where they are known."""
        if why == 1:
            return f"there is no mesh of kind {self.kind} and size {self.size}"
        if why == 52:
            return f"this is not served for metacubes, as {self}"
        if why == 2 and source is not None:
            return f"the source, {source}, is no relay: {self} has relays 0 to {self.relays - 1}"
        if why == 4:
            return f"there are {len(targets)} targets, but a relay of {self} has {self.links} links"
        if why in (5, 6, 7) and place < len(targets):
            which = f"target {place}" if len(targets) > 1 else "the target"
            if why == 5:
                return f"{which}, which is {targets[place]}, is no relay: {self} has relays 0 to {self.relays - 1}"
            if why == 6:
                return f"{which} is the source itself, {targets[place]}"
            return f"{which}, {targets[place]}, is target {list(targets).index(targets[place])} too"
        if 20 <= why <= 25 and path < len(paths):
            return self._found(why, path, place, source, targets, paths)
        return sentence(why, path, place)

    def _found(self, why: int, path: int, place: int, source: int | None, targets: Sequence[int], paths: Sequence[Sequence[int]]) -> str:
        row = paths[path]
        here = row[place] if place < len(row) else None
        if why == 20:
            return f"path {path} has {len(row) - 1} hops, and the longest path of {self} has {self.longest}"
        if why == 21:
            return f"path {path} starts at {row[0] if row else 'no relay'}, and not at the source, {source}"
        if why == 22 and here is not None and here >= self.relays:
            return f"path {path}, place {place}: {here} is no relay: {self} has relays 0 to {self.relays - 1}"
        if why == 22 and here is not None:
            return f"path {path}, place {place}: relay {here} is not linked to relay {row[place - 1]} before it"
        if why == 23:
            target = targets[path] if path < len(targets) else targets[-1]
            return f"path {path} ends at relay {row[-1]}, and not at its target, {target}"
        if why == 24 and here is not None:
            earlier = "earlier on the same path" if here in row[:place] else "on an earlier path"
            return f"path {path}, place {place}: relay {here} stands {earlier}"
        return sentence(why, path, place)

    def _lent(self, paths: Sequence[Sequence[int]], k: int, width: int):
        """Paths as the library has them: k rows of places, and the hops of each. What is missing is left out, and the library says so."""
        places = room(min(k, len(paths)) * width)
        counts = []
        for i, path in enumerate(paths[:k]):
            relays = [number(relay, "each relay") for relay in path]
            places[0][i * width : i * width + len(relays[:width])] = relays[:width]
            counts.append(max(0, len(relays) - 1))
        return places, words(counts)

    def _zones(self, zones: Iterable[int] | None, k: int):
        return small([0] * k if zones is None else zones, "each zone")

    def _judged(self, verdict, source: int, targets: Sequence[int], paths: Sequence[Sequence[int]]) -> Finding | None:
        if verdict.number == 0:
            if len(paths) > max(len(targets), 1) and len(targets) > 1:
                raise ValueError(f"there are {len(paths)} paths for {len(targets)} targets")
            return None
        if verdict.number == 8:
            raise ValueError(f"there are too few paths: {len(paths)}")
        if verdict.number < 20:
            self._refuse(verdict, source, targets)
        return Finding(verdict.number, verdict.path, verdict.place, self.words(verdict.number, verdict.path, verdict.place, source, targets, paths))

    def _alive(self, answer, source: int, targets: Sequence[int], paths: Sequence[Sequence[int]], columns, zones) -> Survivors:
        if answer.number:
            raise Refused(answer.number, answer.path, answer.place, self.words(answer.number, answer.path, answer.place, source, targets, paths))
        ends, hops, wholes = (column[0][: column[1]] for column in columns)
        return Survivors(Entry(end, count, bool(whole), zone) for end, count, whole, zone in zip(ends, hops, wholes, zones[0][: zones[1]]))


def _pairs(cuts: Iterable[tuple[int, int]]):
    return words([relay for u, v in cuts for relay in (u, v)], "each end of a cut link")


def _taken(places, counts, width: int) -> list[Path]:
    return [places[0][i * width : i * width + counts[0][i] + 1] for i in range(counts[1])]
