#!/usr/bin/env python3
"""The meshes of three kinds, from the specification's rules alone; and the pairs that crates/mesh_cases is asked of.

The cube is cube_model.py's, the two-level mesh two_model.py's and the metacube meta_model.py's: none shares anything with the code.
"""

import random

import cube_model
import meta_model
import two_model

WORD = 2**64 - 1
UNTOUCHED = 77


class Cube:
    def __init__(self, n):
        self.relays, self.links, self.longest = 2**n, n, n + 1
        self.distances, self.planned = False, True

    def linked(self, u, v):
        return cube_model.linked(u, v)

    def route(self, s, t):
        return cube_model.steps(s, t)


class Two:
    def __init__(self, m):
        self.m = m
        self.relays, self.links, self.longest = 2 ** (2**m + m), m + 1, m * 2**m + 2**m + 2 * m + 4
        self.distances, self.planned = m <= 3, True

    def linked(self, u, v):
        return two_model.linked(two_model.relay(self.m, u), two_model.relay(self.m, v))

    def route(self, s, t):
        way = two_model.route(self.m, two_model.relay(self.m, s), two_model.relay(self.m, t))
        return [two_model.number(self.m, at) for at in way]

    def distance(self, s, t):
        return two_model.distances(two_model.relay(self.m, s))[two_model.relay(self.m, t)]


def mesh_of(kind, size):
    """The mesh, or None."""
    if kind == 1 and 1 <= size <= 32:
        return Cube(size)
    if kind == 2 and 1 <= size <= 5:
        return Two(size)
    if kind == 3 and meta_model.known(size):
        return meta_model.Meta(size)
    return None


def refusal(mesh, s, t, distance=False):
    """The number of the first reason against a pair, or 0: 1, 52, 9, 2, 5."""
    if mesh is None:
        return 1
    if distance and not mesh.planned:
        return 52
    if distance and not mesh.distances:
        return 9
    if s >= mesh.relays:
        return 2
    return 5 if t >= mesh.relays else 0


def told(number, value):
    return [number, 0, 0 if number else value()]


def facts(kind, size):
    mesh = mesh_of(kind, size)
    words = ["mesh", kind, size]
    line = " ".join(map(str, words)) + f": known {int(mesh is not None)}"
    for name, value in (
        ("relays", lambda: mesh.relays), ("links", lambda: mesh.links), ("longest", lambda: mesh.longest), ("places", lambda: mesh.longest + 1)
    ):
        line += " " + " ".join(map(str, [name, *told(1 if mesh is None else 0, value)]))
    return line


def pair(kind, size, s, t, room):
    mesh = mesh_of(kind, size)
    why = refusal(mesh, s, t)
    way = [] if why else mesh.route(s, t)
    holds = [UNTOUCHED] * (room + 2)
    short = why or (8 if room < len(way) else 0)
    if short == 0:
        holds[: len(way)] = way
    words = [
        "linked", *told(why, lambda: int(mesh.linked(s, t))),
        "next", *told(why, lambda: way[min(1, len(way) - 1)]),
        "distance", *told(refusal(mesh, s, t, distance=True), lambda: mesh.distance(s, t)),
        "in", room, "route", *told(short, lambda: len(way) - 1), "holds", *holds,
    ]
    return f"from {s} to {t}: " + " ".join(map(str, words))


def cases():
    """kind, size, source, target, places for the route."""
    # J, and sizes at both ends of each kind; kinds that there are not
    for kind, sizes in ((1, (0, 1, 2, 32, 33, WORD)), (2, (0, 1, 2, 3, 4, 5, 6, WORD)), (0, (1,)), (3, (0, 1, 37, 38, 64, 65, 82, 83, 128, 130, 136, 137, 192, 193, 196, 197, 256, 257, WORD)), (4, (1, 65)), (WORD, (1,))):
        for size in sizes:
            mesh = mesh_of(kind, size)
            last = mesh.relays - 1 if mesh else 1
            # one fault, two, three; L: relay 7 of order 1 is one, relay 8 is none
            for s, t in ((0, 0), (0, last), (last, 0), (last + 1, 0), (0, last + 1), (last + 1, last + 1), (last + 1, last + 2), (WORD, WORD)):
                way = mesh.route(s, t) if mesh and s < mesh.relays and t < mesh.relays else [0]
                for room in (len(way) - 1, len(way)):
                    yield kind, size, s, t, room
    # A, B, C, D, E: links and routes; F: distances of order 1
    for s, t in ((0, 1), (0, 2), (0, 4), (0, 3), (0, 8), (27, 25), (27, 26), (27, 59), (27, 11), (0, 23), (23, 0)):
        yield 2, 2, s, t, 12
    yield 1, 4, 0, 11, 6
    # block bits in Gray order; 2^(m+1) + 2m - 1 hops, the most that a route has, in each order
    for s, t in ((0, 60), (0, 63)):
        yield 2, 2, s, t, 12
    yield 2, 3, 0, 2040, 17
    for m, s, t in ((1, 1, 6), (2, 3, 61), (3, 7, 2043), (4, 15, 1048567), (5, 31, 137438953455)):
        yield 2, m, s, t, 2 ** (m + 1) + 2 * m
    for t in range(8):
        yield 2, 1, 0, t, 8
    # the same distance from either end, 4 for 0 and 23 though routes have 4 and 6 hops, and 2 + 2 by way of 6; the farthest relays from 0 and back
    for s, t in ((0, 6), (6, 0), (6, 23), (23, 6), (60, 0), (63, 0)):
        yield 2, 2, s, t, 12
    for t in (2043, 2045, 2046):
        yield 2, 3, 0, t, 22
    for s in (2040, 2043, 2045, 2046):
        yield 2, 3, s, 0, 22
    # metacubes: the facts of every size; links of two relays; routes that go round the cycle and that only correct the class; long ones of the largest sizes
    for size in meta_model.sizes():
        yield 3, size, 0, 1, 2
    for t in (1, 2, 4, 256, 512):
        yield 3, 130, 0, t, 14
    for t in (0, 257, 260, 264, 768):
        yield 3, 130, 256, t, 14
    for size, s, t in ((66, 0, 31), (66, 16, 3), (129, 0, 63), (129, 32, 8), (129, 0, 48), (129, 63, 32), (3, 0, 5), (193, 0, 1152)):
        yield 3, size, s, t, 12
    for s in range(8):
        for t in range(8):
            yield 3, 65, s, t, 5
    rng = random.Random(14)
    for size in (37, 82, 136, 196):
        mesh = meta_model.Meta(size)
        for _ in range(6):
            yield 3, size, rng.randrange(mesh.relays), rng.randrange(mesh.relays), mesh.longest + 1
