#!/usr/bin/env python3
"""The requests that crates/mesh_cases plans; and what it wrote of them, held to the specification's rules: each refusal by its number and place with the
slices untouched, each fan relay by relay, by the judge of judge_model.py.
"""
import random

from judge_model import FILLER, finding
from judge_model import request as judged_request
from mesh_model import WORD, mesh_of

PLACES, COUNTS = 1300, 40

# requests that one fan only answers
ONLY = {
    (2, 1, 0, (5, 1)): ["6 0 2 3 7 6 4 5", "1 0 1"],
    (2, 1, 0, (4, 6)): ["3 0 1 5 4", "4 0 2 3 7 6"],
    (1, 2, 0, (3, 1)): ["2 0 2 3", "1 0 1"],
}


def request(mesh, source, targets):
    """Number and place of the first reason of 1, 52, 2 to 7, or None."""
    return (52, 0) if mesh and not mesh.planned else judged_request(mesh, source, targets)


def enough(kind, size, k):
    mesh = mesh_of(kind, size)
    return (k * (mesh.longest + 1), k) if mesh else (PLACES, COUNTS)


def granted():
    """kind, size, source, targets."""
    for kind, size, source, targets in ONLY:
        yield kind, size, source, list(targets)
    # all in the source's block, all in another, next to the source, m + 1 and fewer; the last relay of each order
    yield 2, 1, 3, [7]
    yield 2, 2, 0, [1, 2, 3]
    yield 2, 2, 27, [25, 26, 59]
    yield 2, 2, 0, [60, 61, 62]
    yield 2, 2, 5, [4, 21, 6]
    yield 2, 3, 0, [1, 2, 4, 8]
    yield 2, 3, 2047, [0, 1, 2, 3]
    yield 2, 3, 9, [8, 10, 11, 12]
    rng = random.Random(7)
    for m in (2, 3, 4, 5):
        last = mesh_of(2, m).relays - 1
        for k in (1, m, m + 1):
            source, *targets = rng.sample(range(last + 1), k + 1)
            yield 2, m, source, targets
        home = rng.randrange(2 ** 2**m) << m
        source, *targets = rng.sample(range(home, home + 2**m), min(m + 2, 2**m))
        yield 2, m, source, targets
        yield 2, m, last, [last ^ 1, last - (last ^ 1) % 2**m]
    yield 1, 3, 0, [3, 5, 6]
    yield 1, 32, WORD >> 32, [0]


def refused():
    """kind, size, source, targets: each reason alone, and beside those that come after it."""
    # 1: J, and kinds that there are not; 52: a metacube, and 1 where there is none of its size
    for kind, size in ((0, 1), (3, 1), (3, 65), (3, 196), (3, 64), (3, 197), (4, 1), (WORD, 1), (1, 0), (1, 33), (1, WORD), (2, 0), (2, 6), (2, WORD)):
        yield kind, size, 0, [1]
        yield kind, size, WORD, []
    for m in range(1, 6):
        relays, links = mesh_of(2, m).relays, m + 1
        # 2: L; 3; 4: K; 5; 6; 7
        yield 2, m, relays, [1]
        yield 2, m, WORD, []
        yield 2, m, 0, []
        yield 2, m, 0, list(range(1, links + 2))
        yield 2, m, 0, [relays, 0, 1, 1] + [1] * m
        yield 2, m, 0, [1, relays]
        yield 2, m, 1, [1, WORD]
        yield 2, m, 1, [0, 1]
        yield 2, m, 1, [0] * m + [1]
        yield 2, m, 1, [0, 0]
        yield 2, m, relays - 1, [0, 2, 0] if m > 1 else [0, 0]
    # M, in the cube and here
    yield 1, 3, 0, [1, 0, 1]
    yield 2, 2, 0, [1, 0, 1]


def cases():
    """kind, size, source, targets, places, counts."""
    for kind, size, source, targets in granted():
        room, counted = enough(kind, size, len(targets))
        yield kind, size, source, targets, room, counted
        yield kind, size, source, targets, PLACES, COUNTS
    for kind, size, source, targets in refused():
        yield kind, size, source, targets, PLACES, COUNTS
        yield kind, size, source, targets, 0, 0
    # 8
    for kind, size in ((1, 1), (1, 32), (2, 1), (2, 2), (2, 3), (2, 4), (2, 5)):
        targets = [3, 1, 2][-min(3, mesh_of(kind, size).links):] if kind == 2 else [1]
        room, counted = enough(kind, size, len(targets))
        for lent in ((room - 1, counted), (room, counted - 1), (0, 0)):
            yield kind, size, 0, targets, *lent


def judged(kind, size, source, targets, room, counted, lines):
    """Holds the lines of a case to the rules; gives those that are left, and whether a fan was due."""
    mesh = mesh_of(kind, size)
    why = request(mesh, source, targets)
    if why is None and (room < len(targets) * (mesh.longest + 1) or counted < len(targets)):
        why = 8, 0
    if why is not None:
        assert lines[0] == f"refused {why[0]} {why[1]}", lines[0]
        assert lines[1] == f"filler 0 held {PLACES} {COUNTS}", lines[1]
        return lines[2:], False
    k, width = len(targets), mesh.longest + 1
    assert lines[0] == f"fan {k}", lines[0]
    only = ONLY.get((kind, size, source, tuple(targets)))
    assert only is None or lines[1 : k + 1] == only, lines[1 : k + 1]
    places, counts = [], []
    for line in lines[1 : k + 1]:
        hops, *path = map(int, line.split())
        assert hops == len(path) - 1, line
        counts.append(hops)
        places += path + [FILLER] * (width - len(path))
    assert finding(mesh, source, targets, places, counts) is None, lines[: k + 1]
    assert lines[k + 1] == f"filler {places.count(FILLER)} held {PLACES - k * width} {COUNTS - k}", lines[k + 1]
    return lines[k + 2 :], True


def asked(kind, size, source, targets, room, counted):
    return " ".join("F" if x == WORD else str(x) for x in (kind, size, source, len(targets), *targets, room, counted))


def judge(lines):
    """Holds the lines of all cases to the rules."""
    fans = refusals = 0
    for case in cases():
        lines, due = judged(*case, lines)
        fans, refusals = fans + due, refusals + (not due)
    assert not lines, lines[0]
    return f"{fans} fans and {refusals} refusals of the planner"
