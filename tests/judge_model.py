#!/usr/bin/env python3
"""The judge and the survivors, from the specification's rules alone; and the plans that crates/mesh_cases judges.

The meshes are mesh_model.py's. Fans are planned here by a search for paths that share nothing, and then damaged.
"""
from collections import deque

from mesh_model import WORD, mesh_of

FILLER = WORD
HELD = 9


# ---- the judge

def request(mesh, s, targets):
    """Number and place of the first reason of 1 to 7, or None."""
    if mesh is None:
        return 1, 0
    if s >= mesh.relays:
        return 2, 0
    if not targets:
        return 3, 0
    if len(targets) > mesh.links:
        return 4, 0
    for number, wrong in (
        (5, lambda j: targets[j] >= mesh.relays), (6, lambda j: targets[j] == s), (7, lambda j: targets[j] in targets[:j])
    ):
        for j in range(len(targets)):
            if wrong(j):
                return number, j
    return None


def of_path(mesh, s, target, path, hops, earlier):
    """Number and place of the first finding of a path of longest + 1 places, or None; `earlier` are the relays of the paths before."""
    if hops > mesh.longest:
        return 20, 0
    if path[0] != s:
        return 21, 0
    for p in range(1, hops + 1):
        if path[p] >= mesh.relays or not mesh.linked(path[p - 1], path[p]):
            return 22, p
    if path[hops] != target:
        return 23, hops
    for p in range(hops + 1):
        if path[p] in path[:p] or (p > 0 and path[p] in earlier):
            return 24, p
    for p in range(hops + 1, mesh.longest + 1):
        if path[p] != FILLER:
            return 25, p
    return None


def finding(mesh, s, targets, places, counts):
    """Number, path and place of the first finding, or None."""
    width, earlier = mesh.longest + 1, set()
    for i, target in enumerate(targets):
        path = places[i * width: (i + 1) * width]
        found = of_path(mesh, s, target, path, counts[i], earlier)
        if found:
            return found[0], i, found[1]
        earlier |= set(path[: counts[i] + 1])
    return None


def judge(kind, size, s, targets, places, counts, lacking=False):
    mesh, k = mesh_of(kind, size), len(targets)
    why = request(mesh, s, targets)
    if why:
        return why[0], 0, why[1]
    if lacking or len(places) < k * (mesh.longest + 1) or len(counts) < k:
        return 8, 0, 0
    return finding(mesh, s, targets, places, counts) or (0, 0, 0)


def pairs(cuts):
    """The pairs of a list of cuts, each in either order; a last number without a partner is none."""
    return {frozenset(cuts[j: j + 2]) for j in range(0, len(cuts) - 1, 2)}


def whole(path, stopped, cuts):
    """Whether no relay of the path has stopped, and no two neighbouring ones are a cut link."""
    return not any(x in stopped for x in path) and not any(frozenset(two) in pairs(cuts) for two in zip(path, path[1:]))


def failures(mesh, stopped, cuts):
    """How many different relays of the mesh have stopped, and different links of it are cut."""
    links = {two for two in pairs(cuts) if len(two) == 2 and max(two) < mesh.relays and mesh.linked(*two)}
    return len({x for x in stopped if x < mesh.relays}) + len(links)


def survivors(kind, size, s, targets, places, counts, stopped, cuts, room, zones=None):
    """What is told, the count, and the columns, as many as there is room given for: three, or four with zones."""
    k, columns = len(targets), [[HELD] * n for n in room]
    told = judge(kind, size, s, targets, places, counts, any(n < k for n in room) or zones is not None and len(zones) < k)
    if told[0]:
        return told, 0, columns
    mesh = mesh_of(kind, size)
    width = mesh.longest + 1
    marks = [int(whole(places[i * width: i * width + counts[i] + 1], stopped, cuts)) for i in range(k)]
    assert s in stopped or k <= sum(marks) + failures(mesh, stopped, cuts), (kind, size, s, targets, stopped, cuts)
    for column, values in zip(columns, (targets, counts, marks, zones)):
        column[:k] = values[:k]
    return told, sum(marks), columns


# ---- fans

def apart(mesh, links, s, targets):
    """A path to each target that shares nothing with the others but s, the first found, short ones first."""
    far = {}
    for t in targets:
        steps, todo = {t: 0}, deque([t])
        while todo:
            u = todo.popleft()
            for v in links[u]:
                if v not in steps:
                    steps[v] = steps[u] + 1
                    todo.append(v)
        far[t] = steps

    def ways(path, t, left, shut):
        """The paths on from `path` to t with so many hops left."""
        u = path[-1]
        if u == t:
            if left == 0:
                yield path
        elif far[t][u] <= left:
            for v in links[u]:
                if v not in shut and v not in path:
                    yield from ways(path + [v], t, left - 1, shut)

    def lay(i, shut):
        if i == len(targets):
            return []
        for hops in range(mesh.longest + 1):
            for path in ways([s], targets[i], hops, (shut | set(targets)) - {targets[i]}):
                rest = lay(i + 1, shut | set(path[1:]))
                if rest is not None:
                    return [path] + rest
        return None

    return lay(0, set())


def laid(mesh, paths):
    """Places and counts."""
    places = []
    for path in paths:
        places += path + [FILLER] * (mesh.longest + 1 - len(path))
    return places, [len(path) - 1 for path in paths]


def fan(kind, size, s, targets):
    mesh = mesh_of(kind, size)
    links = {u: [v for v in range(mesh.relays) if mesh.linked(u, v)] for u in range(mesh.relays)}
    return laid(mesh, apart(mesh, links, s, targets))


# ---- the cases

SMALL = [(1, 3, 0, [7, 1, 6]), (2, 1, 0, [4, 6]), (2, 1, 5, [1])]
FANS = SMALL + [(1, 1, 1, [0]), (1, 2, 0, [3, 1]), (1, 4, 9, [6, 8, 15, 0]), (2, 1, 0, [5, 1]), (2, 2, 27, [0, 63, 26])]
# metacubes are judged, and have no sheets
METAS = [(3, 65, 0, [1, 4]), (3, 66, 5, [0, 31, 21]), (3, 129, 32, [8, 0, 63])]


def refusals():
    """Each reason alone and before those that come after it, at each place it can tell."""
    for kind, size in ((0, 1), (1, 0), (1, 33), (2, 0), (2, 6), (3, 64), (3, 197), (4, 1), (WORD, WORD)):
        yield kind, size, 0, [1], [], [], [], (1, 1, 1)
        yield kind, size, WORD, [], [], [], [], (0, 0, 0)
    for kind, size, s, targets in ((1, 3, 0, [7, 1, 6]), (2, 1, 0, [4, 6]), (3, 66, 5, [0, 31, 21])):
        mesh = mesh_of(kind, size)
        places, counts = fan(kind, size, s, targets)
        k, out = len(targets), mesh.relays
        full = (k, k, k)
        yield kind, size, out, targets, places, counts, [], full
        yield kind, size, WORD, [], places, counts, [], full
        yield kind, size, s, [], places, counts, [], full
        many = list(range(1, mesh.links + 2))
        yield kind, size, s, many, places, counts, [], full
        yield kind, size, s, [out] * (mesh.links + 1), [], [], [], (0, 0, 0)
        for j in range(k):
            for wrong in (out, WORD, s):
                bad = targets[:j] + [wrong] + targets[j + 1:]
                yield kind, size, s, bad, places, counts, [], full
            # out of range at j, whatever stands before it
            yield kind, size, s, [s] * j + [out] + [out] * (k - j - 1), places, counts, [], full
            # the source at j, after a target that stands twice
            yield kind, size, s, [targets[0]] * j + [s] + [targets[0]] * (k - j - 1), places, counts, [], full
            for i in range(j):
                yield kind, size, s, targets[:j] + [targets[i]] + targets[j + 1:], [], [], [], (0, 0, 0)
        # 8 for each slice that is one short, also where a finding stands
        for short in (1, len(places)):
            yield kind, size, s, targets, places[:-short], counts, [], full
            yield kind, size, s, targets, [0] * (len(places) - short), counts, [], full
        yield kind, size, s, targets, places, counts[:-1], [], full
        yield kind, size, s, targets, places, [], [], full
        for room in ((k - 1, k, k), (k, k - 1, k), (k, k, k - 1), (0, 0, 0)):
            yield kind, size, s, targets, places, counts, [], room
            yield kind, size, s, targets, [0] + places[1:-1] + [0], [WORD] + counts[1:], [], room
    # K: order 3, four targets and five; M
    mesh = mesh_of(2, 3)
    four, counts = laid(mesh, [[0, t] for t in (1, 2, 4, 8)])
    yield 2, 3, 0, [1, 2, 4, 8], four, counts, [2], (4, 4, 4)
    yield 2, 3, 0, [1, 2, 4, 8, 9], four, counts, [], (5, 5, 5)
    yield 1, 3, 0, [1, 0, 1], [0] * 15, [0] * 3, [], (3, 3, 3)


def stops():
    """Fans whole and with relays stopped, and slices longer than they need be."""
    for kind, size, s, targets in FANS + METAS:
        places, counts = fan(kind, size, s, targets)
        k, mesh = len(targets), mesh_of(kind, size)
        middle = sorted({x for x in places if x != FILLER and x != s and x not in targets})
        for stopped in (
            [], [s], [targets[0]], [targets[-1], targets[-1]], middle, middle[:1], [mesh.relays, WORD], targets, [x for x in range(mesh.relays) if x not in places]
        ):
            yield kind, size, s, targets, places, counts, stopped, (k, k, k)
        yield kind, size, s, targets, places + [0, s, FILLER], counts + [WORD, 0], middle[:1] * 3, (k + 1, k + 2, k + 3)
        # fewer targets than the fan has paths
        yield kind, size, s, targets[:1], places, counts, [s + 1], (k, k, k)


def damage():
    """Each finding at each place of each path."""
    for kind, size, s, targets in SMALL + METAS[:1]:
        mesh = mesh_of(kind, size)
        places, counts = fan(kind, size, s, targets)
        k, width = len(targets), mesh.longest + 1
        full = (k, k, k)

        def case(places=places, counts=counts):
            return kind, size, s, targets, places, counts, [s], full

        # the right paths to other targets
        other = next(x for x in range(mesh.relays) if x != s and x not in targets)
        for i in range(k):
            yield kind, size, s, targets[:i] + [other] + targets[i + 1:], places, counts, [], full
        for i in range(k):
            for hops in (mesh.longest + 1, WORD, mesh.longest, counts[i] + 1, 0):
                yield case(counts=counts[:i] + [hops] + counts[i + 1:])
            for p in range(width):
                at = i * width + p
                for wrong in sorted({(places[at] + 1) % mesh.relays, mesh.relays, FILLER, s, targets[i], targets[0], places[at - 1]} - {places[at]}):
                    yield case(places=places[:at] + [wrong] + places[at + 1:])
            # there and back: a relay twice on this path
            way = places[i * width: i * width + counts[i] + 1]
            for p in range(len(way) - 1):
                longer = way[: p + 2] + way[p:]
                if len(longer) <= width:
                    yield case(places[: i * width] + longer + [FILLER] * (width - len(longer)) + places[(i + 1) * width:], counts[:i] + [len(longer) - 1] + counts[i + 1:])
    # a path that runs through an earlier one, at each place: to 3 by way of 1, which is a target; by a relay of the path before
    mesh = mesh_of(1, 3)
    for paths in ([[0, 1], [0, 1, 3]], [[0, 1, 3], [0, 2, 3, 7]], [[0, 1, 3, 7], [0, 2, 3, 1, 5]], [[0, 2, 3], [0, 1]], [[0, 4, 6, 2], [0, 1, 5, 4, 6]]):
        yield 1, 3, 0, [path[-1] for path in paths], *laid(mesh, paths), [], (2, 2, 2)
    mesh = mesh_of(2, 1)
    for paths in ([[0, 1], [0, 1, 5]], [[0, 1, 5], [0, 2, 3, 1]], [[0, 2, 3, 7], [0, 1, 3]], [[0, 1, 5, 4], [0, 2, 3, 7, 6]], [[0, 1, 5, 7, 6, 4], [0, 2, 3, 7]]):
        yield 2, 1, 0, [path[-1] for path in paths], *laid(mesh, paths), [1], (2, 2, 2)


def large():
    """The largest meshes: as many paths as links, and the longest plain route."""
    for kind, size in ((1, 32), (2, 5), (3, 37), (3, 196)):
        mesh = mesh_of(kind, size)
        near = [v for v in (2**i for i in range(37)) if v < mesh.relays and mesh.linked(0, v)]
        k = len(near)
        places, counts = laid(mesh, [[0, v] for v in near])
        yield kind, size, 0, near, places, counts, near[:3], (k, k, k)
        yield kind, size, 0, near, places[:-1] + [0], counts, [], (k, k, k)
        yield kind, size, 0, near[:-1] + [mesh.relays], [], [], [], (k, k, k)
    mesh = mesh_of(2, 5)
    way = mesh.route(0, mesh.relays - 1)
    places, counts = laid(mesh, [way])
    yield 2, 5, 0, [mesh.relays - 1], places, counts, [way[-2]], (1, 1, 1)
    yield 2, 5, 0, [mesh.relays - 1], places[:9] + [places[8]] + places[10:], counts, [], (1, 1, 1)


def routes():
    """Plain routes, each a fan of one: short and long in cubes, the most hops in each order; and a fan whose path of 6 hops ends at distance 2."""
    for kind, size, s, t in (
        (1, 1, 1, 0), (1, 8, 0, 255), (1, 32, 2**32 - 1, 0), (2, 1, 1, 6), (2, 2, 3, 61), (2, 2, 23, 0), (2, 3, 7, 2043), (2, 4, 15, 1048567), (2, 5, 31, 137438953455),
        (3, 65, 5, 2), (3, 129, 63, 32), (3, 193, 0, 1152), (3, 196, 0, 2**35 - 1)
    ):
        mesh = mesh_of(kind, size)
        yield kind, size, s, [t], *laid(mesh, [mesh.route(s, t)]), [], (1, 1, 1)
    yield 2, 1, 0, [5, 1], *laid(mesh_of(2, 1), [[0, 2, 3, 7, 6, 4, 5], [0, 1]]), [], (2, 2, 2)


def severed():
    """Fans with links cut: each of a path's links, at its source too, in either order, again, with others; pairs that are no link, and lists with a last
    number that has no partner. Then cuts where something is found or there is no room."""
    for kind, size, s, targets in FANS + METAS[:2]:
        places, counts = fan(kind, size, s, targets)
        k, mesh = len(targets), mesh_of(kind, size)
        width = mesh.longest + 1
        links = [places[i * width + p: i * width + p + 2] for i in range(k) for p in range(counts[i])]
        first, last = links[0], links[-1]
        full = (k, k, k)
        alone = links if len(links) < 12 else [links[0], links[len(links) // 2], links[-1]]
        for two in alone:
            yield kind, size, s, targets, places, counts, [], two, full
            yield kind, size, s, targets, places, counts, [], two[::-1], full
        far = next((x for x in range(mesh.relays) if x not in (s, mesh.relays) and not mesh.linked(s, x)), s)
        for cuts in (
            [*first, *first[::-1]], [*last, *last, *last], [*first, *last], [x for two in links for x in two], [s, s], [s, far], [far, s, *last],
            [mesh.relays, s], [WORD, targets[0], *first], [s, targets[-1], WORD], [*first, s], [*last, last[0]], [s], [WORD], [first[0], s, first[1], s],
        ):
            yield kind, size, s, targets, places, counts, [], cuts, full
        for stopped in ([s], [targets[0]], [first[1]], [mesh.relays]):
            yield kind, size, s, targets, places, counts, stopped, last, full
        yield kind, size, s, targets, places, counts, [], first, (k, k - 1, k)
        yield kind, size, s, targets, places[:-1] + [0], counts, [], [FILLER, 0] + first, full
    # the paths 0 2 3 7 6 4 5 and 0 1 of order 1
    ring = laid(mesh_of(2, 1), [[0, 2, 3, 7, 6, 4, 5], [0, 1]])
    for stopped, cuts in (
        ([], [0, 1]), ([], [1, 0, 0, 1]), ([7], [2, 3]), ([], [1, 5]), ([], [0, 7]), ([], [4, 6, 9]), ([], [6]), ([5], [0, 1]), ([0], [])
    ):
        yield 2, 1, 0, [5, 1], *ring, stopped, cuts, (2, 2, 2)


def cases():
    for old in (refusals(), stops(), damage(), large(), routes()):
        for *case, room in old:
            yield *case, [], room
    yield from severed()


def asked(kind, size, s, targets, places, counts, stopped, cuts, room):
    words = [kind, size, s]
    for run in (targets, places, counts, stopped, cuts):
        words += [len(run), *run]
    return " ".join("F" if w == FILLER else str(w) for w in [*words, *room])


def answered(kind, size, s, targets, places, counts, stopped, cuts, room):
    words = ["judge", *judge(kind, size, s, targets, places, counts)]
    told, count, columns = survivors(kind, size, s, targets, places, counts, stopped, cuts, room)
    words += ["survivors", *told, count]
    for name, column in zip(("targets", "hops", "whole"), columns):
        words += [name, *column]
    return " ".join(map(str, words))
