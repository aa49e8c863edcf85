#!/usr/bin/env python3
"""Bundles from the rules' words alone: the judge's second mode, who is whole, and the bundles that tests/entries.py lists.

A bundle is as many paths between two relays as a relay has links, which share nothing but the two. A path takes longest + 2 places.
"""
from judge_model import FILLER, HELD, failures, fan, whole
from mesh_model import WORD, mesh_of


def ends(mesh, s, t):
    """The number of the first reason against two ends, or 0: 1, 2, 5, 6."""
    if mesh is None:
        return 1
    if s >= mesh.relays:
        return 2
    if t >= mesh.relays:
        return 5
    return 6 if s == t else 0


def finding(mesh, s, t, places, counts):
    """Number, path and place of the first finding, or None."""
    width, earlier, bare = mesh.longest + 2, set(), False
    for i in range(mesh.links):
        path, hops = places[i * width: (i + 1) * width], counts[i]
        if hops > mesh.longest + 1:
            return 20, i, 0
        if path[0] != s:
            return 21, i, 0
        for p in range(1, hops + 1):
            if path[p] >= mesh.relays or not mesh.linked(path[p - 1], path[p]):
                return 22, i, p
        if path[hops] != t:
            return 23, i, hops
        for p in range(hops + 1):
            # the two ends are excepted at their own places, against earlier paths; the bare link is not given twice
            if path[p] in path[:p] or (p not in (0, hops) and path[p] in earlier) or (p == hops == 1 and bare):
                return 24, i, p
        for p in range(hops + 1, width):
            if path[p] != FILLER:
                return 25, i, p
        earlier |= set(path[: hops + 1])
        bare = bare or hops == 1
    return None


def survivors(kind, size, s, t, places, counts, zones, stopped, cuts, room):
    """What is told, the count, and the four columns."""
    mesh, columns = mesh_of(kind, size), [[HELD] * n for n in room]
    why = ends(mesh, s, t)
    if why:
        return (why, 0, 0), 0, columns
    k, width = mesh.links, mesh.longest + 2
    if any(n < k for n in room) or len(places) < k * width or len(counts) < k or len(zones) < k:
        return (8, 0, 0), 0, columns
    found = finding(mesh, s, t, places, counts)
    if found:
        return found, 0, columns
    marks = [int(whole(places[i * width: i * width + counts[i] + 1], stopped, cuts)) for i in range(k)]
    assert s in stopped or t in stopped or k <= sum(marks) + failures(mesh, stopped, cuts), (kind, size, s, t, stopped, cuts)
    for column, values in zip(columns, ([t] * k, counts, marks, zones)):
        column[:k] = values[:k]
    return (0, 0, 0), sum(marks), columns


def bundle(kind, size, s, t):
    """A fan to the relays linked to t, t itself in place of s, with t after each path that does not end in it."""
    mesh = mesh_of(kind, size)
    near = [u for u in range(mesh.relays) if mesh.linked(t, u)]
    places, counts = fan(kind, size, s, [t if u == s else u for u in near])
    laid, hops = [], []
    for i, h in enumerate(counts):
        path = places[i * (mesh.longest + 1):][: h + 1]
        path += [] if path[-1] == t else [t]
        laid += path + [FILLER] * (mesh.longest + 2 - len(path))
        hops.append(len(path) - 1)
    return laid, hops


def cases():
    """Kind, size, source, target, places, counts, stopped, cuts, room: whole, failed, damaged at every place, and refused."""
    for kind, size, s, t in ((1, 1, 0, 1), (1, 2, 0, 1), (1, 2, 0, 3), (2, 1, 0, 5)):
        mesh = mesh_of(kind, size)
        places, counts = bundle(kind, size, s, t)
        k = mesh.links
        relays = sorted({x for x in places if x != FILLER})
        yield kind, size, s, t, places, counts, [], [], k
        yield kind, size, s, t, places + [3], counts + [3], [WORD], [s], k + 2
        for x in relays:
            yield kind, size, s, t, places, counts, [x], [x, s, places[0], places[1]], k
        for p in range(len(places)):
            for wrong in (t, FILLER):
                yield kind, size, s, t, places[:p] + [wrong] + places[p + 1:], counts, [], [], k
        for i in range(k):
            for wrong in (0, 1, counts[i] + 1, mesh.longest + 2, WORD):
                yield kind, size, s, t, places, counts[:i] + [wrong] + counts[i + 1:], [], [], k
        for bad in ((mesh.relays, t), (s, mesh.relays), (s, s), (WORD, WORD)):
            yield kind, size, *bad, places, counts, [], [], k
        yield kind, size, s, t, places[:-1], counts, [], [], k
        yield kind, size, s, t, places, counts[:-1], [], [], k
        yield kind, size, s, t, places, counts, [], [], k - 1
        yield kind, 77, s, t, places, counts, [], [], k
