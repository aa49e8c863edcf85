#!/usr/bin/env python3
"""The plain cube, its routes and its fans, from the specification's rules alone."""

WORD = 2**64 - 1
FILLER = 2**64 - 1
UNTOUCHED = 77


def known(n):
    return 1 <= n <= 32


def refusal(n, s, t):
    """The number of the first reason against a pair, or 0: 1, 2, 5."""
    if not known(n):
        return 1
    if s >= 2**n:
        return 2
    if t >= 2**n:
        return 5
    return 0


def steps(s, t):
    """The route, a bit at a time from the lowest."""
    path = [s]
    for i in range(64):
        if (path[-1] >> i) % 2 != (t >> i) % 2:
            path.append(path[-1] + 2**i if (t >> i) % 2 else path[-1] - 2**i)
    return path


def linked(s, t):
    return sum((s >> i) % 2 != (t >> i) % 2 for i in range(64)) == 1


def bits(x):
    return bin(x).count("1")


def plan_refusal(n, source, doors, targets, room, counted):
    """Number and place of the first reason against a request, or 0 and 0."""
    if not 1 <= n <= 32:
        return 1, 0
    if source >= 2**n:
        return 2, 0
    if not targets:
        return 3, 0
    if len(targets) > n:
        return 4, 0
    for number, wrong in ((5, lambda i: targets[i] >= 2**n), (6, lambda i: targets[i] == source), (7, lambda i: targets[i] in targets[:i])):
        for i in range(len(targets)):
            if wrong(i):
                return number, i
    if doors >= 2**n or bits(doors) < len(targets):
        return 11, 0
    if room < len(targets) * (n + 2) or counted < len(targets):
        return 8, 0
    return 0, 0


def fan(n, source, doors, targets, places, counts):
    """Whether places and counts are a fan through the doors, and untouched beyond it."""
    width, seen = n + 2, {source}
    for i, target in enumerate(targets):
        path, hops = places[i * width:(i + 1) * width], counts[i]
        if hops > n + 1 or path[0] != source or path[hops] != target or any(x != FILLER for x in path[hops + 1:]):
            return False
        for p in range(1, hops + 1):
            link = path[p] ^ source
            if path[p] >= 2**n or bits(path[p] ^ path[p - 1]) != 1 or path[p] in seen:
                return False
            if bits(link) == 1 and not link & doors and (p == 1 or p != hops):
                return False
            seen.add(path[p])
    k = len(targets)
    return all(x == UNTOUCHED for x in places[k * width:] + counts[k:])
