#!/usr/bin/env python3
"""The two-level mesh, from the specification's rules alone.

A relay is a pair of a block and a slot, and both are tuples of bits here, lowest first, so that nothing is shared with the
code's masks and shifts. Distances are searched breadth first from every source, not by the move to relay 0.
"""
from collections import deque
from functools import lru_cache

def bits(n, width):
    return tuple(n // 2**i % 2 for i in range(width))


def value(digits):
    return sum(d * 2**i for i, d in enumerate(digits))


def changed(digits, i):
    return digits[:i] + (1 - digits[i],) + digits[i + 1:]


def relay(m, r):
    return bits(r // 2**m, 2**m), bits(r % 2**m, m)


def number(m, at):
    return value(at[0]) * 2**m + value(at[1])


def differing(a, b):
    return [i for i in range(len(a)) if a[i] != b[i]]


def linked(u, v):
    """Same block and slots that differ in one bit, or same slot p and blocks that differ in bit p alone."""
    if u[0] == v[0]:
        return len(differing(u[1], v[1])) == 1
    return u[1] == v[1] and differing(u[0], v[0]) == [value(u[1])]


def neighbours(u):
    block, slot = u
    return [(block, changed(slot, i)) for i in range(len(slot))] + [(changed(block, value(slot)), slot)]


def reflected(m):
    """The slots in the reflected Gray order: i xor (i div 2) for i = 0, 1, 2 and so on."""
    return [i ^ i // 2 for i in range(2**m)]


def next_hop(m, u, t):
    """Of the differing block bits, the one whose place in the reflected Gray order is lowest; of the differing slot bits, the lowest."""
    wrong = [p for p in reflected(m) if u[0][p] != t[0][p]]
    goal = bits(wrong[0], m) if wrong else t[1]
    turn = differing(u[1], goal)
    if turn:
        return u[0], changed(u[1], turn[0])
    return (changed(u[0], wrong[0]), u[1]) if wrong else u


def route(m, s, t):
    way = [s]
    while way[-1] != t:
        way.append(next_hop(m, way[-1], t))
    return way


def seen(s, t):
    """Block bit p of the xor goes to place p xor the source's slot."""
    apart = [x ^ y for x, y in zip(s[0], t[0])]
    block = [0] * len(apart)
    for p, bit in enumerate(apart):
        block[p ^ value(s[1])] = bit
    return tuple(block), tuple(x ^ y for x, y in zip(s[1], t[1]))


@lru_cache(maxsize=None)
def distances(s):
    found, todo = {s: 0}, deque([s])
    while todo:
        u = todo.popleft()
        for v in neighbours(u):
            if v not in found:
                found[v] = found[u] + 1
                todo.append(v)
    return found


def size(m):
    return 2 ** (2**m + m)
