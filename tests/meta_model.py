#!/usr/bin/env python3
"""Metacubes, from the specification's rules alone: k class bits, parts of m bits, size k * 64 + m. A relay is its class and its list of parts."""


def known(size):
    k, m = divmod(size, 64)
    return k <= 3 and m >= 1 and k + m * 2**k <= 37


def sizes():
    return [size for size in range(4 * 64) if known(size)]


class Meta:
    def __init__(self, size):
        self.k, self.m = divmod(size, 64)
        self.span = self.m * 2**self.k
        self.relays, self.links = 2 ** (self.k + self.span), self.k + self.m
        self.longest = 2**self.k - 1 + self.k + self.span
        self.distances = self.planned = False

    def split(self, u):
        """Class and parts: the class in the top bits, then the last part down to part 0."""
        return u >> self.span, [u >> self.m * i & (1 << self.m) - 1 for i in range(2**self.k)]

    def number(self, c, parts):
        return c << self.span | sum(part << self.m * i for i, part in enumerate(parts))

    def linked(self, u, v):
        """One bit differs, of the part of the class that they share, or of the class."""
        (c, a), (d, b) = self.split(u), self.split(v)
        if c != d:
            return bin(c ^ d).count("1") == 1 and a == b
        others = [i for i in range(2**self.k) if i != c]
        return c < 2**self.k and bin(a[c] ^ b[c]).count("1") == 1 and all(a[i] == b[i] for i in others)

    def order(self):
        """The classes along the cyclic Gray order."""
        return [i ^ i // 2 for i in range(2**self.k)]

    def next_hop(self, u, t):
        (c, a), (d, b) = self.split(u), self.split(t)
        if a == b:
            return self.number(c ^ (c ^ d) & -(c ^ d), a)
        if a[c] != b[c]:
            a[c] ^= (a[c] ^ b[c]) & -(a[c] ^ b[c])
            return self.number(c, a)
        order = self.order()
        return self.number(order[(order.index(c) + 1) % len(order)], a)

    def route(self, s, t):
        way = [s]
        while way[-1] != t:
            way.append(self.next_hop(way[-1], t))
        return way

    def differing(self, s, t):
        """How many part bits differ."""
        return bin((s ^ t) & (1 << self.span) - 1).count("1")


def test():
    """Sizes; links go both ways and are as many as the size says; routes visit no relay twice, along links, within the bound."""
    assert len(sizes()) == 67 and [max(s % 64 for s in sizes() if s // 64 == k) for k in range(4)] == [37, 18, 8, 4]
    pairs = 0
    for size in (1, 3, 5, 65, 66, 129):
        mesh = Meta(size)
        relays = range(mesh.relays)
        for u in relays:
            near = [v for v in relays if mesh.linked(u, v)]
            assert len(near) == mesh.links and all(mesh.linked(v, u) for v in near), (size, u)
            for t in relays:
                way, pairs = mesh.route(u, t), pairs + 1
                assert len(set(way)) == len(way) and all(mesh.linked(x, y) for x, y in zip(way, way[1:])), (size, u, t)
                assert len(way) - 1 <= 2**mesh.k - 1 + mesh.k + mesh.differing(u, t) <= mesh.longest, (size, u, t)
    print(f"metacubes: 67 sizes, and {pairs} routes within their bound, no relay twice")


if __name__ == "__main__":
    test()
