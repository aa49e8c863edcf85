#!/usr/bin/env python3
"""A mesh as a DIMACS edge file, written and read, from the request's words; the links are mesh_model.py's, which shares nothing with the code.

graph_model.py cases            cases for tests/graph.cpp, on standard output
graph_model.py programs G C     the programs graph (G) and graph_check (C) against the model
graph_model.py tools G          every file that the program graph (G) writes, loaded by bliss and by igraph
"""

import collections
import math
import os
import random
import re
import select
import subprocess
import sys
import tempfile

import mesh_model

SIZES = [(1, n) for n in range(1, 12)] + [(2, m) for m in (1, 2, 3)]
WORDS = {1: b"cube", 2: b"two"}
NUMBER = rb"(0|[1-9][0-9]*)"
P = re.compile(rb"p edge " + NUMBER + rb" " + NUMBER)
E = re.compile(rb"e " + NUMBER + rb" " + NUMBER)
MOST = 262144
LENGTHS = {1: [17, 35, 84, 233, 608, 1496, 3739, 9392, 22084, 50387, 123009], 2: [59, 754, 44741]}


def mesh_of(kind, size):
    return (mesh_model.Cube if kind == 1 else mesh_model.Two)(size)


def near(mesh, kind, size, u):
    """The relays linked to u: one bit of its number changed, and linked by the model."""
    bits = mesh.relays.bit_length() - 1
    return [u ^ 1 << i for i in range(bits) if mesh.linked(u, u ^ 1 << i)]


LINKS = {}


def links(kind, size):
    if (kind, size) not in LINKS:
        mesh = mesh_of(kind, size)
        LINKS[kind, size] = sorted((u, v) for u in range(mesh.relays) for v in near(mesh, kind, size, u) if u < v)
    return LINKS[kind, size]


def against(kind, size):
    if kind == 1 and 1 <= size <= 32:
        return 46 if size > 11 else 0
    if kind == 2 and 1 <= size <= 5:
        return 46 if size > 3 else 0
    if kind == 3:
        k, m = divmod(size, 64)
        return 52 if k <= 3 and m >= 1 and k + m * 2**k <= 37 else 1
    return 1


def text(kind, size):
    es = links(kind, size)
    return b"p edge %d %d\n" % (mesh_of(kind, size).relays, len(es)) + b"".join(b"e %d %d\n" % (u + 1, v + 1) for u, v in es)


def fields(pattern, line):
    got = pattern.fullmatch(line)
    numbers = [int(x) for x in got.groups()] if got else []
    return numbers if numbers and all(x < 2**64 for x in numbers) else None


def read(kind, size, file):
    """(number, line)"""
    if against(kind, size):
        return against(kind, size), 0
    lines = file.split(b"\n")
    rest = lines.pop()
    head, es = None, []
    for at, line in enumerate(lines, 1):
        if line[:1] == b"c":
            continue
        if line[:1] == b"p" and head is None and fields(P, line):
            head = fields(P, line)
        elif line[:1] == b"e" and head is not None and fields(E, line):
            es.append((at, fields(E, line)))
        else:
            return 47, at
    if rest:
        return 47, len(lines) + 1
    all_links = set(links(kind, size))
    if head != [mesh_of(kind, size).relays, len(all_links)]:
        return 48, 0
    seen = set()
    for at, (u, v) in es:
        pair = tuple(sorted((u - 1, v - 1)))
        if pair not in all_links or pair in seen:
            return 49, at
        seen.add(pair)
    return (0, 0) if seen == all_links else (50, 0)


def shuffled(dice, file):
    """The same links in another order, some turned, with comments between them."""
    head, *lines = file.split(b"\n")[:-1]
    dice.shuffle(lines)
    lines = [b"e %s %s" % tuple(reversed(line.split()[1:])) if dice.random() < 0.5 else line for line in lines]
    for _ in range(dice.randrange(4)):
        lines.insert(dice.randrange(len(lines) + 1), dice.choice([b"c", b"c a comment", b"cat\r", b"c" + bytes(b for b in dice.randbytes(9) if b != 10)]))
    return b"\n".join([b"c before"] * dice.randrange(3) + [head] + lines) + b"\n"


LINES = [b"", b" ", b"x", b"p", b"p edge 4 4", b"p col 4 4", b"p edge 4", b"e", b"e 1", b"e 1 2", b"e 2 1", b"e 1 2 3", b"e 0 1", b"e 1 1", b"e 1 4", b"e 1 5", b"e 01 2", b"e  1 2", b"e 1 2 ",
         b" e 1 2", b"e 1 2\r", b"e 1 -2", b"e 1 +2", b"e 1 0x2", b"e 1 18446744073709551615", b"e 1 18446744073709551616", b"e 1 99999999999999999999999", b"E 1 2", b"n 1 1", b"c", b"c x", b"edge 1 2",
         b"p  edge 4 4", b"p edge  4 4", b"p edge 4 4 ", b"p edge 4 5", b"p edge 18446744073709551616 4"]


def damaged(dice, file):
    """One change: of a byte, a line, or the end."""
    lines = file.split(b"\n")[:-1] or [b"c"]
    at = dice.randrange(len(lines))
    what = dice.randrange(8)
    if what == 0:
        lines[at] = dice.choice(LINES)
    elif what == 1:
        lines.insert(dice.randrange(len(lines) + 1), dice.choice(LINES))
    elif what == 2:
        del lines[at]
    elif what == 3:
        lines.append(lines[at])
    elif what == 4:
        words = lines[at].split() or [b"e"]
        lines.append(b" ".join(words[:1] + words[:0:-1]))
    elif what == 5:
        other = dice.randrange(len(lines))
        lines[at], lines[other] = lines[other], lines[at]
    elif what == 6:
        whole = bytearray(file or b"c")
        whole[dice.randrange(len(whole))] = dice.choice(b"0123456789 \n\r\tpec\x00\xff")
        return bytes(whole)
    else:
        return file[: dice.randrange(len(file) + 1)]
    return b"\n".join(lines) + b"\n"


def worked():
    """The request's own cases, as the cube of 2 dimensions, each with what it comes to."""
    t = text(1, 2)
    assert t == b"p edge 4 4\ne 1 2\ne 1 3\ne 2 4\ne 3 4\n"
    return [(t, 0, 0), (b"", 48, 0), (b"c x\n", 48, 0), (t[:-1], 47, 5), (t + b"\n", 47, 6), (t.replace(b"\n", b"\r\n"), 47, 1), (b"c\r\n" + t, 0, 0), (t + b"p edge 4 4\n", 47, 6),
            (b"e 1 2\n" + t, 47, 1), (t.replace(b"e 1 2", b"e 01 2"), 47, 2), (t.replace(b"e 1 2", b"e 1 18446744073709551616"), 47, 2), (t.replace(b"4 4", b"4 5"), 48, 0),
            (t.replace(b"e 1 2", b"e 1 4"), 49, 2), (t.replace(b"e 1 2", b"e 1 4") + b"x\n", 47, 6), (t + b"e 2 1\n", 49, 6), (t.replace(b"e 1 2\n", b""), 50, 0), (t + b"c x", 47, 6)]


def files(dice):
    """(kind, size, file): every size written, shuffled, damaged, and read as another."""
    for kind, size in SIZES:
        t = text(kind, size)
        yield kind, size, t
        small = len(t) < 4000
        for _ in range(200 if small else 4):
            yield kind, size, shuffled(dice, t)
            yield kind, size, damaged(dice, t)
            yield kind, size, damaged(dice, shuffled(dice, t))
        for _ in range(100 if small else 2):
            yield kind, size, damaged(dice, damaged(dice, t))
        for other in SIZES[:5] + SIZES[-3:]:
            yield *other, t
    for _ in range(500):
        yield 1, 2, b"".join(dice.choice(LINES) + b"\n" for _ in range(dice.randrange(8)))
        yield 1, 1, b"p edge 2 1\n" + b"".join(dice.choice(LINES) + b"\n" for _ in range(dice.randrange(4)))
    for kind, size in ((0, 1), (1, 0), (1, 12), (1, 32), (1, 33), (2, 0), (2, 4), (2, 5), (2, 6), (3, 65), (3, 64), (3, 1), (4, 1), (2**64 - 1, 2**64 - 1)):
        yield kind, size, b"x"


def cases():
    out = sys.stdout.buffer
    dice = random.Random(9)
    for file, number, line in worked():
        assert read(1, 2, file) == (number, line), (file, number, line)
    for kind, size, file in [(1, 2, file) for file, _, _ in worked()] + list(files(dice)):
        out.write(b"R %d %d %d %d %d\n" % (kind, size, *read(kind, size, file), len(file)) + file)
    for kind in range(5):
        for size in list(range(0, 34)) + [64, 65, 66, 101, 2**64 - 1]:
            if against(kind, size):
                for room in (0, 50):
                    out.write(b"W %d %d %d %d 0\n" % (kind, size, room, against(kind, size)))
            else:
                t = text(kind, size)
                assert len(t) == LENGTHS[kind][size - 1]
                for room, number in ((len(t), 0), (len(t) + 7, 0), (len(t) - 1, 8), (0, 8)):
                    out.write(b"W %d %d %d %d %d\n" % (kind, size, room, number, len(t)) + t)


def run(program, data):
    return subprocess.run([program], input=data, capture_output=True, check=True).stdout


def programs(graph, check):
    dice = random.Random(10)
    for kind, size in SIZES:
        t = text(kind, size)
        line = WORDS[kind] + b" %d\n" % size
        assert run(graph, line) == t, line
        assert run(graph, line + b"and more") == t, line
        assert run(check, line + t) == b"yes\n", line
        assert run(check, line + shuffled(dice, t)) == b"yes\n", line
    for line, said in ((b"cube 12\n", b"refused 46 0\n"), (b"cube 33\n", b"refused 1 0\n"), (b"two 4\n", b"refused 46 0\n"), (b"two 6\n", b"refused 1 0\n"), (b"cube 0\n", b"refused 1 0\n")):
        assert run(graph, line) == said and run(check, line + b"x\n") == said, line
    for line in (b"", b"\n", b"cube", b"cube 3", b"cube\n", b"cube 3 4\n", b"cube 03\n", b"cube  3\n", b"cube 3 \n", b" cube 3\n", b"cubes 3\n", b"two 2\r\n", b"three 1\n", b"cube 18446744073709551616\n", b"c" * 2000):
        assert run(graph, line) == b"refused 10 0\n", line
        assert run(check, line) == b"refused 10 0\n", line
    for file, number, at in worked():
        assert run(check, b"cube 2\n" + file) == (b"refused %d %d\n" % (number, at) if number else b"yes\n"), file
    for _ in range(60):
        kind, size = dice.choice([(1, 2), (1, 3), (2, 1), (2, 2)])
        file = damaged(dice, shuffled(dice, text(kind, size)))
        number, at = read(kind, size, file)
        assert run(check, WORDS[kind] + b" %d\n" % size + file) == (b"refused %d %d\n" % (number, at) if number else b"yes\n"), file
    # the limit of the input, its first line included
    whole = b"cube 11\nc" + b" " * (MOST - 9 - 1 - len(text(1, 11))) + b"\n" + text(1, 11)
    assert len(whole) == MOST and run(check, whole) == b"yes\n"
    assert run(check, whole + b"c") == b"refused 8 0\n"
    # an answer as soon as the line end has come
    with subprocess.Popen([graph], stdin=subprocess.PIPE, stdout=subprocess.PIPE) as p:
        p.stdin.write(b"cube 1\n")
        p.stdin.flush()
        assert select.select([p.stdout], [], [], 10)[0], "graph waits after the line end"
        assert p.stdout.read() == text(1, 1)
        p.stdin.close()
    print("graph: the programs write and check all 14 meshes, and refuse as the model does")


def diameter(kind, size):
    mesh, worst = mesh_of(kind, size), 0
    ways = [near(mesh, kind, size, u) for u in range(mesh.relays)]
    # every relay of a cube sees the same mesh, so that of the larger ones one start tells it
    for start in range(mesh.relays) if kind == 2 or size < 7 else (0,):
        hops, queue = {start: 0}, collections.deque([start])
        while queue:
            u = queue.popleft()
            for v in ways[u]:
                if v not in hops:
                    hops[v] = hops[u] + 1
                    queue.append(v)
        assert len(hops) == mesh.relays
        worst = max(worst, max(hops.values()))
    return worst


def tools(graph):
    import igraph

    with tempfile.TemporaryDirectory() as place:
        for kind, size in SIZES:
            name = os.path.join(place, "mesh")
            with open(name, "wb") as f:
                f.write(run(graph, WORDS[kind] + b" %d\n" % size))
            mesh = mesh_of(kind, size)
            g = igraph.GraphBase.Read_DIMACS(name)
            g = g[0] if isinstance(g, tuple) else g
            assert (g.vcount(), g.ecount()) == (mesh.relays, len(links(kind, size))), (kind, size)
            assert sorted(tuple(sorted(e)) for e in g.get_edgelist()) == links(kind, size), (kind, size)
            assert igraph.Graph.diameter(igraph.Graph(mesh.relays, g.get_edgelist()), directed=False) == diameter(kind, size), (kind, size)
            said = subprocess.run(["bliss", name], capture_output=True, check=True, text=True).stdout
            order = int(re.search(r"\|Aut\|: *(\d+)", said).group(1))
            if kind == 1:
                assert order == 2**size * math.factorial(size), (size, order)
            else:
                print(f"graph: order {size}: {order} automorphisms")
    print("graph: bliss and igraph read all 14 meshes")


if __name__ == "__main__":
    {"cases": cases, "programs": programs, "tools": tools}[sys.argv[1]](*sys.argv[2:])
