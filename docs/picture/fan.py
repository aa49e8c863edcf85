#!/usr/bin/env python3
"""Draws a fan in the two-level mesh of order 2 as SVG: what the program `fan` answers to a line, on standard input.

    echo 'two 2 27 60 6 33' | target/bin/fan | python3 docs/picture/fan.py 'two 2 27 60 6 33' > docs/fan.svg

A square is a block of four slots; thin lines are the links of the mesh, thick ones the paths. Blocks stand so that two that differ in one bit
are in one row or one column, next to each other or at its two ends.
"""
import sys

ORDER = 2
SLOTS = 2**ORDER
BLOCKS = 2**SLOTS
GRAY = (0, 1, 3, 2)
BLOCK = 150
GAP = 52
INSET = 38
RADIUS = 15
TOP = 96
COLOURS = ("#c2410c", "#1d4ed8", "#15803d")


def parts(relay):
    return relay // SLOTS, relay % SLOTS


def corner(block):
    column, row = GRAY.index(block % 4), GRAY.index(block // 4)
    return GAP + column * (BLOCK + GAP), TOP + row * (BLOCK + GAP)


def centre(relay):
    block, slot = parts(relay)
    x, y = corner(block)
    return x + (INSET if slot % 2 == 0 else BLOCK - INSET), y + 10 + (INSET if slot // 2 == 0 else BLOCK - INSET)


def links():
    for u in range(BLOCKS * SLOTS):
        block, slot = parts(u)
        for bit in range(ORDER):
            yield u, block * SLOTS + (slot ^ (1 << bit))
        yield u, (block ^ (1 << slot)) * SLOTS + slot


def line(u, v):
    """Straight inside a block; an arc between blocks, so that it passes by the slots between."""
    (x, y), (a, b) = centre(u), centre(v)
    if parts(u)[0] == parts(v)[0]:
        return f"M{x} {y} L{a} {b}"
    slot = parts(u)[1]
    if y == b:
        return f"M{x} {y} Q{(x + a) // 2} {y - bend(a - x)} {a} {b}"
    return f"M{x} {y} Q{x - bend(b - y) if slot % 2 == 0 else x + bend(b - y)} {(y + b) // 2} {a} {b}"


def bend(length):
    return 64 if abs(length) < 2 * BLOCK else 120


def text(x, y, words, size, more=""):
    return f'<text x="{x}" y="{y}" font-size="{size}" {more}>{words}</text>'


def drawing(request, paths):
    side = 4 * (BLOCK + GAP) + GAP
    source, targets = paths[0][0], [path[-1] for path in paths]
    yield (f'<svg xmlns="http://www.w3.org/2000/svg" viewBox="-14 0 {side + 28} {side + TOP - GAP}" font-family="sans-serif" text-anchor="middle">')
    yield f'<rect x="-14" width="{side + 28}" height="{side + TOP - GAP}" fill="#ffffff"/>'
    yield text(GAP, 30, f"A fan: {request}", 22, 'text-anchor="start" font-weight="bold"')
    yield text(GAP, 54, "from one host to its replicas, over paths that meet nowhere but at the host", 15, 'text-anchor="start" fill="#525252"')
    for block in range(BLOCKS):
        x, y = corner(block)
        yield f'<rect x="{x}" y="{y}" width="{BLOCK}" height="{BLOCK + 10}" rx="12" fill="#f5f5f4" stroke="#d6d3d1"/>'
        yield text(x + BLOCK // 2, y + 18, f"block {block}", 12, 'fill="#78716c"')
    for u, v in links():
        if u < v:
            yield f'<path d="{line(u, v)}" fill="none" stroke="#d6d3d1" stroke-width="1.2"/>'
    for path, colour in zip(paths, COLOURS):
        for u, v in zip(path, path[1:]):
            yield f'<path d="{line(u, v)}" fill="none" stroke="{colour}" stroke-width="5" stroke-linecap="round"/>'
    on = {relay: colour for path, colour in zip(paths, COLOURS) for relay in path[1:]}
    for relay in range(BLOCKS * SLOTS):
        x, y = centre(relay)
        colour = "#171717" if relay == source else on.get(relay, "#a8a29e")
        filled = relay == source or relay in targets
        yield f'<circle cx="{x}" cy="{y}" r="{RADIUS + (3 if filled else 0)}" fill="{colour if filled else "#ffffff"}" stroke="{colour}" stroke-width="{2.5 if relay in on or filled else 1.2}"/>'
        yield text(x, y + 5, relay, 13, f'fill="{"#ffffff" if filled else "#292524"}"')
    yield "</svg>"


def main(request, answer):
    words = request.split()
    if words[:2] != ["two", str(ORDER)] or not answer[0].startswith("fan "):
        sys.exit(f"fan.py: no fan of order {ORDER}: {request}: {answer[0]}")
    print("\n".join(drawing(request, [[int(w) for w in row.split()[1:]] for row in answer[1:]])))


if __name__ == "__main__":
    main(sys.argv[1], sys.stdin.read().split("\n")[:-1])
