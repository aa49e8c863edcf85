#!/usr/bin/env python3
"""Draws a fan in the cube of 3 dimensions as SVG, its two sides of dimension 1 apart: what the program `fan` answers to a line, on standard input.

    echo 'cube 3 0 3 5 6' | target/bin/fan | python3 docs/picture/split.py 'cube 3 0 3 5 6' > docs/split.svg

The near side, where bit 1 is as the source has it, is the square in front; the far side is the one behind. Thin lines are the links of the cube, thick
ones the paths.
"""
import sys

COLOURS = ("#c2410c", "#1d4ed8", "#15803d")
SIDE = 190
SHIFT = (250, -96)
LEFT, BASE = 70, 390


def centre(relay):
    x = LEFT + SIDE * (relay % 2) + SHIFT[0] * (relay // 2 % 2)
    y = BASE - SIDE * (relay // 4) + SHIFT[1] * (relay // 2 % 2)
    return x, y


def text(x, y, words, size, more=""):
    return f'<text x="{x}" y="{y}" font-size="{size}" {more}>{words}</text>'


def segment(u, v, colour, width):
    (x, y), (a, b) = centre(u), centre(v)
    return f'<line x1="{x}" y1="{y}" x2="{a}" y2="{b}" stroke="{colour}" stroke-width="{width}" stroke-linecap="round"/>'


def square(relay, words):
    x, y = centre(relay)
    yield f'<rect x="{x - 34}" y="{y - SIDE - 34}" width="{SIDE + 68}" height="{SIDE + 68}" rx="14" fill="#f5f5f4" stroke="#d6d3d1"/>'
    yield text(x + SIDE // 2, y + 28, words, 13, 'fill="#78716c"')


def drawing(request, paths):
    source, targets = paths[0][0], [path[-1] for path in paths]
    yield '<svg xmlns="http://www.w3.org/2000/svg" viewBox="0 0 640 450" font-family="sans-serif" text-anchor="middle">'
    yield '<rect width="640" height="450" fill="#ffffff"/>'
    yield text(20, 30, f"One split: {request}", 18, 'text-anchor="start" font-weight="bold"')
    yield from square(2, "far side: bit 1 is 1")
    yield from square(0, "near side: bit 1 is 0")
    for u in range(8):
        for bit in (1, 2, 4):
            if not u & bit:
                yield segment(u, u | bit, "#d6d3d1", 1.5)
    for path, colour in zip(paths, COLOURS):
        for u, v in zip(path, path[1:]):
            yield segment(u, v, colour, 6)
    on = {relay: colour for path, colour in zip(paths, COLOURS) for relay in path[1:]}
    for relay in range(8):
        x, y = centre(relay)
        colour = "#171717" if relay == source else on.get(relay, "#a8a29e")
        filled = relay == source or relay in targets
        yield f'<circle cx="{x}" cy="{y}" r="{21 if filled else 17}" fill="{colour if filled else "#ffffff"}" stroke="{colour}" stroke-width="2.5"/>'
        yield text(x, y + 5, relay, 15, f'fill="{"#ffffff" if filled else "#292524"}"')
    yield "</svg>"


def main(request, answer):
    if request.split()[:2] != ["cube", "3"] or not answer[0].startswith("fan "):
        sys.exit(f"split: no fan of the cube of 3 dimensions: {request}: {answer[0]}")
    print("\n".join(drawing(request, [[int(w) for w in row.split()[1:]] for row in answer[1:]])))


if __name__ == "__main__":
    main(sys.argv[1], sys.stdin.read().split("\n")[:-1])
