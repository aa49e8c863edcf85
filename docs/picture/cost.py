#!/usr/bin/env python3
"""Draws how the cost of the calls grows with the size of the mesh as SVG: from what bench/run prints, or docs/MEASURED.md, on standard input.

    python3 docs/picture/cost.py < docs/MEASURED.md > docs/cost.svg

Two fields, the cubes and the two-level meshes, and one line for each call; a thin dashed line is the C++ beside it. Nanoseconds are on a log scale.
"""
import math
import sys

# The calls drawn, what stands beside them in the row that is taken, and their colours.
CALLS = (
    ("plan", "C++ by masks", "#c2410c"),
    ("fan", "C++ by vectors", "#1d4ed8"),
    ("judge", "C++ by a table", "#15803d"),
    ("read_sheet", "C++", "#7e22ce"),
    ("route", "C++ by hop", "#be185d"),
    ("next_hop", "C++", "#0f766e"),
    ("linked", "C++", "#57534e"),
)
FIELDS = (("cube", "cube, dimensions", (3, 8, 16, 32)), ("order", "two-level mesh, order", (1, 2, 3, 4, 5)))
LEAST, MOST = 1, 10000
WIDE, HIGH, TOP, LEFT, GAP, LABELS = 330, 400, 70, 70, 180, 110


def rows(lines):
    """The rows of the table, by call, mesh and what stands beside: nanoseconds of ours and of the other."""
    told = {}
    for line in lines:
        cells = [cell.strip() for cell in line.strip().strip("|").split("|")]
        if len(cells) == 8 and cells[0] != "call" and not cells[0].startswith("-"):
            told[cells[0], cells[1], cells[2]] = float(cells[3]), float(cells[4])
    return told


def height(nanoseconds):
    share = math.log10(nanoseconds / LEAST) / math.log10(MOST / LEAST)
    return TOP + HIGH * (1 - share)


def text(x, y, words, size, more=""):
    return f'<text x="{x:.0f}" y="{y:.0f}" font-size="{size}" {more}>{words}</text>'


def line(points, colour, more):
    corners = " ".join(f"{x:.1f},{y:.1f}" for x, y in points)
    return f'<polyline points="{corners}" fill="none" stroke="{colour}" {more}/>'


def grid(left, title, sizes, places):
    yield f'<rect x="{left}" y="{TOP}" width="{WIDE}" height="{HIGH}" fill="#fafaf9" stroke="#d6d3d1"/>'
    for power in range(5):
        y = height(10**power)
        yield line(((left, y), (left + WIDE, y)), "#e7e5e4", 'stroke-width="1"')
        yield text(left - 8, y + 4, f"{10**power:,} ns", 12, 'text-anchor="end" fill="#78716c"')
    for size, x in zip(sizes, places):
        yield text(x, TOP + HIGH + 20, size, 13, 'text-anchor="middle" fill="#44403c"')
    yield text(left + WIDE / 2, TOP + HIGH + 42, title, 14, 'text-anchor="middle" fill="#1c1917"')


def spread(labels):
    """Labels at their heights, but none closer than 15 to the one above."""
    last = -math.inf
    for y, call, colour in sorted(labels):
        last = max(y, last + 15)
        yield last, call, colour


def field(told, left, name, title, sizes):
    places = [left + WIDE * (0.06 + 0.88 * i / (len(sizes) - 1)) for i in range(len(sizes))]
    yield from grid(left, title, sizes, places)
    labels = []
    for call, beside, colour in CALLS:
        pairs = [told[call, f"{name} {size}", beside] for size in sizes]
        ours, theirs = ([(x, height(pair[side])) for x, pair in zip(places, pairs)] for side in (0, 1))
        yield line(theirs, colour, 'stroke-width="1.2" stroke-dasharray="4 3" opacity="0.7"')
        yield line(ours, colour, 'stroke-width="2.4" stroke-linejoin="round"')
        for x, y in ours:
            yield f'<circle cx="{x:.1f}" cy="{y:.1f}" r="3.2" fill="{colour}"/>'
        labels.append((ours[-1][1], call, colour))
    for y, call, colour in spread(labels):
        yield text(left + WIDE + 8, y + 4, call, 13, f'fill="{colour}"')


def drawing(told):
    wide, high = LEFT + 2 * WIDE + GAP + LABELS, TOP + HIGH + 60
    yield f'<svg xmlns="http://www.w3.org/2000/svg" viewBox="0 0 {wide} {high}" font-family="sans-serif">'
    yield f'<rect width="{wide}" height="{high}" fill="#ffffff"/>'
    yield text(LEFT, 28, "Nanoseconds of a call, as the mesh grows", 18, 'fill="#1c1917"')
    yield text(LEFT, 50, "all links asked for; dashed: the same in C++; log scale", 13, 'fill="#78716c"')
    for i, (name, title, sizes) in enumerate(FIELDS):
        yield from field(told, LEFT + i * (WIDE + GAP), name, title, sizes)
    yield "</svg>"


if __name__ == "__main__":
    print("\n".join(drawing(rows(sys.stdin))))
