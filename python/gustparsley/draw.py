"""Pictures of a fan, a bundle or a sheet: each path a lane of relays, and where the mesh is small the mesh itself with the paths in it.

`svg` gives a drawing, and `page` one page that needs nothing else: hover over a relay to see what it is, click relays to stop them and links to cut them, and see which paths stay whole.
"""
from __future__ import annotations

import dataclasses
import html
import importlib.resources
import json
from collections.abc import Iterable, Iterator, Sequence

from .mesh import Mesh

COLOURS = ("#c2410c", "#1d4ed8", "#15803d", "#7e22ce", "#be185d", "#0f766e", "#a16207", "#4338ca")
LEFT, CELL, LINE, PER = 24, 64, 74, 15
STYLE = """
text { font-family: sans-serif; text-anchor: middle; fill: #292524; font-size: 12px; stroke: none }
.left { text-anchor: start }
.head { font-size: 20px; font-weight: bold }
.soft { fill: #78716c; font-size: 10px }
.lane { font-size: 13px; font-weight: bold }
.band { fill: #f5f5f4; stroke: #e7e5e4 }
.mesh .wire { stroke: #d6d3d1; stroke-width: 1.2; fill: none }
.wire { stroke-width: 4; stroke-linecap: round; fill: none }
.touch { stroke: transparent; stroke-width: 14; fill: none }
.relay rect { fill: #ffffff; stroke: #a8a29e; stroke-width: 1.2 }
.relay.source rect { fill: #171717; stroke: #171717 }
.relay.source text.name { fill: #ffffff }
.relay.stopped rect { fill: #fecaca; stroke: #b91c1c; stroke-width: 3; stroke-dasharray: 4 2 }
.relay.stopped text.name { fill: #7f1d1d; text-decoration: line-through }
.link.cut .wire { stroke: #b91c1c; stroke-dasharray: 2 7 }
.broken { opacity: 0.55 }
"""


def _colours() -> str:
    rules = []
    for i, colour in enumerate(COLOURS):
        rules.append(f".c{i} .wire {{ stroke: {colour} }} .c{i} .relay rect {{ stroke: {colour}; stroke-width: 2.5 }} .c{i}.lane, .c{i} text.lane {{ fill: {colour} }} .c{i} .relay.end rect {{ fill: {colour} }} .c{i} .relay.end text.name {{ fill: #ffffff }}")
    rules.append(".relay.source rect { stroke: #171717; fill: #171717 } .relay.stopped rect { fill: #fecaca; stroke: #b91c1c } .relay.stopped text.name { fill: #7f1d1d } .link.cut .wire { stroke: #b91c1c }")
    return "\n".join(rules)


@dataclasses.dataclass(frozen=True)
class Picture:
    """What is drawn: paths from one source, what has failed, and a headline."""

    mesh: Mesh
    paths: Sequence[Sequence[int]]
    headline: str
    zones: Sequence[int] = ()
    stopped: frozenset[int] = frozenset()
    cuts: frozenset[tuple[int, int]] = frozenset()

    @classmethod
    def of(cls, mesh: Mesh, paths: Sequence[Sequence[int]], headline: str, zones: Sequence[int] = (), stopped: Iterable[int] = (), cuts: Iterable[tuple[int, int]] = ()) -> Picture:
        return cls(mesh, paths, headline, zones, frozenset(stopped), frozenset(link(u, v) for u, v in cuts))

    @property
    def source(self) -> int:
        return self.paths[0][0]

    @property
    def ends(self) -> set[int]:
        return {path[-1] for path in self.paths}

    def whole(self, path: Sequence[int]) -> bool:
        """Whether no relay of the path has stopped and no link of it is cut."""
        return not (self.stopped & set(path) or any(link(u, v) in self.cuts for u, v in zip(path, path[1:])))

    def said(self, relay: int) -> str:
        """What a relay is, in words."""
        words = [f"relay {relay}"]
        words.extend(f"{name} {value}" for name, value in self.mesh.parts(relay).items())
        if relay == self.source:
            words.append("the source of every path")
        words.extend(f"place {path.index(relay)} of path {i}" + (", its end" if relay == path[-1] else "") for i, path in enumerate(self.paths) if relay in path[1:])
        return "; ".join(words)


def link(u: int, v: int) -> tuple[int, int]:
    """A link by its two relays, the lower one first."""
    return (u, v) if u < v else (v, u)


# ---- pieces


def _relay(picture: Picture, relay: int, x: float, y: float, below: str = "") -> str:
    name = str(relay)
    wide = max(34, 8 * len(name) + 12)
    classes = ["relay"]
    if relay == picture.source:
        classes.append("source")
    elif relay in picture.ends:
        classes.append("end")
    if relay in picture.stopped:
        classes.append("stopped")
    more = f'<text class="soft" x="{x:g}" y="{y + 27:g}">{below}</text>' if below else ""
    return (
        f'<g class="{" ".join(classes)}" data-relay="{relay}"><title>{html.escape(picture.said(relay))}</title>'
        f'<rect x="{x - wide / 2:g}" y="{y - 14:g}" width="{wide}" height="28" rx="14"/><text class="name" x="{x:g}" y="{y + 4:g}">{name}</text>{more}</g>'
    )


def _link(picture: Picture, u: int, v: int, course: str) -> str:
    low, high = link(u, v)
    cut = " cut" if (low, high) in picture.cuts else ""
    return f'<g class="link{cut}" data-link="{low}-{high}"><title>link {low} to {high}</title><path class="wire" d="{course}"/><path class="touch" d="{course}"/></g>'


# ---- lanes


def _below(mesh: Mesh, relay: int) -> str:
    return f"slot {relay % 2**mesh.size}" if mesh.kind == 2 else ""


def _group(mesh: Mesh, relay: int) -> str:
    """The part of the mesh that a relay stands in, for the band behind its neighbours there."""
    parts = mesh.parts(relay)
    return f"block {parts['block']}" if "block" in parts else f"class {parts['class']}" if "class" in parts else ""


def _bands(picture: Picture, row: Sequence[int], cell: float, y: float) -> Iterator[str]:
    begin = 0
    while begin < len(row):
        name, end = _group(picture.mesh, row[begin]), begin
        while end < len(row) and _group(picture.mesh, row[end]) == name:
            end += 1
        if name:
            x = LEFT + begin * cell
            yield f'<rect class="band" x="{x + 2:g}" y="{y - 34:g}" width="{(end - begin) * cell - 4:g}" height="68" rx="10"/><text class="soft" x="{x + (end - begin) * cell / 2:g}" y="{y - 22:g}">{name}</text>'
        begin = end


def _lane(picture: Picture, i: int, cell: float, top: float) -> tuple[list[str], float]:
    path = picture.paths[i]
    zone = f", zone {picture.zones[i]}" if picture.zones else ""
    broken = "" if picture.whole(path) else " broken"
    out = [f'<g class="path c{i % len(COLOURS)}{broken}" data-path="{i}">', f'<text class="left lane" x="{LEFT}" y="{top + 16:g}">path {i} to {path[-1]}, {len(path) - 1} hop{"s" if len(path) != 2 else ""}{zone}</text>']
    y = top + 62
    spot: list[tuple[float, float]] = []
    for begin in range(0, len(path), PER):
        row = path[begin : begin + PER]
        out.extend(_bands(picture, row, cell, y))
        spot.extend((LEFT + (j + 0.5) * cell, y) for j in range(len(row)))
        y += LINE + 4
    for j, (u, v) in enumerate(zip(path, path[1:])):
        (x, a), (z, b) = spot[j], spot[j + 1]
        course = f"M{x:g} {a:g} L{z:g} {b:g}" if a == b else f"M{x:g} {a:g} L{x + cell / 2:g} {a:g} L{x + cell / 2:g} {a + LINE / 2 + 2:g} L{z - cell / 2:g} {a + LINE / 2 + 2:g} L{z - cell / 2:g} {b:g} L{z:g} {b:g}"
        out.append(_link(picture, u, v, course))
    out.extend(_relay(picture, relay, x, a, _below(picture.mesh, relay)) for relay, (x, a) in zip(path, spot))
    out.append("</g>")
    return out, y - LINE / 2 + 10


# ---- the mesh itself

GRAY = (0, 1, 3, 2)
BLOCK, GAP = 132, 56


def drawn_whole(mesh: Mesh) -> bool:
    """Whether the mesh itself is drawn: cubes of up to 4 dimensions, orders 1 and 2."""
    return (mesh.kind == 1 and mesh.size <= 4) or (mesh.kind == 2 and mesh.size <= 2)


def _corner(mesh: Mesh, block: int) -> tuple[int, int]:
    half = 1 << (2**mesh.size // 2)
    return GRAY.index(block % half) * (BLOCK + GAP), GRAY.index(block // half) * (BLOCK + GAP)


def _spot(mesh: Mesh, relay: int) -> tuple[float, float]:
    if mesh.kind == 2:
        block, slot = relay >> mesh.size, relay % 2**mesh.size
        x, y = _corner(mesh, block)
        return x + (34 if slot % 2 == 0 else BLOCK - 34), y + (48 if slot < 2 else BLOCK - 22)
    x = 150 * (relay & 1) + 64 * (relay >> 2 & 1) + 330 * (relay >> 3 & 1)
    y = 150 * (1 - (relay >> 1 & 1)) - 58 * (relay >> 2 & 1) + 58 + 104 * (relay >> 3 & 1)
    return x + 30, y + 24


def _course(mesh: Mesh, u: int, v: int) -> str:
    """Straight in a cube and inside a block; an arc between blocks, so that it passes by what stands between."""
    (x, y), (a, b) = _spot(mesh, u), _spot(mesh, v)
    if mesh.kind == 1 or u >> mesh.size == v >> mesh.size:
        return f"M{x:g} {y:g} L{a:g} {b:g}"
    bend = 44 if abs(a - x) + abs(b - y) < 2 * BLOCK else 96
    slot = u % 2**mesh.size
    if y == b:
        return f"M{x:g} {y:g} Q{(x + a) / 2:g} {y - bend:g} {a:g} {b:g}"
    return f"M{x:g} {y:g} Q{x - bend if slot % 2 == 0 else x + bend:g} {(y + b) / 2:g} {a:g} {b:g}"


def _whole_mesh(picture: Picture) -> tuple[list[str], float, float]:
    mesh = picture.mesh
    out = ['<g class="mesh">']
    if mesh.kind == 2:
        for block in range(2 ** 2**mesh.size):
            x, y = _corner(mesh, block)
            out.append(f'<rect class="band" x="{x}" y="{y}" width="{BLOCK}" height="{BLOCK}" rx="12"/><text class="soft" x="{x + BLOCK / 2:g}" y="{y + 16}">block {block}</text>')
    used = {link(u, v) for path in picture.paths for u, v in zip(path, path[1:])}
    for u in range(mesh.relays):
        out.extend(_link(picture, u, v, _course(mesh, u, v)) for v in mesh.neighbours(u) if u < v and (u, v) not in used)
    out.append("</g>")
    on: set[int] = set()
    for i, path in enumerate(picture.paths):
        broken = "" if picture.whole(path) else " broken"
        out.append(f'<g class="path c{i % len(COLOURS)}{broken}" data-path="{i}">')
        out.extend(_link(picture, u, v, _course(mesh, u, v)) for u, v in zip(path, path[1:]))
        out.append("</g>")
    for i, path in enumerate(picture.paths):
        out.append(f'<g class="c{i % len(COLOURS)}">')
        out.extend(_relay(picture, relay, *_spot(mesh, relay)) for relay in path if relay not in on)
        on.update(path)
        out.append("</g>")
    out.extend(_relay(picture, relay, *_spot(mesh, relay)) for relay in range(mesh.relays) if relay not in on)
    spots = [_spot(mesh, relay) for relay in range(mesh.relays)]
    return out, max(x for x, _ in spots) + 60, max(y for _, y in spots) + 50


# ---- the whole


def svg(picture: Picture, live: bool = False) -> str:
    """The drawing as SVG. In a page that is `live` how many paths are whole is said elsewhere."""
    widest = max(len(str(relay)) for path in picture.paths for relay in path)
    cell = max(CELL, 8 * widest + 24)
    whole = sum(picture.whole(path) for path in picture.paths)
    body = [f'<text class="left head" x="{LEFT}" y="34">{html.escape(picture.headline)}</text>']
    if not live:
        body.append(f'<text class="left" x="{LEFT}" y="56">{whole} of {len(picture.paths)} paths are whole</text>')
    top, wide = 72.0, LEFT * 2 + cell * min(PER, max(map(len, picture.paths)))
    if drawn_whole(picture.mesh):
        drawn, across, down = _whole_mesh(picture)
        body.extend([f'<g transform="translate({LEFT + 40} {top + 40:g})">', *drawn, "</g>"])
        top, wide = top + down + 60, max(wide, across + LEFT * 2 + 100)
    for i in range(len(picture.paths)):
        lane, top = _lane(picture, i, cell, top)
        body.extend(lane)
    wide = max(wide, 11 * len(picture.headline) + 2 * LEFT)
    return "\n".join([
        f'<svg xmlns="http://www.w3.org/2000/svg" viewBox="0 0 {wide:g} {top + 10:g}" width="{wide:g}" height="{top + 10:g}">',
        f"<style>{STYLE}{_colours()}</style>",
        f'<rect width="{wide:g}" height="{top + 10:g}" fill="#ffffff"/>',
        *body,
        "</svg>",
        "",
    ])


def page(picture: Picture) -> str:
    """One page that needs nothing else: the drawing, and what clicks on it do."""
    template = importlib.resources.files(__package__).joinpath("page.html").read_text(encoding="utf-8")
    data = {
        "paths": [list(path) for path in picture.paths],
        "zones": list(picture.zones),
        "stopped": sorted(picture.stopped),
        "cuts": [f"{u}-{v}" for u, v in sorted(picture.cuts)],
    }
    return template.replace("@TITLE@", html.escape(picture.headline)).replace("@DATA@", json.dumps(data)).replace("@PICTURE@", svg(dataclasses.replace(picture, stopped=frozenset(), cuts=frozenset()), live=True))
