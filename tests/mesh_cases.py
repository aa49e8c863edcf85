#!/usr/bin/env python3
"""What crates/mesh_cases is asked, and what it is to write, by the models beside this file: what is told of meshes, pairs, plans and sheets word for word;
what is planned, which the rules do not fix, by a judge.

    python3 tests/mesh_cases.py stdin | cmp - crates/mesh_cases/stdin
    python3 tests/mesh_cases.py judge crates/mesh_cases/stdout
"""
import sys

import judge_model
import mesh_model
import plan_model
import sheet_model
import two_model


def parts():
    """Order, block, slot, block, slot: J and L by parts, every pair of order 1, and pairs of order 2 that turn the block's bits about."""
    yield from ((6, 0, 0, 0, 0), (0, 0, 0, 0, 0), (5, 2**32 - 1, 31, 0, 0), (5, 2**32, 31, 0, 32), (4, 2**16 - 1, 15, 1, 9), (3, 255, 7, 3, 2))
    yield from ((1, 3, 1, 0, 0), (1, 4, 0, 0, 0), (1, 0, 2, 0, 0), (1, 0, 0, 4, 0), (1, 0, 0, 0, 2))
    for s in range(8):
        for t in range(8):
            yield 1, s // 2, s % 2, t // 2, t % 2
    for s in (0, 23, 27, 63):
        for t in range(64):
            yield 2, s // 4, s % 4, t // 4, t % 4


def parts_told(m, b, p, c, q):
    """By parts: the source's number, linked, next hop, the target as the source sees it, distance, hops. By numbers: as it sees it."""
    mesh = mesh_model.mesh_of(2, m)

    def named(block, slot):
        if mesh is None:
            return 0
        return block * 2**m + slot if block < 2 ** 2**m and slot < 2**m else mesh.relays

    def seen(s, t):
        return two_model.number(m, two_model.seen(two_model.relay(m, s), two_model.relay(m, t)))

    s, t = named(b, p), named(c, q)
    why = mesh_model.refusal(mesh, s, t)
    way = [] if why else mesh.route(s, t)
    number, other = mesh_model.refusal(mesh, s, 0), mesh_model.refusal(mesh, t, 0)
    words = [
        "parts", *mesh_model.told(number, lambda: s), "linked", *mesh_model.told(why, lambda: int(mesh.linked(s, t))),
        "next", *mesh_model.told(why, lambda: way[min(1, len(way) - 1)]), "seen", *mesh_model.told(why, lambda: seen(s, t)),
        "distance", *mesh_model.told(mesh_model.refusal(mesh, s, t, distance=True), lambda: mesh.distance(s, t)), "hops", *mesh_model.told(why, lambda: len(way) - 1),
    ]
    yield " ".join(map(str, words))
    u, v = (0 if number else s), (0 if other else t)
    yield " ".join(map(str, ["seen", *mesh_model.told(mesh_model.refusal(mesh, u, v), lambda: seen(u, v))]))


def asked():
    for case in mesh_model.cases():
        yield " ".join(map(str, (1, *case)))
    for case in parts():
        yield " ".join(map(str, (2, *case)))
    for case in judge_model.cases():
        yield "3 " + judge_model.asked(*case)
    yield from sheet_model.asked(*sheet_model.small())
    for case in plan_model.cases():
        yield "4 " + plan_model.asked(*case)


def answered():
    for case in mesh_model.cases():
        yield mesh_model.facts(*case[:2])
        yield mesh_model.pair(*case)
    for case in parts():
        yield from parts_told(*case)
    for case in judge_model.cases():
        yield judge_model.answered(*case)
    yield from sheet_model.answered(*sheet_model.small())


def judge(path):
    lines = open(path, encoding="ascii").read().splitlines()
    expected = list(answered())
    for i, (found, line) in enumerate(zip(lines, expected), 1):
        assert found == line, f"{path}: line {i}\n  found    {found[:300]}\n  expected {line[:300]}"
    planned = plan_model.judge(lines[len(expected):])
    print(f"mesh_cases: {len(expected)} lines as the models have them, {planned} as the rules say")


if __name__ == "__main__":
    if sys.argv[1] == "stdin":
        for line in asked():
            print(line)
    else:
        judge(sys.argv[2])
