#!/usr/bin/env python3
"""What crates/cube_cases is asked, and what it is to write, by the model of cube_model.py: what is told of a size and a pair word for word, each refusal
of a planner by its number and place with the slices untouched, each fan relay by relay. Case G has one answer only.

    python3 tests/cube_cases.py stdin | cmp - crates/cube_cases/stdin
    python3 tests/cube_cases.py judge crates/cube_cases/stdout
"""
import re
import sys

from cube_model import FILLER, UNTOUCHED, WORD, fan, known, linked, plan_refusal, refusal, steps

# dimensions, source, target, and the places of the shortest of three routes: one less than it needs, where there is one
PAIRS = [
    # C, and both ends of the sizes
    (1, 0, 0, 0), (1, 0, 1, 1), (1, 1, 0, 1), (4, 0, 11, 3), (4, 11, 0, 3), (4, 3, 11, 1), (4, 3, 4, 3), (4, 9, 9, 0), (4, 15, 0, 4), (2, 0, 3, 2), (31, 0, 1, 1),
    (32, 2**32 - 1, 2**32 - 1, 0), (32, 0, 2**32 - 1, 32), (32, 2**32 - 1, 0, 32), (32, 2**31, 0, 1),
    # J, L: one fault
    (0, 0, 0, 0), (33, 9, 9, 0), (64, 0, 0, 0), (WORD, 0, 1, 1), (1, 2, 0, 1), (4, 16, 0, 1), (32, 2**32, 0, 1), (1, 0, 2, 1), (4, 0, 16, 1), (32, 0, 2**32, 1),
    # two
    (0, 1, 0, 1), (33, WORD, 0, 1), (0, 0, 1, 1), (33, 0, WORD, 1), (4, 16, 16, 0), (4, 16, 17, 1), (32, WORD, 2**32, 2),
    # three
    (0, 5, 6, 2), (33, WORD, WORD - 1, 1),
]

# dimensions, source, targets, places, counts
PLANS = [
    # G
    (2, 0, [3, 1], 8, 2),
    (1, 0, [1], 3, 1), (3, 7, [0, 6, 3], 16, 4), (3, 0, [3, 5, 6], 15, 3), (4, 9, [6, 8, 15, 0], 24, 4), (32, 2**32 - 1, [0], 34, 1),
    # 1, 2, 3, 4
    (0, 0, [1], 20, 4), (33, 0, [1], 20, 4), (33, WORD, [], 0, 0), (3, 8, [1], 20, 4), (3, 9, [], 0, 0), (3, 0, [], 20, 4), (3, 0, [1, 2, 3, 4], 20, 4), (3, 0, [9, 0, 1, 1], 0, 0),
    # 5, 6 (M), 7
    (3, 0, [1, 8], 20, 4), (3, 0, [0, 1, 8], 0, 0), (3, 0, [1, 0, 1], 20, 4), (3, 5, [1, 1, 5], 0, 0), (3, 0, [1, 2, 1], 20, 4),
    # 8
    (3, 0, [1, 2, 4], 14, 3), (3, 0, [1, 2, 4], 15, 2), (32, 0, [1], 33, 1),
]

# dimensions, source, doors, targets, places, counts; 11 comes after 1 to 7 and before 8
THROUGH = [
    (2, 0, 2, [1], 4, 1), (3, 0, 6, [1, 7], 10, 2), (3, 0, 7, [3, 1, 2], 15, 3),
    (33, 0, 1, [1], 20, 4), (3, 0, 0, [1, 1], 20, 4), (3, 0, 8, [1], 20, 4), (3, 0, 6, [1, 2, 4], 0, 0), (3, 0, 7, [1, 2, 4], 14, 3),
]


def pairs():
    for n, s, t, room in PAIRS:
        for more in range(3):
            yield n, s, t, room + more


def asked():
    for case in pairs():
        yield 1, *case
    for n, s, targets, room, counted in PLANS:
        yield 2, n, s, 0, len(targets), *targets, room, counted
    for n, s, doors, targets, room, counted in THROUGH:
        yield 3, n, s, doors, len(targets), *targets, room, counted


def words(*items):
    return " ".join(str(w) for w in items)


def told(number, value):
    return number, 0, 0 if number else value()


def facts(n):
    line = words("cube", f"{n}: known", int(known(n)))
    for name, value in (("relays", lambda: 2**n), ("links", lambda: n), ("longest", lambda: n + 1), ("places", lambda: n + 2)):
        line += " " + words(name, *told(0 if known(n) else 1, value))
    return line


def pair(n, s, t, room):
    why = refusal(n, s, t)
    way = [] if why else steps(s, t)
    short = why or (8 if room < len(way) else 0)
    holds = [UNTOUCHED] * (room + 2)
    if short == 0:
        holds[: len(way)] = way
    return words(
        "from", s, "to", f"{t}:", "linked", *told(why, lambda: int(linked(s, t))), "next", *told(why, lambda: way[min(1, len(way) - 1)]),
        "in", room, "route", *told(short, lambda: len(way) - 1), "holds", *holds,
    )


def judged(line, name, n, source, doors, targets, room, counted):
    """Whether a line tells a refusal or a fan as the rules have it; whether it is a fan."""
    asked_for, numbers = re.fullmatch(r"(.*):((?: \d+)+ places(?: \d+)+ counts(?: \d+)+)", line).groups()
    assert asked_for == words(name, n, source, doors, "to", *targets), line
    number, place, places, counts = re.fullmatch(r" (\d+) (\d+) places((?: \d+)+) counts((?: \d+)+)", numbers).groups()
    places, counts = ([int(x) for x in part.split()] for part in (places, counts))
    assert len(places) == room + 2 and len(counts) == counted + 2, line
    every = 2 ** min(n, 64) - 1 if name == "plan" else doors
    expected = plan_refusal(n, source, every, targets, room, counted)
    assert (int(number), int(place)) == expected, line
    if expected[0]:
        assert all(x == UNTOUCHED for x in places + counts), line
        return False
    assert fan(n, source, every, targets, places, counts), line
    if name == "plan" and (n, source, targets) == (2, 0, [3, 1]):
        assert places[:8] == [0, 2, 3, FILLER, 0, 1, FILLER, FILLER] and counts[:2] == [2, 1], line
    return True


def judge(path):
    lines = iter(open(path, encoding="ascii").read().splitlines())
    for n, s, t, room in pairs():
        for expected in (facts(n), pair(n, s, t, room)):
            found = next(lines)
            assert found == expected, f"{found}\n{expected}"
    plans = [("plan", n, s, 0, *rest) for n, s, *rest in PLANS] + [("through", *case) for case in THROUGH]
    fans = sum(judged(next(lines), *case) for case in plans)
    assert next(lines, None) is None
    print(f"cube_cases: {len(list(pairs()))} pairs, {fans} fans and {len(plans) - fans} refusals are as the rules say")


if __name__ == "__main__":
    if sys.argv[1] == "stdin":
        for case in asked():
            print(*case)
    else:
        judge(sys.argv[2])
