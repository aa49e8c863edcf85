#!/usr/bin/env python3
"""The writer and the reader of sheets, from the specification's rules alone; and the cases that a program over the routines can be asked.

    python3 tests/sheet_model.py            both round trips over every case, case I, and the sheets of docs/SHEETS.md
    python3 tests/sheet_model.py fans       how many fans there are
    python3 tests/sheet_model.py stdin N    what crates/mesh_cases can be asked of fan N: every byte of its sheet damaged, the sheet cut to every length; of lone
                                            paths, where N is how many fans there are
    python3 tests/sheet_model.py stdout N   what it is to answer

A line that asks the writer: 5, kind, size, source; targets, places and counts, each with its length before it; how many bytes are lent.
A line that asks the reader: 6; the bytes, with their length before them; how many places, counts and target places are lent.
Lent slices hold 9 (bytes: 249) before, and are answered whole. F is 2^64 - 1.

The judge is judge_model.py's and the meshes are mesh_model.py's: neither shares anything with the code.
"""
import os
import re
import sys

from judge_model import FANS, FILLER, HELD, fan, judge, laid
from mesh_model import WORD, mesh_of

LENT_BYTE = 249


# ---- the writer and the reader

def lone(kind, k):
    """A single path of a two-level mesh."""
    return kind == 2 and k == 1


def sheet(kind, size, s, paths):
    """The bytes of paths, each a list of the relays after the source."""
    body = bytes([1, kind, size, len(paths)]) + s.to_bytes(8, "big")
    for path in paths:
        body += len(path).to_bytes(2, "big") + b"".join(x.to_bytes(8, "big") for x in path)
    return len(body).to_bytes(4, "big") + body


def write(kind, size, s, targets, places, counts, out):
    """Number, length of the sheet, and the lent bytes afterwards."""
    if lone(kind, len(targets)):
        return 37, 0, out
    mesh = mesh_of(kind, size)
    told = judge(kind, size, s, targets, places, counts)[0] if mesh and mesh.planned else 1
    if told:
        return 8 if told == 8 else 35, 0, out
    width = mesh_of(kind, size).longest + 1
    made = list(sheet(kind, size, s, [places[i * width + 1: i * width + 1 + counts[i]] for i in range(len(targets))]))
    if len(out) < len(made):
        return 8, 0, out
    return 0, len(made), made + out[len(made):]


def paths_of(data, k, longest):
    """The paths after the head; or the number of what is wrong, and the path that it tells."""
    at, paths = 16, []
    for i in range(k):
        if len(data) < at + 2:
            return None, (30, 0)
        hops = int.from_bytes(data[at: at + 2], "big")
        if not 1 <= hops <= longest:
            return None, (34, i)
        at, end = at + 2, at + 2 + 8 * hops
        if len(data) < end:
            return None, (30, 0)
        paths.append([int.from_bytes(data[p: p + 8], "big") for p in range(at, end, 8)])
        at = end
    return (paths, None) if at == len(data) else (None, (36, 0))


def read(data, places, counts, targets):
    """Number, path and place; kind, size, source and how many paths; and the lent slices afterwards."""
    def refused(number, path=0, place=0):
        return (number, path, place, 0, 0, 0, 0), places, counts, targets

    data = bytes(data)
    if len(data) < 16 or int.from_bytes(data[:4], "big") != len(data) - 4:
        return refused(30)
    version, kind, size, k = data[4:8]
    if version != 1:
        return refused(31)
    mesh = mesh_of(kind, size)
    if mesh is None or not mesh.planned:
        return refused(32)
    if not 1 <= k <= mesh.links:
        return refused(33)
    if lone(kind, k):
        return refused(37)
    width = mesh.longest + 1
    if len(places) < k * width or len(counts) < k or len(targets) < k:
        return refused(8)
    s = int.from_bytes(data[8:16], "big")
    paths, wrong = paths_of(data, k, mesh.longest)
    if wrong:
        return refused(*wrong)
    rows, hops = laid(mesh, [[s] + path for path in paths])
    ends = [path[-1] for path in paths]
    told = judge(kind, size, s, ends, rows, hops)
    if told[0]:
        return refused(*told)
    return (0, 0, 0, kind, size, s, k), rows + places[k * width:], hops + counts[k:], ends + targets[k:]


# ---- the cases

def with_length(data):
    """The bytes with the length field made right."""
    return list((len(data) - 4).to_bytes(4, "big")) + list(data[4:]) if len(data) >= 4 else list(data)


def large():
    """As many paths as links in the largest meshes, and a plain route through all slots of order 5, with a second path beside it."""
    for kind, size in ((1, 32), (2, 5)):
        mesh = mesh_of(kind, size)
        near = [v for v in (2**i for i in range(37)) if v < mesh.relays and mesh.linked(0, v)]
        yield kind, size, 0, near, *laid(mesh, [[0, v] for v in near])
    mesh = mesh_of(2, 5)
    route = mesh.route(0, mesh.relays - 1)
    beside = next(v for v in near if v not in route)
    yield 2, 5, 0, [mesh.relays - 1, beside], *laid(mesh, [route, [0, beside]])


def fans():
    """Those that a sheet may hold: no lone paths."""
    for kind, size, s, targets in FANS:
        if not lone(kind, len(targets)):
            yield kind, size, s, targets, *fan(kind, size, s, targets)
    yield from large()


def lone_fans():
    """A lone path of each order, of one hop, and one of many hops in the largest."""
    for size in range(1, 6):
        yield size, *laid(mesh_of(2, size), [[0, 1]]), [1]
    mesh = mesh_of(2, 5)
    yield 5, *laid(mesh, [mesh.route(0, mesh.relays - 1)]), [mesh.relays - 1]


def bytes_of(kind, size, s, targets, places, counts):
    number, n, out = write(kind, size, s, targets, places, counts, [LENT_BYTE] * 60000)
    assert number == 0
    return out[:n]


# a sheet is damaged in every byte where it has no more of them
LONGEST_DAMAGED = 130


def writer_cases(some):
    """Each fan into room that is one short, exact and more; slices longer than they need be; no fan, no request, no room."""
    for kind, size, s, targets, places, counts in some:
        n = len(bytes_of(kind, size, s, targets, places, counts))
        for room in (0, n - 1, n, n + 3):
            yield kind, size, s, targets, places, counts, room
        yield kind, size, s, targets, places + [0, s], counts + [WORD], n
        yield kind, size, s, targets, places[:-1], counts, n
        yield kind, size, s, targets, places, counts[:-1], 0
        yield kind, size, s, targets, [s + 1] + places[1:], counts, n
        yield kind, size, s, targets, places, [0] + counts[1:], 0
        yield kind, size, s, targets, places, [WORD] + counts[1:], n
        yield kind, size, s, [], places, counts, n
        yield kind, size, s, [s] + targets[1:], places, counts, n
        yield kind, size, mesh_of(kind, size).relays, targets, places, counts, n
        yield 3, size, s, targets, places, counts, n
        yield 4, size, s, targets, places, counts, n
        # one target: 37 in a two-level mesh, and in a cube what the judge says
        yield kind, size, s, targets[:1], places, counts, n
        # a request that is wrong comes before room that is wanting
        yield kind, 0, s, targets, [], [], 0
    yield WORD, WORD, WORD, [], [], [], 0


def lone_writes():
    """37 alone, and before each other number: kind 2 and one target, whatever else is wrong."""
    for size, places, counts, targets in lone_fans():
        n = 18 + 8 * counts[0]
        for room in (0, n - 1, n, n + 3):
            yield 2, size, 0, targets, places, counts, room
        for wrong in (0, 6, 9, 258, WORD):
            yield 2, wrong, 0, targets, places, counts, n
        yield 2, size, WORD, targets, places, counts, n
        yield 2, size, 0, [0], places, counts, n
        yield 2, size, 0, [WORD], [], [], 0
        yield 2, size, 1, targets, places, counts, 0
        yield 2, size, 0, targets, places[:-1], counts, n
        yield 2, size, 0, targets, places, [], n
        yield 2, size, 0, targets, [1] + places[1:], counts, n
    # no target, and one of another kind, are not 37
    yield 2, 1, 0, [], [], [], 0
    yield 258, 1, 0, [1], [], [], 0
    yield 3, 1, 0, [1], [], [], 0
    for n in (1, 2, 32):
        yield 1, n, 0, [1], *laid(mesh_of(1, n), [[0, 1]]), 26


def lone_reads():
    """37 alone, before room and all that comes after it, and after 30 to 33; a cube with one path is read."""
    for size, places, counts, targets in lone_fans():
        data, n = list(sheet(2, size, 0, [places[1: 1 + counts[0]]])), len(places)
        for room in ((n, 1, 1), (n - 1, 1, 1), (n, 0, 1), (0, 0, 0)):
            yield data, room
        for at, value in ((3, 0), (4, 0), (4, 2), (5, 0), (5, 3), (6, 0), (6, 6), (7, 0), (7, 2), (7, 9), (8, 255), (17, 0), (17, 255), (25, 255), (25, 0)):
            yield data[:at] + [value] + data[at + 1:], (n, 1, 1)
            yield data[:at] + [value] + data[at + 1:], (0, 0, 0)
        for cut in (data[:16], data[:17], data[:-1], data + [0]):
            yield with_length(cut), (n, 1, 1)
            yield list(cut), (n, 1, 1)
    for n in (1, 2, 32):
        places, counts = laid(mesh_of(1, n), [[0, 1]])
        yield list(sheet(1, n, 0, [[1]])), (len(places), 1, 1)


def damaged(data):
    """Each byte changed; bytes cut off and bytes too many, with the length field as it was and made right."""
    for at, old in enumerate(data):
        for new in sorted({0, 1, 2, 3, 4, 5, 7, 8, 64, 128, 255, old ^ 1, old ^ 2, old ^ 4} - {old}):
            yield data[:at] + [new] + data[at + 1:]
    for n in range(len(data)):
        yield data[:n]
        yield with_length(data[:n])
    for more in ([0], [0, 1], [0, 1] + [0] * 8):
        yield data + more
        yield with_length(data + more)


def spoiled(kind, size, s, targets, places, counts):
    """The sheet with what the judge finds fault with, on the first path and the last, at the first place and the last; and with two such faults."""
    mesh, k = mesh_of(kind, size), len(targets)
    width = mesh.longest + 1
    paths = [places[i * width + 1: i * width + 1 + counts[i]] for i in range(k)]

    def with_path(i, path):
        return paths[:i] + [path] + paths[i + 1:]

    def with_relay(i, p, relay):
        return with_path(i, paths[i][:p] + [relay] + paths[i][p + 1:])

    out = mesh.relays
    for wrong in (out, WORD):
        yield wrong, paths
        yield wrong, with_relay(k - 1, -1 % counts[k - 1], s)
    for i in sorted({0, k - 1}):
        path, other = paths[i], paths[k - 1 - i]
        for p in sorted({0, len(path) - 1}):
            before = path[p - 1] if p else s
            far = next((x for x in range(out) if x not in (before, s, *targets) and not mesh.linked(before, x)), before)
            for relay in (out, WORD, s, before, far, other[-1]):
                yield s, with_relay(i, p, relay)
        # a step back to the relay before, and on again or not: 24 at the second place, and at the last
        yield s, with_path(i, path[:1] + [s] + path)
        yield s, with_path(i, path + [path[-2] if len(path) > 1 else s])
        yield s, with_path(i, path + path[-2:-1] + path[-1:])
        # the way of the other path, and one more step of it or of its own
        yield s, with_path(i, other[:-1] or path)
        yield s, with_path(i, other + path[-1:])
        # two faults: a target before a finding, 5 before 6 before 7, the first path before the second
        yield s, [[s]] + paths[1:-1] + [[out]] if k > 1 else [[out, s]]
        yield s, [[other[-1]]] + paths[1:-1] + [[s]] if k > 1 else [[s, s]]
        yield s, [paths[0][:1] + [s] + paths[0]] + paths[1:-1] + [[other[-1], path[-1]]] if k > 1 else [[path[0], s, path[0], out]]


def reader_cases(some, damage):
    for kind, size, s, targets, places, counts in some:
        data, k, n = bytes_of(kind, size, s, targets, places, counts), len(targets), len(places)
        for room in ((n, k, k), (n + 2, k + 1, k + 3), (n - 1, k, k), (n, k - 1, k), (n, k, k - 1), (0, 0, 0)):
            yield data, room
        # room before hops; hops before bytes that run out and bytes left over
        yield data[:16] + [0, 0] + data[18:], (n - 1, k, k)
        yield data[:16] + [0, 0] + data[18:], (n, k, k)
        yield with_length(data[:16] + [255, 255] + data[18:20]), (n, k, k)
        yield with_length(data[:-1]), (n, k, k)
        # what the judge finds fault with, and room before it
        for source, paths in spoiled(kind, size, s, targets, places, counts):
            if all(len(path) <= mesh_of(kind, size).longest for path in paths):
                yield list(sheet(kind, size, source, paths)), (n, k, k)
        yield list(sheet(kind, size, mesh_of(kind, size).relays, [[s]] * k)), (n - 1, k, k)
        # each number of paths, kinds and sizes, one at a time
        for at in (5, 6, 7):
            for value in (0, 1, 2, 3, 4, 5, 6, 32, 33, 255) if damage else (0, 3, 33):
                yield data[:at] + [value] + data[at + 1:], (n, k, k)
        if damage and len(data) <= LONGEST_DAMAGED:
            for wrong in damaged(data):
                yield wrong, (n, k, k)
    yield [], (0, 0, 0)


# ---- the program's lines

def words(items):
    return " ".join(str(w) for w in items)


def run(items):
    return [len(items), *items]


def asked(writes, reads):
    for kind, size, s, targets, places, counts, room in writes:
        yield words([5, kind, size, s, *run(targets), *run(places), *run(counts), room]).replace(str(FILLER), "F")
    for data, room in reads:
        yield words([6, *run(data), *room])


def answered(writes, reads):
    for kind, size, s, targets, places, counts, room in writes:
        number, n, out = write(kind, size, s, targets, places, counts, [LENT_BYTE] * room)
        yield words(["wrote", number, n, "bytes", *out])
    for data, room in reads:
        told, places, counts, targets = read(data, *([HELD] * n for n in room))
        yield words(["read", *told, "places", *places, "counts", *counts, "targets", *targets])


# ---- the model held to the rules

def there_and_back():
    """A fan that is written reads back the same."""
    for kind, size, s, targets, places, counts in fans():
        k, n = len(targets), len(places)
        told, *slices = read(bytes_of(kind, size, s, targets, places, counts), *([HELD] * (m + 1) for m in (n, k, k)))
        assert told == (0, 0, 0, kind, size, s, k), (kind, size, s, targets)
        assert slices == [places + [HELD], counts + [HELD], targets + [HELD]], (kind, size, s, targets)


def back_and_there():
    """A sheet that is accepted writes back to the same bytes; how many were. The others meet every number that can come out of a sheet, and no other, the
    judge's on the first path and the last, at the first place and the last."""
    accepted, met = 0, set()
    for data, room in (*reader_cases(list(fans()), True), *lone_reads()):
        (number, path, place, kind, size, s, k), places, counts, targets = read(data, *([HELD] * n for n in room))
        met.add((number, "", ""))
        if number == 0:
            accepted += 1
            number, n, out = write(kind, size, s, targets[:k], places, counts, [LENT_BYTE] * (len(data) + 1))
            assert (number, n, out) == (0, len(data), data + [LENT_BYTE]), data
        elif number in (5, 6, 7):
            met.add((number, "", "first" if place == 0 else "last" if place == data[7] - 1 else "between"))
        elif number in (22, 24):
            hops = len(paths_of(bytes(data), data[7], WORD)[0][path])
            for where in ({"first"} if place == (1 if path or number == 22 else 2) else set()) | ({"last"} if place == hops else set()):
                met |= {(number, which, where) for which, i in (("first", 0), ("last", data[7] - 1)) if path == i}
    assert {number for number, _, _ in met} == {0, 8, 30, 31, 32, 33, 37, 34, 36, 2, 5, 6, 7, 22, 24}, met
    ends = ("first", "last")
    wanted = {(n, "", e) for n in (5, 6, 7) for e in ends} | {(n, which, where) for n in (22, 24) for which in ends for where in ends}
    assert wanted - met == {(7, "", "first")}, wanted - met
    return accepted


def in_hex(data):
    return " ".join("%02x" % b for b in data)


def worked():
    """Case I, and the sheets that docs/SHEETS.md shows."""
    case_i = sheet(1, 1, 0, [[1]])
    assert in_hex(case_i) == "00 00 00 16 01 01 01 01 " + "00 " * 8 + "00 01 " + "00 " * 7 + "01"
    page = os.path.join(os.path.dirname(__file__), "..", "docs", "SHEETS.md")
    text = open(page, encoding="utf-8").read()
    blocks = re.findall(r"```\n(.*?)```", text, re.S)
    shown = [" ".join(re.findall(r"\b[0-9a-f]{2}\b", "\n".join(line[:32] for line in block.split("\n")))) for block in blocks]
    second = sheet(1, 2, 0, [[2, 3], [1]])
    zoned = bytes([0, 0, 0, 26, 2]) + case_i[5:18] + (258).to_bytes(4, "big") + case_i[18:]
    assert shown == [in_hex(case_i), in_hex(zoned), in_hex(second)], shown
    # the table of damaged sheets: number, path and place, and the byte that is changed in the last sheet or the first
    rows = re.findall(r"^\| (\d+) \| (\d+) \| (\d+) \| byte (\d+)( of the first)? set to ([0-9a-f]{2}) \|", text, re.M)
    for *told, at, first, value in rows:
        good = case_i if first else second
        bad = list(good[:int(at)] + bytes([int(value, 16)]) + good[int(at) + 1:])
        assert list(read(bad, *([HELD] * 99,) * 3)[0][:3]) == [int(n) for n in told], (told, at, value)
    assert {int(row[0]) for row in rows} == {30, 31, 32, 33, 37, 34, 36, 2, 5, 6, 7, 22, 24}, rows


def small():
    """The program's own cases: those of two small fans, no byte damaged, and of lone paths of orders 1 and 2."""
    some = [f for f in fans() if f[:4] in ((1, 2, 0, [3, 1]), (2, 1, 0, [5, 1]))]
    writes = [case for case in lone_writes() if len(case[4]) <= 21]
    reads = [case for case in lone_reads() if case[1][0] <= 21]
    return [*writer_cases(some), *writes], [*reader_cases(some, False), *reads]


def all_of(n):
    """The cases of fan n, and after the last fan those of lone paths."""
    some = list(fans())[n:n + 1]
    return (writer_cases(some), reader_cases(some, True)) if some else (lone_writes(), lone_reads())


if __name__ == "__main__":
    if sys.argv[1:] == ["fans"]:
        print(len(list(fans())))
    elif len(sys.argv) > 1:
        for line in (asked if sys.argv[1] == "stdin" else answered)(*all_of(int(sys.argv[2]))):
            print(line)
    else:
        there_and_back()
        count = back_and_there()
        worked()
        print(f"sheets: fans read back the same, and {count} accepted sheets write back to the same bytes")
