#!/usr/bin/env python3
"""Request lines through the program `fan`, and each answer held to the specification's rules: what can be read, by a pattern; what is refused, in its
order; and every fan relay by relay. Meshes and the judge are those of mesh_model.py and judge_model.py.

    python3 tests/fan_model.py target/bin/fan
"""
import os
import pty
import random
import re
import subprocess
import sys
import time

from judge_model import FILLER, finding, request
from mesh_model import mesh_of

LINE = re.compile(rb"(cube|two)((?: (?:0|[1-9][0-9]*)){2,66})\n")
EXAMPLE = b"two 1 0 5 1\n", b"fan 2\n6 0 2 3 7 6 4 5\n1 0 1\n"


# ---- the rules

def read(text):
    """Kind, size, source and targets of a line, or None."""
    match = LINE.match(text[:1024])
    numbers = [int(word) for word in match.group(2).split()] if match else [2**64]
    if max(numbers) >= 2**64:
        return None
    return (1 if match.group(1) == b"cube" else 2), numbers[0], numbers[1], numbers[2:]


def paths(mesh, text, k):
    """Places and counts of a fan's text, or None where it is no such text."""
    lines = text.split(b"\n")
    if lines[0] != b"fan %d" % k or len(lines) != k + 2 or lines[-1]:
        return None
    places, counts = [], []
    for line in lines[1:-1]:
        if not re.fullmatch(rb"(?:0|[1-9][0-9]*)(?: (?:0|[1-9][0-9]*))+", line):
            return None
        hops, *relays = map(int, line.split())
        if len(relays) != hops + 1 or hops > mesh.longest:
            return None
        places += relays + [FILLER] * (mesh.longest - hops)
        counts.append(hops)
    return places, counts


def wrong(text, said):
    """What is wrong with an answer, or None."""
    asked = read(text)
    if asked is None:
        return None if said == b"refused 10 0\n" else "a line that is none"
    kind, size, source, targets = asked
    mesh = mesh_of(kind, size)
    why = request(mesh, source, targets)
    if why:
        return None if said == b"refused %d %d\n" % why else "to be refused %d %d" % why
    fan = paths(mesh, said, len(targets))
    if fan is None:
        return "no text of a fan"
    found = finding(mesh, source, targets, *fan)
    return found and "finding %d in path %d at %d" % found


# ---- the lines

def line(kind, size, source, targets):
    return b"%s %d %d" % ((b"cube", b"two")[kind - 1], size, source) + b"".join(b" %d" % t for t in targets) + b"\n"


def links(mesh, u):
    """The relays linked to u: those whose number differs in one bit, of which a mesh has only some."""
    return [u ^ 1 << b for b in range((mesh.relays - 1).bit_length()) if mesh.linked(u, u ^ 1 << b)]


def good(rng):
    """A sound request, its targets spread or crowded about the source or about one relay."""
    kind = rng.choice((1, 2))
    size = rng.randint(1, (32, 5)[kind - 1])
    mesh = mesh_of(kind, size)
    source = rng.randrange(mesh.relays)
    k = rng.choice((1, mesh.links, rng.randint(1, mesh.links)))
    k = min(k, mesh.relays - 1)
    middle = rng.choice((source, rng.randrange(mesh.relays)))
    crowded, targets = rng.random() < 0.5, []
    if crowded and rng.random() < 0.3:
        targets = [t for t in links(mesh, middle) if t != source][:k]
    while len(targets) < k:
        t = rng.randrange(mesh.relays)
        if crowded:
            t = middle
            for _ in range(rng.randint(1, 3)):
                t = rng.choice(links(mesh, t))
        if t != source and t not in targets:
            targets.append(t)
        elif mesh.relays <= 16:
            targets = rng.sample([t for t in range(mesh.relays) if t != source], k)
        else:
            crowded = rng.random() < 0.9
    rng.shuffle(targets)
    return kind, size, source, targets


def refused(rng):
    """A request with something against it, mostly."""
    kind, size, source, targets = good(rng)
    mesh = mesh_of(kind, size)
    for _ in range(rng.randint(1, 2)):
        which, at = rng.randrange(7), rng.randrange(len(targets) + 1)
        if which == 0:
            size = rng.choice((0, 6, 33, 2**64 - 1, rng.randrange(2**64)))
        elif which == 1:
            source = rng.choice((mesh.relays, 2**64 - 1, rng.randrange(2**64)))
        elif which == 2:
            targets = []
        elif which == 3:
            targets = targets + [rng.randrange(mesh.relays) for _ in range(rng.randint(1, 64 - len(targets)))]
        elif which == 4:
            targets.insert(at, rng.choice((mesh.relays, 2**64 - 1)))
        elif which == 5:
            targets.insert(at, source)
        elif targets:
            targets.insert(at, rng.choice(targets))
    return kind, size, source, targets[:64]


def damaged(rng):
    """A line with a byte or a word put in, taken out or changed."""
    text = line(*rng.choice((good, refused))(rng))
    for _ in range(rng.randint(1, 2)):
        at = rng.randrange(len(text))
        which = rng.randrange(6)
        if which == 0:
            text = text[:at] + text[at + 1:]
        elif which == 1:
            text = text[:at] + bytes([rng.choice((0, 9, 13, 32, 43, 45, 47, 48, 58, 255, rng.randrange(256)))]) + text[at + 1:]
        elif which == 2:
            text = text[:at] + rng.choice((b" ", b"0", b"-", b"+", b"\r", b"\n", b"\0", b"1", b"  ", b"x")) + text[at:]
        elif which == 3:
            text = text[:-1] + rng.choice((b" \n", b"\r\n", b"", b"\n\n", b"\ncube 3 0 1\n", b" 18446744073709551616\n", b" 18446744073709551615\n", b" 01\n"))
        elif which == 4:
            text = text.replace(b" ", rng.choice((b"  ", b" 0", b"\t", b" +")), 1)
        else:
            text = rng.choice((b"Cube", b"cub", b"cubes", b"tw", b"twos", b"three", b"", b" cube")) + text[text.find(b" "):]
    return text


def edges():
    """The lines at the edges of the rules, and the cases J to M of the specification."""
    yield EXAMPLE[0]
    yield from (line(1, n, 0, [1]) for n in (0, 1, 32, 33))
    yield from (line(2, m, 0, [1]) for m in (0, 1, 5, 6))
    yield from (line(2, 3, 0, targets) for targets in ([1, 2, 4, 8], [1, 2, 4, 8, 16], [1, 2, 4, 8, 8]))
    yield from (line(2, 1, s, [t]) for s, t in ((7, 0), (8, 0), (0, 7), (0, 8)))
    yield line(1, 3, 0, [1, 0, 1])
    yield from (line(1, 3, 0, targets) for targets in ([], list(range(1, 33)), list(range(1, 34)), list(range(1, 65)), list(range(1, 66))))
    yield from (line(1, 32, 0, range(1, k + 1)) for k in (32, 33, 63, 64, 65))
    yield from (b"cube 3 0 %d\n" % n for n in (2**64 - 1, 2**64, 2**64 + 1, 10 * 2**64, 10**30))
    yield from (b"cube 3 %d 1\n" % n for n in (2**64 - 1, 2**64))
    for length in (1023, 1024, 1025, 1026):
        text = b"cube 3 0" + b" 11111111111111111" * 56
        text += b" " + b"1" * (length - len(text) - 2)
        yield text + b"\n"
        yield text + b"\n" + b"x" * 2000
        yield text + b"\n\n"
        yield b"cube 3 0 1\n" + b"x" * (length - 11)
        yield b"cube 3 0 1" + b"x" * (length - 10)
        yield b"x" * (length - 1) + b"\n"
    for text in (b"", b"\n", b" ", b"cube", b"cube\n", b"cube \n", b"cube 3\n", b"cube 3 \n", b"cube 3 0", b"cube 3 0 \n", b"cube 3 0  1\n", b"cube  3 0 1\n", b"cube 3 00 1\n",
                 b"cube 03 0 1\n", b"cube 3 0 01\n", b"cube 3 0 1\r\n", b"cube 3 0 -1\n", b"cube +3 0 1\n", b" cube 3 0 1\n", b"CUBE 3 0 1\n", b"cube\t3 0 1\n", b"cube 3 0 1 \n",
                 b"cube 3 0 0x1\n", b"cube 3 0 1.\n", b"cube 3 0 1\0\n", b"two 1 0 5 1\nrest", b"two 1 0 5 1\n\xff", b"twos 1 0 5\n", b"cube3 0 1\n", b"cube 3 0 1\ntwo 1 0 5 1\n", b"\ncube 3 0 1\n"):
        yield text


# ---- the program

def run(program, text):
    return subprocess.run([program], input=text, capture_output=True, timeout=20).stdout


def held_open(program, pieces, through=None):
    """What the program says while its input stays open, with the pieces sent one after another."""
    ours, theirs = through() if through else os.pipe()[::-1]
    process = subprocess.Popen([program], stdin=theirs, stdout=subprocess.PIPE)
    try:
        for piece in pieces:
            os.write(ours, piece)
            time.sleep(0.05)
        return process.communicate(timeout=10)[0]
    finally:
        process.kill()
        os.close(ours)
        os.close(theirs)


def terminal():
    return pty.openpty()


def main(program):
    rng = random.Random(20)
    tried = 0
    lines = list(edges())
    lines += [line(*good(rng)) for _ in range(1400)] + [line(*refused(rng)) for _ in range(900)] + [damaged(rng) for _ in range(1300)]
    kinds = {}
    for text in lines:
        said = run(program, text)
        fault = wrong(text, said)
        if fault:
            sys.exit("fan: %r\nis answered %r\n%s" % (text, said, fault))
        tried += 1
        word = b" ".join(said.split()[:2]) if said.startswith(b"refused") else b"fan"
        kinds[word] = kinds.get(word, 0) + 1
    if run(program, EXAMPLE[0]) != EXAMPLE[1]:
        sys.exit("fan: the specification's example is answered otherwise")
    for through in None, terminal:
        for pieces in ([EXAMPLE[0]], [b"two 1 0", b" 5 1", b"\n"], [b"two 1 0 5 1\nrest of the text"]):
            if held_open(program, pieces, through) != EXAMPLE[1]:
                sys.exit("fan: %r is not answered while the input is open" % pieces)
    if held_open(program, [b"x" * 1000, b"x" * 24]) != b"refused 10 0\n":
        sys.exit("fan: 1,024 bytes without a line end are not answered while the input is open")
    print("fan:", tried, "lines answered by the rules:", ", ".join("%s %d" % (word.decode(), n) for word, n in sorted(kinds.items())))


if __name__ == "__main__":
    main(sys.argv[1])
