#!/usr/bin/env python3
"""The survivors of a fan, and of a bundle, in one list of entries: the cases of judge_model.py and bundle_model.py, run through crates/entries by a program of its own.

    python3 tests/entries.py

The program, below, is run without a proof: on the interpreter and compiled.
Run it after `rt lib` in crates/entries and crates/script: what is proved is not proved again.
"""
import os
import random
import subprocess
import sys
import tempfile

import bundle_model
import partial
from judge_model import HELD, WORD, asked, cases, fan, survivors
from mesh_model import mesh_of

PROGRAM = """// A case at a time: 0 for a fan or 1 for a bundle; kind, size and source; targets, places, counts, stopped relays, cuts and zones, each with its length before it; how
// many entries are lent.
// A line has what is told, the count, and the entries, all (9, 9, 1, 9) before, as they are afterwards.
#![tactic(auto)]

use entries::Entry;
use mesh::Mesh;
use script::{item, put, run};
use std::io;

fn put_entry(to: &impl Print, e: Entry) -> io::Result<()> {
    put(to, e.target)?;
    put(to, e.hops)?;
    put(to, u64::from(e.whole))?;
    put(to, u64::from(e.zone))
}

fn tell(to: &impl Print, mode: u64, mesh: Mesh, source: u64, targets: &[u64], places: &[u64], counts: &[u64], zones: &[u32], stopped: &[u64], cuts: &[u64], room: usize) -> io::Result<()> {
    let mut out = [Entry { target: 9, hops: 9, whole: true, zone: 9 }; 40];
    let n = room.min(40);
    let t = if mode == 0 {
        entries::survivors(mesh, source, targets, places, counts, zones, stopped, cuts, &mut out[..n])
    } else {
        entries::bundle_survivors(mesh, source, item(targets, 0), places, counts, zones, stopped, cuts, &mut out[..n])
    };
    put(to, answers::number(t))?;
    put(to, answers::path(t) as u64)?;
    put(to, answers::place(t) as u64)?;
    put(to, t.unwrap_or(0))?;
    for entry in &out[..n] {
        put_entry(to, *entry)?;
    }
    script::text(to, b"\\n")
}

// The numbers of a list, of 32 bits each, and how many.
fn narrow(list: &[u64], out: &mut [u32]) -> usize {
    for (to, from) in out.iter_mut().zip(list) {
        *to = *from as u32;
    }
    list.len().min(out.len())
}

fn case(to: &impl Print, list: &[u64], from: usize) -> io::Result<usize> {
    let at = from + 1;
    let mesh = Mesh { kind: item(list, at), size: item(list, at + 1) };
    let targets = run(list, at + 3);
    let b = at + 4 + targets.len();
    let places = run(list, b);
    let c = b + 1 + places.len();
    let counts = run(list, c);
    let d = c + 1 + counts.len();
    let stopped = run(list, d);
    let e = d + 1 + stopped.len();
    let cuts = run(list, e);
    let f = e + 1 + cuts.len();
    let long = run(list, f);
    let g = f + 1 + long.len();
    let mut zones = [0u32; 40];
    let n = narrow(long, &mut zones);
    tell(to, item(list, from), mesh, item(list, at + 2), targets, places, counts, &zones[..n], stopped, cuts, item(list, g) as usize)?;
    Ok(g + 1)
}

fn main(rt: HostRuntime) -> io::Result<()> {
    let mut bytes = [0u8; 131072];
    let mut list = [0u64; 65536];
    let k = script::read_numbers(&mut rt.stdin(), &mut bytes, &mut list)?;
    let mut at: usize = 0;
    while at < k {
        at = case(&rt, &list, at)?;
    }
    Ok(())
}
"""


def listed():
    """The model's cases of few places, of those with cuts and of metacubes one in eight (the interpreter's steps are limited), with one list, as long as the shortest
    of its three columns; then a list that is too short, with more against it."""
    for i, (*case, room) in enumerate(cases()):
        if len(case[4]) <= 64 and (i % 8 == 0 or not case[7] and case[0] != 3):
            yield *case, min(room)
    places, counts = fan(1, 3, 0, [7, 1, 6])
    for room in (0, 2, 3):
        for source, first in ((0, 0), (8, 0), (0, 1), (8, 1), (WORD, 1)):
            yield 1, 3, source, [7, 1, 6], [first] + places[1:], counts, [2], [0, 4], room
    yield 1, 3, 0, [7, 1, 1], places, counts, [], [], 2


def answered(told, count, columns):
    entries = [[t, h, 1 if w == HELD else w, z] for t, h, w, z in zip(*columns)]
    return "".join(f" {x}" for x in [*told, count, *sum(entries, [])])


def zoned(chance, k):
    """Zones for k paths; one time in eight there is one more, and one time in eight one too few."""
    n = max(0, k + chance.choice((0, 0, 0, 0, 0, 0, 1, -1)))
    return [chance.choice((0, chance.randrange(1, 10), chance.randrange(1 << 32), (1 << 32) - 1)) for _ in range(n)]


def lines():
    """What is asked and what is to be answered, of fans and then of bundles."""
    chance = random.Random(23)
    for *case, room in listed():
        zones = zoned(chance, len(case[3]))
        yield "0 " + asked(*case, (len(zones), *zones, room)), answered(*survivors(*case, (room,) * 4, zones))
    for kind, size, s, t, places, counts, *failed, room in bundle_model.cases():
        mesh = mesh_of(kind, size)
        zones = zoned(chance, mesh.links if mesh else 0)
        told = bundle_model.survivors(kind, size, s, t, places, counts, zones, *failed, (room,) * 4)
        yield "1 " + asked(kind, size, s, [t], places, counts, *failed, (len(zones), *zones, room)), answered(*told)


def prepare(folder):
    """A copy of the repository as far as the crate entries reaches, with the program; its folder."""
    sources = partial.copy(folder, ["entries", "script"], "entries_cases", ["answers", "mesh", "survivors", "entries", "script"])
    crate = os.path.dirname(sources)
    with open(os.path.join(sources, "main.rt"), "w", encoding="utf-8") as source:
        source.write(PROGRAM)
    return crate


def main():
    with tempfile.TemporaryDirectory() as folder:
        crate = prepare(folder)
        asked_of, expected = ("".join(line[part] + "\n" for line in lines()) for part in (0, 1))
        done = subprocess.run(["rt", "try"], cwd=crate, input=asked_of, capture_output=True, text=True, check=False)
        if done.returncode != 0 or done.stdout != expected:
            sys.exit(f"entries: FAILED\n{(done.stdout + done.stderr)[-2000:]}")
    print(f"entries: {len(list(lines()))} lists are as the models have them")


if __name__ == "__main__":
    main()
