#!/usr/bin/env python3
"""What the edits that must be refused are refused for: each wrong answer by a fact of its own function.

    python3 tests/edits.py [LOG]      reads what `rt ci` printed, target/gate.log where none is named

An edit of crates/*/must-fail may hold several wrong answers, each in a function of its own, so that a crate is proved again once for all of them. Each begins with a line
`# NAME: what is wrong`, and `fn:` names the function that it changes. An edit with no `fn:` changes a constant, a definition or two functions at once: of such a one no more is asked than the gate does. The gate asks only that the crate is refused, and prints of each
edit the first thing that the prover said against it. This asks more: that every function named was refused for itself, not because a function that it calls was, and not only because a proof no longer fits its text. Of an edit that names one function the gate's line says that; one
that names several, or whose line does not say it, is checked once more, in a copy of the crates that it needs, and everything that the prover says of it is read.
"""
import concurrent.futures
import os
import pathlib
import queue
import re
import subprocess
import sys
import tempfile

import partial

NAMED = re.compile(r"^fn: (\S+)$", re.M)
TOLD = re.compile(r"^rt: must-fail (\w+)/(\S+)\.edit: (refused, as it must be)(?: \((only [^)]*)\))?(?:: )?(.*)$", re.M)
UNFIT = re.compile(r"module `[^`]*` has no `|has no field `|cannot be named|is not in scope")


def proof_of(function):
    """The places, below proofs/, where the proof of a function may stand: one that calls itself stands under its name with a + before it."""
    *modules, name = function.split("::")[1:]
    folder = "/".join(modules)
    return [f"proofs/{folder + '/' if folder else ''}{mark}{name}/" for mark in ("", "+")]


def own(function, lines):
    """The errors of a function's own proof that are facts, and not names that the edit took away."""
    return [line for line in lines if ": error: " in line and any(place in line for place in proof_of(function)) and "not checked" not in line and not UNFIT.search(line)]


def refused(function, log):
    """Whether a function was refused for itself."""
    said = next((line for line in log if line.startswith(f"fn {function}: ")), "")
    if not said or said == f"fn {function}: proved":
        return False
    return bool(own(function, log)) or "`search` did not prove" in said


def edited(folder, edit):
    """The files that an edit changes, by their place in the crate, as it leaves them."""
    path, old, texts = None, None, {}
    for line in edit.splitlines():
        if line.startswith("file: "):
            path = line.removeprefix("file: ").strip()
        elif line.startswith("old: "):
            old = line.removeprefix("old: ")
        elif line.startswith("new:"):
            texts.setdefault(path, (folder / path).read_text(encoding="utf-8"))
            texts[path] = texts[path].replace(old, line.removeprefix("new:").removeprefix(" "))
    return texts


def checked(copy, crate, edit):
    """What the prover says of a crate of the copy with an edit in it."""
    folder = pathlib.Path(copy, "crates", crate)
    texts = edited(folder, edit)
    kept = {path: (folder / path).read_text(encoding="utf-8") for path in texts}
    try:
        for path, text in texts.items():
            (folder / path).write_text(text, encoding="utf-8")
        return subprocess.run(["rt", "check"], cwd=folder, stdin=subprocess.DEVNULL, stdout=subprocess.PIPE, stderr=subprocess.STDOUT, text=True, errors="replace").stdout.splitlines()
    finally:
        for path, text in kept.items():
            (folder / path).write_text(text, encoding="utf-8")


def main(log="target/gate.log"):
    said = {(crate, name): (only, first) for crate, name, _, only, first in TOLD.findall(pathlib.Path(log).read_text(encoding="utf-8", errors="replace"))}
    faults, again, edits, whole, wrong = [], [], 0, 0, 0
    for edit in sorted(pathlib.Path("crates").glob("*/must-fail/*.edit")):
        crate, name, text = edit.parts[1], edit.stem, edit.read_text(encoding="utf-8")
        functions = NAMED.findall(text)
        edits, whole, wrong = edits + 1, whole + (not functions), wrong + len(functions)
        if (crate, name) not in said:
            faults.append(f"{crate}/{name}: not refused by the gate")
        elif len(functions) != len(set(functions)):
            faults.append(f"{crate}/{name}: two wrong answers in one function")
        elif functions and (len(functions) > 1 or said[crate, name][0] or not own(functions[0], [said[crate, name][1]])):
            again.append((crate, name, text, functions))
    copies = queue.Queue()
    count = max(1, min(len(again), (os.cpu_count() or 1) // 2))
    with tempfile.TemporaryDirectory() as room, concurrent.futures.ThreadPoolExecutor(count) as workers:
        for number in range(count):
            partial.crates(f"{room}/{number}", sorted({crate for crate, *_ in again}))
            copies.put(f"{room}/{number}")

        def tried(one):
            crate, name, text, functions = one
            copy = copies.get()
            try:
                lines = checked(copy, crate, text)
            finally:
                copies.put(copy)
            print(f"edits: {crate}/{name}", file=sys.stderr, flush=True)
            return [f"{crate}/{name}: {it} is not refused by a fact of its own" for it in functions if not refused(it, lines)]

        for told in workers.map(tried, again):
            faults += told
    for fault in faults:
        print(f"edits: {fault}")
    print(f"edits: {wrong} wrong answers in {edits - whole} edits, each function refused for itself; {whole} edits of constants and definitions refused as a whole" if not faults else f"edits: {len(faults)} of them are not as they must be")
    return 1 if faults else 0


if __name__ == "__main__":
    sys.exit(main(*sys.argv[1:]))
