#!/usr/bin/env python3
"""Code that takes a block for a slot, or a slot for a block, does not compile.

    python3 tests/slots.py        each piece of code below, as a crate of its own over the crate two, must be refused for its types

Run it after `rt lib` in crates/two: what is proved is not proved again.
"""
import os
import subprocess
import sys
import tempfile

import partial

HEAD = "#![tactic(auto)]\n\nuse answers::Refusal;\nuse two::Block;\nuse two::Order;\nuse two::Slot;\n"
RIGHT = "pub fn f(b: Block, p: Slot) -> Result<bool, Refusal> { two::linked(Order(2), (b, p), (b, p)) }"
WRONG = {
    "a slot passed as a block": "pub fn f(b: Block, p: Slot) -> Result<bool, Refusal> { two::linked(Order(2), (p, p), (b, p)) }",
    "a block passed as a slot": "pub fn f(b: Block, p: Slot) -> Result<u64, Refusal> { two::next_hop(Order(2), (b, p), (b, b)) }",
    "a number passed as a block": "pub fn f(b: u64, p: Slot) -> Result<u64, Refusal> { two::seen(Order(2), (b, p), (b, p)) }",
}


def said(sources, code):
    with open(os.path.join(sources, "lib.rt"), "w", encoding="utf-8") as source:
        source.write(HEAD + code + "\n")
    done = subprocess.run(["rt", "check"], cwd=os.path.dirname(sources), capture_output=True, text=True, check=False)
    return done.returncode, done.stdout + done.stderr


def main():
    with tempfile.TemporaryDirectory() as folder:
        sources = partial.copy(folder, ["two"], "types", ["answers", "two_parts", "two"])
        status, words = said(sources, RIGHT)
        if status != 0:
            sys.exit(f"the right code is refused:\n{words[-800:]}")
        for name, code in WRONG.items():
            status, words = said(sources, code)
            if status == 0 or not ("mismatched-types" in words or "unsatisfied-bound" in words):
                sys.exit(f"{name}: not refused for its types\n{words[-800:]}")
            print(f"{name}: refused")


if __name__ == "__main__":
    main()
