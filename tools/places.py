#!/usr/bin/env python3
"""The places of older forms in src/ that docs/DESIGN-PASS.md counts, each with its file and line.

    python3 tools/places.py [COMMIT] [--list]     of a commit, or of the checkout where none is named; --list prints each place

What a pattern finds is a candidate: the page says which of them are places, which stay, and why. A place that stays has a comment line `// Stays: ..` beside it.
"""
import collections
import pathlib
import re
import subprocess
import sys


def sources(commit):
    if commit is None:
        return {str(p): p.read_text(encoding="utf-8") for p in sorted(pathlib.Path("crates").glob("*/src/*.rt"))}
    names = subprocess.run(["git", "ls-tree", "-r", "--name-only", commit, "crates"], capture_output=True, text=True, check=True).stdout.split()
    names = [n for n in names if re.fullmatch(r"crates/\w+/src/\w+\.rt", n)]
    return {n: subprocess.run(["git", "show", f"{commit}:{n}"], capture_output=True, text=True, check=True).stdout for n in names}


def lines(text, pattern):
    return [i for i, line in enumerate(text.splitlines(), 1) if re.search(pattern, line) and not line.lstrip().startswith("//")]


def body(text, start):
    """The lines of a block that begins at a line, by its indent."""
    all_lines = text.splitlines()
    indent = len(all_lines[start - 1]) - len(all_lines[start - 1].lstrip())
    out = []
    for line in all_lines[start:]:
        if line.strip() == "}" and len(line) - len(line.lstrip()) == indent:
            break
        out.append(line)
    return out


def enums(text):
    """1: enums of which a variant says that there is nothing, or why there is none."""
    nothing = r"^\s+(Nowhere|Missing|Bad|Broken|Other|Over|Nothing|Unreadable|Malformed|Clean|Fine|No|Refused\(|Flawed\(|Headless|Wrong|Full|Again|Fan|Whole|Yes|Old\()"
    return [i for i in lines(text, r"^\s*(pub )?enum ") if any(re.match(nothing, line) for line in body(text, i))]


def codes(text):
    """1: numbers that mean none, by the comments that say so, and tests of them."""
    out = []
    for i, line in enumerate(text.splitlines(), 1):
        if re.match(r"\s*//", line) and re.search(r"\(8: nobody\)|, or 8\.|; 0: never|nowhere\.$|; none if there is none|0 where (they begin with|there is) none|as many as it has links where none|which is 0 where there is no way|number \* 256 \+ place|Each call returns the number of the refusal", line):
            out.append(i)
    return out


def indexes(text):
    """3: loops that count an index by hand."""
    out = []
    for i in lines(text, r"^\s*while "):
        if any(re.fullmatch(r"\s*\w+ \+= \w+;", line) for line in body(text, i)) and re.search(r"while .*(<|<=|!=) ?", text.splitlines()[i - 1]):
            out.append(i)
    return out


def by_hand(text):
    """4: equality, copying, conversion, minima and printing by hand."""
    return lines(text, r"^\s*(pub )?fn (wide|flag|least|lesser|same|both|pair|copy|slide|keep|insert|take_out|put_bytes|put_word|begins|has_end|count_of|as_bytes|yes_no|put_verdict|put_tally|put_reading|put_checked|is_digit)\b")


def told(text):
    """4: a match that turns each case into a number."""
    return lines(text, r"^\s*(pub )?fn (number|path|place|value|yes|whole|bytes|start|length|book|record)\(self")


def switches(text):
    """7: a value that says which step to run."""
    return lines(text, r"\b(which: Fact|through: bool|match who|match which|mode: Mode|right: bool|lacking: bool)\b")


def twins(files):
    """2: functions of one name in several files."""
    where = collections.defaultdict(list)
    for name, text in files.items():
        if "/host_c/" in name or "/plan_calls_c/" in name or "_cases/" in name or name.endswith("main.rt"):
            continue
        for i in lines(text, r"^\s*(pub )?(final )?fn \w+"):
            where[re.search(r"fn (\w+)", text.splitlines()[i - 1]).group(1)].append((name, i))
    return {name: places for name, places in where.items() if len(places) > 1}


def facts(files):
    """5: conjuncts of a requires that stand in three functions of a crate or more."""
    where = collections.defaultdict(set)
    for name, text in files.items():
        crate = name.split("/")[1]
        current = None
        for i, line in enumerate(text.splitlines(), 1):
            m = re.match(r"\s*(pub )?(extern \"C\" )?(final )?fn (\w+)", line)
            if m:
                current = m.group(4)
            m = re.match(r"\s*requires (\w+ )?\{ (.*) \}$", line)
            if m and current:
                for part in re.split(r" × ", m.group(2)):
                    where[(crate, part.strip("() "))].add((name, current))
    return {key: places for key, places in where.items() if len(places) >= 3}


def main():
    commit = next((a for a in sys.argv[1:] if not a.startswith("--")), None)
    files = sources(commit)
    told_all = "--list" in sys.argv
    for label, find in (("1 enums", enums), ("1 codes", codes), ("3 index loops", indexes), ("4 by hand", by_hand), ("4 told", told), ("7 switches", switches)):
        found = [(name, i) for name, text in files.items() for i in find(text)]
        print(f"{label}: {len(found)}")
        if told_all:
            for name, i in found:
                print(f"    {name}:{i}: {files[name].splitlines()[i - 1].strip()}")
    for label, found in (("2 names in several files", twins(files)), ("5 facts in three contracts or more", facts(files))):
        print(f"{label}: {len(found)}")
        if told_all:
            for key, places in found.items():
                print(f"    {key}: {len(places)}")
    print("stays:", sum(len(re.findall(r"^\s*// Stays: ", text, re.M)) for text in files.values()))


main()
