#!/usr/bin/env python3
"""Spells this repository's own definitions and lemmas as today's Rattle has them: snake case, a dash only between two names.

usage: python3 tools/spell.py [ROOT]     ROOT: the top of a checkout, this one by default

It goes by spellings.tsv beside it: old, new and, where a word means another thing elsewhere, the files (below crates/) in which alone it turns.
What turns: specs/ and proofs/, the clauses and `ghost use` lines of src/, the texts of must-fail edits, and code spans in comments and in .md files.
Behind a dot in proofs/ a word stays where Rattle made it (a step or a goal, as in c.lowest-requires). A second run changes nothing.
"""

import os
import re
import sys

HERE = os.path.dirname(os.path.abspath(__file__))
WORD = r'[^\s(){}.;,@"«»\x60]+'
SPAN = re.compile(r"\x60[^\x60\n]*\x60")
COMMENT = re.compile(r'(?:(?<=[\s(){}.;,@"«»])|^)--[^\n]*|//[^\n]*', re.M)
MADE = re.compile(r"^(?:c|w|l|s|p|tie|goal|given|reads|lts|laws)$")


def table(path):
    rows, only = {}, {}
    with open(path, encoding="utf-8") as f:
        for line in f:
            old, new, *where = line.rstrip("\n").split("\t")
            rows[old] = new
            if where:
                only[old] = set(where[0].split())
    return rows, only


ROWS, ONLY = table(os.path.join(HERE, "spellings.tsv"))


def turned(text, path, made):
    """The text with each word of the table in its new spelling; under `made`, but for what Rattle made behind a dot."""
    aliases = set(re.findall(r"\.specs\.\S* as ([\w-]+)", text)) | {"Rattle"}

    def one(m):
        word = m[0]
        new = ROWS.get(word)
        if new is None or (word in ONLY and (new in text or not any(path.endswith("crates/" + p) for p in ONLY[word]))):
            return word
        if made and text[m.start() - 1 : m.start()] == ".":
            head = re.search(r"[^\s(){};,@\"«»\x60]*$", text[: m.start() - 1])[0].split(".")[0]
            if head not in aliases and not re.search("[a-z][A-Z]", word):
                return word
        return new

    return re.sub(WORD, one, text)


def spans(text, path):
    return SPAN.sub(lambda m: turned(m[0], path, False), text)


def split(text, path, code):
    """Comments by their code spans, the rest by `code`."""
    out, at = [], 0
    for m in COMMENT.finditer(text):
        out += [code(text[at : m.start()]), spans(m[0], path)]
        at = m.end()
    return "".join(out + [code(text[at:])])


def antt(text, path):
    # Comments are set aside, so that each word's surroundings are seen whole.
    kept = []

    def aside(m):
        kept.append(spans(m[0], path))
        return "\x01%d\x02" % (len(kept) - 1)

    code = turned(COMMENT.sub(aside, text), path, "/proofs/" in path)
    return re.sub("\x01(\\d+)\x02", lambda m: kept[int(m[1])], code)


def main(root):
    for folder, dirs, files in os.walk(root):
        dirs[:] = sorted(d for d in dirs if d not in ("out", ".git", "target"))
        for name in sorted(files):
            path = os.path.join(folder, name)
            kind = os.path.splitext(name)[1]
            if kind not in (".antt", ".rt", ".edit", ".md"):
                continue
            with open(path, encoding="utf-8") as f:
                was = f.read()
            if kind == ".antt":
                now = antt(was, path)
            elif kind == ".rt":
                now = split(was, path, lambda t: turned(t, path, False))
            elif kind == ".edit":
                now = re.sub(r"^(?:old|new):.*$", lambda m: turned(m[0], path, False), was, flags=re.M)
            else:
                now = spans(was, path)
            if now != was:
                with open(path, "w", encoding="utf-8") as f:
                    f.write(now)


if __name__ == "__main__":
    main(os.path.abspath(sys.argv[1]) if len(sys.argv) > 1 else os.path.dirname(HERE))
